/* The rack's functions: parity made, words checked and repaired, streams read. docs/RACK.md says what is proved of them, and what a
   caller has to see to. `bin/rack` builds the archive to link with. tests/rack holds this header to crates/rack/src, and the
   numbers of its refusals to crates/base/src.

   A slice is two parameters, a pointer and a length in bytes. A receiver's state is an array of numbers that the caller lends; all
   zeros are a fresh one. Numbers below 256 in an answer are those of the papers: 0, a word's 1, or a refusal; every answer has its name
   below. NULL is for length 0 alone; memory that may change overlaps no other argument. */
#ifndef AAS_RACK_H
#define AAS_RACK_H

#include <stddef.h>
#include <stdint.h>

#ifdef __cplusplus
extern "C" {
#endif

/* Answers that are no refusals. */
enum {
    AAS_MORE = 0,       /* a piece is read: all its bytes are taken, and no answer is owed */
    AAS_CLEAN = 0,      /* of a word: clean, or parity made */
    AAS_DAMAGED = 1,    /* of a word: damaged; where it was to be repaired, beyond repair and left as it came */
    AAS_PUT_RIGHT = 256, /* of a word: this and n, it was repaired in n places */
    AAS_PACKET = 256,   /* a packet is delivered */
    AAS_LOCK_LOST = 257,
    AAS_BLOCK_CLEAN = 258,
    AAS_BLOCK_REPAIRED = 259, /* state[AAS_REPAIRED] says in how many places */
    AAS_BLOCK_BEYOND = 260    /* beyond repair; its message bytes are read all the same */
};

/* Refused frames: bytes were taken, and reading goes on behind the closing flag. docs/REFUSALS.md says what each means on site. */
enum {
    AAS_REFUSED_RAW = 1,        /* the frame has more than 8,272 raw bytes */
    AAS_REFUSED_UNFINISHED = 2, /* the last raw byte is 7D */
    AAS_REFUSED_ESCAPE = 3,     /* 7D is followed by something other than 5E or 5D; state[AAS_PLACE] is the place of the first such byte */
    AAS_REFUSED_SHORT = 4,      /* fewer than 8 bytes after undoing escapes */
    AAS_REFUSED_CHECK = 5,      /* the check differs */
    AAS_REFUSED_FORMAT = 6,     /* the format byte is neither 0x21 nor 0x26 */
    AAS_REFUSED_PORT = 7,       /* the port is 7D00-7EFF */
    AAS_REFUSED_PAYLOAD = 8,    /* the payload is above 8,192 bytes as escaped */
    AAS_REFUSED_KEY = 12        /* in format 0x26 the key length is outside 2 to 32, or fewer than seven bytes stand behind the key */
};

/* Refused calls: no number and no byte is changed, and none is taken. */
enum {
    AAS_REFUSED_STATE = 10,  /* a count of the state is beyond its limit, or stored is not the lesser of raw and 8,272 */
    AAS_REFUSED_BUFFER = 11, /* recv is under 8,272 bytes, or on the channel word under 255 */
    AAS_REFUSED_OUTPUT = 23, /* out is shorter than r */
    AAS_REFUSED_ROOTS = 30,  /* r is above 64 */
    AAS_REFUSED_LENGTH = 31, /* the message is not 255 - r bytes, or the word is not 255 */
    AAS_BAD_STATE = AAS_REFUSED_STATE,    /* the names that two of them had before */
    AAS_SHORT_BUFFER = AAS_REFUSED_BUFFER
};

/* The numbers of a state. 0 to 7 are written by a call, and 12 on the channel; the others are read and written. */
enum {
    AAS_TAKEN,      /* bytes of the piece taken */
    AAS_FORMAT,     /* of a packet, 0 where none is told: 0x21, or 0x26 with a key */
    AAS_KEY_NUMBER,
    AAS_KEY_LENGTH, /* 0 in format 0x21; the key stands at recv + AAS_KEY_AT */
    AAS_PORT,
    AAS_SEQUENCE,
    AAS_LENGTH,     /* bytes of the payload */
    AAS_PLACE,      /* the payload stands at recv + this; where the answer is 3, recv + this is the first wrong byte behind 7D */
    AAS_OPENED,     /* a flag was seen: every number but 0 says so */
    AAS_RAW,        /* bytes behind the flag, at most 8,273, which means "over" */
    AAS_STORED,     /* how many of them stand in recv, at most 8,272 */
    AAS_WRONG,      /* the place of the first wrong byte behind 7D so far, 0 where there is none */
    AAS_STREAM,     /* so many numbers for a plain stream */
    AAS_REPAIRED = AAS_STREAM, /* places of the block that were put right */
    AAS_LOCKED,     /* every number but 0 says so */
    AAS_WORD,       /* bytes of a word that stand in word */
    AAS_HANDED,     /* .. of which so many are handed on to the frame reader */
    AAS_MARKER,     /* bytes of the next marker */
    AAS_HUNTED,     /* four bytes, the oldest first; of each number the lowest byte counts */
    AAS_CHANNEL = AAS_HUNTED + 4 /* so many numbers for the opportunistic channel */
};

enum {
    AAS_WORD_BYTES = 255, /* bytes of a word, and of the word buffer at least */
    AAS_RECV_BYTES = 8272, /* bytes of the receive buffer at least */
    AAS_KEY_AT = 3
};

/* Makes the r parity bytes of a message of 255 - r bytes, from the start of out on; bytes behind them stay.
   0 made; 30 r above 64; 31 message not 255 - r bytes; 23 out shorter than r. */
size_t aas_parity_make(size_t r, const uint8_t *message, size_t message_length, uint8_t *out, size_t out_length);

/* Checks a word of 255 bytes, the last r of them parity.
   0 clean; 1 damaged; 30 r above 64; 31 word not 255 bytes. */
size_t aas_word_check(size_t r, const uint8_t *word, size_t word_length);

/* Repairs a word of 255 bytes, the last r of them parity, in its place: up to r / 2 altered bytes are put right.
   0 it was clean; 256 + n repaired in n places; 1 beyond repair, left as it came; 30 r above 64; 31 word not 255 bytes. */
size_t aas_word_repair(size_t r, uint8_t *word, size_t word_length);

/* Reads a plain stream. One call gives at most one answer, and takes no byte behind the one that caused it: hand in the rest of the
   piece, from state[AAS_TAKEN] on, until the answer is 0, or 10 or 11, which leave state[AAS_TAKEN] as it was. Lend recv as it was left:
   a frame may begin in one piece and end in another. Payload and key stand in it until the next call.
   0 more wanted; 256 a packet; 1 to 8 and 12 a refused frame; 10 a count of the state is beyond its limit; 11 recv under 8,272 bytes.
   With 10 and 11 the call is refused: no number and no byte is changed, and none is taken. */
size_t aas_stream_read(uint64_t state[12], uint8_t *recv, size_t recv_length, const uint8_t *piece, size_t piece_length);

/* Reads the opportunistic channel as aas_stream_read reads a plain stream; damaged words are repaired.
   0, 256, 1 to 8, 10, 11 and 12 as there; 257 lock lost; 258 a clean block, 259 a repaired one, 260 one beyond repair; 11 also for word
   under 255 bytes. */
size_t aas_channel_read(uint64_t state[21], uint8_t *recv, size_t recv_length, uint8_t *word, size_t word_length, const uint8_t *piece,
                        size_t piece_length);

#ifdef __cplusplus
}
#endif

#endif
