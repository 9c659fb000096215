/* An example for the rack: lists the recording on standard input as bin/listing does, through the functions of rack.h. A recording is one byte,
   0x50 plain stream or 0x4F opportunistic channel, then records: mark F5 5F, a length (two bytes, low first), so many stream bytes.
   Status: 0 listed; 1 the recording breaks off (X), or cannot be read or its listing written; 2 a call was refused. */
#include "rack.h"
#include <stdio.h>
#include <stdlib.h>

static uint64_t state[AAS_CHANNEL]; /* zeros: a fresh receiver, of either kind */
static uint8_t recv_buffer[AAS_RECV_BYTES], word_buffer[AAS_WORD_BYTES], piece[65535];
static uint64_t packets, refused, damaged, lost;

/* The letter of a port's class; 7D00-7EFF is never delivered. */
static char class_of(uint64_t port)
{
    if (port == 0x5100)
        return 'M';
    if (0x5201 <= port && port <= 0x5207)
        return 'D';
    if (port <= 0x0400 || (0x5100 < port && port <= 0x52FF) || 0xFF00 <= port)
        return 'S';
    return port < 0x5100 ? 'A' : 'F';
}

/* The line of one answer. */
static void print(size_t answer)
{
    switch (answer) {
    case AAS_PACKET:
        packets++;
        printf("P %llu %llu %llu %c\n", (unsigned long long)state[AAS_PORT], (unsigned long long)state[AAS_SEQUENCE],
               (unsigned long long)state[AAS_LENGTH], class_of(state[AAS_PORT]));
        break;
    case AAS_LOCK_LOST:
        lost++;
        printf("L\n");
        break;
    case AAS_BLOCK_CLEAN:
    case AAS_BLOCK_REPAIRED:
        printf("B %llu\n", (unsigned long long)state[AAS_REPAIRED]);
        break;
    case AAS_BLOCK_BEYOND:
        damaged++;
        printf("B X\n");
        break;
    case AAS_REFUSED_ESCAPE:
        refused++;
        printf("R 3 %llu\n", (unsigned long long)state[AAS_PLACE]);
        break;
    default:
        refused++;
        printf("R %zu\n", answer);
    }
}

/* Hands in n bytes until more are wanted. A refused call takes none, and state[AAS_TAKEN] is an older call's: it cannot happen here, with
   buffers that are long enough and a state that nobody else writes. */
static void hand_in(int opportunistic, size_t n)
{
    size_t at = 0, answer;
    do {
        answer = opportunistic
                     ? aas_channel_read(state, recv_buffer, sizeof recv_buffer, word_buffer, sizeof word_buffer, piece + at, n - at)
                     : aas_stream_read(state, recv_buffer, sizeof recv_buffer, piece + at, n - at);
        if (answer == AAS_REFUSED_STATE || answer == AAS_REFUSED_BUFFER) {
            fprintf(stderr, "refused %zu\n", answer);
            exit(2);
        }
        at += state[AAS_TAKEN];
        if (answer != AAS_MORE)
            print(answer);
    } while (answer != AAS_MORE);
}

/* The offset of the first byte that is wrong or missing; -1 where the recording is whole. The stream has no limit here. */
static long long list(unsigned long long *stream_bytes)
{
    static const int mark[2] = {0xF5, 0x5F};
    long long offset = 0;
    int kind = getchar(), byte;
    if (kind != 0x50 && kind != 0x4F)
        return offset;
    for (offset = 1; (byte = getchar()) != EOF;) {
        size_t length, n;
        if (byte != mark[0])
            return offset;
        if (getchar() != mark[1])
            return offset + 1;
        if ((byte = getchar()) == EOF)
            return offset + 2;
        length = (size_t)byte;
        if ((byte = getchar()) == EOF)
            return offset + 3;
        length += (size_t)byte * 256;
        n = fread(piece, 1, length, stdin);
        hand_in(kind == 0x4F, n);
        *stream_bytes += n;
        offset += 4 + (long long)n;
        if (n < length)
            return offset;
    }
    return -1;
}

int main(void)
{
    unsigned long long stream_bytes = 0;
    long long wrong = list(&stream_bytes);
    if (wrong >= 0)
        printf("X %lld\n", wrong);
    else
        printf("E %llu %llu %llu %llu %llu\n", stream_bytes, (unsigned long long)packets, (unsigned long long)refused,
               (unsigned long long)damaged, (unsigned long long)lost);
    return wrong >= 0 || ferror(stdin) || fflush(stdout) != 0;
}
