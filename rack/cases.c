/* Makes the calls that standard input names on the rack's functions, and writes what they answer and leave; second/rack.rs says how both
   stand. tests/rack compares the second program's answers. What is lent with length 0 is lent as NULL. */
#include "rack.h"
#include <stdio.h>

enum { RECV = AAS_RECV_BYTES + 128, SHORT = 512, PIECE = 65535 };

/* One of two receivers. */
struct held {
    uint64_t numbers[AAS_CHANNEL];
    uint8_t recv[RECV], word[SHORT];
};

static struct held held[2];
static uint8_t piece[PIECE], lent[SHORT], out[SHORT];

/* So many bytes of the input; a case that is cut short ends the program. */
static int take(uint8_t *to, size_t n)
{
    return fread(to, 1, n, stdin) == n;
}

static int number(uint64_t *to, size_t bytes)
{
    uint8_t low_first[8];
    if (!take(low_first, bytes))
        return 0;
    for (*to = 0; bytes > 0; bytes--)
        *to = *to * 256 + low_first[bytes - 1];
    return 1;
}

static void tell(uint64_t n)
{
    uint8_t low_first[8];
    for (int i = 0; i < 8; i++, n /= 256)
        low_first[i] = (uint8_t)(n % 256);
    fwrite(low_first, 1, 8, stdout);
}

static void remember(const uint8_t *bytes, size_t n)
{
    uint64_t sum = 0xCBF29CE484222325;
    for (size_t i = 0; i < n; i++)
        sum = (sum ^ bytes[i]) * 0x100000001B3;
    tell(sum);
}

static void fill(uint8_t *bytes, size_t n, uint8_t with)
{
    for (size_t i = 0; i < n; i++)
        bytes[i] = with;
}

static uint8_t *at(uint8_t *bytes, uint64_t n)
{
    return n == 0 ? NULL : bytes;
}

/* M, C and F: r and bytes; of M also the room lent. */
static int word_call(int asked)
{
    uint64_t r, n, room = 0;
    fill(lent, SHORT, 0xA5);
    fill(out, SHORT, 0xA5);
    if (!number(&r, 8) || !number(&n, 2) || n > SHORT || !take(lent, n) || (asked == 'M' && !number(&room, 2)) || room > SHORT)
        return 0;
    if (asked == 'M') {
        tell(aas_parity_make(r, at(lent, n), n, at(out, room), room));
        remember(out, SHORT);
    } else {
        tell(asked == 'C' ? aas_word_check(r, at(lent, n), n) : aas_word_repair(r, at(lent, n), n));
    }
    remember(lent, SHORT);
    return 1;
}

/* Z: numbers, and a byte for the buffers. */
static int begin(struct held *h)
{
    uint8_t with;
    if (!take(&with, 1))
        return 0;
    fill(h->recv, RECV, with);
    fill(h->word, SHORT, with);
    for (int i = 0; i < AAS_CHANNEL; i++)
        if (!number(&h->numbers[i], 8))
            return 0;
    return 1;
}

/* S and O: the rooms lent, and a piece. */
static int receiving_call(int asked, struct held *h)
{
    uint64_t room, word_room = 0, n;
    if (!number(&room, 2) || room > RECV || (asked == 'O' && !number(&word_room, 2)) || word_room > SHORT || !number(&n, 2) || !take(piece, n))
        return 0;
    tell(asked == 'S' ? aas_stream_read(h->numbers, at(h->recv, room), room, at(piece, n), n)
                      : aas_channel_read(h->numbers, at(h->recv, room), room, at(h->word, word_room), word_room, at(piece, n), n));
    for (int i = 0; i < AAS_CHANNEL; i++)
        tell(h->numbers[i]);
    remember(h->recv, RECV);
    remember(h->word, SHORT);
    return 1;
}

static int one(int asked)
{
    uint8_t which;
    if (asked == 'M' || asked == 'C' || asked == 'F')
        return word_call(asked);
    if (!take(&which, 1) || which > 1)
        return 0;
    return asked == 'Z' ? begin(&held[which]) : receiving_call(asked, &held[which]);
}

int main(void)
{
    int asked;
    while ((asked = getchar()) != EOF)
        if (!one(asked))
            return 1;
    return fflush(stdout) != 0;
}
