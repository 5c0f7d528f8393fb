/* Linux's lib/bch.c as a peer of tools/bench.c. */
#include "bench.h"
#include <stdbool.h>
#include <string.h>

#include <linux/bch.h>

/* Eight bytes of data, then its nine bytes of checks, of which it uses 63 bits; the highest coefficient comes first, in the
 * highest bit of the first byte. So its words lie in bytes as ours do, with the last place first. They start at multiples of 4,
 * which is where it is fast. */
#define DATA 8
#define PLACES 127
struct word {
    _Alignas(8) uint8_t bytes[24];
};

static struct bch_control *control;
static struct word received[BENCH_WORDS], written[BENCH_WORDS];
static int32_t replies[BENCH_WORDS];

/* The field's polynomial is document 01's of degree 7. */
static int open_code(void) {
    control = bch_init(7, 10, 131, false);
    return control && control->ecc_bits == PLACES - 8 * DATA;
}

static size_t place_there(size_t place) {
    return PLACES - 1 - place;
}

static void take(size_t slot, const uint8_t *word) {
    memset(&received[slot], 0, sizeof received[slot]);
    for (size_t i = 0; i < PLACES; i++)
        if (bench_place(word, i))
            bench_flip(received[slot].bytes, place_there(i));
}

/* It tells where errors are, by numbers that have the lowest bit of a byte first; changing these bits is left to the caller, and so
 * is part of decoding a word. */
static void decode(size_t slot) {
    unsigned int places[10];
    uint8_t *out = written[slot].bytes;
    const uint8_t *in = received[slot].bytes;
    int count = bch_decode(control, in, DATA, in + DATA, NULL, NULL, places);
    written[slot] = received[slot];
    for (int i = 0; i < count; i++)
        out[places[i] / 8] ^= (uint8_t)(1 << places[i] % 8);
    replies[slot] = count < 0 ? BENCH_NONE_NEAR : count;
}

static void encode(size_t slot) {
    memcpy(written[slot].bytes, received[slot].bytes, DATA);
    memset(written[slot].bytes + DATA, 0, sizeof written[slot].bytes - DATA);
    bch_encode(control, received[slot].bytes, DATA, written[slot].bytes + DATA);
    replies[slot] = 0;
}

static int32_t answer(size_t slot, uint8_t *out) {
    memset(out, 0, BENCH_BYTES);
    for (size_t i = 0; i < PLACES; i++)
        if (bench_place(written[slot].bytes, place_there(i)))
            bench_flip(out, i);
    return replies[slot];
}

const struct peer linux_peer = {"linux", open_code, take, decode, encode, answer};
