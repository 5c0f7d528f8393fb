/* What tools/bench.c asks of a peer: a decoder made elsewhere for the binary BCH code (127, 64) with t = 10. Words are held in
 * slots, in the peer's own form; bringing them there and back is not timed. */
#ifndef BENCH_H
#define BENCH_H

#include <stddef.h>
#include <stdint.h>

#define BENCH_WORDS 1000    /* slots */
#define BENCH_BYTES 16      /* a word of 127 places, laid out as include/dunefork.h says */
#define BENCH_NONE_NEAR -13 /* what a decoder is taken to answer where it gives up */

struct peer {
    const char *name;
    int (*open)(void);                              /* what is set up once; 0 if it is not the code that is meant */
    void (*take)(size_t slot, const uint8_t *word);
    void (*decode)(size_t slot);                    /* timed */
    void (*encode)(size_t slot);                    /* timed: the codeword of the message in the word that was taken */
    int32_t (*answer)(size_t slot, uint8_t *out);   /* what came of it, and in how many places that differs from what was taken */
};

#ifdef __cplusplus
extern "C" {
#endif
extern const struct peer linux_peer, itpp_peer;
#ifdef __cplusplus
}
#endif

/* Place i of a word has weight 2^(7 - i mod 8) in byte i div 8. */
static inline int bench_place(const uint8_t *word, size_t i) {
    return word[i / 8] >> (7 - i % 8) & 1;
}

static inline void bench_flip(uint8_t *word, size_t i) {
    word[i / 8] ^= (uint8_t)(1 << (7 - i % 8));
}

#endif
