/* How long calls of the library take, and how long peers take on the same words. tools/bench builds and runs it: `bench ROUNDS`.
 *
 * Each line of standard input is a code: `HEX K T WORDS WEIGHT ..`, that is the sheet's bytes, k, t, how many words to draw for
 * each weight, and the weights: numbers of errors, or -1 for words drawn with no codeword in mind. After them may stand
 * `marked ERRORS MARKS ..`: pairs of numbers of errors and of marked places beside these, for words to decode with marks; and then
 * `short M ..`, numbers of places to shorten the code by, and `block M ..`, numbers of words in a block. The peers have the words of the
 * first line. Written are `LINE WHO WHAT WEIGHT NANOSECONDS`, the processor's time for one call: the mean over the words of a weight, the
 * least of the rounds, WHAT being `marked-MARKS` where there are marks to look at, `encode-short-M`, `read-short-M` or `decode-short-M` for
 * a shortened code, and `block-M` for a block, with `singles-M` for M calls that decode its words one by one; and counts of words, `LINE
 * ours refused WEIGHT COUNT` and `LINE WHO wrong WEIGHT COUNT`, a peer's wrong answers. In each round every code, weight and decoder has
 * its turn, so that a slow moment of the machine hits all.
 *
 * Every answer is held to the codeword that was sent, after the time was taken. A wrong one ends the run, but for a peer's with
 * more than t errors: those are counted. */
#include "bench.h"
#include "dunefork.h"
#include <stdio.h>
#include <stdlib.h>
#include <string.h>
#include <time.h>

#define CODES 64
#define WEIGHTS 16
#define KINDS 8
#define SHORTENINGS 8
#define DEPTHS 4
#define BLOCK_WORDS 16
#define LEAST_SECONDS 0.0003 /* a batch that takes less is repeated */

/* What was sent, what arrived and what came out. */
struct word {
    uint8_t message[DUNEFORK_WORD_MAX], codeword[DUNEFORK_WORD_MAX], received[DUNEFORK_WORD_MAX], out[DUNEFORK_WORD_MAX];
    int32_t reply;
};

/* The same with marks. Its buffer for the zeros is word.out. */
struct marked_word {
    struct word word;
    uint8_t marks[DUNEFORK_WORD_MAX], ones[DUNEFORK_WORD_MAX];
};

/* Words with so many errors in unmarked places, and so many marked places. */
struct kind {
    int errors, marks;
    struct marked_word *words;
    double decode;
};

/* The code shortened by m, with words of no errors and of t. */
struct shortening {
    int m;
    size_t word_len, message_len;
    struct word *words[2];
    double encode, read, decode[2];
};

/* A block of words, and what came out. */
struct block {
    uint8_t bits[BLOCK_WORDS * DUNEFORK_WORD_MAX], out[BLOCK_WORDS * DUNEFORK_WORD_MAX], verdicts[BLOCK_WORDS];
    int32_t reply;
};

/* Blocks of m words, of no errors in each and of t, and their words. */
struct depth {
    int m;
    size_t count;
    struct block *blocks[2];
    struct word *words[2];
    double decode[2], singles[2];
};

static const struct peer *const peers[] = {
#ifdef WITH_LINUX
    &linux_peer,
#endif
#ifdef WITH_ITPP
    &itpp_peer,
#endif
    NULL};
#define PEERS (sizeof peers / sizeof *peers)

/* A line's code, its words and the least times so far. */
struct code {
    uint8_t sheet[DUNEFORK_SHEET_MAX];
    size_t sheet_len, word_len, message_len, count;
    int n, k, t, weights, weight[WEIGHTS];
    struct word *words[WEIGHTS];
    double judge, encode, read, decode[WEIGHTS], peer_encode[PEERS], peer_decode[PEERS][WEIGHTS];
    int refused[WEIGHTS], wrong[PEERS][WEIGHTS], kinds, shortenings, depths;
    struct kind kind[KINDS];
    struct shortening shortening[SHORTENINGS];
    struct depth depth[DEPTHS];
};

static struct code codes[CODES];

/* Whose turn it is. */
static struct code *c;
static struct word *w;
static struct marked_word *marked;
static struct shortening *shortened;
static struct depth *interleaved;
static struct block *blocks;

static void fail(const char *who, const char *what, int weight) {
    fprintf(stderr, "bench: %s: %s (length %d, %d errors)\n", who, what, c ? c->n : 0, weight);
    exit(1);
}

/* ---- words */

/* xorshift64* from a fixed start: the words are the same in every run. */
static uint64_t drawn(void) {
    static uint64_t x = 1;
    x ^= x >> 12;
    x ^= x << 25;
    x ^= x >> 27;
    return (x * 2685821657736338717u) >> 33;
}

static void draw_word(uint8_t *word) {
    for (int i = 0; i < c->n; i++)
        if (drawn() & 1)
            bench_flip(word, (size_t)i);
}

/* Place i of a message has weight 2^(i mod 8) in byte i div 8. */
static void draw_message(uint8_t *message, int places) {
    for (int i = 0; i < places; i++)
        if (drawn() & 1)
            message[i / 8] |= (uint8_t)(1 << i % 8);
}

/* Flips so many of a word's n places where it is as another, and where a third has a 0. */
static void flip_places(uint8_t *word, int n, const uint8_t *as, const uint8_t *without, int places) {
    while (places > 0) {
        size_t place = drawn() % (uint64_t)n;
        if (bench_place(word, place) == bench_place(as, place) && !bench_place(without, place)) {
            bench_flip(word, place);
            places--;
        }
    }
}

static const uint8_t nowhere[DUNEFORK_WORD_MAX];

/* The word is all zeros before. */
static void draw(struct word *x, int weight) {
    draw_message(x->message, c->k);
    if (dunefork_encode(c->sheet, c->sheet_len, x->message, c->message_len, x->codeword, c->word_len) != 0)
        fail("ours", "the sheet or a message is refused", weight);
    if (weight < 0) {
        draw_word(x->received);
        return;
    }
    memcpy(x->received, x->codeword, sizeof x->received);
    flip_places(x->received, c->n, x->codeword, nowhere, weight);
}

/* In marked places stands anything. */
static void draw_marked(struct marked_word *x, const struct kind *kind) {
    uint8_t anything[DUNEFORK_WORD_MAX] = {0};
    draw(&x->word, 0);
    flip_places(x->marks, c->n, nowhere, nowhere, kind->marks);
    flip_places(x->word.received, c->n, x->word.codeword, x->marks, kind->errors);
    draw_word(anything);
    for (size_t i = 0; i < c->word_len; i++)
        x->word.received[i] = (uint8_t)((x->word.received[i] & ~x->marks[i]) | (anything[i] & x->marks[i]));
}

static void draw_kinds(void) {
    for (struct kind *kind = c->kind; kind < c->kind + c->kinds; kind++) {
        kind->words = calloc(c->count, sizeof *kind->words);
        if (!kind->words)
            fail("input", "no memory", 0);
        for (size_t i = 0; i < c->count; i++)
            draw_marked(&kind->words[i], kind);
    }
}

/* The codeword of a message whose top m places are 0, by the call for the whole code: its bytes are those of the shortened one, and then
 * zeros. */
static void draw_shortened(struct word *x, int m, int weight) {
    draw_message(x->message, c->k - m);
    if (dunefork_encode(c->sheet, c->sheet_len, x->message, c->message_len, x->codeword, c->word_len) != 0)
        fail("ours", "the sheet or a message is refused", weight);
    memcpy(x->received, x->codeword, sizeof x->received);
    flip_places(x->received, c->n - m, x->codeword, nowhere, weight);
}

static void draw_shortenings(void) {
    for (struct shortening *s = c->shortening; s < c->shortening + c->shortenings; s++) {
        s->word_len = DUNEFORK_BYTES(c->n - s->m);
        s->message_len = DUNEFORK_BYTES(c->k - s->m);
        for (int j = 0; j < 2; j++) {
            s->words[j] = calloc(c->count, sizeof *s->words[j]);
            if (!s->words[j])
                fail("input", "no memory", 0);
            for (size_t i = 0; i < c->count; i++)
                draw_shortened(&s->words[j][i], s->m, j ? c->t : 0);
        }
    }
}

static void draw_depths(void) {
    for (struct depth *d = c->depth; d < c->depth + c->depths; d++) {
        size_t m = (size_t)d->m;
        if (d->m < 2 || m > BLOCK_WORDS || m > c->count)
            fail("input", "no number of words in a block", d->m);
        d->count = c->count / m;
        for (int j = 0; j < 2; j++) {
            d->blocks[j] = calloc(d->count, sizeof *d->blocks[j]);
            d->words[j] = calloc(d->count * m, sizeof *d->words[j]);
            if (!d->blocks[j] || !d->words[j])
                fail("input", "no memory", 0);
            for (size_t i = 0; i < d->count * m; i++) {
                draw(&d->words[j][i], j ? c->t : 0);
                dunefork_block_put((size_t)c->n, m, i % m, d->words[j][i].received, d->blocks[j][i / m].bits);
            }
        }
    }
}

static int differing(const uint8_t *a, const uint8_t *b) {
    int places = 0;
    for (size_t i = 0; i < c->word_len; i++)
        places += __builtin_popcount(a[i] ^ b[i]);
    return places;
}

/* Up to t errors must be undone. More must be refused, unless they took the word to within t places of another codeword. */
static int right(const struct word *x, int weight) {
    uint8_t message[DUNEFORK_WORD_MAX];
    if (weight >= 0 && weight <= c->t)
        return x->reply == weight && memcmp(x->out, x->codeword, c->word_len) == 0;
    if (x->reply == DUNEFORK_NONE_NEAR)
        return 1;
    return x->reply >= 0 && x->reply <= c->t && differing(x->received, x->out) == x->reply &&
           dunefork_read(c->sheet, c->sheet_len, x->out, c->word_len, message, c->message_len) == 0;
}

/* ---- time */

static double seconds(void) {
    struct timespec now;
    clock_gettime(CLOCK_PROCESS_CPUTIME_ID, &now);
    return (double)now.tv_sec + (double)now.tv_nsec * 1e-9;
}

/* Calls f for so many slots, and keeps the time of one call if it is the least. */
static void keep_least_of(size_t count, double *least, void (*f)(size_t slot)) {
    double start = seconds(), spent;
    int passes = 0;
    do {
        for (size_t i = 0; i < count; i++)
            f(i);
        passes++;
        spent = seconds() - start;
    } while (spent < LEAST_SECONDS);
    double one = spent / passes / (double)count;
    if (*least == 0 || one < *least)
        *least = one;
}

/* For all words. */
static void keep_least(double *least, void (*f)(size_t slot)) {
    keep_least_of(c->count, least, f);
}

/* ---- ours */

static void our_decode(size_t i) {
    w[i].reply = dunefork_decode(c->sheet, c->sheet_len, w[i].received, c->word_len, w[i].out, c->word_len);
}

static void our_encode(size_t i) {
    w[i].reply = dunefork_encode(c->sheet, c->sheet_len, w[i].message, c->message_len, w[i].out, c->word_len);
}

static void our_read(size_t i) {
    w[i].reply = dunefork_read(c->sheet, c->sheet_len, w[i].codeword, c->word_len, w[i].out, c->message_len);
}

/* An empty word is refused right after the sheet is judged. */
static void our_judge(size_t i) {
    w[i].reply = dunefork_decode(c->sheet, c->sheet_len, w[i].received, 0, w[i].out, c->word_len);
}

static void time_our_decode(int j) {
    keep_least(&c->decode[j], our_decode);
    c->refused[j] = 0;
    for (size_t i = 0; i < c->count; i++) {
        if (!right(&w[i], c->weight[j]))
            fail("ours", "a word is decoded wrongly", c->weight[j]);
        c->refused[j] += w[i].reply == DUNEFORK_NONE_NEAR;
    }
}

static void time_our_rest(void) {
    keep_least(&c->judge, our_judge);
    for (size_t i = 0; i < c->count; i++)
        if (w[i].reply != DUNEFORK_BUFFER_LENGTH)
            fail("ours", "an empty word is not refused", 0);
    keep_least(&c->encode, our_encode);
    for (size_t i = 0; i < c->count; i++)
        if (w[i].reply != 0 || memcmp(w[i].out, w[i].codeword, c->word_len) != 0)
            fail("ours", "a message is encoded wrongly", 0);
    keep_least(&c->read, our_read);
    for (size_t i = 0; i < c->count; i++)
        if (w[i].reply != 0 || memcmp(w[i].out, w[i].message, c->message_len) != 0)
            fail("ours", "a message is read wrongly", 0);
}

/* Archives from before 2026-05 have no such entry. */
#ifdef WITH_MARKED
static void our_decode_marked(size_t i) {
    struct marked_word *x = &marked[i];
    x->word.reply = dunefork_decode_marked(c->sheet, c->sheet_len, x->word.received, c->word_len, x->marks, c->word_len, x->word.out,
                                           c->word_len, x->ones, c->word_len);
}

static void time_our_marked(struct kind *kind) {
    marked = kind->words;
    keep_least(&kind->decode, our_decode_marked);
    for (size_t i = 0; i < c->count; i++) {
        struct marked_word *x = &marked[i];
        if (x->word.reply / 2 != kind->errors ||
            memcmp(dunefork_shown((size_t)x->word.reply % 2, x->word.out, x->ones), x->word.codeword, c->word_len) != 0)
            fail("ours", "a word with marks is decoded wrongly", kind->errors);
    }
}
#else
static void time_our_marked(struct kind *kind) {
    marked = kind->words;
}
#endif

/* Archives from before 2026-06 have none of these. */
#ifdef WITH_SHORT
static void our_encode_short(size_t i) {
    w[i].reply = dunefork_encode_short(c->sheet, c->sheet_len, (size_t)shortened->m, w[i].message, shortened->message_len, w[i].out,
                                       shortened->word_len);
}

static void our_read_short(size_t i) {
    w[i].reply = dunefork_read_short(c->sheet, c->sheet_len, (size_t)shortened->m, w[i].codeword, shortened->word_len, w[i].out,
                                     shortened->message_len);
}

static void our_decode_short(size_t i) {
    w[i].reply = dunefork_decode_short(c->sheet, c->sheet_len, (size_t)shortened->m, w[i].received, shortened->word_len, w[i].out,
                                       shortened->word_len);
}

static void time_our_shortened(struct shortening *s) {
    shortened = s;
    for (int j = 0; j < 2; j++) {
        w = s->words[j];
        keep_least(&s->decode[j], our_decode_short);
        for (size_t i = 0; i < c->count; i++)
            if (w[i].reply != (j ? c->t : 0) || memcmp(w[i].out, w[i].codeword, s->word_len) != 0)
                fail("ours", "a shortened word is decoded wrongly", j ? c->t : 0);
    }
    w = s->words[0];
    keep_least(&s->encode, our_encode_short);
    for (size_t i = 0; i < c->count; i++)
        if (w[i].reply != 0 || memcmp(w[i].out, w[i].codeword, s->word_len) != 0)
            fail("ours", "a message of a shortened code is encoded wrongly", 0);
    keep_least(&s->read, our_read_short);
    for (size_t i = 0; i < c->count; i++)
        if (w[i].reply != 0 || memcmp(w[i].out, w[i].message, s->message_len) != 0)
            fail("ours", "a message of a shortened code is read wrongly", 0);
}
#else
static void time_our_shortened(struct shortening *s) {
    shortened = s;
}
#endif

/* Archives from before 2026-07 have no such entry. */
#ifdef WITH_BLOCK
static void our_decode_block(size_t i) {
    struct block *x = &blocks[i];
    size_t m = (size_t)interleaved->m;
    x->reply = dunefork_decode_block(c->sheet, c->sheet_len, m, x->bits, DUNEFORK_BYTES((size_t)c->n * m), x->out, m * c->word_len,
                                     x->verdicts, m);
}

/* The words of a block, one by one. */
static void our_singles(size_t i) {
    size_t m = (size_t)interleaved->m;
    for (size_t j = i * m; j < (i + 1) * m; j++)
        our_decode(j);
}

static void time_our_blocks(struct depth *d) {
    interleaved = d;
    for (int j = 0; j < 2; j++) {
        size_t m = (size_t)d->m;
        int weight = j ? c->t : 0;
        blocks = d->blocks[j];
        w = d->words[j];
        keep_least_of(d->count, &d->decode[j], our_decode_block);
        keep_least_of(d->count, &d->singles[j], our_singles);
        for (size_t i = 0; i < d->count * m; i++) {
            const struct block *x = &blocks[i / m];
            if (x->reply != 0 || x->verdicts[i % m] != weight || memcmp(x->out + i % m * c->word_len, w[i].codeword, c->word_len) != 0)
                fail("ours", "a word of a block is decoded wrongly", weight);
            if (!right(&w[i], weight))
                fail("ours", "a word is decoded wrongly", weight);
        }
    }
}
#else
static void time_our_blocks(struct depth *d) {
    interleaved = d;
    blocks = d->blocks[0];
}
#endif

/* ---- peers */

/* A peer's answer is held to ours, which was found right just before. */
static void time_peer_decode(size_t p, int j) {
    uint8_t out[BENCH_BYTES];
    int wrong = 0;
    for (size_t i = 0; i < c->count; i++)
        peers[p]->take(i, w[i].received);
    keep_least(&c->peer_decode[p][j], peers[p]->decode);
    for (size_t i = 0; i < c->count; i++) {
        int32_t reply = peers[p]->answer(i, out);
        wrong += reply != w[i].reply || (reply >= 0 && memcmp(out, w[i].out, c->word_len) != 0);
    }
    if (wrong && c->weight[j] >= 0 && c->weight[j] <= c->t)
        fail(peers[p]->name, "a word is decoded wrongly", c->weight[j]);
    c->wrong[p][j] = wrong;
}

static void time_peer_encode(size_t p) {
    uint8_t out[BENCH_BYTES];
    for (size_t i = 0; i < c->count; i++)
        peers[p]->take(i, w[i].codeword);
    keep_least(&c->peer_encode[p], peers[p]->encode);
    for (size_t i = 0; i < c->count; i++)
        if (peers[p]->answer(i, out) != 0 || memcmp(out, w[i].codeword, c->word_len) != 0)
            fail(peers[p]->name, "a message is encoded wrongly", 0);
}

/* ---- lines */

static void one_round(int with_peers) {
    for (int j = 0; j < c->weights; j++) {
        w = c->words[j];
        time_our_decode(j);
        for (size_t p = 0; with_peers && peers[p]; p++)
            time_peer_decode(p, j);
    }
    for (int j = 0; j < c->kinds; j++)
        time_our_marked(&c->kind[j]);
    for (int j = 0; j < c->shortenings; j++)
        time_our_shortened(&c->shortening[j]);
    for (int j = 0; j < c->depths; j++)
        time_our_blocks(&c->depth[j]);
    w = c->words[0];
    time_our_rest();
    for (size_t p = 0; with_peers && peers[p]; p++)
        time_peer_encode(p);
}

static void told(int line, const char *who, const char *what, int weight, double time) {
    printf("%d %s %s %d %.1f\n", line, who, what, weight, time * 1e9);
}

static void tell(int line) {
    told(line, "ours", "judge", 0, c->judge);
    told(line, "ours", "encode", 0, c->encode);
    told(line, "ours", "read", 0, c->read);
    for (int j = 0; j < c->weights; j++) {
        told(line, "ours", "decode", c->weight[j], c->decode[j]);
        printf("%d ours refused %d %d\n", line, c->weight[j], c->refused[j]);
    }
    for (const struct kind *kind = c->kind; kind < c->kind + c->kinds; kind++)
        if (kind->decode > 0)
            printf("%d ours marked-%d %d %.1f\n", line, kind->marks, kind->errors, kind->decode * 1e9);
    for (const struct shortening *s = c->shortening; s < c->shortening + c->shortenings; s++)
        if (s->encode > 0) {
            printf("%d ours encode-short-%d 0 %.1f\n", line, s->m, s->encode * 1e9);
            printf("%d ours read-short-%d 0 %.1f\n", line, s->m, s->read * 1e9);
            printf("%d ours decode-short-%d 0 %.1f\n", line, s->m, s->decode[0] * 1e9);
            printf("%d ours decode-short-%d %d %.1f\n", line, s->m, c->t, s->decode[1] * 1e9);
        }
    for (const struct depth *d = c->depth; d < c->depth + c->depths; d++)
        for (int j = 0; j < 2 && d->decode[j] > 0; j++) {
            printf("%d ours block-%d %d %.1f\n", line, d->m, j ? c->t : 0, d->decode[j] * 1e9);
            printf("%d ours singles-%d %d %.1f\n", line, d->m, j ? c->t : 0, d->singles[j] * 1e9);
        }
    for (size_t p = 0; line == 0 && peers[p]; p++) {
        told(line, peers[p]->name, "encode", 0, c->peer_encode[p]);
        for (int j = 0; j < c->weights; j++) {
            told(line, peers[p]->name, "decode", c->weight[j], c->peer_decode[p][j]);
            printf("%d %s wrong %d %d\n", line, peers[p]->name, c->weight[j], c->wrong[p][j]);
        }
    }
}

/* Whether there was a line; one that is no code ends the run. */
static int take_line(void) {
    static char text[1024];
    int taken = 0, asked = 0;
    unsigned byte;
    if (!fgets(text, sizeof text, stdin))
        return 0;
    char *at = text;
    for (; c->sheet_len < sizeof c->sheet && *at != ' ' && sscanf(at, "%2x", &byte) == 1; at += 2)
        c->sheet[c->sheet_len++] = (uint8_t)byte;
    if (c->sheet_len < 10 || sscanf(at, "%d %d %d%n", &c->k, &c->t, &asked, &taken) != 3 || asked < 1 || asked > BENCH_WORDS)
        fail("input", "a line is no code", 0);
    c->n = c->sheet[2];
    c->count = (size_t)asked;
    c->word_len = DUNEFORK_BYTES(c->n);
    c->message_len = DUNEFORK_BYTES(c->k);
    for (at += taken; c->weights < WEIGHTS && sscanf(at, "%d%n", &c->weight[c->weights], &taken) == 1; at += taken) {
        struct word *x = calloc(c->count, sizeof *x);
        if (!x)
            fail("input", "no memory", 0);
        for (size_t i = 0; i < c->count; i++)
            draw(&x[i], c->weight[c->weights]);
        c->words[c->weights++] = x;
    }
    taken = 0;
    sscanf(at, " marked%n", &taken);
    for (at += taken; taken && c->kinds < KINDS; at += taken, c->kinds++)
        if (sscanf(at, "%d %d%n", &c->kind[c->kinds].errors, &c->kind[c->kinds].marks, &taken) != 2)
            break;
    taken = 0;
    sscanf(at, " short%n", &taken);
    for (at += taken; taken && c->shortenings < SHORTENINGS; at += taken, c->shortenings++)
        if (sscanf(at, "%d%n", &c->shortening[c->shortenings].m, &taken) != 1)
            break;
    taken = 0;
    sscanf(at, " block%n", &taken);
    for (at += taken; taken && c->depths < DEPTHS; at += taken, c->depths++)
        if (sscanf(at, "%d%n", &c->depth[c->depths].m, &taken) != 1)
            break;
    return 1;
}

int main(int argc, char **argv) {
    int lines = 0, rounds = argc > 1 ? atoi(argv[1]) : 1;
    for (size_t p = 0; peers[p]; p++)
        if (!peers[p]->open())
            fail(peers[p]->name, "its code is another", 0);
    for (c = codes; lines < CODES && take_line(); c++)
        lines++;
    /* after all others, which marks, shortenings and blocks do not change */
    for (c = codes; c < codes + lines; c++)
        draw_kinds();
    for (c = codes; c < codes + lines; c++)
        draw_shortenings();
    for (c = codes; c < codes + lines; c++)
        draw_depths();
    for (int round = 0; round < rounds; round++)
        for (int line = 0; line < lines; line++) {
            c = &codes[line];
            one_round(line == 0);
        }
    for (int line = 0; line < lines; line++) {
        c = &codes[line];
        tell(line);
    }
    return 0;
}
