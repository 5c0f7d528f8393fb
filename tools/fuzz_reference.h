/* Documents 01 and 02 once more, for tools/fuzz.c: sheets judged, words encoded, read out and decoded, with none of the library's
 * code and by other ways where there are any. A code is known by the remainders of the powers of x; the factor of a coset is the
 * linear relation between the powers of its root; common factors of masks are searched for, those over the field are found by
 * Euclid's algorithm (fuzz_factors.h); and a received word is decoded with no equation, by a search among all patterns of at most t
 * errors or among all codewords. */
#include <stdint.h>
#include <stdio.h>
#include <stdlib.h>
#include <string.h>

typedef unsigned __int128 word_t; /* place i is bit i */

static int ones(word_t w) { return __builtin_popcountll((uint64_t)w) + __builtin_popcountll((uint64_t)(w >> 64)); }

static void insist(int holds, const char *what) {
    if (!holds) {
        fprintf(stderr, "the reference is at odds with itself: %s\n", what);
        exit(3);
    }
}

/* ---- words and messages in bytes */
typedef uint8_t weight_of(int place);

/* Document 02: "place i of a word has weight 2^(7 - i mod 8) in byte i div 8." */
static uint8_t word_weight(int place) { return (uint8_t)(1 << (7 - place % 8)); }

/* Document 01, which 02 keeps for messages: "place i has weight 2^(i mod 8) in byte i div 8". */
static uint8_t message_weight(int place) { return (uint8_t)(1 << place % 8); }

static word_t mask_in(const uint8_t *bytes, int places, weight_of weight) {
    word_t w = 0;
    for (int i = 0; i < places; i++)
        if (bytes[i / 8] & weight(i)) w |= (word_t)1 << i;
    return w;
}

static void put_mask(word_t w, int places, weight_of weight, uint8_t *bytes) {
    memset(bytes, 0, (size_t)(places + 7) / 8);
    for (int i = 0; i < places; i++)
        if (w >> i & 1) bytes[i / 8] |= weight(i);
}

static word_t word_of(const uint8_t *bytes, int n) { return mask_in(bytes, n, word_weight); }

static word_t message_of(const uint8_t *bytes, int k) { return mask_in(bytes, k, message_weight); }

static void put_word(word_t w, int n, uint8_t *bytes) { put_mask(w, n, word_weight, bytes); }

static void put_message(word_t m, int k, uint8_t *bytes) { put_mask(m, k, message_weight, bytes); }

/* Document 02: "A word's spare bits are then the low bits of its last byte." */
static int spare_in_word(const uint8_t *bytes, int n) {
    int low_bits = (8 - n % 8) % 8;
    return (bytes[(n - 1) / 8] & ((1 << low_bits) - 1)) != 0;
}

/* A message's are then the high bits. */
static int spare_in_message(const uint8_t *bytes, int k) {
    return k % 8 != 0 && bytes[k / 8] >> k % 8 != 0;
}

/* ---- masks */
static int degree(unsigned mask) {
    int at = -1;
    for (; mask; mask >>= 1) at++;
    return at;
}

static int divides(unsigned a, unsigned b) {
    while (b && degree(b) >= degree(a)) b ^= a << (degree(b) - degree(a));
    return b == 0;
}

static int common_factor(unsigned a, unsigned b) {
    for (unsigned q = 2; q <= a && q <= b; q++)
        if (divides(q, a) && divides(q, b)) return 1;
    return 0;
}

static int common_divisor(int a, int b) {
    for (int q = 2; q <= a && q <= b; q++)
        if (a % q == 0 && b % q == 0) return 1;
    return 0;
}

/* The first terms of h/f: what is left of h after each step is taken off from the low end. */
static void series(unsigned h, unsigned f, int count, uint8_t *a) {
    unsigned rest = h;
    for (int j = 0; j < count; j++) {
        a[j] = rest & 1;
        if (a[j]) rest ^= f;
        rest >>= 1;
    }
}

/* ---- sheets */
enum { TERMS_MAX = 1023, PLACES = 127 };

struct certificate {
    int b, z;
    unsigned f, h;
    int zero, terms;
};

struct code {
    int refusal; /* 0 for an accepted sheet */
    int n, k, s, working, d, t, terms; /* the last four of the working certificate */
    uint8_t zero[256];
    int alpha[PLACES];          /* powers of α */
    word_t generator;
    word_t remainder[PLACES];   /* of x^i by the generator */
};

static int smallest_s(int n) {
    int rest = 1;
    for (int s = 1; s <= 12; s++) {
        rest = rest * 2 % n;
        if (rest == 1 % n) return s;
    }
    return 13;
}

static int smallest_of_coset(int r, int n) {
    int least = r, i = r;
    do {
        if (i < least) least = i;
        i = 2 * i % n;
    } while (i != r);
    return least;
}

#include "fuzz_factors.h"

/* Rules 1 to 3: 0 or the refusal. */
static int certificate_shape(int n, const struct certificate *c) {
    int u = degree(c->f), v = degree(c->h);
    if (c->b >= n || c->z < 1 || c->z > n - 1 || common_divisor(c->z, n) || u < 1 || u > 8 || !(c->f & 1) || c->h == 0 || v >= u ||
        c->terms < 1 || c->terms > TERMS_MAX || c->zero != 0)
        return 7;
    if (common_factor(c->f, c->h)) return 8;
    if (factors_shared(n, smallest_s(n), c->f)) return 9;
    return 0;
}

/* The number of terms before the first that breaks rule 4, at most 1,023. */
static int longest(int n, const uint8_t *zero, const struct certificate *c) {
    uint8_t a[TERMS_MAX];
    series(c->h, c->f, TERMS_MAX, a);
    for (int j = 0; j < TERMS_MAX; j++)
        if (a[j] && !zero[(c->b + j * c->z) % n]) return j;
    return TERMS_MAX;
}

static int distance_of(const struct certificate *c) {
    int u = degree(c->f), v = degree(c->h);
    return (c->terms > v ? (c->terms - v + u - 1) / u : 0) + 1;
}

static int number(const uint8_t *at) { return at[0] + 256 * at[1]; }

static struct certificate certificate_at(const uint8_t *at) {
    return (struct certificate){at[0], at[1], (unsigned)number(at + 2), at[4], at[5], number(at + 6)};
}

static void fill_algebra(struct code *c);

static void judge(const uint8_t *sheet, size_t length, struct code *c) {
    memset(c, 0, sizeof *c);
    c->refusal = 1;
    if (length < 10 || length > 74 || number(sheet) != (int)length) return;
    int n = c->n = sheet[2];
    c->refusal = 2;
    if (n % 2 == 0 || n < 3 || n > 127) return;
    c->refusal = 3;
    c->s = smallest_s(n);
    if (c->s > 12) return;
    c->refusal = 4;
    int count = sheet[3], certificates = sheet[6];
    if (count > 32 || number(sheet + 4) != 10 || certificates < 1 || certificates > 4 || sheet[7] != 0 ||
        number(sheet + 8) != 10 + count || (int)length != 10 + count + 8 * certificates)
        return;
    c->refusal = 5;
    for (int i = 0; i < count; i++) {
        int r = sheet[10 + i];
        if (r >= n || r != smallest_of_coset(r, n) || (i && r <= sheet[9 + i])) return;
        for (int j = r, once = 0; !once || j != r; j = 2 * j % n, once = 1) c->zero[j] = 1;
    }
    c->refusal = 6;
    c->k = n;
    for (int i = 0; i < n; i++) c->k -= c->zero[i];
    if (c->k == 0) return;
    for (int i = 0; i < certificates; i++) {
        struct certificate certificate = certificate_at(sheet + 10 + count + 8 * i);
        c->refusal = certificate_shape(n, &certificate);
        if (c->refusal) return;
        c->refusal = 10;
        if (longest(n, c->zero, &certificate) < certificate.terms) return;
        int d = distance_of(&certificate);
        if (d > c->d || (d == c->d && certificate.terms < c->terms)) c->working = i, c->d = d, c->t = (d - 1) / 2, c->terms = certificate.terms;
    }
    c->refusal = 0;
    fill_algebra(c);
}

/* ---- the code */
static int value_is_zero(const struct code *c, word_t word, int i) {
    int sum = 0;
    for (int p = 0; p < c->n; p++)
        if (word >> p & 1) sum ^= c->alpha[i * p % c->n];
    return sum == 0;
}

/* A multiple of the generator has value 0 at α^i for each i in D, and nothing else has. */
static int is_codeword(const struct code *c, word_t word) {
    for (int i = 0; i < c->n; i++)
        if (c->zero[i] && smallest_of_coset(i, c->n) == i && !value_is_zero(c, word, i)) return 0;
    return 1;
}

/* The smallest polynomial with the root α^r: the relation between its powers, by elimination. */
static unsigned relation(const struct code *c, int r) {
    int lead[12] = {0};
    unsigned used[12] = {0};
    for (int m = 0;; m++) {
        int rest = c->alpha[r * m % c->n];
        unsigned made = 1u << m;
        for (int i = 11; i >= 0 && rest; i--) {
            if (!(rest >> i & 1)) continue;
            if (!lead[i]) {
                lead[i] = rest, used[i] = made;
                break;
            }
            rest ^= lead[i], made ^= used[i];
        }
        if (!rest) return made;
    }
}

static void fill_algebra(struct code *c) {
    int size = 1 << c->s, step = (size - 1) / c->n, x = 1;
    for (int e = 0; e < size - 1; e++) {
        if (e % step == 0) c->alpha[e / step] = x;
        x <<= 1;
        if (x >= size) x ^= masks[c->s - 2];
    }
    word_t g = 1;
    for (int r = 0; r < c->n; r++) {
        if (!c->zero[r] || smallest_of_coset(r, c->n) != r) continue;
        unsigned factor = relation(c, r);
        word_t product = 0;
        for (int i = 0; factor >> i; i++)
            if (factor >> i & 1) product ^= g << i;
        g = product;
    }
    c->generator = g;
    int checks = c->n - c->k;
    word_t rest = checks ? 1 : 0;
    for (int i = 0; i < c->n; i++) {
        c->remainder[i] = rest;
        rest <<= 1;
        if (rest >> checks & 1) rest ^= g;
        if (!checks) rest = 0;
    }
    insist(g >> checks == 1 && rest == (checks ? 1 : 0), "the generator divides x^n + 1");
    for (int i = 0; i < c->n; i++) insist(value_is_zero(c, g, i) == c->zero[i], "the generator has the roots of D");
}

static word_t remainder_of(const struct code *c, word_t word) {
    word_t rest = 0;
    for (uint64_t low = (uint64_t)word; low; low &= low - 1) rest ^= c->remainder[__builtin_ctzll(low)];
    for (uint64_t high = (uint64_t)(word >> 64); high; high &= high - 1) rest ^= c->remainder[64 + __builtin_ctzll(high)];
    return rest;
}

static word_t encoded(const struct code *c, word_t message) {
    word_t word = message << (c->n - c->k);
    return word ^ remainder_of(c, word);
}

/* One more than the longest run of zeros, over all starts and steps. */
static int run_bound(const struct code *c) {
    int most = 0;
    for (int z = 1; z < c->n; z++) {
        if (common_divisor(z, c->n)) continue;
        int run = 0;
        for (int j = 0; j < 2 * c->n; j++) {
            run = c->zero[j * z % c->n] ? run + 1 : 0;
            if (run > most) most = run;
        }
    }
    return most + 1;
}

/* ---- decoding by search: every pattern of at most t errors is the sum of one of at most `stored` errors, which stand in a table
 * under their remainders, and of one of at most t - stored errors, which are tried in turn; or all codewords are tried. */
enum { STORE_MAX = 1 << 19, SLOTS_MAX = 1 << 20, LIST_MAX = 1 << 12 };

static struct search {
    int patterns, list;            /* which of the two can be used */
    size_t count, tried, slots;
    word_t pattern[STORE_MAX], rest[STORE_MAX];
    uint32_t slot[SLOTS_MAX];      /* index + 1 into the above */
    word_t codeword[LIST_MAX];
} search;

static double patterns_up_to(int n, int weight) {
    double sum = 1, term = 1;
    for (int w = 1; w <= weight; w++) sum += term = term * (n - w + 1) / w;
    return sum;
}

static size_t slot_of(word_t rest) {
    uint64_t mixed = ((uint64_t)rest ^ (uint64_t)(rest >> 64) * 0x9e3779b97f4a7c15u) * 0xd6e8feb86659fd93u;
    return (mixed ^ mixed >> 32) & (search.slots - 1);
}

static void store(word_t pattern, word_t rest) {
    size_t at = slot_of(rest);
    while (search.slot[at]) {
        insist(search.rest[search.slot[at] - 1] != rest, "two patterns of at most t errors have one remainder");
        at = (at + 1) & (search.slots - 1);
    }
    search.pattern[search.count] = pattern, search.rest[search.count] = rest;
    search.slot[at] = (uint32_t)++search.count;
}

static void store_weight(const struct code *c, int weight, int from, word_t pattern, word_t rest) {
    if (weight == 0) {
        store(pattern, rest);
        return;
    }
    for (int i = from; i + weight <= c->n; i++)
        store_weight(c, weight - 1, i + 1, pattern | (word_t)1 << i, rest ^ c->remainder[i]);
}

/* Patterns that may be stored, and patterns that may be tried for a word. */
static void prepare_search(const struct code *c, double stored_max, double tried_max) {
    search.patterns = 0, search.list = 0, search.count = 0;
    int stored = c->t;
    while (stored > 0 && patterns_up_to(c->n, stored) > stored_max) stored--;
    if (2 * stored >= c->t && patterns_up_to(c->n, c->t - stored) <= tried_max) {
        search.patterns = 1;
        for (search.slots = 2; search.slots < 2 * patterns_up_to(c->n, stored);) search.slots *= 2;
        memset(search.slot, 0, search.slots * sizeof *search.slot);
        for (int weight = 0; weight <= stored; weight++) {
            store_weight(c, weight, 0, 0, 0);
            if (weight == c->t - stored) search.tried = search.count;
        }
    }
    if (1 << (c->k < 20 ? c->k : 20) <= LIST_MAX) {
        search.list = 1;
        for (int m = 0; m < 1 << c->k; m++) search.codeword[m] = encoded(c, (word_t)m);
    }
}

/* 1 and the codeword within t places, or 0. */
static int found_by_patterns(const struct code *c, word_t word, word_t *codeword) {
    word_t rest = remainder_of(c, word);
    for (size_t i = 0; i < search.tried; i++) {
        word_t wanted = rest ^ search.rest[i];
        for (size_t at = slot_of(wanted); search.slot[at]; at = (at + 1) & (search.slots - 1))
            if (search.rest[search.slot[at] - 1] == wanted) {
                *codeword = word ^ search.pattern[i] ^ search.pattern[search.slot[at] - 1];
                return 1;
            }
    }
    return 0;
}

static int found_by_list(const struct code *c, word_t word, word_t *codeword) {
    int found = 0;
    for (int m = 0; m < 1 << c->k; m++)
        if (ones(search.codeword[m] ^ word) <= c->t) {
            *codeword = search.codeword[m];
            found++;
        }
    insist(found <= 1, "two codewords within t places");
    return found;
}
