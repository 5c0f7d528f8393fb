/* Random calls of all entries of the library, each held to the reference of fuzz_reference.h, fuzz_listing.h, fuzz_marked.h,
 * fuzz_shortened.h and fuzz_block.h: the reply, every byte of the buffers, and that no byte beside the lent ones has changed. tools/fuzz
 * builds and runs it.
 *
 *     fuzz seed calls [fault]
 *
 * A seed gives the same calls everywhere, and the checksum printed is that of all replies and buffers. With a fault, 1 to 60, a
 * wrong library is played, and the run must end in a difference: that shows that the harness sees such a thing.
 *
 * Every buffer has its exact length. Three in four lie at the end or the start of a page between two pages that cannot be touched,
 * or inside it; the rest of the page is filled and compared after each call. One in four is a block of its own on the heap, so
 * that under valgrind the bytes on both sides are watched too. A buffer of no bytes is lent by a null pointer, by the address 1,
 * or by the border of a page. */
#define _GNU_SOURCE
#include "dunefork.h"
#include "fuzz_reference.h"
#include "fuzz_listing.h"
#include <signal.h>
#include <sys/mman.h>
#include <time.h>
#include <unistd.h>

enum { PAGE = 4096, SHEET = 0, INPUT = 1, OUTPUT = 2, ZEROS = OUTPUT, ONES = 3, VERDICTS = ONES, MARKS = 4, BUFFERS = 5 };
enum { ENCODE, READ, DECODE, CARD, MARKED, ENCODE_SHORT, READ_SHORT, DECODE_SHORT, BLOCK, SHOWN, ENTRIES };
static const char *const entry_name[ENTRIES] = {"encode",       "read",       "decode",       "card",         "decode_marked",
                                                "encode_short", "read_short", "decode_short", "decode_block", "shown_length"};
enum { LAST_REFUSAL = 17 };

/* ---- the draw. No expression draws twice in an order that C leaves open: a seed gives the same calls with every compiler. */
static uint64_t state;

static uint64_t draw(void) {
    uint64_t x = state += 0x9e3779b97f4a7c15u;
    x = (x ^ x >> 30) * 0xbf58476d1ce4e5b9u;
    x = (x ^ x >> 27) * 0x94d049bb133111ebu;
    return x ^ x >> 31;
}

static int below(int end) { return (int)(draw() % (uint64_t)end); }

static word_t draw_places(int count) {
    word_t w = (word_t)draw() << 64;
    w |= draw();
    return count ? w >> (128 - count) : 0;
}

static word_t draw_pattern(int n, int weight) {
    word_t w = 0;
    int flip = weight > n / 2, left = flip ? n - weight : weight;
    while (left > 0) {
        word_t place = (word_t)1 << below(n);
        if (!(w & place)) w |= place, left--;
    }
    return flip ? w ^ (((word_t)1 << n) - 1) : w;
}

/* ---- lent buffers */
static struct lent {
    uint8_t *page, *at;
    uint8_t copy[PAGE]; /* what the page must hold after the call */
    size_t offset, length;
    int heap;
} lent[BUFFERS];

static void open_pages(void) {
    for (int i = 0; i < BUFFERS; i++) {
        uint8_t *base = mmap(NULL, 3 * PAGE, PROT_NONE, MAP_PRIVATE | MAP_ANONYMOUS, -1, 0);
        if (base == MAP_FAILED || mprotect(base + PAGE, PAGE, PROT_READ | PROT_WRITE)) {
            perror("pages");
            exit(2);
        }
        lent[i].page = base + PAGE;
        for (int j = 0; j < PAGE; j++) lent[i].copy[j] = (uint8_t)(37 * j + 11 * i + 5);
        memcpy(lent[i].page, lent[i].copy, PAGE);
    }
}

static void lend(int which, const uint8_t *bytes, size_t length) {
    struct lent *l = &lent[which];
    int place = below(8);
    l->length = length, l->heap = 0;
    l->offset = place < 3 ? PAGE - length : place < 5 ? 0 : (PAGE - length) / 2;
    if (length == 0 && place >= 3) {
        l->at = place == 3 ? l->page : place == 4 ? (uint8_t *)1 : NULL;
        return;
    }
    if (place >= 6) {
        l->heap = 1;
        l->at = malloc(length);
        if (!l->at) exit(2);
    } else {
        l->at = l->page + l->offset;
        memcpy(l->copy + l->offset, bytes, length);
    }
    memcpy(l->at, bytes, length);
}

/* Nothing but `bytes` in the lent place, and the page around it as it was; then the buffer is given back. */
static int given_back(int which, const uint8_t *bytes) {
    struct lent *l = &lent[which];
    int right = l->length == 0 || memcmp(l->at, bytes, l->length) == 0;
    if (l->heap) {
        free(l->at);
    } else if (l->length) {
        memcpy(l->copy + l->offset, bytes, l->length);
    }
    right = right && memcmp(l->page, l->copy, PAGE) == 0;
    if (!l->heap)
        for (size_t j = l->offset; j < l->offset + l->length; j++) l->copy[j] = l->page[j] = (uint8_t)(37 * j + 11 * which + 5);
    return right;
}

/* ---- one call */
static uint8_t sheet[PAGE];
static size_t sheet_length;
static struct code code;
static int prepared, costly, distance_known;
static double stored_max, tried_max;

static struct {
    int entry;
    const uint8_t *input, *marks;
    size_t input_length, output_length, marks_length, second_length, m;
} now;

static int fault;
static uint64_t checksum = 14695981039346656037u, calls, refused_sheets, accepted_sheets;
static uint64_t count_refused[ENTRIES][LAST_REFUSAL + 1], count_done[ENTRIES], count_changed[PLACES + 1], count_decided[3];
enum { BY_SEARCH, BY_BOTH, BY_MAKING, BY_PROPERTY_CHANGED, BY_PROPERTY_13, HOW };
static const char *const how_name[HOW] = {
    "held to a search", "held to two searches", "known from how the word was made",
    "not searched: a codeword within t places, count right", "not searched: 13 taken as it is"};
static uint64_t count_how[HOW];
static double library_seconds;

static void show(FILE *to, const char *name, const uint8_t *bytes, size_t length) {
    fprintf(to, "%s (%zu bytes)", name, length);
    for (size_t i = 0; i < length && i < 100; i++) fprintf(to, " %02x", bytes[i]);
    fprintf(to, "%s\n", length > 100 ? " ..." : "");
}

static void differ(const char *what) {
    fflush(stdout);
    fprintf(stderr, "DIFFERENCE at call %llu of %s: %s\n", (unsigned long long)calls, entry_name[now.entry], what);
    show(stderr, "sheet", sheet, sheet_length);
    show(stderr, "input", now.input, now.input_length);
    if (now.entry == MARKED) show(stderr, "marks", now.marks, now.marks_length);
    if (now.entry >= ENCODE_SHORT && now.entry <= BLOCK) fprintf(stderr, "m %zu\n", now.m);
    fprintf(stderr, "output of %zu bytes", now.output_length);
    if (now.entry == MARKED) fprintf(stderr, ", and of %zu for the ones", now.second_length);
    if (now.entry == BLOCK) fprintf(stderr, ", and of %zu for the verdicts", now.second_length);
    fprintf(stderr, "\n");
    exit(1);
}

static void touched(int signal_number) {
    (void)signal_number;
    differ("a byte outside the lent buffers was touched");
}

/* Encode takes a message and read gives one; all else that is handed over and comes back is a word. */
static word_t input_of(int entry, const uint8_t *bytes) {
    return entry == ENCODE ? message_of(bytes, code.k) : word_of(bytes, code.n);
}

static int spare_in_input(int entry, const uint8_t *bytes) {
    return entry == ENCODE ? spare_in_message(bytes, code.k) : spare_in_word(bytes, code.n);
}

static void put_input(int entry, word_t w, uint8_t *bytes) {
    if (entry == ENCODE)
        put_message(w, code.k, bytes);
    else
        put_word(w, code.n, bytes);
}

static void put_output(int entry, word_t w, uint8_t *bytes) {
    if (entry == READ)
        put_message(w, code.k, bytes);
    else
        put_word(w, code.n, bytes);
}

static double seconds(void) {
    struct timespec t;
    clock_gettime(CLOCK_MONOTONIC, &t);
    return (double)t.tv_sec + 1e-9 * (double)t.tv_nsec;
}

static void turn_bytes_round(uint8_t *bytes, size_t length) {
    for (size_t i = 0; i < length; i++) {
        uint8_t turned = 0;
        for (int j = 0; j < 8; j++)
            if (bytes[i] & message_weight(j)) turned |= word_weight(j);
        bytes[i] = turned;
    }
}

/* Whether a word of the right length has a 1 where the spare bits would be if it were a message. */
static int message_spare_in_word(int32_t reply) {
    return (now.entry == READ || now.entry == DECODE) && !code.refusal && reply != -11 && spare_in_message(lent[INPUT].at, code.n);
}

/* What a wrong library would do, for runs that must fail. */
static int32_t meddled(int32_t reply) {
    uint8_t *out = lent[OUTPUT].at;
    size_t length = lent[OUTPUT].length;
    int page = !lent[OUTPUT].heap && length > 0 && lent[OUTPUT].offset > 0, gives_message = now.entry == READ || now.entry == READ_SHORT;
    switch (calls < 5000 ? 0 : fault) {
    case 1: if (page) out[-1] ^= 1; break;                                        /* a byte before the buffer */
    case 2: if (page) (void)*(volatile uint8_t *)(lent[OUTPUT].page + PAGE); break; /* read beyond the page */
    case 3: if (reply < 0 && length) out[0] ^= 1; break;                          /* a refusal that writes */
    case 4: if (now.entry == DECODE && reply > 0) return -13; break;              /* 13 without looking */
    case 5: if (now.entry == DECODE && reply > 0) return reply - 1; break;        /* a wrong count */
    case 6: if (lent[INPUT].length) lent[INPUT].at[0] ^= 1; break;                /* the input written to */
    case 7: if (reply == -13 && length) return memcpy(out, lent[INPUT].at, length), 0; break; /* the word as received */
    case 8: if (reply == -12) return -11; break;                                  /* another number */
    case 9: if (reply >= 0 && !gives_message && now.entry != CARD) turn_bytes_round(out, length); break; /* a word laid out as a message */
    case 10: if (reply >= 0 && gives_message) turn_bytes_round(out, length); break; /* a message laid out as a word */
    case 11: if (message_spare_in_word(reply)) return -12; break;                 /* a word's spare bits sought as a message's */
    case 12: if (now.entry == CARD && reply > 12) out[reply - 2] = '0'; break;    /* the first certificate named as the working one */
    case 13: if (now.entry == CARD && reply >= 0) return reply + 1; break;        /* a length one too large */
    }
    return reply;
}

static int32_t meddled_marked(int32_t reply), meddled_short(int32_t reply), meddled_block(int32_t reply);

static int32_t called(void) {
    const struct lent *s = &lent[SHEET], *i = &lent[INPUT], *o = &lent[OUTPUT], *m = &lent[MARKS], *second = &lent[ONES];
    int32_t reply;
    double start = seconds();
    if (now.entry == ENCODE)
        reply = dunefork_encode(s->at, s->length, i->at, i->length, o->at, o->length);
    else if (now.entry == READ)
        reply = dunefork_read(s->at, s->length, i->at, i->length, o->at, o->length);
    else if (now.entry == DECODE)
        reply = dunefork_decode(s->at, s->length, i->at, i->length, o->at, o->length);
    else if (now.entry == CARD)
        reply = dunefork_card(s->at, s->length, o->at, o->length);
    else if (now.entry == ENCODE_SHORT)
        reply = dunefork_encode_short(s->at, s->length, now.m, i->at, i->length, o->at, o->length);
    else if (now.entry == READ_SHORT)
        reply = dunefork_read_short(s->at, s->length, now.m, i->at, i->length, o->at, o->length);
    else if (now.entry == DECODE_SHORT)
        reply = dunefork_decode_short(s->at, s->length, now.m, i->at, i->length, o->at, o->length);
    else if (now.entry == BLOCK)
        reply = dunefork_decode_block(s->at, s->length, now.m, i->at, i->length, o->at, o->length, second->at, second->length);
    else
        reply = dunefork_decode_marked(s->at, s->length, i->at, i->length, m->at, m->length, o->at, o->length, second->at, second->length);
    library_seconds += seconds() - start;
    if (fault && now.entry == MARKED) reply = meddled_marked(reply);
    if (fault && now.entry >= ENCODE_SHORT && now.entry <= DECODE_SHORT) reply = meddled_short(reply);
    if (fault && now.entry == BLOCK) reply = meddled_block(reply);
    return fault ? meddled(reply) : reply;
}

/* What decoding must answer: 1 and the codeword, 0 for refusal 13, or -1 where only properties are known. The word is `made` and
 * `weight` wrong places, or just drawn where weight is -1. */
static int right_decoding(word_t word, word_t made, int weight, word_t *codeword) {
    if (!prepared) prepare_search(&code, stored_max, tried_max), prepared = 1;
    if (search.patterns && search.tried > 10000 && costly-- <= 0) search.patterns = 0;
    int found = -1;
    if (search.patterns) found = found_by_patterns(&code, word, codeword);
    if (search.list) {
        word_t again = 0;
        int found_again = found_by_list(&code, word, &again);
        insist(found < 0 || (found == found_again && (!found || again == *codeword)), "the two searches");
        found = found_again, *codeword = again;
    }
    if (search.patterns || search.list) {
        count_how[search.patterns && search.list ? BY_BOTH : BY_SEARCH]++;
        insist(weight < 0 || weight > code.t || (found && *codeword == made), "a word with at most t errors");
        return found;
    }
    if (weight < 0) return -1;
    if (weight <= code.t) {
        count_how[BY_MAKING]++;
        *codeword = made;
        return 1;
    }
    if (!distance_known) {
        distance_known = run_bound(&code);
        if (code.d > distance_known) distance_known = code.d;
    }
    if (weight + code.t >= distance_known) return -1;
    count_how[BY_MAKING]++;
    return 0;
}

/* After a call: everything held to what is right. */
static void compare(int32_t reply, int32_t expected, const uint8_t *input, const uint8_t *after, size_t output_length) {
    int right_output = given_back(OUTPUT, after), right_input = given_back(INPUT, input), right_sheet = given_back(SHEET, sheet);
    if (reply != expected) {
        char text[80];
        snprintf(text, sizeof text, "replied %d, and %d is right", (int)reply, (int)expected);
        differ(text);
    }
    if (!right_output) differ(reply < 0 ? "the output, or a byte beside it, has changed" : "wrong bytes in the output or beside it");
    if (!right_input) differ("the input, or a byte beside it, has changed");
    if (!right_sheet) differ("the sheet, or a byte beside it, has changed");

    checksum = (checksum ^ (uint32_t)reply) * 1099511628211u;
    for (size_t i = 0; i < output_length; i++) checksum = (checksum ^ after[i]) * 1099511628211u;
    if (reply < 0) {
        count_refused[now.entry][-reply]++;
    } else {
        count_done[now.entry]++;
        if (now.entry == DECODE) count_changed[reply]++;
    }
}

/* Makes one call and holds everything to the reference. */
static void try(int entry, const uint8_t *input, size_t input_length, size_t output_length, word_t made, int weight) {
    static uint8_t before[PAGE], after[PAGE];
    now.entry = entry, now.input = input, now.input_length = input_length, now.output_length = output_length;
    for (size_t i = 0; i < output_length; i++) before[i] = (uint8_t)draw();
    memcpy(after, before, output_length);

    int places_in = entry == ENCODE ? code.k : code.n, places_out = entry == READ ? code.k : code.n;
    int right_lengths = input_length == DUNEFORK_BYTES(places_in) && output_length == DUNEFORK_BYTES(places_out);
    int32_t expected = 0;
    int known = 1;
    word_t word = !code.refusal && right_lengths ? input_of(entry, input) : 0, result = 0;
    if (code.refusal) {
        expected = -code.refusal;
    } else if (!right_lengths) {
        expected = -11;
    } else if (spare_in_input(entry, input)) {
        expected = -12;
    } else if (entry == ENCODE) {
        result = encoded(&code, word);
        insist(is_codeword(&code, result), "what encoding gives is a codeword");
    } else if (entry == READ) {
        expected = remainder_of(&code, word) ? -14 : 0;
        insist(is_codeword(&code, word) == !expected, "the remainder and the values");
        result = word >> (code.n - code.k);
    } else {
        known = right_decoding(word, made, weight, &result);
        expected = known ? ones(word ^ result) : -13;
    }
    if (known >= 0 && expected >= 0) put_output(entry, result, after);

    lend(SHEET, sheet, sheet_length);
    lend(INPUT, input, input_length);
    lend(OUTPUT, before, output_length);
    int32_t reply = called();
    calls++;
    if (known < 0 && reply != -13) {
        /* any codeword within t places is the right one: there is only one */
        memcpy(after, lent[OUTPUT].at, output_length);
        result = word_of(after, code.n);
        if (spare_in_word(after, code.n)) differ("a spare bit in what was decoded");
        expected = ones(result ^ word);
        if (expected > code.t || !is_codeword(&code, result)) differ("decoded to no codeword within t places");
        count_how[BY_PROPERTY_CHANGED]++;
    } else if (known < 0) {
        expected = -13;
        count_how[BY_PROPERTY_13]++;
    }
    compare(reply, expected, input, after, output_length);
}

/* The listing of the sheet, in a buffer of its length or of another. */
static void try_card(size_t length) {
    static uint8_t before[PAGE], after[PAGE];
    char text[1100];
    now.entry = CARD, now.input = after, now.input_length = 0, now.output_length = length;
    for (size_t i = 0; i < length; i++) before[i] = (uint8_t)draw();
    memcpy(after, before, length);
    int32_t expected = length == DUNEFORK_CARD_BYTES ? listing(&code, sheet, text) : -11;
    if (expected > 0) memcpy(after, text, (size_t)expected);
    lend(SHEET, sheet, sheet_length);
    lend(INPUT, after, 0);
    lend(OUTPUT, before, length);
    int32_t reply = called();
    calls++;
    compare(reply, expected, after, after, length);
}

/* ---- sheets */
static int lengths[64], length_count;

static void put_certificate(uint8_t *at, struct certificate c) {
    uint8_t bytes[8] = {(uint8_t)c.b, (uint8_t)c.z, (uint8_t)c.f, (uint8_t)(c.f >> 8), (uint8_t)c.h, (uint8_t)c.zero,
                        (uint8_t)c.terms, (uint8_t)(c.terms >> 8)};
    memcpy(at, bytes, 8);
}

static void put_sheet(int n, const uint8_t *zero, const struct certificate *certificates, int count) {
    int r = 0;
    memset(sheet, 0, 80);
    for (int i = 0; i < n; i++)
        if (zero[i] && smallest_of_coset(i, n) == i) sheet[10 + r++] = (uint8_t)i;
    for (int i = 0; i < count; i++) put_certificate(sheet + 10 + r + 8 * i, certificates[i]);
    sheet_length = (size_t)(10 + r + 8 * count);
    sheet[0] = (uint8_t)sheet_length, sheet[2] = (uint8_t)n, sheet[3] = (uint8_t)r, sheet[4] = 10, sheet[6] = (uint8_t)count;
    sheet[8] = (uint8_t)(10 + r);
}

static void add_coset(int n, uint8_t *zero, int i) {
    for (; !zero[i]; i = 2 * i % n) zero[i] = 1;
}

/* b, z, f, h of rules 1 to 3 */
static struct certificate drawn_certificate(int n) {
    struct certificate c = {0, 0, 0, 0, 0, 1};
    do {
        int u = below(3) ? 1 + below(3) : 1 + below(8);
        c.b = below(n);
        c.z = 1 + below(n - 1);
        c.f = 1u << u | (unsigned)below(1 << u) | 1u;
        c.h = 1u + (unsigned)below((1 << u) - 1);
    } while (certificate_shape(n, &c));
    return c;
}

static int size_of(int n, const uint8_t *zero, int *cosets) {
    int size = 0;
    *cosets = 0;
    for (int i = 0; i < n; i++)
        if (zero[i]) size++, *cosets += smallest_of_coset(i, n) == i;
    return size;
}

static int drawn_length(void) {
    static const int likely[] = {15, 17, 21, 31, 45, 63, 65, 73, 85, 93, 127, 127};
    return below(3) ? lengths[below(length_count)] : likely[below(12)];
}

static void known_sheet(int which) {
    static const struct {
        int n, r[3];
        struct certificate c;
    } known[] = {{7, {1, -1}, {1, 1, 3, 1, 0, 2}},          {7, {0, 1, -1}, {0, 1, 3, 1, 0, 3}}, {17, {1, -1}, {13, 1, 7, 3, 0, 9}},
                 {15, {1, 3, -1}, {1, 1, 3, 1, 0, 4}},      {23, {1, -1}, {1, 1, 3, 1, 0, 4}},   {65, {1, -1}, {61, 1, 7, 3, 0, 9}},
                 {3, {-1}, {0, 1, 11, 2, 0, 1}},            {127, {-1}, {0, 1, 7, 2, 0, 1}}};
    uint8_t zero[PLACES] = {0};
    for (int i = 0; known[which].r[i] >= 0; i++) add_coset(known[which].n, zero, known[which].r[i]);
    put_sheet(known[which].n, zero, &known[which].c, 1);
}

/* For c, of at most `most` terms, as many as give it the distance of another, and any such number; or `most` where these are too few. */
static int terms_of_one_distance(const struct certificate *other, const struct certificate *c, int most) {
    int d = distance_of(other), u = degree(c->f), least = degree(c->h) + (d - 2) * u + 1;
    int terms = d < 2 ? 1 : least + below(u);
    return terms > most ? most : terms;
}

/* A sheet that is accepted: D drawn, or what a drawn certificate asks for, and certificates as long as D allows, or shorter. */
static void good_sheet(void) {
    if (below(12) == 0) {
        known_sheet(below(8));
        return;
    }
    for (;;) {
        int n = drawn_length(), kind = below(4), cosets;
        uint8_t zero[PLACES] = {0}, a[TERMS_MAX];
        struct certificate first = drawn_certificate(n), all[4];
        if (kind < 3) {
            int u = degree(first.f), most = kind ? 1 + below(n / 2) : u + 1 + below(6 * u);
            if (kind) first.f = 3, first.h = 1;
            series(first.h, first.f, TERMS_MAX, a);
            for (int j = 0; j < most; j++)
                if (a[j]) add_coset(n, zero, (first.b + j * first.z) % n);
        }
        if (kind == 0 || kind == 3)
            for (int i = 0, odds = 1 + below(6); i < n; i++)
                if (below(kind ? odds + 1 : 20) == 0) add_coset(n, zero, i);
        if (size_of(n, zero, &cosets) == n || cosets > 32) continue;
        int count = 0, wanted = below(2) ? 1 : 1 + below(4);
        for (int tries = 0; tries < 40 && count < wanted; tries++) {
            struct certificate c = tries ? drawn_certificate(n) : first;
            int most = longest(n, zero, &c);
            if (most == 0) continue;
            c.terms = below(4) ? most : 1 + below(most);
            if (count && below(2)) c.terms = terms_of_one_distance(&all[below(count)], &c, most);
            int at = below(count + 1);
            memmove(all + at + 1, all + at, (size_t)(count - at) * sizeof *all);
            all[at] = c, count++;
        }
        if (count == 0) continue;
        put_sheet(n, zero, all, count);
        return;
    }
}

static void damaged(void) {
    for (int times = 1 + below(8) / 6; times > 0; times--) {
        int at = below(4) ? below((int)sheet_length) : (int)sheet_length - 1 - below(8);
        switch (below(6)) {
        case 0: sheet[at] = (uint8_t)draw(); break;
        case 1: sheet[at] ^= (uint8_t)(1 << below(8)); break;
        case 2: sheet[at]++; break;
        case 3: sheet[at]--; break;
        case 4: sheet[at] = (uint8_t)(below(2) ? 0 : 255); break;
        case 5: sheet[at] = sheet[below((int)sheet_length)]; break;
        }
    }
    if (below(8) == 0) {
        /* cut or made longer, with the length it states made right or not, up to two bytes' worth */
        size_t length = (size_t)(below(2) ? below(90) : (int)sheet_length + (below(2) ? 256 : 1 - 2 * below(2)));
        for (size_t i = sheet_length; i < length; i++) sheet[i] = (uint8_t)draw();
        sheet_length = length;
        if (below(2) && length > 1) sheet[0] = (uint8_t)length, sheet[1] = (uint8_t)(length >> 8);
    }
}

/* A good sheet with one thing wrong: what refusal `number` is for, and its neighbours. */
static void spoilt(int number) {
    good_sheet();
    uint8_t *c = sheet + 10 + sheet[3] + 8 * below(sheet[6]);
    int n = sheet[2], other = below(2) ? 8 : 1, at;
    switch (number) {
    case 1: sheet[below(2)] += (uint8_t)other; break;
    case 2: sheet[2] = (uint8_t)(below(2) ? 2 * below(128) : below(2) ? 1 : 129 + 2 * below(63)); break;
    case 3: do sheet[2] = (uint8_t)(3 + 2 * below(63)); while (smallest_s(sheet[2]) <= 12); break;
    case 4: sheet[3 + below(7)] += (uint8_t)other; break;
    case 5:
        if (!sheet[3]) break;
        at = 10 + below(sheet[3]);
        sheet[at] = (uint8_t)(below(2) ? below(n) : below(256));
        break;
    case 6: {
        uint8_t all[PLACES];
        int cosets;
        memset(all, 1, sizeof all);
        struct certificate k = certificate_at(c);
        if (size_of(n, all, &cosets) && cosets <= 32) put_sheet(n, all, &k, 1);
        break;
    }
    case 7:
        at = below(8);
        c[at] = (uint8_t)(below(3) == 0 ? 0 : below(2) ? n : 255 - below(256 - n));
        break;
    case 8: {
        unsigned f = 1 + 2 * (unsigned)below(128), h = 1 + (unsigned)below(255);
        c[2] = (uint8_t)f, c[3] = (uint8_t)(f < 256 ? below(2) : 0), c[4] = (uint8_t)h;
        break;
    }
    case 9: {
        struct certificate k = certificate_at(c);
        for (int tries = 0; tries < 60; tries++) {
            int u = 2 + below(7);
            k.f = 1u << u | (unsigned)below(1 << u) | 1u, k.h = 1;
            if (certificate_shape(n, &k) == 9) break;
        }
        put_certificate(c, k);
        break;
    }
    case 10: {
        struct certificate k = certificate_at(c);
        judge(sheet, sheet_length, &code);
        k.terms = longest(n, code.zero, &k) + 1 + (below(3) ? 0 : below(40));
        put_certificate(c, k);
        break;
    }
    }
}

static void drawn_bytes(void) {
    sheet_length = (size_t)(below(4) ? below(80) : below(PAGE));
    for (size_t i = 0; i < sheet_length; i++) sheet[i] = (uint8_t)(below(3) ? below(20) : below(256));
    if (sheet_length > 1 && below(4)) sheet[0] = (uint8_t)sheet_length, sheet[1] = (uint8_t)(sheet_length >> 8);
    if (sheet_length > 9 && below(2)) {
        sheet[2] = (uint8_t)lengths[below(length_count)];
        if (below(2) && sheet_length >= 18) {
            sheet[6] = (uint8_t)(1 + below(sheet_length >= 26 ? 2 : 1)), sheet[3] = (uint8_t)(sheet_length - 10 - 8u * sheet[6]);
            sheet[4] = 10, sheet[5] = 0, sheet[7] = 0, sheet[8] = (uint8_t)(10 + sheet[3]), sheet[9] = 0;
        }
    }
}

/* ---- inputs */
static size_t wrong_length(size_t right) {
    switch (below(6)) {
    case 0: return 0;
    case 1: return right + 1;
    case 2: return right ? right - 1 : 1;
    case 3: return right + 256;
    case 4: return (size_t)below(33);
    default: return (size_t)below(PAGE);
    }
}

#include "fuzz_marked.h"

static void tell_counts(const char *of, const uint64_t counts[PLACES + 1]) {
    printf("%s", of);
    for (int i = 0; i <= PLACES; i++)
        if (counts[i]) printf(" %d:%llu", i, (unsigned long long)counts[i]);
    printf("\n");
}

#include "fuzz_shortened.h"

/* The places in bytes, and sometimes a spare bit, another length of input or output, or several of these at once. */
static void try_places(int entry, word_t word, word_t made, int weight) {
    static uint8_t input[PAGE];
    int places = entry == ENCODE ? code.k : code.n;
    size_t length = DUNEFORK_BYTES(places), output_length = DUNEFORK_BYTES(entry == READ ? code.k : code.n), given = length;
    put_input(entry, word, input);
    int spoil = below(7) ? 0 : 1 + below(7);
    if (spoil & 1 && places % 8) {
        int spare = places + below(8 - places % 8);
        input[length - 1] |= entry == ENCODE ? message_weight(spare) : word_weight(spare);
    }
    if (spoil & 2) given = wrong_length(length);
    if (spoil & 4) output_length = wrong_length(output_length);
    for (size_t i = length; i < given; i++) input[i] = (uint8_t)(below(2) ? draw() : 0);
    try(entry, input, given, output_length, made, weight);
}

static void try_decoding(int weight) {
    word_t made = encoded(&code, draw_places(code.k));
    try_places(DECODE, made ^ draw_pattern(code.n, weight), made, weight);
}

static int drawn_weight(void) {
    int t = code.t, n = code.n, w;
    switch (below(8)) {
    case 0: w = t + 1; break;
    case 1: w = t + 1 + below(t + 2); break;
    case 2: w = below(n + 1); break;
    case 3: w = n - below(t + 2); break;
    case 4: w = t; break;
    default: w = below(t + 1);
    }
    return w < 0 ? 0 : w > n ? n : w;
}

#include "fuzz_block.h"

static void try_accepted(int count) {
    int n = code.n, k = code.k;
    for (int weight = 0; weight <= code.t + 2 && weight <= n && count > 30; weight++) try_decoding(weight);
    if (count > 30) try_bounds();
    if (count > 30) try_short_bounds();
    if (count > 30) try_block_bounds();
    for (; count > 0; count--) {
        int kind = below(14);
        word_t all = (((word_t)1 << (k - 1)) - 1) * 2 + 1, message = below(8) ? draw_places(k) : 0;
        if (message == 0 && below(3)) message = below(2) ? all : (word_t)1 << below(k);
        word_t drawn = draw_places(n);
        if (kind < 2) {
            try_places(ENCODE, message, 0, -1);
        } else if (kind < 4) {
            word_t word = encoded(&code, message);
            int change = below(5);
            try_places(READ, change < 2 ? word : change < 4 ? word ^ draw_pattern(n, 1 + below(change == 2 ? 2 : n)) : drawn, 0, -1);
        } else if (kind > 12) {
            try_drawn_block();
        } else if (kind > 9) {
            try_drawn_short();
        } else if (kind > 7) {
            try_drawn_marks();
        } else if (below(8)) {
            try_decoding(drawn_weight());
        } else {
            try_places(DECODE, drawn, 0, -1);
        }
    }
}

/* Inputs and buffers as for the length in byte 2, and others. */
static void try_refused(int count) {
    static uint8_t input[PAGE], marks[PAGE];
    size_t places = sheet_length > 2 ? DUNEFORK_BYTES(sheet[2]) : 2;
    for (; count > 0; count--) {
        size_t length = below(2) ? places : wrong_length(places), output_length = below(2) ? places : wrong_length(places);
        for (size_t i = 0; i < length; i++) input[i] = (uint8_t)(below(2) ? draw() : 0);
        int which = below(8);
        if (which == 7) {
            try_refused_block();
            continue;
        }
        if (which < 3) {
            try(which, input, length, output_length, 0, -1);
            continue;
        }
        if (which < 6) {
            try_short(ENCODE_SHORT + which - 3, drawn_number(), input, length, output_length, 0, -1);
            continue;
        }
        size_t marks_length = below(2) ? places : wrong_length(places), second_length = below(2) ? places : wrong_length(places);
        for (size_t i = 0; i < marks_length; i++) marks[i] = (uint8_t)(below(2) ? draw() : 0);
        try_marked(input, length, marks, marks_length, output_length, second_length, 0, 0);
    }
}

static void judge_sheet(void) {
    judge(sheet, sheet_length, &code);
    prepared = 0, distance_known = 0, costly = 2;
}

static void try_sheet(int good, int bad) {
    judge_sheet();
    try_card(below(16) ? DUNEFORK_CARD_BYTES : wrong_length(DUNEFORK_CARD_BYTES));
    try_shown();
    if (code.refusal) {
        refused_sheets++;
        try_refused(bad);
    } else {
        accepted_sheets++;
        count_decided[decided_by(&code, sheet)]++;
        try_accepted(good);
    }
}

/* ---- the run */
static void report_marked(void) {
    tell_counts("decoded with marks, by e:", count_marked_e);
    tell_counts("with marks decoded or refused with 15, by r:", count_marked_r);
    printf("decoded with marks: %llu by the zeros, %llu by the ones; %llu of them have the answer in both\n",
           (unsigned long long)count_trial[0], (unsigned long long)count_trial[1], (unsigned long long)count_trial[2]);
    for (int i = 0; i < MARKED_HOW; i++) printf("  %10llu %s\n", (unsigned long long)count_marked_how[i], marked_how_name[i]);
}

static void report(uint64_t seed, double whole) {
    printf("seed %llu, %llu calls, sheets %llu accepted and %llu refused\n", (unsigned long long)seed, (unsigned long long)calls,
           (unsigned long long)accepted_sheets, (unsigned long long)refused_sheets);
    printf("%.1f s, %.0f calls/s; inside the library %.1f s, %.0f calls/s\n", whole, (double)calls / whole, library_seconds,
           (double)calls / library_seconds);
    printf("accepted sheets, by what chose the certificate: %llu the largest d, %llu the fewest terms, %llu the earliest\n",
           (unsigned long long)count_decided[0], (unsigned long long)count_decided[1], (unsigned long long)count_decided[2]);
    printf("%-12s", "reply");
    for (int e = 0; e < ENTRIES; e++) printf(" %13s", entry_name[e]);
    for (int r = 0; r <= LAST_REFUSAL; r++) {
        if (r)
            printf("\nrefused %-4d", r);
        else
            printf("\n%-12s", "done");
        for (int e = 0; e < ENTRIES; e++) printf(" %13llu", (unsigned long long)(r ? count_refused[e][r] : count_done[e]));
    }
    tell_counts("\ndecoded, by changed places:", count_changed);
    printf("words, trial words and words of blocks that were decoded or are near no codeword:\n");
    for (int i = 0; i < HOW; i++) printf("  %10llu %s\n", (unsigned long long)count_how[i], how_name[i]);
    report_marked();
    report_short();
    report_block();
    printf("checksum %016llx\n", (unsigned long long)checksum);
    for (int e = 0; e < SHOWN; e++)
        for (int r = e == CARD ? 11 : 1; r <= (e == CARD ? 11 : 12); r++)
            if (calls >= 100000 && !count_refused[e][r]) {
                printf("refusal %d never came from %s\n", r, entry_name[e]);
                exit(1);
            }
    for (int e = ENCODE_SHORT; e <= DECODE_SHORT; e++)
        if (calls >= 100000 && (!count_refused[e][16] || !count_only_whole)) {
            printf("refusal 16 never came from %s, or 13 never where another codeword was near\n", entry_name[e]);
            exit(1);
        }
    for (int m = DEPTH_LEAST; m <= DEPTH_MOST; m++)
        if (calls >= 100000 && (!count_depth[m] || !count_refused[BLOCK][17] || !count_verdict[255] || !count_every_burst)) {
            printf("no block of %d words was decoded, or 17 never came, or no word was near no codeword, or no run of bits was tried\n", m);
            exit(1);
        }
    for (int by = 0; by < 3; by++)
        if (calls >= 100000 && !count_decided[by]) {
            printf("no certificate was chosen by reason %d\n", by);
            exit(1);
        }
    printf("no difference\n");
}

int main(int argc, char **argv) {
    if (argc < 3) {
        fprintf(stderr, "fuzz seed calls [fault]\n");
        return 2;
    }
    uint64_t seed = strtoull(argv[1], NULL, 0), most = strtoull(argv[2], NULL, 0);
    fault = argc > 3 ? atoi(argv[3]) : 0;
    state = seed;
    signal(SIGSEGV, touched);
    signal(SIGBUS, touched);
    open_pages();
    for (int n = 3; n <= 127; n += 2)
        if (smallest_s(n) <= 12) lengths[length_count++] = n;
    double start = seconds();
    for (int round = 0; calls < most; round++) {
        uint8_t kept[80];
        /* a few rounds search further, where a word costs some milliseconds */
        int far = round % 64 == 63;
        stored_max = far ? STORE_MAX : 1 << 16, tried_max = far ? STORE_MAX : 10000;
        good_sheet();
        size_t kept_length = sheet_length;
        memcpy(kept, sheet, kept_length);
        try_sheet(far ? 100 : 240, 6);
        insist(code.refusal == 0, "a good sheet");
        stored_max = 1 << 12, tried_max = 1 << 12;
        for (int i = 0; i < 12; i++) {
            memcpy(sheet, kept, kept_length);
            sheet_length = kept_length;
            damaged();
            try_sheet(12, 6);
        }
        for (int i = 0; i < 5; i++) {
            spoilt(1 + (round * 5 + i) % 10);
            try_sheet(12, 6);
        }
        for (int i = 0; i < 3; i++) {
            drawn_bytes();
            try_sheet(12, 6);
        }
    }
    /* sheets H and bch-15-7 */
    for (int which = 0; which <= 3 && calls >= 100000; which += 3) {
        known_sheet(which);
        judge_sheet();
        try_every_burst();
    }
    report(seed, seconds() - start);
    return 0;
}
