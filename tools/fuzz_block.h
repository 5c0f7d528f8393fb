/* Interleaved blocks, for tools/fuzz.c (document 02, 2026-07): what decode_block must answer and write, and random calls of it.
 *
 * The words are taken out of a block bit by bit, and each is decoded as a word of decode is, by a search. Where a block was made of
 * codewords with at most m·t neighbouring bits spoiled, the promise is tested by itself too: what comes back is what was sent, and each
 * verdict the number of bits spoiled in that word. For two short codes this is done for every such run of bits. */

enum { DEPTH_LEAST = 2, DEPTH_MOST = 16 };

static int good_depth(size_t m) { return m >= DEPTH_LEAST && m <= DEPTH_MOST; }

/* "packed high bit first, spare bits 0" */
static uint8_t bit_in_block(const uint8_t *block, size_t p) { return block[p / 8] & word_weight((int)(p % 8)); }

/* "bit j·m + i of the block is place j of word i" */
static word_t word_in_block(const uint8_t *block, size_t m, size_t i) {
    word_t w = 0;
    for (size_t j = 0; j < (size_t)code.n; j++)
        if (bit_in_block(block, j * m + i)) w |= (word_t)1 << j;
    return w;
}

static int spare_in_block(const uint8_t *block, size_t m) {
    int spare = 0;
    for (size_t p = m * (size_t)code.n; p % 8; p++) spare |= bit_in_block(block, p);
    return spare != 0;
}

struct block_lengths {
    size_t block, output, verdicts;
};

/* "The output is m words long, one after the other in word layout, and the verdicts m bytes." */
static struct block_lengths lengths_of_block(size_t n, size_t m) {
    return (struct block_lengths){DUNEFORK_BYTES(n * m), m * DUNEFORK_BYTES(n), m};
}

static int same_lengths(struct block_lengths a, struct block_lengths b) {
    return a.block == b.block && a.output == b.output && a.verdicts == b.verdicts;
}

/* The block of these words. The header's dunefork_block_put must make the same of them, in bytes that hold anything before. */
static void put_block(const word_t *words, size_t m, uint8_t *block) {
    uint8_t other[(PLACES * DEPTH_MOST + 7) / 8], word[DUNEFORK_WORD_MAX];
    size_t length = lengths_of_block((size_t)code.n, m).block;
    for (size_t p = 0; p < length; p++) other[p] = (uint8_t)draw();
    other[length - 1] &= (uint8_t)(0xff << (8 * length - m * (size_t)code.n));
    memset(block, 0, length);
    for (size_t i = 0; i < m; i++) {
        for (size_t j = 0; j < (size_t)code.n; j++)
            if (words[i] >> j & 1) block[(j * m + i) / 8] |= word_weight((int)((j * m + i) % 8));
        put_word(words[i], code.n, word);
        dunefork_block_put((size_t)code.n, m, i, word, other);
    }
    now.entry = BLOCK, now.m = m, now.input = block, now.input_length = length, now.output_length = now.second_length = 0;
    if (memcmp(block, other, length)) differ("dunefork_block_put made another block");
}

static uint64_t count_depth[DEPTH_MOST + 1], count_verdict[256], count_whole, count_every_burst;

/* ---- what a wrong library would do, for runs that must fail */
static struct {
    uint8_t output[PAGE], verdicts[PAGE]; /* before the call */
} block_before;

static void put_block_back(void) {
    if (lent[OUTPUT].length) memcpy(lent[OUTPUT].at, block_before.output, lent[OUTPUT].length);
    if (lent[VERDICTS].length) memcpy(lent[VERDICTS].at, block_before.verdicts, lent[VERDICTS].length);
}

typedef size_t bit_number(size_t i, size_t j, size_t m);

static size_t right_bit(size_t i, size_t j, size_t m) { return j * m + i; }

static size_t bit_by_words(size_t i, size_t j, size_t m) { return (void)m, i * (size_t)code.n + j; }

static size_t bit_lowest_first(size_t i, size_t j, size_t m) { return (j * m + i) ^ 7; }

/* The call with another m, or with other bits of the block for a word's places. */
static int32_t played_block(size_t m, bit_number *number) {
    struct block_lengths given = {lent[INPUT].length, lent[OUTPUT].length, lent[VERDICTS].length};
    size_t length = DUNEFORK_BYTES(code.n);
    put_block_back();
    if (!same_lengths(given, lengths_of_block((size_t)code.n, m))) return -11;
    if (spare_in_block(lent[INPUT].at, m)) return -12;
    for (size_t i = 0; i < m; i++) {
        uint8_t in[DUNEFORK_WORD_MAX], out[DUNEFORK_WORD_MAX];
        word_t word = 0;
        for (size_t j = 0; j < (size_t)code.n; j++)
            if (bit_in_block(lent[INPUT].at, number(i, j, m))) word |= (word_t)1 << j;
        put_word(word, code.n, in);
        int32_t changed = dunefork_decode(sheet, sheet_length, in, length, out, length);
        if (changed >= 0) memcpy(lent[OUTPUT].at + i * length, out, length);
        lent[VERDICTS].at[i] = changed < 0 ? 255 : (uint8_t)changed;
    }
    return 0;
}

/* Words written one after the other, bit by bit. */
static void pack_words(uint8_t *out, size_t m) {
    word_t words[DEPTH_MOST];
    for (size_t i = 0; i < m; i++) words[i] = word_of(out + i * DUNEFORK_BYTES(code.n), code.n);
    memset(out, 0, m * DUNEFORK_BYTES(code.n));
    for (size_t i = 0; i < m; i++)
        for (size_t j = 0, p = i * (size_t)code.n; j < (size_t)code.n; j++, p++)
            if (words[i] >> j & 1) out[p / 8] |= word_weight((int)(p % 8));
}

static int32_t meddled_block(int32_t reply) {
    const uint8_t *block = lent[INPUT].at;
    uint8_t *out = lent[OUTPUT].at, *verdicts = lent[VERDICTS].at, last[DUNEFORK_WORD_MAX];
    size_t n = (size_t)code.n, m = now.m, each = DUNEFORK_BYTES(n), i = 0;
    struct block_lengths given = {lent[INPUT].length, lent[OUTPUT].length, lent[VERDICTS].length}, right = lengths_of_block(n, m);
    int low = 8 - code.n % 8, accepted = !code.refusal && good_depth(m);
    switch (calls < 5000 ? 0 : fault) {
    case 40: if (reply == 0) return played_block(m, bit_by_words); break;                /* bit i n + j */
    case 41: if (reply == 0) return played_block(m, bit_lowest_first); break;            /* the lowest bit of a byte first */
    case 42: for (; reply == 0 && i < m; i++) if (verdicts[i] == 255) verdicts[i] = 0; break; /* 0 for none near */
    case 43:                                                                             /* the last word a byte early */
        if (reply != 0 || verdicts[m - 1] == 255) break;
        memcpy(last, out + (m - 1) * each, each);
        memcpy(out + (m - 1) * each - 1, last, each);
        out[m * each - 1] = block_before.output[m * each - 1];
        break;
    case 44:                                                                             /* the received word for none near */
        for (; reply == 0 && i < m; i++)
            if (verdicts[i] == 255) put_word(word_in_block(block, m, i), code.n, out + i * each);
        break;
    case 45: if (reply == -17 && m == 17) return played_block(m, right_bit); break;      /* m = 17 let go */
    case 46: if (reply == -17 && m == 1) return played_block(m, right_bit); break;       /* m = 1 let go */
    case 47: if (accepted && m == 16) return put_block_back(), -17; break;               /* m = 16 refused */
    case 48: if (reply == -17 && good_depth(m % 256)) return played_block(m % 256, right_bit); break; /* the low byte of m alone */
    case 49: if (reply == -17 && !same_lengths(given, right)) return -11; break;         /* 17 after 11 */
    case 50: if (!good_depth(m)) return -17; break;                                      /* 17 before the sheet's */
    case 51: if (accepted && given.block != m * each) return put_block_back(), -11; break; /* the block as long as its words */
    case 52:                                                                             /* more verdicts than words let go */
        if (reply == -11 && given.block == right.block && given.output == right.output && given.verdicts > m)
            return spare_in_block(block, m) ? -12 : 0;
        break;
    case 53: if (reply == -12) return 0; break;                                          /* spare bits not looked at */
    case 54:                                                                             /* as many spare bits as a word has */
        if (!accepted || reply == -11) break;
        if (block[given.block - 1] & ((1 << low) - 1)) return put_block_back(), -12;
        return reply == -12 ? 0 : reply;
    case 55: if (reply == -11 && given.block == right.block && spare_in_block(block, m)) return -12; break; /* 12 before 11 */
    case 56: if (reply < 0 && given.verdicts) verdicts[0] ^= 1; break;                   /* a refusal that writes a verdict */
    case 57:                                                                             /* an end at the first word with none near */
        while (reply == 0 && i < m && verdicts[i] != 255) i++;
        for (i++; reply == 0 && i < m; i++) {
            verdicts[i] = block_before.verdicts[i];
            memcpy(out + i * each, block_before.output + i * each, each);
        }
        break;
    case 58:                                                                             /* 13 for a block */
        while (reply == 0 && i < m && verdicts[i] == 255) i++;
        return reply == 0 && i == m ? put_block_back(), -13 : reply;
    case 59:                                                                             /* verdicts from the last word to the first */
        for (; reply == 0 && i < m / 2; i++) last[0] = verdicts[i], verdicts[i] = verdicts[m - 1 - i], verdicts[m - 1 - i] = last[0];
        break;
    case 60: if (reply == 0) pack_words(out, m); break;                                  /* no spare bits between the words */
    }
    return reply;
}

/* ---- calls */

/* Makes one call and holds everything to the reference. The block was made of the m codewords `made`, if there are any; where at most m·t
 * neighbouring bits of it were spoiled, `spoiled` has their number for each word. */
static void try_block(size_t m, const uint8_t *block, struct block_lengths given, const word_t *made, const int *spoiled) {
    static uint8_t before[PAGE], after[PAGE], verdicts_before[PAGE], verdicts_after[PAGE];
    now.entry = BLOCK, now.m = m, now.input = block, now.input_length = given.block, now.output_length = given.output;
    now.second_length = given.verdicts;
    for (size_t i = 0; i < given.output; i++) before[i] = (uint8_t)draw();
    for (size_t i = 0; i < given.verdicts; i++) verdicts_before[i] = (uint8_t)draw();
    memcpy(after, before, given.output), memcpy(verdicts_after, verdicts_before, given.verdicts);
    memcpy(block_before.output, before, given.output), memcpy(block_before.verdicts, verdicts_before, given.verdicts);

    int32_t expected = 0;
    size_t each = DUNEFORK_BYTES(code.n);
    int known[DEPTH_MOST] = {0};
    word_t word[DEPTH_MOST], result[DEPTH_MOST];
    if (code.refusal)
        expected = -code.refusal;
    else if (!good_depth(m))
        expected = -17;
    else if (!same_lengths(given, lengths_of_block((size_t)code.n, m)))
        expected = -11;
    else if (spare_in_block(block, m))
        expected = -12;
    for (size_t i = 0; expected == 0 && i < m; i++) {
        word[i] = word_in_block(block, m, i), result[i] = 0;
        known[i] = right_decoding(word[i], made ? made[i] : 0, made ? ones(word[i] ^ made[i]) : -1, &result[i]);
    }

    lend(SHEET, sheet, sheet_length);
    lend(INPUT, block, given.block);
    lend(OUTPUT, before, given.output);
    lend(VERDICTS, verdicts_before, given.verdicts);
    int32_t reply = called();
    calls++;
    for (size_t i = 0; expected == 0 && reply == 0 && i < m; i++) {
        const uint8_t *out = lent[OUTPUT].at + i * each;
        uint8_t verdict = lent[VERDICTS].at[i];
        if (spoiled && (verdict != spoiled[i] || word_of(out, code.n) != made[i] || spare_in_word(out, code.n)))
            differ("a word of a block with at most m t neighbouring bits spoiled has not come back");
        if (known[i] < 0 && verdict == 255) {
            known[i] = 0, count_how[BY_PROPERTY_13]++;
        } else if (known[i] < 0) {
            /* any codeword within t places is the right one: there is only one */
            known[i] = 1, result[i] = word_of(out, code.n), count_how[BY_PROPERTY_CHANGED]++;
            if (ones(result[i] ^ word[i]) > code.t || !is_codeword(&code, result[i]))
                differ("a word of a block decoded to no codeword within t places");
        }
        if (known[i]) put_word(result[i], code.n, after + i * each);
        verdicts_after[i] = known[i] ? (uint8_t)ones(result[i] ^ word[i]) : 255;
        count_verdict[verdicts_after[i]]++;
    }
    int right_verdicts = given_back(VERDICTS, verdicts_after);
    for (size_t i = 0; i < given.verdicts; i++) checksum = (checksum ^ verdicts_after[i]) * 1099511628211u;
    compare(reply, expected, block, after, given.output);
    if (!right_verdicts) differ("the verdicts, or a byte beside them, are not as they must be");
    if (reply == 0) count_depth[m]++, count_whole += spoiled != NULL;
}

/* The words in a block, and, unless it is to be `clean`, sometimes a spare bit, another length, or several of these at once. */
static void try_block_words(size_t m, const word_t *words, const word_t *made, const int *spoiled, int clean) {
    static uint8_t block[PAGE];
    size_t bits = m * (size_t)code.n;
    struct block_lengths right = lengths_of_block((size_t)code.n, m), given = right;
    put_block(words, m, block);
    int spoil = clean || below(6) ? 0 : 1 + below(15);
    if (spoil & 1 && bits % 8) block[right.block - 1] |= word_weight((int)(bits % 8) + below(8 - (int)(bits % 8)));
    if (spoil & 2) given.block = below(3) ? wrong_length(right.block) : right.output;
    if (spoil & 4) given.output = below(3) ? wrong_length(right.output) : below(2) ? right.block : DUNEFORK_BYTES(code.n);
    if (spoil & 8) given.verdicts = wrong_length(m);
    for (size_t i = right.block; i < given.block; i++) block[i] = (uint8_t)(below(2) ? draw() : 0);
    try_block(m, block, given, made, spoiled);
}

enum { INVERTED, DRAWN, ALL_0, ALL_1, FILLINGS };

/* Codewords, and so many neighbouring bits of their block inverted, or set to what is drawn, to 0, or to 1. */
static void try_burst(size_t m, size_t from, size_t length, int filling, int clean) {
    word_t made[DEPTH_MOST], words[DEPTH_MOST];
    int spoiled[DEPTH_MOST] = {0};
    for (size_t i = 0; i < m; i++) words[i] = made[i] = encoded(&code, draw_places(code.k));
    for (size_t p = from; p < from + length; p++) {
        word_t place = (word_t)1 << p / m;
        int one = (made[p % m] & place) != 0, wrong = filling == INVERTED || (filling == DRAWN ? below(2) : one == (filling == ALL_0));
        if (wrong) words[p % m] ^= place, spoiled[p % m]++;
    }
    try_block_words(m, words, made, length <= m * (size_t)code.t ? spoiled : NULL, clean);
}

static size_t drawn_depth(void) {
    int shape = below(6);
    return shape == 0 ? DEPTH_LEAST : shape == 1 ? DEPTH_MOST : (size_t)(DEPTH_LEAST + below(DEPTH_MOST - DEPTH_LEAST + 1));
}

/* An m that is refused: 0, 1, 17 and more, and numbers whose low bytes would not be; lengths and bytes of all kinds. */
static void try_wrong_depth(void) {
    static uint8_t block[PAGE];
    size_t fine = drawn_depth(), m = 0;
    switch (below(8)) {
    case 0: break;
    case 1: m = 1; break;
    case 2: m = 17; break;
    case 3: m = 17 + (size_t)below(24); break;
    case 4: case 5: m = ((size_t)1 << (8 + below(56))) + fine; break;
    case 6: m = SIZE_MAX - (size_t)below(130); break;
    default: m = 17 + (size_t)draw() % (SIZE_MAX - 16); break;
    }
    size_t as = m <= 40 && below(2) ? m : below(4) ? fine : 0;
    struct block_lengths given = lengths_of_block((size_t)code.n, as);
    if (below(4) == 0) given.block = wrong_length(given.block);
    if (below(4) == 0) given.output = wrong_length(given.output);
    if (below(4) == 0) given.verdicts = wrong_length(given.verdicts);
    for (size_t i = 0, anything = (size_t)below(2); i < given.block; i++) block[i] = (uint8_t)(anything ? draw() : 0);
    try_block(m, block, given, NULL, NULL);
}

/* A run of that length, or of as many bits as there are, at either end of the block or anywhere. */
static void try_burst_of(size_t m, size_t length) {
    size_t bits = m * (size_t)code.n, from;
    if (length > bits) length = bits;
    from = (size_t)below((int)(bits - length) + 1);
    if (below(4) == 0) from = below(2) ? 0 : bits - length;
    int filling = below(2) ? INVERTED : below(FILLINGS);
    try_burst(m, from, length, filling, 0);
}

static void try_drawn_block(void) {
    word_t words[DEPTH_MOST], made[DEPTH_MOST];
    size_t m = drawn_depth(), most = m * (size_t)code.t;
    int kind = below(8);
    if (kind == 0) {
        try_wrong_depth();
    } else if (kind < 5) {
        try_burst_of(m, kind == 1 ? most : kind == 2 ? most + 1 + (size_t)below((int)m + 1) : (size_t)below((int)most + 1));
    } else {
        for (size_t i = 0; i < m; i++) {
            made[i] = encoded(&code, draw_places(code.k)), words[i] = draw_places(code.n);
            if (kind > 5) words[i] = made[i] ^ draw_pattern(code.n, drawn_weight());
        }
        try_block_words(m, words, kind > 5 ? made : NULL, NULL, 0);
    }
}

/* As long a run as is always put right, and one bit more; and an m that is refused. */
static void try_block_bounds(void) {
    for (int times = 0; times < 3; times++) {
        size_t m = times == 0 ? DEPTH_LEAST : times == 1 ? DEPTH_MOST : drawn_depth();
        try_burst_of(m, m * (size_t)code.t);
        try_burst_of(m, m * (size_t)code.t + 1);
        try_wrong_depth();
    }
}

/* On a sheet that is refused, with an n as in its byte 2. */
static void try_refused_block(void) {
    static uint8_t block[PAGE];
    size_t n = sheet_length > 2 ? sheet[2] : 15, m = below(2) ? drawn_depth() : drawn_number();
    struct block_lengths given = lengths_of_block(n, m <= 20 ? m : 8);
    if (below(2)) given.block = wrong_length(given.block);
    if (below(2)) given.output = wrong_length(given.output);
    if (below(2)) given.verdicts = wrong_length(given.verdicts);
    for (size_t i = 0; i < given.block; i++) block[i] = (uint8_t)(below(2) ? draw() : 0);
    try_block(m, block, given, NULL, NULL);
}

/* Every run of at most m·t neighbouring bits, for the sheet at hand. */
static void try_every_burst(void) {
    static const size_t depths[] = {2, 3, 8, 16};
    for (int which = 0; which < 4; which++) {
        size_t m = depths[which], bits = m * (size_t)code.n, most = m * (size_t)code.t;
        for (size_t length = 0; length <= most; length++)
            for (size_t from = 0; from + length <= bits; from++)
                for (int filling = INVERTED; filling <= DRAWN; filling++) try_burst(m, from, length, filling, 1), count_every_burst++;
    }
}

static void report_block(void) {
    printf("blocks decoded, by m:");
    for (int m = DEPTH_LEAST; m <= DEPTH_MOST; m++) printf(" %d:%llu", m, (unsigned long long)count_depth[m]);
    tell_counts("\nwords of blocks, by changed places:", count_verdict);
    printf("words of blocks with no codeword near: %llu\n", (unsigned long long)count_verdict[255]);
    printf("blocks of codewords with at most m t neighbouring bits spoiled, all whole again: %llu\n", (unsigned long long)count_whole);
    printf("  %10llu of them for every run of bits of two codes, with m = 2, 3, 8 and 16\n", (unsigned long long)count_every_burst);
}
