/* Words with marks, for tools/fuzz.c (document 02, 2026-05): what decode_marked must answer and leave in its two buffers, what shown_length
 * must tell, and random calls of both.
 *
 * The answer is found without the two trials where that can be done: among all codewords, from how the word was made, or by decoding the
 * word once for each way to fill its marked places. Then it must agree with what the trials give. */

/* What ordinary decoding makes of a trial word: 1 for `held` a codeword, 0 for 13 and the trial word itself, -1 where it is not known. */
struct trial {
    word_t word, held;
    int known;
};

static struct trial trial_of(word_t word, word_t made, int has_made) {
    struct trial t = {word, word, 0};
    t.known = right_decoding(word, made, has_made ? ones(word ^ made) : -1, &t.held);
    if (!t.known) t.held = word;
    return t;
}

/* "differs from the received word in e unmarked places with 2·e + r at most d - 1" */
static int fits(word_t codeword, word_t word, word_t marks) {
    return 2 * ones((codeword ^ word) & ~marks) + ones(marks) <= code.d - 1;
}

static int fitting_in_list(word_t word, word_t marks, word_t *answer) {
    int found = 0;
    for (int m = 0; m < 1 << code.k; m++)
        if (fits(search.codeword[m], word, marks)) *answer = search.codeword[m], found++;
    insist(found <= 1, "two codewords with 2 e + r at most d - 1");
    return found;
}

/* The marked places filled in every way: one of these is as the codeword has it, and then only the e places differ. */
static int fitting_by_filling(word_t word, word_t marks, word_t *answer) {
    int found = 0;
    word_t filling = 0, codeword;
    do {
        if (found_by_patterns(&code, (word & ~marks) | filling, &codeword) && fits(codeword, word, marks)) {
            insist(!found || codeword == *answer, "two codewords with 2 e + r at most d - 1");
            *answer = codeword, found = 1;
        }
        filling = (filling - marks) & marks;
    } while (filling);
    return found;
}

enum { MARKED_BY_LIST, MARKED_BY_FILLING, MARKED_BY_COUNT, MARKED_BY_MAKING, MARKED_BY_TRIALS, MARKED_BY_PROPERTY, MARKED_HOW };
static const char *const marked_how_name[MARKED_HOW] = {
    "held to a search among all codewords", "held to a search over all fillings of the marked places", "more than d - 1 places marked",
    "known from how the word was made", "known from the two trials, which were searched", "not searched: the codeword tested, 15 taken as it is"};
static uint64_t count_marked_how[MARKED_HOW], count_marked_e[PLACES + 1], count_marked_r[PLACES + 1], count_trial[3];

/* 1 and the answer, 0 for refusal 15, -1 where it is not known. */
static int right_answer(word_t word, word_t marks, word_t made, int has_made, const struct trial t[2], word_t *answer) {
    int r = ones(marks), found = -1, how = MARKED_BY_PROPERTY, by_trials = t[0].known < 0 || t[1].known < 0 ? -1 : 0;
    word_t by_trials_answer = 0;
    for (int i = 1; i >= 0; i--)
        if (t[i].known == 1 && fits(t[i].held, word, marks)) by_trials = 1, by_trials_answer = t[i].held;
    if (search.list)
        how = MARKED_BY_LIST, found = fitting_in_list(word, marks, answer);
    else if (search.patterns && r < 12 && search.tried << r <= 1 << 12)
        how = MARKED_BY_FILLING, found = fitting_by_filling(word, marks, answer);
    else if (r > code.d - 1)
        how = MARKED_BY_COUNT, found = 0;
    else if (has_made && fits(made, word, marks))
        how = MARKED_BY_MAKING, found = 1, *answer = made;
    else if (by_trials >= 0)
        how = MARKED_BY_TRIALS, found = by_trials, *answer = by_trials_answer;
    insist(found < 0 || by_trials < 0 || (found == by_trials && (!found || *answer == by_trials_answer)), "the answer and the trials");
    insist(found < 0 || !has_made || !fits(made, word, marks) || (found && *answer == made), "2 e + r at most d - 1 bad places");
    insist(found != 1 || (is_codeword(&code, *answer) && fits(*answer, word, marks)), "the answer's codeword");
    count_marked_how[how]++;
    return found;
}

/* ---- what a wrong library would do, for runs that must fail */
static struct {
    word_t word, marks;
    uint8_t zeros[PAGE], ones[PAGE]; /* before the call */
} played;

static void put_back(void) {
    if (lent[ZEROS].length) memcpy(lent[ZEROS].at, played.zeros, lent[ZEROS].length);
    if (lent[ONES].length) memcpy(lent[ONES].at, played.ones, lent[ONES].length);
}

static int32_t meddled_marked(int32_t reply) {
    uint8_t *zeros = lent[ZEROS].at, *ones_at = lent[ONES].at;
    size_t length = lent[ZEROS].length, i;
    word_t marks = played.marks, word = played.word, trial[2] = {word & ~marks, word | marks}, held[2] = {0, 0};
    if (reply >= 0) held[0] = word_of(zeros, code.n), held[1] = word_of(ones_at, code.n);
    switch (calls < 5000 ? 0 : fault) {
    case 14: if (reply >= 0) return 2 * ones(held[reply % 2] ^ word) + reply % 2; break; /* e counted in marked places too */
    case 15:                                                                         /* 2 e + r up to d */
        for (i = 0; reply == -15 && i < 2; i++) {
            uint8_t in[DUNEFORK_WORD_MAX], out[DUNEFORK_WORD_MAX];
            put_word(trial[i], code.n, in);
            if (dunefork_decode(sheet, sheet_length, in, length, out, length) < 0) continue;
            int e = ones((word_of(out, code.n) ^ word) & ~marks);
            if (2 * e + ones(marks) <= code.d) return memcpy(i ? ones_at : zeros, out, length), 2 * e + (int)i;
        }
        break;
    case 16: if (reply >= 0 && held[0] == held[1]) return reply | 1; break;          /* the ones preferred */
    case 17: if (reply == -15) put_word(trial[0], code.n, zeros); break;             /* 15 that leaves a trial word */
    case 18: if (reply > 0 && reply % 2) return put_back(), -15; break;              /* only the zeros tried */
    case 19: if (lent[MARKS].length) lent[MARKS].at[0] ^= 1; break;                  /* the marks written to */
    case 20: if (reply >= 0 && held[1] == trial[1]) memcpy(ones_at, played.ones, length); break; /* a trial that is not decoded left out */
    case 21: if (reply >= 0 && held[0] == trial[0]) put_word(word, code.n, zeros); break; /* the received word for such a trial */
    case 22: if (reply == -15) return -13; break;                                    /* another number */
    case 23: if (reply == -12 && !spare_in_word(lent[INPUT].at, code.n)) return -15; break; /* spare bits of marks not looked at */
    case 24: if (reply >= 0) memcpy(reply % 2 ? zeros : ones_at, reply % 2 ? ones_at : zeros, length); break; /* the answer in both */
    }
    return reply;
}

static size_t meddled_length(size_t trial, size_t n, size_t length) {
    switch (calls < 5000 ? 0 : fault) {
    case 25: if (n % 8 && length) return length - 1; break;                          /* n/8 rounded down */
    case 26: return trial == 1 ? length : dunefork_shown_length(0, n, lent[ZEROS].at, lent[ZEROS].length, NULL, 0); /* others as 0 */
    case 27: return n / 8 + (n % 8 != 0);                                            /* more than a short buffer has */
    case 28: if (n > SIZE_MAX - 7) return 0; break;                                  /* n + 7 out of range */
    }
    return length;
}

/* ---- shown */

/* The part that is shown of the buffers as they are lent: where it lies, and its length. */
static void hold_shown(size_t trial, size_t n) {
    const struct lent *z = &lent[ZEROS], *o = &lent[ONES], *picked = trial == 0 ? z : o;
    double start = seconds();
    size_t length = dunefork_shown_length(trial, n, z->at, z->length, o->at, o->length);
    library_seconds += seconds() - start;
    if (fault) length = meddled_length(trial, n, length);
    word_t bytes = ((word_t)n + 7) / 8, right = bytes < picked->length ? bytes : picked->length;
    if (length != right || dunefork_shown(trial, z->at, o->at) != picked->at) {
        char text[160];
        snprintf(text, sizeof text, "trial %zu, n %zu: %zu bytes are shown, and %zu are right", trial, n, length, (size_t)right);
        now.entry = SHOWN;
        differ(text);
    }
    checksum = (checksum ^ length) * 1099511628211u;
    count_done[SHOWN]++;
}

static size_t drawn_number(void) {
    switch (below(6)) {
    case 0: return 0;
    case 1: return 1;
    case 2: return (size_t)below(130);
    case 3: return (size_t)below(8 * PAGE);
    case 4: return SIZE_MAX - (size_t)below(18);
    default: return (size_t)draw() >> below(64);
    }
}

static void try_shown(void) {
    static uint8_t bytes[2][PAGE];
    size_t length[2];
    for (int i = 0; i < 2; i++) {
        length[i] = (size_t)(below(4) ? below(20) : below(PAGE));
        for (size_t j = 0; j < length[i]; j++) bytes[i][j] = (uint8_t)draw();
        lend(ZEROS + i, bytes[i], length[i]);
    }
    size_t trial = drawn_number(), n = drawn_number();
    now.entry = SHOWN, now.input = bytes[0], now.input_length = 0, now.output_length = length[0];
    hold_shown(trial, n);
    calls++;
    int right = given_back(ZEROS, bytes[0]);
    if (!given_back(ONES, bytes[1]) || !right) differ("a buffer, or a byte beside it, has changed");
}

/* ---- decode_marked */

/* What a buffer holds where its trial was not searched: a codeword within t places, which is the right one, or the trial word. */
static void take_as_it_is(int which, struct trial *t) {
    const uint8_t *bytes = lent[which].at;
    t->held = word_of(bytes, code.n);
    if (spare_in_word(bytes, code.n)) differ("a spare bit in what was decoded");
    if (t->held != t->word && (ones(t->held ^ t->word) > code.t || !is_codeword(&code, t->held)))
        differ("a trial decoded to no codeword within t places");
    count_how[t->held == t->word ? BY_PROPERTY_13 : BY_PROPERTY_CHANGED]++;
}

/* Makes one call and holds everything to the reference. The word is `made` and some wrong places, or just drawn. */
static void try_marked(const uint8_t *input, size_t input_length, const uint8_t *marks_bytes, size_t marks_length, size_t zeros_length,
                       size_t ones_length, word_t made, int has_made) {
    static uint8_t before[2][PAGE], after[2][PAGE];
    size_t lengths_of[2] = {zeros_length, ones_length};
    now.entry = MARKED, now.input = input, now.input_length = input_length, now.output_length = zeros_length;
    now.marks = marks_bytes, now.marks_length = marks_length, now.second_length = ones_length;
    for (int i = 0; i < 2; i++) {
        for (size_t j = 0; j < lengths_of[i]; j++) before[i][j] = (uint8_t)draw();
        memcpy(after[i], before[i], lengths_of[i]);
    }
    memcpy(played.zeros, before[0], zeros_length), memcpy(played.ones, before[1], ones_length);

    size_t bytes = DUNEFORK_BYTES(code.n);
    int32_t expected = 0;
    int known = 1, r = 0;
    word_t word = 0, marks = 0, answer = 0;
    struct trial t[2] = {{0, 0, 0}, {0, 0, 0}};
    if (code.refusal) {
        expected = -code.refusal;
    } else if (input_length != bytes || marks_length != bytes || zeros_length != bytes || ones_length != bytes) {
        expected = -11;
    } else if (spare_in_word(input, code.n) || spare_in_word(marks_bytes, code.n)) {
        expected = -12;
    } else {
        word = word_of(input, code.n), marks = word_of(marks_bytes, code.n), r = ones(marks);
        t[0] = trial_of(word & ~marks, made, has_made);
        t[1] = trial_of(word | marks, made, has_made);
        known = right_answer(word, marks, made, has_made, t, &answer);
        if (known == 1) {
            /* ordinary decoding gives the codeword within t places: where the answer is that, the trial holds it */
            for (int i = 0; i < 2; i++)
                if (t[i].known < 0 && ones(t[i].word ^ answer) <= code.t) t[i].known = 1, t[i].held = answer;
            int holds = ones(t[0].word ^ answer) <= code.t;
            insist(holds || ones(t[1].word ^ answer) <= code.t, "one of the trials holds the answer");
            expected = 2 * ones((answer ^ word) & ~marks) + !holds;
        } else {
            expected = -15;
        }
    }
    played.word = word, played.marks = marks;

    lend(SHEET, sheet, sheet_length);
    lend(INPUT, input, input_length);
    lend(MARKS, marks_bytes, marks_length);
    lend(ZEROS, before[0], zeros_length);
    lend(ONES, before[1], ones_length);
    int32_t reply = called();
    calls++;
    if (expected >= 0 || (known < 0 && reply >= 0)) {
        for (int i = 0; i < 2; i++) {
            if (t[i].known < 0 && reply >= 0) take_as_it_is(ZEROS + i, &t[i]);
            put_word(t[i].held, code.n, after[i]);
        }
        if (known < 0) {
            answer = t[reply % 2].held;
            if (!is_codeword(&code, answer) || !fits(answer, word, marks)) differ("answered with no codeword with 2 e + r at most d - 1");
            expected = 2 * ones((answer ^ word) & ~marks) + (t[0].held != answer);
        }
    }
    if (reply >= 0 && reply == expected) {
        hold_shown((size_t)reply % 2, (size_t)code.n);
        uint8_t right[DUNEFORK_WORD_MAX];
        put_word(answer, code.n, right);
        if (memcmp(dunefork_shown((size_t)reply % 2, lent[ZEROS].at, lent[ONES].at), right, bytes)) differ("what is shown is not the answer");
        now.entry = MARKED;
        count_marked_e[reply / 2]++, count_trial[reply % 2]++, count_trial[2] += t[0].held == t[1].held;
    }
    if (!code.refusal && (reply >= 0 || reply == -15)) count_marked_r[r]++;
    int right_ones = given_back(ONES, after[1]), right_marks = given_back(MARKS, marks_bytes);
    for (size_t i = 0; i < ones_length; i++) checksum = (checksum ^ after[1][i]) * 1099511628211u;
    compare(reply, expected, input, after[0], zeros_length);
    if (!right_ones) differ("the second buffer, or a byte beside it, is not as it must be");
    if (!right_marks) differ("the marks, or a byte beside them, have changed");
}

/* The places in bytes, and sometimes spare bits, other lengths, or several of these at once. */
static void try_marked_places(word_t word, word_t marks, word_t made, int has_made) {
    static uint8_t input[PAGE], marks_bytes[PAGE];
    size_t length = DUNEFORK_BYTES(code.n), given[4] = {length, length, length, length};
    put_word(word, code.n, input);
    put_word(marks, code.n, marks_bytes);
    int spoil = below(7) ? 0 : 1 + below(63), spare = 8 - code.n % 8;
    if (spoil & 1) input[length - 1] |= word_weight(code.n + below(spare));
    if (spoil & 2) marks_bytes[length - 1] |= word_weight(code.n + below(spare));
    for (int i = 0; i < 4; i++)
        if (spoil >> (2 + i) & 1 && below(2)) given[i] = wrong_length(length);
    for (size_t i = length; i < given[0]; i++) input[i] = (uint8_t)(below(2) ? draw() : 0);
    for (size_t i = length; i < given[1]; i++) marks_bytes[i] = (uint8_t)(below(2) ? draw() : 0);
    try_marked(input, given[0], marks_bytes, given[1], given[2], given[3], made, has_made);
}

/* A codeword with r marked places, e wrong ones among the others, and anything in the marked ones. */
static void try_marks(int r, int e) {
    int n = code.n;
    if (r > n) r = n;
    if (e < 0) e = 0;
    if (e > n - r) e = n - r;
    word_t made = encoded(&code, draw_places(code.k)), marks = draw_pattern(n, r), wrong = 0;
    int filling = below(4);
    if (filling == 3) made = 0;
    while (ones(wrong) < e) wrong |= ((word_t)1 << below(n)) & ~marks;
    word_t word = made ^ wrong ^ (filling ? draw_places(n) & marks : marks);
    try_marked_places(word, marks, made, 1);
}

static void try_drawn_marks(void) {
    int n = code.n, d = code.d, r, e;
    word_t word = draw_places(n), marks = draw_places(n);
    marks &= draw_places(n);
    switch (below(8)) {
    case 0: r = 0; break;
    case 1: r = d - 1; break;
    case 2: r = d + below(2); break;
    case 3: r = below(4) ? 1 + below(2) : n - below(2); break;
    case 4: try_marked_places(word, below(2) ? marks : marks & word, 0, 0); return;
    default: r = below(d + 2); break;
    }
    switch (below(4)) {
    case 0: e = (d - 1 - r) / 2 + 1; break;
    case 1: e = below(n + 1); break;
    default: e = r < d ? (d - 1 - r) / 2 - (below(2) ? 0 : below((d - 1 - r) / 2 + 1)) : 0; break;
    }
    try_marks(r, e);
}

/* At and beyond the bound, for numbers of marks from 0 to d + 1. */
static void try_bounds(void) {
    for (int r = 0, step = 1 + code.d / 12; r <= code.d + 1; r += 1 + below(step)) {
        try_marks(r, (code.d - 1 - r) / 2);
        try_marks(r, (code.d - 1 - r) / 2 + 1);
    }
}
