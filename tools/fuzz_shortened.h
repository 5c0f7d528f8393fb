/* Shortened codes, for tools/fuzz.c (document 02, 2026-06): what encode_short, read_short and decode_short must answer and write, and
 * random calls of them.
 *
 * A received word is decoded among all shortened codewords, of which there are 2^(k - m), where k - m is at most 12; and by a search among
 * the patterns of at most t errors in the places that are sent. No word is decoded as one of the whole code. Where neither search can be
 * done, the answer is known from how the word was made: of a shortened codeword, or of what another codeword has in the places sent. */

enum { LISTED_BITS = 12 };

/* "so messages have k - m bits and words n - m" */
static int sent_places(void) { return code.n - (int)now.m; }

static int sent_bits(void) { return code.k - (int)now.m; }

/* All shortened codewords, each from the one before by adding one of a message of one bit: 1 and the one within t places, or 0. */
static int found_among_shortened(word_t word, word_t *codeword) {
    word_t row[LISTED_BITS], at = 0;
    int bits = sent_bits(), found = 0;
    for (int i = 0; i < bits; i++) row[i] = encoded(&code, (word_t)1 << i);
    for (unsigned step = 0;;) {
        if (ones(at ^ word) <= code.t) *codeword = at, found++;
        if (++step == 1u << bits) break;
        at ^= row[__builtin_ctz(step)];
    }
    insist(found <= 1, "two shortened codewords within t places");
    return found;
}

/* As found_by_patterns does, with errors in the places sent alone. */
static int found_in_sent_places(word_t word, word_t *codeword) {
    word_t rest = remainder_of(&code, word);
    int places = sent_places();
    for (size_t i = 0; i < search.tried; i++) {
        if (search.pattern[i] >> places) continue;
        word_t wanted = rest ^ search.rest[i];
        for (size_t at = slot_of(wanted); search.slot[at]; at = (at + 1) & (search.slots - 1)) {
            size_t j = search.slot[at] - 1;
            if (search.rest[j] != wanted || search.pattern[j] >> places) continue;
            *codeword = word ^ search.pattern[i] ^ search.pattern[j];
            return 1;
        }
    }
    return 0;
}

enum { SHORT_BY_SEARCH, SHORT_BY_BOTH, SHORT_BY_MAKING, SHORT_BY_PROPERTY_CHANGED, SHORT_BY_PROPERTY_13, SHORT_HOW };
static uint64_t count_short_how[SHORT_HOW], count_short_changed[PLACES + 1], count_short_m[PLACES + 1], count_only_whole;

/* 1 and the shortened codeword, 0 for 13, -1 where only properties are known. `made` is a codeword of the whole code, `weight` in how many
 * of the n places the word differs from it, or -1 where there is none. */
static int right_short(word_t word, word_t made, int weight, word_t *codeword) {
    if (!prepared) prepare_search(&code, stored_max, tried_max), prepared = 1;
    int by_list = sent_bits() <= LISTED_BITS, by_patterns = search.patterns && search.tried <= 10000, found = -1;
    int shortened = made >> sent_places() == 0;
    if (by_patterns) found = found_in_sent_places(word, codeword);
    if (by_list) {
        word_t again = 0;
        int found_again = found_among_shortened(word, &again);
        insist(found < 0 || (found == found_again && (!found || again == *codeword)), "the two searches of shortened codewords");
        found = found_again, *codeword = again;
    }
    if (found >= 0) {
        count_short_how[by_list && by_patterns ? SHORT_BY_BOTH : SHORT_BY_SEARCH]++;
        insist(weight < 0 || weight > code.t || (found == shortened && (!found || *codeword == made)), "a codeword within t places");
        insist(!found || (*codeword >> sent_places() == 0 && is_codeword(&code, *codeword)), "a shortened codeword");
        return found;
    }
    if (weight < 0) return -1;
    if (weight > code.t) {
        if (!distance_known) {
            distance_known = run_bound(&code);
            if (code.d > distance_known) distance_known = code.d;
        }
        if (weight + code.t >= distance_known) return -1;
    }
    count_short_how[SHORT_BY_MAKING]++;
    *codeword = made;
    return weight <= code.t && shortened;
}

/* ---- what a wrong library would do, for runs that must fail */

/* The call with another m, or with no m. */
static int32_t called_with(size_t m) {
    const struct lent *s = &lent[SHEET], *i = &lent[INPUT], *o = &lent[OUTPUT];
    if (now.entry == ENCODE_SHORT)
        return m ? dunefork_encode_short(s->at, s->length, m, i->at, i->length, o->at, o->length)
                 : dunefork_encode(s->at, s->length, i->at, i->length, o->at, o->length);
    if (now.entry == READ_SHORT)
        return m ? dunefork_read_short(s->at, s->length, m, i->at, i->length, o->at, o->length)
                 : dunefork_read(s->at, s->length, i->at, i->length, o->at, o->length);
    return m ? dunefork_decode_short(s->at, s->length, m, i->at, i->length, o->at, o->length)
             : dunefork_decode(s->at, s->length, i->at, i->length, o->at, o->length);
}

/* Whether the lengths are those of this m; what is left of n or k is at least 0. */
static int lengths_of(size_t m) {
    size_t n = (size_t)code.n, k = (size_t)code.k, word = DUNEFORK_BYTES(m < n ? n - m : 0), message = DUNEFORK_BYTES(m < k ? k - m : 0);
    return lent[INPUT].length == (now.entry == ENCODE_SHORT ? message : word) &&
           lent[OUTPUT].length == (now.entry == READ_SHORT ? message : word);
}

/* A word decoded as one of the whole code: the reply, and the places sent of what comes of it. */
static int32_t decoded_whole(uint8_t *low) {
    uint8_t word[DUNEFORK_WORD_MAX] = {0}, out[DUNEFORK_WORD_MAX];
    memcpy(word, lent[INPUT].at, lent[INPUT].length);
    int32_t reply = dunefork_decode(sheet, sheet_length, word, DUNEFORK_BYTES(code.n), out, DUNEFORK_BYTES(code.n));
    if (reply >= 0) put_word(word_of(out, code.n), sent_places(), low);
    return reply;
}

/* The reply if the bits from place n of a word on, and from k of a message, were the spare ones. */
static int32_t with_spare_of_whole(int32_t reply) {
    const uint8_t *in = lent[INPUT].at;
    uint8_t last = lent[INPUT].length ? in[lent[INPUT].length - 1] : 0;
    int places = now.entry == ENCODE_SHORT ? code.k : code.n, spare = 0;
    if (reply == -11 || reply == -16) return reply;
    for (int i = places; i % 8; i++) spare |= last & (now.entry == ENCODE_SHORT ? message_weight(i) : word_weight(i));
    return spare ? -12 : reply == -12 ? (now.entry == ENCODE_SHORT ? 0 : now.entry == READ_SHORT ? -14 : -13) : reply;
}

static int32_t meddled_short(int32_t reply) {
    uint8_t *out = lent[OUTPUT].at;
    size_t k = (size_t)code.k;
    int accepted = !code.refusal;
    switch (calls < 5000 ? 0 : fault) {
    case 29: if (reply == -16 && now.m == k) return lengths_of(k) ? 0 : -11; break;      /* m = k let go */
    case 30: if (reply == -16 && now.m == 0) return called_with(0); break;               /* m = 0 let go */
    case 31: if (reply == -16 && now.m > 255 && now.m % 256) return called_with(now.m % 256); break; /* the low byte of m alone */
    case 32: if (reply == -16 && !lengths_of(now.m)) return -11; break;                  /* 16 after 11 */
    case 33: if (!accepted && now.m == 0) return -16; break;                             /* 16 before the sheet's */
    case 34: if (reply == -13) return decoded_whole(out); break;                         /* the top places not tested */
    case 35: if (accepted && now.entry != ENCODE_SHORT) return with_spare_of_whole(reply); break; /* a word's spare bits from n on */
    case 36: if (accepted && now.entry == ENCODE_SHORT) return with_spare_of_whole(reply); break; /* a message's from k on */
    case 37: if (reply == -13) decoded_whole(out); break;                                /* 13 that leaves the other codeword */
    case 38:                                                                             /* the low message bits left out */
        if (reply == 0 && now.entry == ENCODE_SHORT)
            put_word(encoded(&code, message_of(lent[INPUT].at, sent_bits()) << now.m) >> now.m, sent_places(), out);
        break;
    case 39: if (accepted && reply != -16 && !lengths_of(0)) return -11; break;          /* lengths of the whole code */
    }
    return reply;
}

/* ---- calls */

/* Makes one call and holds everything to the reference. */
static void try_short(int entry, size_t m, const uint8_t *input, size_t input_length, size_t output_length, word_t made, int weight) {
    static uint8_t before[PAGE], after[PAGE];
    now.entry = entry, now.m = m, now.input = input, now.input_length = input_length, now.output_length = output_length;
    for (size_t i = 0; i < output_length; i++) before[i] = (uint8_t)draw();
    memcpy(after, before, output_length);

    int32_t expected = 0;
    int known = 1, asked = 0;
    word_t word = 0, result = 0;
    if (code.refusal) {
        expected = -code.refusal;
    } else if (m == 0 || m >= (size_t)code.k) {
        expected = -16;
    } else {
        int places = sent_places(), bits = sent_bits();
        int in = entry == ENCODE_SHORT ? bits : places, out = entry == READ_SHORT ? bits : places;
        if (input_length != DUNEFORK_BYTES(in) || output_length != DUNEFORK_BYTES(out)) {
            expected = -11;
        } else if (entry == ENCODE_SHORT ? spare_in_message(input, bits) : spare_in_word(input, places)) {
            expected = -12;
        } else if (entry == ENCODE_SHORT) {
            result = encoded(&code, message_of(input, bits));
            insist(is_codeword(&code, result) && result >> places == 0, "what encoding gives is a shortened codeword");
        } else if (entry == READ_SHORT) {
            word = word_of(input, places);
            expected = remainder_of(&code, word) ? -14 : 0;
            insist(is_codeword(&code, word) == !expected, "the remainder and the values of a shortened word");
            result = word >> (code.n - code.k);
        } else {
            word = word_of(input, places), asked = 1;
            known = right_short(word, made, weight, &result);
            expected = known ? ones(word ^ result) : -13;
        }
        if (known >= 0 && expected >= 0 && entry == READ_SHORT)
            put_message(result, bits, after);
        else if (known >= 0 && expected >= 0)
            put_word(result, places, after);
    }

    lend(SHEET, sheet, sheet_length);
    lend(INPUT, input, input_length);
    lend(OUTPUT, before, output_length);
    int32_t reply = called();
    calls++;
    if (known < 0 && reply != -13) {
        /* any shortened codeword within t places is the right one: there is only one */
        memcpy(after, lent[OUTPUT].at, output_length);
        result = word_of(after, sent_places());
        if (spare_in_word(after, sent_places())) differ("a spare bit in what was decoded");
        expected = ones(result ^ word);
        if (expected > code.t || !is_codeword(&code, result)) differ("decoded to no shortened codeword within t places");
        count_short_how[SHORT_BY_PROPERTY_CHANGED]++;
    } else if (known < 0) {
        expected = -13;
        count_short_how[SHORT_BY_PROPERTY_13]++;
    }
    compare(reply, expected, input, after, output_length);
    if (asked && reply >= 0) count_short_changed[reply]++;
    if (asked && reply == -13 && weight >= 0 && weight <= code.t) count_only_whole++;
    if (!code.refusal && reply != -16) count_short_m[m]++;
}

/* The places in bytes, and sometimes a spare bit, another length of input or output, or several of these at once. m is a good one. */
static void try_short_places(int entry, size_t m, word_t w, word_t made, int weight) {
    static uint8_t input[PAGE];
    int places = code.n - (int)m, bits = code.k - (int)m, in = entry == ENCODE_SHORT ? bits : places;
    size_t length = DUNEFORK_BYTES(in), output_length = DUNEFORK_BYTES(entry == READ_SHORT ? bits : places), given = length;
    put_mask(w, in, entry == ENCODE_SHORT ? message_weight : word_weight, input);
    int spoil = below(7) ? 0 : 1 + below(7);
    if (spoil & 1 && in % 8) {
        int spare = in + below(8 - in % 8);
        input[length - 1] |= entry == ENCODE_SHORT ? message_weight(spare) : word_weight(spare);
    }
    if (spoil & 2) given = below(2) ? wrong_length(length) : DUNEFORK_BYTES(entry == ENCODE_SHORT ? code.k : code.n);
    if (spoil & 4) output_length = below(2) ? wrong_length(output_length) : DUNEFORK_BYTES(entry == READ_SHORT ? code.k : code.n);
    for (size_t i = length; i < given; i++) input[i] = (uint8_t)(below(2) ? draw() : 0);
    try_short(entry, m, input, given, output_length, made, weight);
}

/* The places sent of a codeword with `above` ones in the m places that are not sent, and so many wrong places among those sent. */
static void try_near(int entry, size_t m, int above, int wrong) {
    int places = code.n - (int)m, bits = code.k - (int)m;
    if (above > (int)m) above = (int)m;
    if (wrong > places) wrong = places;
    word_t message = below(8) ? draw_places(bits) : 0, top = draw_pattern((int)m, above);
    word_t made = encoded(&code, message | top << bits), sent = made & (((word_t)1 << places) - 1);
    try_short_places(entry, m, sent ^ draw_pattern(places, wrong), made, above + wrong);
}

/* An m that is refused: 0, k and more, and numbers whose low bytes would not be; lengths and bytes of all kinds. */
static void try_wrong_m(int entry) {
    static uint8_t input[PAGE];
    size_t k = (size_t)code.k, n = (size_t)code.n, fine = k > 1 ? 1 + (size_t)below(code.k - 1) : 1, m = 0, length, output_length;
    switch (below(8)) {
    case 0: case 1: break;
    case 2: m = k; break;
    case 3: m = k + (size_t)below(4); break;
    case 4: m = n + (size_t)below(3); break;
    case 5: m = ((size_t)1 << (8 + below(56))) + fine; break;
    case 6: m = SIZE_MAX - (size_t)below(130); break;
    default: m = k + (size_t)draw() % (SIZE_MAX - k + 1); break;
    }
    size_t as = below(2) ? fine : below(2) || m > n ? 0 : m, message = DUNEFORK_BYTES(as < k ? k - as : 0), word = DUNEFORK_BYTES(n - as);
    length = entry == ENCODE_SHORT ? message : word, output_length = entry == READ_SHORT ? message : word;
    if (below(4) == 0) length = wrong_length(length);
    if (below(4) == 0) output_length = wrong_length(output_length);
    for (size_t i = 0, anything = (size_t)below(2); i < length; i++) input[i] = (uint8_t)(anything ? draw() : 0);
    try_short(entry, m, input, length, output_length, 0, -1);
}

static size_t drawn_m(void) {
    size_t k = (size_t)code.k;
    int shape = below(6);
    return shape == 0 ? 1 : shape == 1 ? k - 1 : shape == 2 && k > 9 ? 1 + (size_t)below(9) : 1 + (size_t)below(code.k - 1);
}

static void try_drawn_short(void) {
    int entry = ENCODE_SHORT + (below(5) < 2 ? below(2) : 2), t = code.t;
    if (code.k == 1 || below(8) == 0) {
        try_wrong_m(entry);
        return;
    }
    size_t m = drawn_m();
    int places = code.n - (int)m, bits = code.k - (int)m, above = 0, wrong = 0;
    if (entry == ENCODE_SHORT) {
        word_t message = below(8) ? draw_places(bits) : below(2) ? (word_t)1 << below(bits) : ((word_t)1 << bits) - 1;
        try_short_places(entry, m, message, 0, -1);
        return;
    }
    switch (below(entry == READ_SHORT ? 4 : 8)) {
    case 0: try_short_places(entry, m, draw_places(places), 0, -1); return;
    case 1: above = 1 + below((int)m), wrong = 0; break;
    case 2: wrong = entry == READ_SHORT ? 0 : below(t + 1); break;
    case 3: wrong = entry == READ_SHORT ? below(2) : t + 1 + below(2); break;
    case 4: above = 1 + below(t + 1), wrong = t - above; break;
    case 5: above = 1, wrong = below(t + 1); break;
    case 6: wrong = t; break;
    default: wrong = below(places + 1); break;
    }
    try_near(entry, m, above, wrong < 0 ? 0 : wrong);
}

/* At and beyond the bound, near a shortened codeword and near another. */
static void try_short_bounds(void) {
    for (int times = 0; times < 3 && code.k > 1; times++) {
        size_t m = times == 0 ? 1 : times == 1 ? (size_t)code.k - 1 : drawn_m();
        for (int wrong = 0, step = 1 + code.t / 6; wrong <= code.t + 2; wrong += 1 + below(step)) {
            try_near(DECODE_SHORT, m, 0, wrong);
            if (wrong < code.t) try_near(DECODE_SHORT, m, 1 + below(code.t - wrong), wrong);
        }
        try_near(DECODE_SHORT, m, 0, code.t);
        try_near(READ_SHORT, m, 0, 0);
        try_near(READ_SHORT, m, 1, 0);
    }
    for (int entry = ENCODE_SHORT; entry <= DECODE_SHORT; entry++) try_wrong_m(entry);
}

static void report_short(void) {
    static const char *const name[SHORT_HOW] = {
        "held to a search", "held to two searches", "known from how the word was made",
        "not searched: a shortened codeword within t places, count right", "not searched: 13 taken as it is"};
    tell_counts("shortened, by m:", count_short_m);
    tell_counts("shortened words decoded, by changed places:", count_short_changed);
    printf("shortened words refused with 13 that were made within t places of another codeword: %llu\n",
           (unsigned long long)count_only_whole);
    printf("shortened words that were decoded or refused with 13:\n");
    for (int i = 0; i < SHORT_HOW; i++) printf("  %10llu %s\n", (unsigned long long)count_short_how[i], name[i]);
}
