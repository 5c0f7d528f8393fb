/* The listing that card writes, from documents 01 and 02: for tools/fuzz.c, beside fuzz_reference.h. */

/* Writes it and gives its length. 1,024 bytes are enough for any sheet. */
static int listing(const struct code *c, const uint8_t *sheet, char text[1100]) {
    int at = 0;
    if (c->refusal) return sprintf(text, "refused %d\n", c->refusal);
    at += sprintf(text + at, "code %d %d %d\nzeros", c->n, c->k, c->s);
    for (int i = 0; i < c->n; i++)
        if (c->zero[i]) at += sprintf(text + at, " %d", i);
    at += sprintf(text + at, "\ngenerator ");
    for (int i = 0; i <= c->n - c->k; i++) text[at++] = (char)('0' + (int)(c->generator >> i & 1));
    text[at++] = '\n';
    for (int i = 0; i < sheet[6]; i++) {
        struct certificate k = certificate_at(sheet + 10 + sheet[3] + 8 * i);
        at += sprintf(text + at, "cert %d terms %d distance %d\n", i, k.terms, distance_of(&k));
    }
    return at + sprintf(text + at, "radius %d from cert %d\n", c->t, c->working);
}

/* What decides which certificate is at work: 0 the only one of the largest d, 1 fewer terms, 2 the earlier place. */
static int decided_by(const struct code *c, const uint8_t *sheet) {
    int by = 0;
    for (int i = 0; i < sheet[6]; i++) {
        struct certificate k = certificate_at(sheet + 10 + sheet[3] + 8 * i);
        if (i != c->working && distance_of(&k) == c->d && by < 2) by = k.terms == c->terms ? 2 : 1;
    }
    return by;
}
