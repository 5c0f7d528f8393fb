/* ---- rule 3: polynomials over the field of 2^s elements, by exponents of its root, -1 for 0, from the constant term up */
static struct field {
    int s, order, power[4096], exponent[4096];
} field;

static const int masks[11] = {7, 11, 19, 37, 67, 131, 285, 529, 1033, 2053, 4179};

static void fill_field(int s) {
    if (field.s == s) return;
    field.s = s, field.order = (1 << s) - 1;
    field.exponent[0] = -1;
    for (int e = 0, x = 1; e < field.order; e++) {
        field.power[e] = x, field.exponent[x] = e;
        x <<= 1;
        if (x >> s) x ^= masks[s - 2];
    }
}

/* Whether f(x) and f(α^k x) have a common factor: what is left of the one by the other, until nothing is. */
static int shared_factor(int n, unsigned f, int k) {
    int p[2][9], top[2] = {degree(f), degree(f)}, which = 0;
    for (int m = 0; m <= top[0]; m++) {
        p[0][m] = f >> m & 1 ? 0 : -1;
        p[1][m] = f >> m & 1 ? k * (field.order / n) * m % field.order : -1;
    }
    while (top[1 - which] >= 0) {
        int *a = p[which], *b = p[1 - which], s = top[1 - which];
        while (top[which] >= s) {
            int by = a[top[which]] - b[s] + field.order, at = top[which] - s;
            for (int m = 0; m <= s; m++) {
                if (b[m] < 0) continue;
                int x = field.power[(b[m] + by) % field.order];
                a[at + m] = field.exponent[(a[at + m] < 0 ? 0 : field.power[a[at + m]]) ^ x];
            }
            while (top[which] >= 0 && a[top[which]] < 0) top[which]--;
        }
        which = 1 - which;
    }
    return top[which] > 0;
}

/* Document 02, 2026-03: "f(α^i·x) and f(α^j·x) .. no common factor for different i and j below n"; with α^-i x for x, f(x) and f(α^k x).
 * What is found is kept. */
static int factors_shared(int n, int s, unsigned f) {
    static uint8_t known[128][512];
    if (!known[n][f]) {
        fill_field(s);
        known[n][f] = 1;
        for (int k = 1; k < n; k++)
            if (shared_factor(n, f, k)) known[n][f] = 2;
    }
    return known[n][f] == 2;
}
