# Common factors of polynomials over the field of 2^s elements, by Euclid's algorithm: what second_reading.py asks of rule 3, as request
# 2026-03 of document 02 has it. Kept apart so that what is found of one length and one mask f serves all readings.
from functools import lru_cache


@lru_cache(None)
def tables(s):
    # powers and logarithms of x modulo the smallest mask of degree s for which x has order 2^s - 1
    for mask in range(2 ** s + 1, 2 ** (s + 1), 2):
        powers, x = [], 1
        while x != 1 or not powers:
            powers.append(x)
            x = x << 1 ^ (mask if x >> s - 1 else 0)
        if len(powers) == 2 ** s - 1:
            return powers, {p: e for e, p in enumerate(powers)}


def rest(a, b, powers, logs):
    # the remainder of a by b, both from the constant term up, with no zeros at the end
    a, order = a[:], len(powers)
    while len(a) >= len(b):
        factor = logs[a[-1]] - logs[b[-1]]
        for i, x in enumerate(b):
            if x:
                a[len(a) - len(b) + i] ^= powers[(factor + logs[x]) % order]
        while a and a[-1] == 0:
            a.pop()
    return a


@lru_cache(None)
def shared(n, s, f, k):
    # whether f(x) and f(α^k x) have a common factor
    powers, logs = tables(s)
    step = (2 ** s - 1) // n
    a = [f >> m & 1 for m in range(f.bit_length())]
    b = [x * powers[k * step * m % len(powers)] for m, x in enumerate(a)]
    while b:
        a, b = b, rest(a, b, powers, logs)
    return len(a) > 1


def common_over(n, s, f, i, j):
    # f(α^i x) and f(α^j x): α^-i x for x
    return shared(n, s, f, (j - i) % n)
