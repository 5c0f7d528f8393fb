# Calls of judge, card, encode and read, and what they are to answer, made without any of the product's code. tools/answers.py puts
# them together with those of decode.
#
# For each sheet there are judge's answer, 'accepted n k s working d t terms' or 'refused number', the listing that card gives,
# and what encode and read reply and leave in the buffer. Polynomials over two elements are sets of exponents, words and messages
# masks over their places: word_bytes and message_bytes say how those lie in bytes, here and for the scripts that go by this one.
from functools import lru_cache
from itertools import permutations
from math import gcd


def bits(mask):
    return frozenset(i for i in range(mask.bit_length()) if mask >> i & 1)


def divide(a, b):
    quotient, a = set(), set(a)
    while a and max(a) >= max(b):
        shift = max(a) - max(b)
        quotient.add(shift)
        a ^= {i + shift for i in b}
    return quotient, a


def common_factor(a, b):
    while b:
        a, b = b, divide(a, b)[1]
    return max(a)


def period(f):
    p = 1
    while divide({0, p}, f)[1]:
        p += 1
    return p


@lru_cache(None)
def factors_shared(f, n):
    # rule 3, as request 2026-03 has it: f(α^i x) and f(α^j x) have a common factor, for different i and j below n, exactly where some
    # polynomial P of less than f's degree, not 0, has f as a divisor of P(x^n). tools/second_reading.py looks for the factors themselves
    powers = [frozenset(divide({n * i}, f)[1]) for i in range(max(f))]
    sums = {frozenset()}
    for power in powers:
        more = {power ^ s for s in sums}
        if more & sums:
            return True
        sums |= more
    return False


def series(h, f, count):
    # long division from the low end: each step takes off the lowest term
    rest, terms = set(h), []
    for j in range(count):
        terms.append(1 if j in rest else 0)
        if j in rest:
            rest ^= {i + j for i in f}
    return terms


def coset(r, n):
    members = set()
    while r not in members:
        members.add(r)
        r = 2 * r % n
    return members


def certificate_answer(n, zeros, c):
    b, z, f, h, zero, terms = c[0], c[1], bits(c[2] + 256 * c[3]), bits(c[4]), c[5], c[6] + 256 * c[7]
    u = max(f, default=0)
    v = max(h, default=0)
    good = b < n and 1 <= z < n and gcd(z, n) == 1 and 1 <= u <= 8 and 0 in f and h and v < u and 1 <= terms <= 1023 and zero == 0
    if not good:
        return 7, 0, 0
    if common_factor(f, h) > 0:
        return 8, 0, 0
    if factors_shared(f, n):
        return 9, 0, 0
    for j, a in enumerate(series(h, f, terms)):
        if a and (b + j * z) % n not in zeros:
            return 10, 0, 0
    return 0, max(0, -((v - terms) // u)) + 1, terms


def answer(sheet):
    length = len(sheet)
    if length < 10 or length > 74 or sheet[0] + 256 * sheet[1] != length:
        return 'refused 1'
    n, count, certificates = sheet[2], sheet[3], sheet[6]
    if n % 2 == 0 or n < 3 or n > 127:
        return 'refused 2'
    s = len(coset(1, n))
    if s > 12:
        return 'refused 3'
    if (count > 32 or sheet[4] + 256 * sheet[5] != 10 or not 1 <= certificates <= 4 or sheet[7] != 0
            or sheet[8] + 256 * sheet[9] != 10 + count or length != 10 + count + 8 * certificates):
        return 'refused 4'
    representatives = sheet[10:10 + count]
    zeros = set()
    for i, r in enumerate(representatives):
        if r >= n or r != min(coset(r, n)) or (i and r <= representatives[i - 1]):
            return 'refused 5'
        zeros |= coset(r, n)
    if len(zeros) == n:
        return 'refused 6'
    passed = []
    for c in range(certificates):
        at = 10 + count + 8 * c
        number, d, terms = certificate_answer(n, zeros, sheet[at:at + 8])
        if number:
            return 'refused %d' % number
        passed.append((-d, terms, c))
    # request 2026-04: "the largest d, then the fewest terms, then the earliest"
    d, terms, working = min(passed)
    return 'accepted %d %d %d %d %d %d %d' % (n, n - len(zeros), s, working, -d, (-d - 1) // 2, terms)


def certificate(b, z, f, h, terms, zero=0):
    return [b, z, f % 256, f // 256, h, zero, terms % 256, terms // 256]


def sheet(n, representatives, *certificates):
    length = 10 + len(representatives) + 8 * len(certificates)
    return ([length % 256, length // 256, n, len(representatives), 10, 0, len(certificates), 0, 10 + len(representatives), 0]
            + list(representatives) + sum(certificates, []))


def changed(base, place, value):
    return base[:place] + [value] + base[place + 1:]


# representatives of length 127: those of the bench's code, and all but 0
BCH = [1, 3, 5, 7, 9, 11, 13, 15, 19]
ALL_BUT_0 = [1, 3, 5, 7, 9, 11, 13, 15, 19, 21, 23, 27, 29, 31, 43, 47, 55, 63]


def known():
    h = sheet(7, [1], certificate(1, 1, 3, 1, 2))
    s = sheet(17, [1], certificate(13, 1, 7, 3, 9))
    yield h
    yield sheet(7, [0, 1], certificate(0, 1, 3, 1, 3))
    yield sheet(7, [0, 1], certificate(0, 1, 3, 1, 4))
    yield s
    yield sheet(17, [1], certificate(13, 1, 7, 3, 10))
    yield sheet(15, [1, 3], certificate(1, 1, 3, 1, 4))
    yield sheet(15, [1, 3], certificate(1, 1, 3, 1, 5))
    yield []
    yield [9] + h[1:9]
    yield changed(h, 0, 20)
    yield h + [0]
    # 74 bytes are the most: 32 representatives and four certificates
    yield sheet(127, range(32), *[certificate(1, 1, 3, 1, 1)] * 4)
    yield sheet(127, range(33), *[certificate(1, 1, 3, 1, 1)] * 4)
    for length in (74, 75, 80):
        yield [length] + h[1:] + [0] * (length - len(h))
    for n in (0, 1, 2, 6, 19, 101, 126, 128, 129, 255):
        yield changed(h, 2, n)
    for place in range(3, 10):
        yield changed(h, place, h[place] + 1)
    for place in range(11, 19):
        for value in (0, 2, 7, 255):
            yield changed(h, place, value)
    for representatives in ([2], [7], [3, 1], [1, 1], [0, 1, 3], [1, 3]):
        yield sheet(7, representatives, certificate(1, 1, 3, 1, 2))
    yield sheet(7, [1], certificate(1, 1, 5, 3, 2))
    yield sheet(21, [1], certificate(1, 1, 7, 1, 2))
    yield sheet(9, [1], certificate(1, 3, 3, 1, 1))
    for n in (3, 7, 45, 65, 91, 117, 127):
        yield sheet(n, [], certificate(0, 1, 7, 2, 1))
        yield sheet(n, [], certificate(0, 1, 19, 8, 3))
    # the distance is 1 where L is at most v
    yield sheet(17, [], certificate(0, 1, 11, 4, 1))
    bch = BCH + [21]
    yield sheet(127, bch, certificate(1, 1, 3, 1, 22))
    yield sheet(127, bch, certificate(1, 1, 3, 1, 20), certificate(2, 2, 3, 1, 21), certificate(1, 1, 3, 1, 22), certificate(4, 4, 3, 1, 22))
    yield sheet(127, bch, certificate(1, 1, 3, 1, 22), certificate(1, 1, 3, 1, 23), certificate(1, 1, 3, 1, 0))
    yield sheet(127, bch, certificate(1, 1, 3, 1, 20), certificate(1, 1, 3, 1, 21))
    yield sheet(127, [0] + bch, certificate(0, 1, 3, 1, 23), certificate(126, 126, 3, 1, 1))


# Sheets of request 2026-03, found by search: f has a period that shares a factor with n, and no two f(α^i x) have a common factor.
# The length, the representatives, b, z, f, h, L, and d, which for most is above what zeros in a row prove.
WIDER = (
    (3, (1,), 1, 1, 19, 5, 8, 3), (5, (1,), 1, 3, 285, 23, 33, 5), (7, (1, 3), 1, 2, 67, 15, 38, 7),
    (21, (1,), 1, 1, 19, 11, 8, 3), (21, (1, 3, 7), 14, 5, 19, 7, 15, 5), (21, (3, 5, 7, 9), 7, 17, 19, 5, 24, 7),
    (21, (1, 3, 7, 9), 6, 17, 25, 1, 23, 7), (9, (0, 1), 0, 4, 19, 5, 15, 5), (9, (0, 1), 8, 1, 25, 15, 16, 5),
    (15, (0, 3, 5), 5, 7, 67, 19, 17, 4), (33, (1, 3), 6, 31, 19, 3, 22, 7), (33, (1, 3), 30, 1, 19, 3, 22, 7), (33, (1, 3), 1, 31, 25, 11, 24, 7),
    (35, (3, 7, 15), 27, 31, 67, 15, 22, 5), (39, (3, 7), 34, 23, 19, 5, 24, 7), (39, (1, 3), 6, 19, 25, 1, 23, 7),
    (45, (5, 7, 9, 15, 21), 0, 14, 285, 70, 56, 8), (51, (3, 9, 17, 19), 39, 38, 19, 3, 22, 7),
    (51, (3, 5, 9, 17), 34, 37, 25, 11, 24, 7), (63, (3, 5, 7, 15, 27), 7, 17, 19, 5, 24, 7),
    (63, (3, 7, 9, 11, 15), 12, 41, 25, 1, 21, 7), (65, (3, 5, 7), 34, 19, 285, 157, 32, 5),
    (91, (1, 3, 7, 9, 13), 2, 46, 67, 9, 34, 7), (93, (3, 7, 21, 23, 45), 12, 58, 19, 3, 22, 7),
    (93, (1, 3, 9, 17, 45), 3, 85, 25, 1, 21, 7), (105, (1, 3, 5, 9, 13, 15, 21, 25, 45), 72, 79, 285, 15, 61, 9),
    (117, (3, 5, 9, 17, 21), 38, 38, 19, 1, 30, 9), (117, (1, 3, 9, 17, 21), 60, 95, 25, 3, 31, 9))


def wider():
    for n, representatives, b, z, f, h, terms, d in WIDER:
        made = sheet(n, representatives, certificate(b, z, f, h, terms))
        assert gcd(period(bits(f)), n) > 1 and answer(made).split()[5] == str(d)
        yield made
        # one term more; and beside another certificate, which 9 refuses where n has a factor of 3, or which is accepted
        yield sheet(n, representatives, certificate(b, z, f, h, terms + 1))
        yield sheet(n, representatives, certificate(b, z, f, h, terms), certificate(b, z, 7, 1, 1))
        yield sheet(n, representatives, certificate(b, z, f, h, terms), certificate(min(representatives), 1, 3, 1, 1))
    # 85 has no such f: these share a factor with it, and are refused
    for f in (19, 25, 31, 285):
        yield sheet(85, [1], certificate(1, 1, f, 1, 1))


# Sheets of request 2026-04: for one code, certificates of which several have one d; in every order. Of the first two one has fewer terms,
# and the other fewer that are not 0.
SHORTER = (
    (7, (1,), (4, 1, 17, 1, 8), (1, 1, 7, 1, 4)), (7, (1,), (1, 1, 7, 1, 4), (1, 1, 3, 1, 2), (1, 3, 3, 1, 2)), (7, (0, 1), (0, 1, 5, 1, 6), (0, 1, 3, 1, 3), (1, 1, 3, 1, 2)),
    (15, (0, 1, 3), (0, 1, 5, 1, 9), (0, 1, 3, 1, 5), (1, 1, 3, 1, 4), (0, 2, 3, 1, 5)), (17, (1,), (13, 3, 3, 1, 3), (13, 1, 7, 3, 7)),
    (127, ALL_BUT_0, (1, 1, 259, 128, 1015), (1, 1, 3, 1, 126)), (127, BCH, (1, 16, 257, 1, 160), (1, 1, 3, 1, 20)))


def shorter():
    for n, representatives, *certificates in SHORTER:
        made = [sheet(n, representatives, *[certificate(*c) for c in order]) for order in permutations(certificates)]
        assert all(answer(s).startswith('accepted') for s in made)
        yield made


def drawn(count):
    # a fixed sequence, so that the sheets are the same everywhere
    state = 20261115

    def draw(below):
        nonlocal state
        state = (state * 6364136223846793005 + 1442695040888963407) % 2 ** 64
        return (state >> 33) % below

    lengths = [n for n in range(3, 128, 2) if len(coset(1, n)) <= 12]
    for _ in range(count):
        n = lengths[draw(len(lengths))]
        smallest = [r for r in range(n) if r == min(coset(r, n))]
        representatives = [r for r in smallest if draw(3) != 0][:32]
        zeros = set().union(*[coset(r, n) for r in representatives]) if representatives else set()
        certificates = []
        for _ in range(1 + draw(4)):
            u = 1 + draw(3 + 5 * draw(2))
            f = 2 ** u + 2 * draw(2 ** (u - 1)) + 1
            h = 1 + draw(2 ** u - 1)
            b, z = draw(n), 1 + draw(n - 1)
            longest = 0
            for j, a in enumerate(series(bits(h), bits(f), 1100)):
                if a and (b + j * z) % n not in zeros:
                    break
                longest = j + 1
            terms = max(1, min(longest, 1023)) if draw(4) else longest + draw(3)
            certificates.append(certificate(b, z, f, h, terms))
        yield sheet(n, representatives, *certificates)


# ---- words
def primitive(s):
    # the smallest mask of degree s modulo which x has order 2^s - 1
    for mask in range(2 ** s, 2 ** (s + 1)):
        x, order = 2 % 2 ** s, 1
        while x != 1 and order < 2 ** s:
            x = x * 2 ^ (mask if x >> (s - 1) else 0)
            order += 1
        if order == 2 ** s - 1:
            return mask


def generator(n, zeros):
    # the coefficients of the product of x + alpha^i, by tables of powers
    s = len(coset(1, n))
    mask, powers = primitive(s), [1]
    while len(powers) < 2 ** s - 1:
        powers.append(powers[-1] * 2 ^ (mask if powers[-1] >> (s - 1) else 0))
    logs = {p: i for i, p in enumerate(powers)}
    product = [1]
    for i in zeros:
        root = i * (2 ** s - 1) // n
        times = [powers[(logs[a] + root) % (2 ** s - 1)] if a else 0 for a in product]
        product = [a ^ b for a, b in zip([0] + product, times + [0])]
    assert set(product) <= {0, 1}
    return sum(a << i for i, a in enumerate(product))


def remainder(word, g):
    while word.bit_length() >= g.bit_length():
        word ^= g << (word.bit_length() - g.bit_length())
    return word


def encoded(message, g):
    checks = g.bit_length() - 1
    return message << checks | remainder(message << checks, g)


def message_bytes(mask, k):
    # document 01: "place i has weight 2^(i mod 8) in byte i div 8", which document 02 keeps for messages
    return mask.to_bytes((k + 7) // 8, 'little')


def word_bytes(mask, n):
    # document 02: "place i of a word has weight 2^(7 - i mod 8) in byte i div 8". So the bytes, written in binary one after the other,
    # are the places in turn, and the spare bits come last
    size = (n + 7) // 8
    return int(format(mask, '0%db' % (8 * size))[::-1], 2).to_bytes(size, 'big')


def parts(sheet):
    n, count, certificates = sheet[2], sheet[3], sheet[6]
    zeros = sorted(set().union(*[coset(r, n) for r in sheet[10:10 + count]]))
    return n, zeros, [sheet[10 + count + 8 * c:18 + count + 8 * c] for c in range(certificates)]


def listing(sheet):
    told = answer(sheet).split()
    if told[0] == 'refused':
        return ['refused ' + told[1]]
    n, zeros, certificates = parts(sheet)
    g = generator(n, zeros)
    lines = ['code %d %d %s' % (n, n - len(zeros), told[3])]
    lines.append(' '.join(['zeros'] + [str(i) for i in zeros]))
    lines.append('generator ' + ''.join(str(g >> i & 1) for i in range(len(zeros) + 1)))
    for c, bytes_of in enumerate(certificates):
        _, d, terms = certificate_answer(n, set(zeros), bytes_of)
        lines.append('cert %d terms %d distance %d' % (c, terms, d))
    lines.append('radius %s from cert %s' % (told[6], told[4]))
    return lines


# The calls: judge and card for every sheet (0), encode (1) and read (2) with an input and a buffer of some length, which holds
# AA before each call; and what is to be answered.
def calls(sheet):
    told = answer(sheet).split()
    yield 0, b'', 0, '\n'.join([' '.join(told)] + listing(sheet))
    if told[0] == 'refused':
        yield 1, bytes(3), 2, 'encode refused %s aaaa' % told[1]
        yield 2, bytes(2), 3, 'read refused %s aaaaaa' % told[1]
        return
    n, zeros, _ = parts(sheet)
    k, g = n - len(zeros), generator(n, zeros)
    a, b = (k + 7) // 8, (n + 7) // 8
    for message in (0, 1, 2 ** k - 1, sum((37 * i + 5) % 256 << 8 * i for i in range(16)) % 2 ** k):
        word = encoded(message, g)
        yield 1, message_bytes(message, k), b, 'encode returned 0 ' + word_bytes(word, n).hex()
        yield 2, word_bytes(word, n), a, 'read returned 0 ' + message_bytes(message, k).hex()
        for place in {0, 7 * k % n, n - 1}:
            wrong = word ^ 1 << place
            if remainder(wrong, g):
                yield 2, word_bytes(wrong, n), a, 'read refused 14 ' + 'aa' * a
            else:
                yield 2, word_bytes(wrong, n), a, 'read returned 0 ' + message_bytes(wrong >> len(zeros), k).hex()
    if k % 8:
        yield 1, message_bytes(message | 1 << k, k), b, 'encode refused 12 ' + 'aa' * b
        yield 1, message_bytes(message | 1 << 8 * a - 1, k), b + 1, 'encode refused 11 ' + 'aa' * (b + 1)
    yield 2, word_bytes(word | 1 << n, n), a, 'read refused 12 ' + 'aa' * a
    yield 2, word_bytes(word | 1 << 8 * b - 1, n), a + 1, 'read refused 11 ' + 'aa' * (a + 1)
    yield 1, message_bytes(message, k) + b'\0', b, 'encode refused 11 ' + 'aa' * b
    yield 1, message_bytes(message, k), b - 1, 'encode refused 11 ' + 'aa' * (b - 1)
    yield 1, b'', b, 'encode refused 11 ' + 'aa' * b
    yield 2, word_bytes(word, n)[1:], a, 'read refused 11 ' + 'aa' * a
    yield 2, word_bytes(word, n) + b'\0', a, 'read refused 11 ' + 'aa' * a


def byte_examples():
    # document 02, for sheet H: "The byte example of refusal 12 becomes word 01, and that of 14 becomes word 80."
    yield 2, b'\x01', 1, 'read refused 12 aa'
    yield 2, b'\x80', 1, 'read refused 14 aa'


SHEETS = list(known()) + list(drawn(400)) + list(wider()) + [made[0] for made in shorter()]
ORDERS = [s for made in shorter() for s in made[1:]]


def entry_calls():
    for s in SHEETS:
        for call in calls(s):
            yield s, *call
    for s in ORDERS:
        # judge and card; the code is that of another order
        yield s, *next(calls(s))
    for call in byte_examples():
        yield SHEETS[0], *call
