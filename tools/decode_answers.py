# Calls of decode, and what it is to answer, made without any of the product's code. tools/answers.py puts them together with those
# of the other entries.
#
# A call hands over one word, and its answer is 'decode returned count buffer' or 'decode refused number buffer'; or it asks for all
# words of a sheet's length, and the answer counts the replies and sums them up with the buffers. What is right is found with no
# equation: every error pattern of at most t places is tried, or every codeword; where both are too many a word is made from a
# codeword, so that the answer is known. Sheets are judged as in entry_answers.py.
from functools import lru_cache
from itertools import combinations
from math import comb, gcd

from entry_answers import (ALL_BUT_0, BCH, SHEETS, answer, bits, certificate, common_factor, coset, encoded, generator, known, parts,
                           period, remainder, series, sheet, word_bytes)

LENGTHS = [n for n in range(3, 128, 2) if len(coset(1, n)) <= 12]
MOST_PATTERNS, MOST_MESSAGE_BITS = 50000, 12


class Sequence:
    # a fixed one, so that the calls are the same everywhere
    def __init__(self, state):
        self.state = state

    def below(self, end):
        self.state = (self.state * 6364136223846793005 + 1442695040888963407) % 2 ** 64
        return (self.state >> 33) % end

    def of(self, choices):
        return choices[self.below(len(choices))]

    def bits(self, count):
        return sum(self.below(2) << i for i in range(count))

    def pattern(self, n, weight):
        places = list(range(n))
        return sum(1 << places.pop(self.below(n - i)) for i in range(weight))


# ---- what is right
def bch_bound(n, zeros):
    # one more than the longest run of zeros, over all steps
    longest = 0
    for z in range(1, n):
        if gcd(z, n) == 1:
            run = 0
            for j in range(2 * n):
                run = run + 1 if j * z % n in zeros else 0
                longest = max(longest, run)
    return longest + 1


class Code:
    def __init__(self, of_sheet):
        told = answer(of_sheet).split()
        assert told[0] == 'accepted'
        self.n, self.k, self.d, self.t = (int(told[i]) for i in (1, 2, 5, 6))
        self.zeros = set(parts(of_sheet)[1])
        self.g = generator(self.n, self.zeros)
        self.patterns = self.codewords = None
        if sum(comb(self.n, weight) for weight in range(self.t + 1)) <= MOST_PATTERNS:
            self.patterns = self.remainders()
        elif self.k <= MOST_MESSAGE_BITS:
            self.codewords = [encoded(message, self.g) for message in range(2 ** self.k)]
        else:
            self.distance = max(self.d, bch_bound(self.n, self.zeros))

    def remainders(self):
        # from the remainder of a pattern of at most t errors to the pattern. No two have the same: d is at least 2 t + 1
        of_place = [remainder(1 << i, self.g) for i in range(self.n)]
        found = {}
        for weight in range(self.t + 1):
            for places in combinations(range(self.n), weight):
                rest = 0
                for i in places:
                    rest ^= of_place[i]
                assert rest not in found
                found[rest] = sum(1 << i for i in places)
        return found

    def near(self, word):
        # the codewords within t places of a word, by search
        if self.patterns is not None:
            rest = remainder(word, self.g)
            return [word ^ self.patterns[rest]] if rest in self.patterns else []
        return [c for c in self.codewords if (c ^ word).bit_count() <= self.t]

    def decoded(self, codeword, pattern):
        # the right answer for the word codeword + pattern: a codeword, None for refusal 13, or 'open' where it is not known
        word, weight = codeword ^ pattern, pattern.bit_count()
        if self.patterns is None and self.codewords is None:
            if weight <= self.t:
                return codeword
            return None if weight + self.t < self.distance else 'open'
        found = self.near(word)
        assert len(found) <= 1 and (weight > self.t or found == [codeword])
        return found[0] if found else None


# ---- certificates that prove much
@lru_cache(None)
def denominators(n, u):
    # f whose period is coprime to n; entry_answers.py has sheets with others. Periods that are powers of 2 are left out where there are
    # others: f is then a power of x + 1
    found = [f for f in range(2 ** u + 1, 2 ** (u + 1), 2) if gcd(period_of(f), n) == 1]
    return [f for f in found if period_of(f).bit_count() > 1] or found


@lru_cache(None)
def period_of(f):
    return period(bits(f))


@lru_cache(None)
def numerators(f):
    return [h for h in range(1, 2 ** (f.bit_length() - 1)) if common_factor(bits(f), bits(h)) == 0]


def drawn_certificate(draw, n, u):
    # b, z, f, h of rules 1 to 3
    f = draw.of(denominators(n, u))
    return draw.below(n), draw.of([z for z in range(1, n) if gcd(z, n) == 1]), f, draw.of(numerators(f))


def asked(n, b, z, f, h, terms):
    # what rule 4 asks to be in D
    return [(b + j * z) % n for j, a in enumerate(series(bits(h), bits(f), terms)) if a]


def longest(n, zeros, b, z, f, h):
    # the most terms that rule 4 allows
    for j, a in enumerate(series(bits(h), bits(f), 1023)):
        if a and (b + j * z) % n not in zeros:
            return j
    return 1023


def zeros_of(n, representatives):
    return set().union(*[coset(r, n) for r in representatives])


def representatives_of(n, members):
    return sorted({min(coset(i, n)) for i in members})


def distance(u, h, terms):
    return max(0, -((h.bit_length() - 1 - terms) // u)) + 1


def drawn_code(draw, n, u):
    # D, its representatives and the certificate that asked for them: of a dozen the one that corrects most, with most messages
    best, worth = None, 0
    for _ in range(12):
        b, z, f, h = drawn_certificate(draw, n, u)
        representatives = representatives_of(n, asked(n, b, z, f, h, u + 1 + draw.below(5 * u)))
        zeros = zeros_of(n, representatives)
        terms = longest(n, zeros, b, z, f, h)
        value = min((distance(u, h, terms) - 1) // 2, 6) * (n - len(zeros))
        if value > worth and len(representatives) <= 32:
            best, worth = (zeros, representatives, certificate(b, z, f, h, terms)), value
    return best


def drawn_sheets(draw):
    # each length with f of each degree
    for n in LENGTHS:
        for u in range(1, 9):
            found = drawn_code(draw, n, u)
            if found:
                yield sheet(n, *found[1:])


def mixed_sheets(draw):
    # several certificates on one sheet
    for n in LENGTHS:
        found = drawn_code(draw, n, 1 + draw.below(3))
        if found:
            zeros, representatives, certificates = *found[:2], [found[2]]
            while len(certificates) < 2 + n % 3:
                b, z, f, h = drawn_certificate(draw, n, 1 + draw.below(4))
                terms = longest(n, zeros, b, z, f, h)
                if terms:
                    certificates.insert(draw.below(len(certificates) + 1), certificate(b, z, f, h, terms))
            yield sheet(n, representatives, *certificates)


H = sheet(7, [1], certificate(1, 1, 3, 1, 2))
E = sheet(7, [0, 1], certificate(0, 1, 3, 1, 3))
S = sheet(17, [1], certificate(13, 1, 7, 3, 9))
B = sheet(15, [1, 3], certificate(1, 1, 3, 1, 4))


# Bounds of document 001's tables: the length, what D holds, a certificate and d. Where a table's h does not fit its set, the set
# decides.
PUBLISHED = ((17, (1,), (-4, 1, 7, 3, 9), 5), (65, (1,), (-4, 1, 7, 3, 9), 5), (65, (1, 5), (-6, 1, 7, 2, 13), 7),
             (65, (1, 5, 7), (-10, 1, 7, 3, 21), 11), (45, (-5, -3, 3, 5), (-9, 2, 15, 4, 10), 4),
             (17, (3, 5, 11), (-11, 2, 15, 7, 12), 5), (65, (3, 5, 11, 13), (-17, 2, 15, 4, 18), 7),
             (127, (-3, 0, 1, 7), (-4, 1, 11, 6, 13), 5), (127, (-3, 0, 1, 7, 9), (-4, 1, 11, 6, 15), 6),
             (127, (-3, 0, 1, 7, 9, 11), (-4, 1, 11, 6, 18), 7), (73, (-3, 1, 3, 9), (-6, 1, 19, 11, 20), 6))

# Certificates found by search, each of which proves more than those with f = 3 of any start and step.
FOUND = ((31, 10, 26, 7, 1, 7), (31, 13, 24, 11, 3, 24), (45, 29, 17, 15, 7, 32), (63, 35, 55, 31, 12, 29), (73, 0, 20, 7, 2, 13),
         (85, 6, 21, 7, 2, 25), (89, 36, 88, 7, 2, 41), (91, 6, 5, 7, 1, 30), (105, 83, 101, 47, 18, 47), (117, 85, 7, 23, 7, 39),
         (127, 43, 37, 7, 3, 17), (127, 7, 69, 21, 2, 19))


def strong_sheets():
    for n, members, (b, z, f, h, terms), d in PUBLISHED:
        assert distance(f.bit_length() - 1, h, terms) == d
        yield sheet(n, representatives_of(n, [i % n for i in members]), certificate(b % n, z, f, h, terms))
    for n, b, z, f, h, terms in FOUND:
        representatives = representatives_of(n, asked(n, b, z, f, h, terms))
        zeros = zeros_of(n, representatives)
        assert distance(f.bit_length() - 1, h, terms) > bch_bound(n, zeros)
        yield sheet(n, representatives, certificate(b, z, f, h, terms))


def chosen_sheets():
    yield from (H, E, B)
    yield from strong_sheets()
    # Golay's code corrects three errors, its certificate two
    yield sheet(23, [1], certificate(1, 1, 3, 1, 4))
    # t = 0
    for n in (3, 17, 65, 127):
        yield sheet(n, [], certificate(0, 1, 7 if n % 3 else 11, 2, 1))
        yield sheet(n, [0], certificate(0, 1, 3, 1, 1))
    # length 127: the BCH code of the bench with fewer terms and with all, the radius 27, and the largest of all, 63
    for terms in (1, 2, 11, 12, 19, 20):
        yield sheet(127, BCH, certificate(1, 1, 3, 1, terms))
    yield sheet(127, BCH, certificate(1, 1, 3, 1, 9), certificate(20, 126, 3, 1, 19), certificate(2, 2, 3, 1, 20),
                certificate(1, 1, 3, 1, 20))
    yield sheet(127, ALL_BUT_0[:16], certificate(1, 1, 3, 1, 54))
    yield sheet(127, ALL_BUT_0, certificate(1, 1, 3, 1, 126))
    yield sheet(127, ALL_BUT_0, longest_of_all())


def longest_of_all():
    # f of degree 8 over the code of two words: some 1,000 terms
    zeros = set(range(1, 127))
    terms, b, h = max((longest(127, zeros, b, 1, 285, h), b, h) for h in range(1, 256) for b in range(0, 127, 9))
    return certificate(b, 1, 285, h, terms)


def whole_sheets(draw):
    # those of which all words are decoded
    yield from (H, E, B, S)
    for n in (3, 5, 7, 9, 11):
        cosets = representatives_of(n, range(n))
        for count in range(len(cosets)):
            for representatives in combinations(cosets, count):
                zeros = zeros_of(n, representatives)
                for u in range(1, 9):
                    drawn = [drawn_certificate(draw, n, u) for _ in range(12)]
                    best = max(drawn, key=lambda c: distance(u, c[3], longest(n, zeros, *c)))
                    if longest(n, zeros, *best):
                        yield sheet(n, representatives, certificate(*best, longest(n, zeros, *best)))
    for n, u in ((13, 1), (13, 2), (13, 5), (15, 3), (15, 6)):
        yield sheet(n, *drawn_code(draw, n, u)[1:])
    # f with a period that is not coprime to n
    yield sheet(9, [0, 1], certificate(0, 4, 19, 5, 15))
    yield sheet(15, [0, 3, 5], certificate(5, 7, 67, 19, 17))
    yield sheet(15, [1], certificate(2, 2, 3, 1, 2))
    yield sheet(15, [1, 3, 5], certificate(2, 2, 3, 1, 2), certificate(1, 1, 3, 1, 6))
    yield sheet(15, [0, 1, 3], certificate(4, 8, 3, 1, 2), certificate(0, 1, 3, 1, 5))
    yield sheet(15, [0, 1, 3], certificate(0, 1, 5, 1, 9), certificate(0, 1, 3, 1, 5), certificate(1, 1, 3, 1, 4))


# ---- calls: the kind, 3 for a word and 4 for all, what is handed over, how long the buffer is or the words are, and the answer
def in_answer(codeword, word, n):
    if codeword is None:
        return 'decode refused 13 ' + 'aa' * ((n + 7) // 8)
    return 'decode returned %d %s' % ((codeword ^ word).bit_count(), word_bytes(codeword, n).hex())


def weights(code):
    # numbers of errors: all up to t, or some where there are many; and more than t
    few = range(code.t + 1) if code.t <= 10 else [0, 1, 2, 10, code.t // 2, code.t - 1, code.t]
    return list(few) + [w for w in (code.t + 1, code.t + 2, 2 * code.t + 1, code.n // 2, code.n) if code.t < w <= code.n]


def word_calls(draw, of_sheet):
    code = Code(of_sheet)
    n, b = code.n, (code.n + 7) // 8
    for weight in weights(code):
        codeword, pattern = encoded(draw.bits(code.k), code.g), draw.pattern(n, weight)
        found = code.decoded(codeword, pattern)
        if found != 'open':
            yield 3, word_bytes(codeword ^ pattern, n), b, in_answer(found, codeword ^ pattern, n)


def length_calls(of_sheet):
    # refusals 11 and 12, in their order
    n, b = of_sheet[2], (of_sheet[2] + 7) // 8
    for given in sorted({0, b - 1, b + 1, 20} - {b}):
        for space in (0, b):
            yield 3, bytes(given), space, 'decode refused 11 ' + 'aa' * space
    for space in sorted({0, b - 1, b + 1, 20} - {b}):
        yield 3, bytes(b), space, 'decode refused 11 ' + 'aa' * space
        yield 3, bytes(b - 1) + b'\xff', space, 'decode refused 11 ' + 'aa' * space
    for place in range(n, 8 * b):
        for rest in (0, 1, 2 ** n - 1, 3 << n // 2):
            yield 3, word_bytes(rest | 1 << place, n), b, 'decode refused 12 ' + 'aa' * b


def refused_calls(number):
    # a refused sheet, with words and buffers that have the right length, and others
    for given, space in ((b'\x80', 1), (bytes(16), 16), (b'\xff\xff', 2), (b'', 0)):
        yield 3, given, space, 'decode refused %s ' % number + 'aa' * space


def whole_call(of_sheet):
    # the buffer has 3 bytes, of which a word's are lent; the checksum takes them as a number, the low byte first
    code = Code(of_sheet)
    counts, refused, checksum = [0] * 8, 0, 0
    for word in range(2 ** code.n):
        found = code.near(word)
        if found:
            reply, buffer = (found[0] ^ word).bit_count(), word_bytes(found[0], code.n)
            counts[reply] += 1
        else:
            reply, buffer = 128 + 13, b''
            refused += 1
        checksum = (checksum * 1000003 + (reply << 24) + int.from_bytes(buffer.ljust(3, b'\xaa'), 'little')) % 4294967291
    yield 4, b'', code.n, 'all changed %s refused %d checksum %d' % (' '.join(map(str, counts)), refused, checksum)


def cases(of_sheet, *pairs):
    # document 01's own: the received word and the right one
    n = of_sheet[2]
    for word, codeword in pairs:
        yield 3, word_bytes(word, n), (n + 7) // 8, in_answer(codeword, word, n)


def byte_examples():
    # document 02's for sheet H: word 01 has a spare bit, and word 80 is the mask 1 of case 5
    yield 3, b'\x01', 1, 'decode refused 12 aa'
    yield 3, b'\x80', 1, 'decode returned 1 00'


def sheets_with_calls():
    draw = Sequence(20261115)
    yield H, cases(H, (10, 11), (1, 0), (127, 127))
    yield H, byte_examples()
    yield E, cases(E, (3, None), (28, 29))
    for s in whole_sheets(draw):
        yield s, whole_call(s)
    accepted = [s for s in SHEETS if answer(s).startswith('accepted')]
    for s in [*chosen_sheets(), *drawn_sheets(draw), *mixed_sheets(draw), *accepted]:
        yield s, word_calls(draw, s)
    for s in (H, S, B, sheet(65, [1], certificate(1, 1, 3, 1, 2)), sheet(127, BCH, certificate(1, 1, 3, 1, 20))):
        yield s, length_calls(s)
    for s in known():
        told = answer(s).split()
        if told[0] == 'refused':
            yield s, refused_calls(told[1])


def decode_calls():
    for s, calls in sheets_with_calls():
        for call in calls:
            yield s, *call
