# Calls at and on either side of every boundary that document 01 and requests 2026-05 to 2026-07 of document 02 have, and with two
# refusals true at once, and what they are to answer by tools/second_reading.py. tools/answers.py puts them together with the other calls,
# boundary_shortened.py has those of 2026-06 and boundary_block.py those of 2026-07.
#
# A definition that is wrong at a boundary, with code that fits it, passes every proof; these calls stand against it. A sheet is as
# right as it can be but for what it is here for, so that only the condition in question tells. Two things no sheet can be: one of 74
# bytes that is accepted (no length up to 127 with s up to 12 has more than 19 cosets, and 74 bytes are 32 representatives), and one
# whose certificate has 1,016 to 1,023 terms and is accepted (it would claim a distance above n). The nearest to them draw 5 and 10.
import sys
from functools import lru_cache

sys.dont_write_bytecode = True
import second_reading as reading
from boundary_block import block_questions, refused_block
from boundary_shortened import refused_sheet, short_questions
from entry_answers import certificate, changed, sheet


def run(b, count):
    # a run of consecutive places: f is 3
    return certificate(b, 1, 3, 1, count)


GOOD = run(1, 2)
H = sheet(7, [1], GOOD)
E = sheet(7, [0, 1], run(0, 3))
S = sheet(17, [1], certificate(13, 1, 7, 3, 9))
B = sheet(15, [1, 3], run(1, 4))
THREE = sheet(63, [1, 3], run(1, 2), run(1, 4), certificate(2, 2, 3, 1, 4))


def leaders(n):
    return sorted({min(reading.coset(r, n)) for r in range(n)})


def stated(base, length):
    return [length % 256, length // 256] + base[2:]


# ---- the header
def lengths():
    # 1: the true length at each end, with the stated one right, one off, and off by 256
    yield from ([], [0], [1])
    for n in (7, 8, 19):
        for length in (9, 10, 11):
            for said in (length, length - 1, length + 1, length + 256):
                yield stated([0, 0, n, 0, 10, 0, 0, 0, 10, 0, 0][:length], said)
    for count, certificates in ((31, 4), (32, 4), (33, 4), (34, 4), (24, 5), (25, 5), (31, 3), (32, 3), (33, 3), (31, 1), (32, 1),
                                (33, 1)):
        for n in (127, 8, 19):
            base = sheet(n, range(count), *[GOOD] * certificates)
            yield base
            yield stated(base, len(base) + 1)
            yield stated(base, len(base) + 256)
    for base in (H, THREE, sheet(3, [], certificate(0, 1, 7, 2, 1))):
        for said in (0, 10, len(base) - 1, len(base) + 1, len(base) + 256, 256 * len(base)):
            yield stated(base, said)


def lengths_of_words():
    # 2 and 3: every n; nothing else is wrong with such a sheet, but where n is below 3
    for n in range(256):
        yield sheet(n, [0], run(0, 1))
    for n in (1, 3, 5, 127, 129):
        yield sheet(n, [], certificate(0, 1, 7 if n % 3 else 11, 2, 1))
    # a generator for every field
    for n in range(3, 128, 2):
        yield sheet(n, [1], run(1, 2))


def headers():
    # 4: each field one off and in its high byte, and the counts with all else fitting them
    for base in (H, THREE, changed(H, 2, 19), changed(THREE, 2, 8)):
        for place in range(3, 10):
            for value in (base[place] + 1, base[place] - 1, base[place] ^ 128, 255, 1, 0):
                if value % 256 != base[place]:
                    yield changed(base, place, value % 256)
        # the length alone, the count of representatives with their offset, and the count of certificates
        yield stated(base + [0], len(base) + 1)
        yield stated(base[:-1], len(base) - 1)
        yield stated(base + GOOD, len(base) + 8)
        yield stated(base[:-8], len(base) - 8)
        for one in (1, -1):
            yield changed(changed(base, 3, base[3] + one), 8, base[8] + one)
            yield changed(base, 6, base[6] + one)
    for certificates in range(6):
        for representatives in ([], [1], [1, 3]):
            yield sheet(15, representatives, *[certificate(1 if representatives else 0, 1, 7, 2, 1)] * certificates)
            yield sheet(7, representatives[:1], *[certificate(1, 1, 7, 2, 1)] * certificates)
    for count in (17, 18, 19, 20, 31, 32, 33, 34, 55):
        yield sheet(127, (leaders(127) + [i for i in range(127) if i not in leaders(127)])[:count], GOOD)


def representatives():
    # 5 and 6; the certificate is right in many of them, since D is the same
    for members in ([2], [4], [7], [8], [255], [6], [5], [3, 1], [1, 1], [0, 0], [0, 3, 1], [0, 1, 1], [1, 0], [0, 7], [0, 1, 7],
                    [0, 8], [1, 8], [1, 2], [0, 2], [1, 5], [1, 6], [0, 1, 2], [0, 1, 3], [1, 3], [0, 1], [0, 1, 3, 3], [0, 1, 2, 3],
                    [0, 2, 3]):
        yield sheet(7, members, GOOD)
    for members in ([1, 3], [3, 1], [1, 1, 3], [1, 3, 3], [1, 3, 5, 3], [1, 3, 5, 5], [1, 3, 7, 5], [1, 3, 5, 1], [2, 3], [1, 6],
                    [1, 9], [1, 3, 10], [1, 3, 14], [1, 3, 15], [1, 3, 16], [1, 3, 18], [15, 1, 3], [16, 3], [1, 18],
                    [0, 1, 3, 5, 7], [1, 3, 5, 7], [0, 1, 3, 5, 14], [0, 1, 3, 7, 5], [3, 0, 1, 5, 7]):
        yield sheet(15, members, run(1, 4))
    for n in (3, 5, 21, 127):
        all_of, but_last = leaders(n), leaders(n)[:-1]
        for members in (all_of, all_of[1:], but_last, but_last + [n - 1], but_last + [n], all_of[1:] + [0]):
            yield sheet(n, members, run(but_last[-1], 1))


# ---- the certificate
def starts_and_steps():
    for n in (7, 15, 21, 127):
        for b in (0, 1, n - 1, n, n + 1, 255):
            yield sheet(n, leaders(n)[:-1] if b < n - 1 else [0] + leaders(n)[2:], run(b, 1))
        for z in (0, 1, 2, 3, 5, 6, 7, n - 2, n - 1, n, n + 1, n + 2, 2 * n, 255):
            yield sheet(n, [1], certificate(1, z % 256, 3, 1, 1))
    yield changed(E, 12, 7)
    yield changed(E, 12, 14)
    yield changed(H, 11, 8)
    yield changed(H, 12, 8)


def masks():
    # u from 0 to 15, with and without a constant term; h at the degree of f, above and below; both bytes of f
    for n in (7, 15, 31):
        for f in (0, 1, 2, 3, 4, 5, 6, 8, 9, 17, 19, 31, 33, 65, 129, 256, 257, 258, 259, 285, 286, 511, 513, 529, 545, 1025, 1033,
                  2049, 2053, 4097, 4179, 8193, 16385, 32769, 32771):
            for h in (1, 2):
                yield sheet(n, [1], certificate(1, 1, f, h, 1))
    for n, f in ((7, 3), (7, 7), (15, 11), (7, 19), (7, 31), (7, 285), (11, 13)):
        top = 2 ** reading.degree(f)
        for h in sorted({0, 1, top // 2, top - 1, top, top + 1, f, 2 * top, 2 * top + 1, 128, 255}):
            for representatives in ([1], []):
                if h < 256:
                    yield sheet(n, representatives, certificate(1, 1, f, h, 1))
    # rules 2 and 3
    for n in (7, 9, 15, 21, 17):
        for f, h in ((5, 3), (9, 3), (9, 5), (9, 6), (9, 7), (9, 1), (9, 2), (15, 3), (15, 5), (21, 7), (21, 1), (7, 1), (7, 3),
                     (11, 1), (13, 6), (19, 1), (31, 1), (31, 2), (73, 1), (5, 1), (5, 2), (63, 7), (63, 1), (283, 1), (285, 1),
                     (451, 1), (257, 3), (511, 1), (471, 2)):
            yield sheet(n, [1], certificate(1, 1, f, h, 1))


def terms():
    # L at each end, with all cosets but one in D
    for high in (0, 1, 2, 3, 4, 255):
        for low in (0, 1, 2, 3, 246, 247, 248, 254, 255):
            yield sheet(127, leaders(127)[1:], longest(low + 256 * high))
    for z in (2, 64, 65, 126):
        for count in (1014, 1015, 1016):
            yield sheet(127, leaders(127)[1:], longest(count, z))
    for base, most in ((S, 9), (B, 4), (H, 2), (E, 3)):
        for low in range(most + 3):
            for high in (0, 1):
                yield base[:-2] + [low, high]
    for zero in (1, 2, 128, 255):
        yield changed(H, 16, zero)
    # the distance where L is below v, v, and on: d is rounded up
    for h in (1, 2, 4, 5, 7):
        for count in range(1, 12):
            yield sheet(17, [1, 3], certificate(1, 1, 11, h, count))
            yield sheet(15, [0, 1, 3, 5], certificate(0, 1, 11, h, count))
    for members, c in (((1, 5, 7), (55, 1, 7, 3)), ((3, 5, 11, 13), (48, 2, 15, 4)), ((1, 3), (0, 1, 3, 1)), ((1, 3), (5, 1, 3, 1))):
        for count in range(1, 23):
            yield sheet(65, sorted({min(reading.coset(r, 65)) for r in members}), certificate(*c, count))


@lru_cache(None)
def longest_numerator():
    # h is such that the terms at 126, 253 and so on to 888 are 0: with b = z they stand at 0, the one coset not in D. The next of
    # those is at 1,015
    return next(h for h in range(1, 256) if not any(reading.series(h, 285, 1015)[126::127]))


def longest(count, z=1):
    return certificate(z, z, 285, longest_numerator(), count)


# ---- two refusals at once
def both(i, j):
    # n is 21 where it is right; 129 and 43 have s = 14, 57 has s = 18 and shares 3 with the period of f = 7, 255 has s = 8
    special = {(2, 3): 129, (2, 6): 1, (3, 9): 57}
    n = special.get((i, j), 255 if 2 in (i, j) else 43 if 3 in (i, j) else 21)
    members = leaders(n) if 6 in (i, j) else [2] if 5 in (i, j) else [1]
    if (i, j) == (5, 6):
        members[-1], members[-2] = members[-2], members[-1]
    f, h = (9, 3) if (i, j) == (8, 9) else (5, 3) if 8 in (i, j) else (7, 1) if 9 in (i, j) else (3, 1)
    b, count = (3 if 10 in (i, j) else 1 % n), 0 if j == 7 or i == 7 and j < 10 else 1
    made = sheet(n, members, certificate(b, 1, f, h, count, 1 if (i, j) == (7, 10) else 0))
    if i == 1:
        made = stated(made, len(made) + 1)
    return changed(made, 7, 1) if 4 in (i, j) else made


def pairs():
    for i in range(1, 10):
        for j in range(i + 1, 11):
            # with k = 0 all is in D, and rule 4 cannot fail
            if (i, j) != (6, 10):
                made = both(i, j)
                assert reading.judged(bytes(made)) == i and holds(j, bytes(made)), (i, j)
                yield made
    # each way to fail with 7, and 8, 9 or 10 as well
    for one in ({0: 21}, {1: 0}, {1: 3}, {1: 22}, {3: 2}, {4: 0}, {4: 8}, {5: 1}, {6: 0}, {7: 4}, {2: 8}):
        for f, h, b in ((5, 3, 1), (7, 1, 1), (3, 1, 3), (9, 3, 3)):
            c = certificate(b, 1, f, h, 1)
            for place, value in one.items():
                c[place] = value
            yield sheet(21, [1], c)
    for n, members in ((7, [0, 1, 3]), (21, leaders(21))):
        for c in (run(n, 1), certificate(0, 1, 5, 3, 1), certificate(0, 1, 11, 1, 1), run(0, 0)):
            yield sheet(n, members, c)


def holds(number, made):
    n, members = made[2], reading.defining_set(made)
    if number < 7:
        return dict(reading.SHEET)[number](made)
    return dict(reading.CERTIFICATE)[number](n, members, reading.certificates_of(made)[0])


FAILING = {0: GOOD, 7: run(1, 0), 8: certificate(1, 1, 5, 3, 1), 9: certificate(1, 1, 7, 1, 1), 10: run(1, 3)}


def several():
    # one certificate after the other: which fails first, and with what
    for first in FAILING:
        for second in FAILING:
            for before in range(3):
                for after in range(3 - before):
                    yield sheet(21, [1], *[GOOD] * before, FAILING[first], FAILING[second], *[GOOD] * after)
    # which one works: d is 2, 3, 4, 5 and t is 0, 1, 1, 2 for 1 to 4 terms
    for counts in [(i, j) for i in range(1, 5) for j in range(1, 5)] + [
            (1, 2, 3), (1, 3, 2), (2, 3, 4), (3, 2, 1), (1, 1, 1), (2, 4, 4), (2, 3, 4, 4), (1, 3, 2, 3), (4, 3, 2, 1), (3, 4, 4, 3),
            (1, 1, 2, 3), (1, 1, 1, 2), (3, 3, 3, 4), (1, 4, 3, 4), (2, 1, 1, 3)]:
        yield sheet(15, [1, 3], *[run(1, count) for count in counts])
    # more terms with no larger t
    yield sheet(17, [1], certificate(13, 1, 7, 3, 6), run(1, 2), certificate(13, 1, 7, 3, 9))
    yield sheet(17, [1], certificate(13, 1, 7, 3, 4), run(1, 2), certificate(13, 1, 7, 3, 5))
    # one d with two numbers of terms: d is 3, 3, 4, 4, 5, 5 for 4 to 9 terms
    for counts in [(i, j) for i in range(4, 10) for j in range(4, 10)] + [
            (9, 8, 9), (8, 9, 8), (9, 8, 8), (9, 9, 8), (7, 8, 6), (6, 9, 8), (8, 7, 9), (9, 7, 8), (9, 9, 8, 8), (9, 8, 9, 8), (7, 6, 9, 8),
            (5, 4, 7, 6)]:
        yield sheet(17, [1], *[certificate(13, 1, 7, 3, count) for count in counts])
    # one t, or one d, by other numbers of terms: d is 5, 6, 5, 5, 6, 6
    mixed = (run(1, 4), run(0, 5), *[certificate(0, 1, 5, 1, count) for count in (7, 8, 9, 10)])
    for first in mixed:
        for second in mixed:
            yield sheet(15, [0, 1, 3], first, second)
            yield sheet(15, [0, 1, 3], first, second, mixed[0])
    # one d, L 8 and 4, of which 2 and 3 terms are not 0
    yield sheet(7, [1], certificate(4, 1, 17, 1, 8), certificate(1, 1, 7, 1, 4))
    yield sheet(7, [1], certificate(1, 1, 7, 1, 4), certificate(4, 1, 17, 1, 8))


# ---- calls: a sheet, the kind, the input and the length of the buffer
def sheet_calls():
    for group in (lengths, headers, representatives, starts_and_steps, masks, terms, pairs, several):
        for i, made in enumerate(group()):
            yield made, 0, b'', 0
            if reading.judged(bytes(made)):
                # the sheet comes before the buffers, whatever is wrong with them
                b = (made[2] + 7) // 8 if len(made) > 2 and made[2] < 128 else 2
                given, space = ((b'', b), (b'\xff' * b, b), (bytes(b), 0), (bytes(b + 1), b), (b'\xff' * b, b + 1))[i % 5]
                for kind in (1, 2, 3) if group == pairs else (1 + i % 3,):
                    yield made, kind, given, space
                if group == pairs:
                    yield made, 6, marked_given(given, given[1:], b, space), 0
                    for call in [*refused_sheet(given, space, i), *refused_block(given, space, i)]:
                        yield made, *call
    for made in lengths_of_words():
        yield made, 0, b'', 0


WORD_SHEETS = (
    H, E, S, B, sheet(3, [1], run(1, 2)), sheet(7, [1, 3], run(1, 6)), sheet(9, [0], run(0, 1)),
    sheet(9, [], certificate(0, 1, 11, 2, 1)), sheet(9, [3], run(3, 1)), sheet(9, [1, 3], run(1, 8)), sheet(15, [0, 1, 5], run(0, 3)),
    sheet(15, [1, 3, 5], run(1, 6)), sheet(15, [0], run(0, 1)), sheet(17, [0], run(0, 1)), sheet(15, [1, 3], run(1, 2)),
    sheet(23, [1], run(1, 4)), sheet(15, [1, 3], run(1, 2), run(1, 4)), sheet(15, [1, 3], run(1, 1), run(1, 3)),
    sheet(15, [1, 3], run(1, 4), run(1, 2)), sheet(65, [1], certificate(61, 1, 7, 3, 9)), sheet(127, [1], GOOD),
    sheet(31, [1, 3], run(1, 4)), sheet(21, [1, 3, 7, 9], run(1, 4)), sheet(17, [], certificate(0, 1, 7, 2, 1)))


def word_calls(made):
    n, k, t = made[2], reading.k_of(bytes(made)), reading.record(bytes(made))[5]
    a, b = reading.in_bytes(k), reading.in_bytes(n)
    messages = sorted({0, 1, 2 ** (k - 1), 2 ** k - 1, 0x5a3c96f1 * 0x100000001000000010000001 % 2 ** k})
    for message in messages:
        word, given = reading.codeword(bytes(made), message), reading.message_bytes(message, k)
        yield 1, given, b
        yield 2, reading.word_bytes(word, n), a
        for wrong in sorted({0, 1, 1 << n - 1, 1 << n - k, (1 << n - k) >> 1, 3 << n - 2, (1 << t) - 1, (1 << t) - 1 << n - t,
                             (2 << t) - 1, (2 << t) - 1 << n - t - 1}):
            yield 2, reading.word_bytes(word ^ wrong, n), a
            yield 3, reading.word_bytes(word ^ wrong, n), b
    near, far = reading.word_bytes(word, n), reading.word_bytes(word ^ ((2 << t) - 1), n)
    # 12, at each spare place, over a codeword and over a word that draws 13 or 14; and 11 before it
    for place in range(k, 8 * a):
        yield 1, reading.message_bytes(message | 1 << place, k), b
        yield 1, reading.message_bytes(message | 1 << place, k), b + 1
    for place in range(n, 8 * b):
        for wrong in sorted({0, 1, (2 << t) - 1}):
            for kind, space in ((2, a), (3, b)):
                yield kind, reading.word_bytes(word ^ wrong | 1 << place, n), space
                yield kind, reading.word_bytes(word ^ wrong | 1 << place, n), space - 1
    # 11: input and output, short and long, alone and together
    for kind, right, space in ((1, given, b), (2, near, a), (2, far, a), (3, near, b), (3, far, b)):
        for handed in sorted({b'', right[:-1], right + b'\0', right + b'\x01'}):
            yield kind, handed, space
        for lent in sorted({0, space - 1, space + 1, a + b - space} - {space}):
            yield kind, right, lent
        yield kind, right + b'\0', space + 1


# ---- words with marks: the kind is 6, or 7 for shown
MARKED_SHEETS = (
    H, E, S, B, sheet(3, [1], run(1, 2)), sheet(7, [1, 3], run(1, 6)), sheet(9, [0], run(0, 1)),
    sheet(9, [], certificate(0, 1, 11, 2, 1)), sheet(15, [1, 3, 5], run(1, 6)), sheet(15, [0, 1, 3], run(0, 5)),
    sheet(15, [0, 1, 3], run(1, 4), run(0, 5)), sheet(15, [0, 1, 3], run(0, 5), run(1, 4)),
    sheet(15, [0, 1, 3], run(0, 3), run(0, 5), certificate(0, 1, 5, 1, 9)),
    sheet(15, [1, 3], run(1, 1), run(1, 3)), sheet(23, [1], run(1, 4)), sheet(127, [1], GOOD))


def marked_given(word, marks, zeros, ones):
    return bytes([len(word), len(marks), zeros, ones]) + word + marks


def marked_call(n, word, marks):
    b = reading.in_bytes(n)
    return 6, marked_given(reading.word_bytes(word, n), reading.word_bytes(marks, n), b, b), 0


def marked_calls(made):
    # r from 0 to d + 1 and n, with e = 0, at the bound and beyond: the places marked are the codeword's ones first, its zeros first, or
    # in turn; as received all of them are wrong, or none, or those below the middle
    n, k, d = made[2], reading.k_of(bytes(made)), reading.record(bytes(made))[4]
    for i, message in enumerate((2 ** k - 1, 0x5a3c96f1 * 0x100000001000000010000001 % 2 ** k)):
        word = reading.codeword(bytes(made), message)
        for r in sorted({*range(d + 2), n - 1, n} & set(range(n + 1))):
            most = (d - 1 - r) // 2
            for e in sorted({0, most, most + 1} & set(range(n - r + 1))):
                for order in (lambda p: (~word >> p & 1, p), lambda p: (word >> p & 1, -p), lambda p: (5 * p + 3 * r) % n):
                    places = sorted(range(n), key=order)
                    marks = sum(1 << p for p in places[:r])
                    wrong = sum(1 << p for p in (places[r:r + e] if i else places[n - e:]))
                    yield marked_call(n, word ^ wrong ^ marks & (0, 2 ** n - 1, 2 ** (n // 2) - 1)[(i + r + e) % 3], marks)


def marked_refusals(made):
    n, t, b = made[2], reading.record(bytes(made))[5], reading.in_bytes(made[2])
    near, far, marks = 0, 2 ** (t + 1) - 1, 2 ** (n - 1)
    # 11: each of the four, and each two
    for word in (near, far, near | 1 << n, far | 1 << 8 * b - 1):
        for wrong in ((0,), (1,), (2,), (3,), (0, 1), (1, 2), (2, 3), (0, 3)):
            for size in sorted({0, b - 1, b + 1} - {b}):
                lengths = [size if place in wrong else b for place in range(4)]
                given = [(reading.word_bytes(x, n) + bytes(1))[:length] for x, length in zip((word, marks), lengths)]
                yield 6, marked_given(*given, *lengths[2:]), 0
    # 12, at each spare place of the word and of the marks, and 11 of a trial buffer before it
    for place in range(n, 8 * b):
        for word in (near, far):
            for spare in ((1 << place, 0), (0, 1 << place), (1 << place, 1 << place)):
                kind, given, _ = marked_call(n, word | spare[0], marks | spare[1])
                yield kind, given, 0
                yield kind, given[:2] + bytes([b, b - 1]) + given[4:], 0
                yield kind, given[:2] + bytes([b + 1, b]) + given[4:], 0


def shown_calls():
    for trial in (0, 1, 2, 256, 2 ** 32, 2 ** 63, 2 ** 64 - 1):
        for n in (0, 1, 7, 8, 9, 127, 128, 129, 256, 2 ** 32, 2 ** 64 - 8, 2 ** 64 - 7, 2 ** 64 - 2, 2 ** 64 - 1):
            for zeros, ones in ((0, 3), (3, 0), (1, 2), (2, 1), (16, 17), (20, 15)):
                if trial < 2 or n in (0, 9, 128, 2 ** 64 - 1):
                    yield [], 7, trial.to_bytes(8, 'little') + n.to_bytes(8, 'little') + bytes([zeros, ones]), 0


def card_calls():
    one_each = {reading.judged(bytes(made)): made for made in [*pairs(), *several(), *lengths(), *headers()]}
    assert sorted(one_each) == list(range(11))
    wide = sheet(127, leaders(127)[1:], longest(1015), *[run(1, count) for count in (126, 100, 99)])
    for made in [*one_each.values(), THREE, wide, *WORD_SHEETS, sheet(105, [1, 3, 5, 7], *[GOOD] * 4),
                 sheet(127, [], certificate(0, 1, 7, 2, 1)), sheet(91, [1, 3, 5], run(1, 2), run(1, 6))]:
        full = len(reading.listing(bytes(made)))
        for length in (0, 1, 10, 11, 12, full, 74, 255, 256, 512, 768, 1023, 1024, 1025, 1280):
            if length == 1024 or made in (H, wide, *one_each.values()):
                yield made, 5, bytes([length % 256, length // 256]), 0


def questions():
    yield from sheet_calls()
    for made in WORD_SHEETS:
        for call in word_calls(made):
            yield made, *call
    for made in MARKED_SHEETS:
        for call in [*marked_calls(made), *(marked_refusals(made) if made in (H, E, S, B) else ())]:
            yield made, *call
    yield from shown_calls()
    yield from short_questions()
    yield from block_questions()
    yield from card_calls()


def boundary_calls():
    for question in questions():
        yield *question, reading.told(*question)
