# Calls of decode_block at and on either side of every boundary of request 2026-07 of document 02, and with two refusals true at once.
# tools/boundary_answers.py puts them among its own and answers them by tools/second_reading.py.
#
# A call is a sheet, the kind, 11, the input, and 0. The input is m, eight bytes, the lengths of the output, two, and of the verdicts, one,
# and the block.
import second_reading as reading
from boundary_shortened import B, E, H, LONG, NINE, S, run
from entry_answers import certificate, sheet

# among them t = 0, k = 1 and k = n, t below what the code has, and t of the second certificate of two and of the first
SHEETS = (H, E, S, B, NINE, LONG, sheet(3, [1], run(1, 2)), sheet(9, [], certificate(0, 1, 11, 2, 1)), sheet(15, [1, 3, 5], run(1, 6)),
          sheet(23, [1], run(1, 4)), sheet(15, [1, 3], run(1, 2), run(1, 4)), sheet(15, [1, 3], run(1, 4), run(1, 2)),
          sheet(21, [1, 3, 7], certificate(14, 5, 19, 7, 15)))
# what the program can lend and take
MOST_OUT, MOST_VERDICTS, MOST_BLOCK = 300, 20, 289
# m that draw 17: next to 2 and 16, and those of which the low bytes, or all but the highest bit, would be a right m
WRONG = (0, 1, 17, 18, 32, 255, 256, 258, 2 ** 16 + 2, 2 ** 32 + 2, 2 ** 32 + 16, 2 ** 63 + 2, 2 ** 64 - 2, 2 ** 64 - 1)


def handed(m, space, verdicts, block):
    return m.to_bytes(8, 'little') + space.to_bytes(2, 'little') + bytes([verdicts]) + block


def sizes(n, m):
    # of the block, the output and the verdicts
    return reading.in_bytes(n * m), m * reading.in_bytes(n), m


def fits(block, space, verdicts):
    return block <= MOST_BLOCK and space <= MOST_OUT and verdicts <= MOST_VERDICTS


def packed(n, m, words):
    # place j of word i is bit j·m + i, and the first bit of a byte is its highest
    digits = ''.join(str(words[i] >> j & 1) for j in range(n) for i in range(m))
    digits += '0' * (-len(digits) % 8)
    return bytes(int(digits[p:p + 8], 2) for p in range(0, len(digits), 8))


def call(n, m, words):
    _, space, verdicts = sizes(n, m)
    return 11, handed(m, space, verdicts, packed(n, m, words)), 0


def codewords(made, m):
    # of different messages, as far as there are so many
    k = reading.k_of(bytes(made))
    return [reading.codeword(bytes(made), (0x5a3c96f1 * 0x100000001000000010000001 >> i | 1 << i % k) % 2 ** k) for i in range(m)]


def turned_away(made):
    # 17, with buffers that m = 2 or m = 16 asks for, or its low byte, or m itself; 11 and 12 as well
    n = made[2]
    for m in WRONG:
        for asked in sorted({2, 16, m % 256, m % 2 ** 64}):
            block, space, verdicts = sizes(n, asked)
            if fits(block, space, verdicts):
                yield 11, handed(m, space, verdicts, bytes(block)), 0
                yield 11, handed(m, space, verdicts, b'\xff' * block), 0
                yield 11, handed(m, space + 1, verdicts, bytes(block)), 0
        yield 11, handed(m, 0, 0, b''), 0
        yield 11, handed(m, 3, 2, b'\xff'), 0


def wrong_places(made, m):
    # for each word the wrong places: none anywhere; t each; 0 to t + 1 in turn, at the low and the high end; all t + 1; and one word alone
    n, t = made[2], reading.record(bytes(made))[5]
    yield [0] * m
    for weights in ([t] * m, [i % (t + 2) for i in range(m)], [(m - i) % (t + 2) for i in range(m)], [t + 1] * m):
        yield [(1 << weight) - 1 << (0 if i % 2 else n - weight) for i, weight in enumerate(weights)]
    for alone in sorted({0, 1, m // 2, m - 1}):
        for weight in (1, t + 1):
            yield [(1 << weight) - 1 << (3 * i) % (n - weight + 1) if i == alone else 0 for i in range(m)]


def carried(made, m):
    right = codewords(made, m)
    for wrong in wrong_places(made, m):
        yield call(made[2], m, [word ^ places for word, places in zip(right, wrong)])


def single_bits(made, m):
    # one bit of the block, over 0: each place of each word by itself
    n = made[2]
    for p in range(n * m):
        yield call(n, m, [1 << p // m if i == p % m else 0 for i in range(m)])


def runs(made, m):
    # neighbouring bits spoiled: m·t of them, one less and one more, at the ends of the block and around a multiple of m
    n, t, right = made[2], reading.record(bytes(made))[5], codewords(made, m)
    for length in (m * t - 1, m * t, m * t + 1):
        for start in sorted({0, 1, m - 1, m, m + 1, n * m - length - 1, n * m - length} & set(range(n * m - length + 1))):
            spoiled = range(start, start + length)
            yield call(n, m, [word ^ sum(1 << p // m for p in spoiled if p % m == i) for i, word in enumerate(right)])


def wrong_lengths(made, m):
    # 11: each of the three, short and long, alone and with another; the bytes that n·m places have for the output, and those of m words
    # for the block; over codewords, over words with none near, and with spare bits
    n, right = made[2], sizes(made[2], m)
    other = sizes(n, m + 1), sizes(n, m - 1)
    k = reading.k_of(bytes(made))
    others = ({right[1], n * m // 8}, {right[0], m * reading.in_bytes(k), reading.in_bytes(n), n * m}, {16, 2 * m, reading.in_bytes(m), 1})
    for which in range(3):
        for wrong in sorted({0, right[which] - 1, right[which] + 1, other[0][which], other[1][which], *others[which]} - {right[which]}):
            asked = [wrong if i == which else size for i, size in enumerate(right)]
            if fits(*asked):
                for fill in (b'\0', b'\xff', b'\x01'):
                    yield 11, handed(m, asked[1], asked[2], fill * asked[0]), 0
    for more in ((1, 1, 0), (1, 0, 1), (0, 1, 1), (-1, -1, -1), (1, 1, 1)):
        asked = [size + by for size, by in zip(right, more)]
        if fits(*asked):
            yield 11, handed(m, asked[1], asked[2], bytes(asked[0])), 0


def spare_bits(made, m):
    # 12, at each spare bit, over codewords and over words with none near; and 11 of the output and of the verdicts before it
    n, t, (block, space, verdicts) = made[2], reading.record(bytes(made))[5], sizes(made[2], m)
    for p in range(n * m, 8 * block):
        for words in (codewords(made, m), [(2 << t) - 1] * m):
            given = bytearray(packed(n, m, words))
            given[p // 8] |= 128 >> p % 8
            yield 11, handed(m, space, verdicts, bytes(given)), 0
        for lent in ((space + 1, verdicts), (space - 1, verdicts), (space, verdicts + 1), (space, verdicts - 1)):
            yield 11, handed(m, *lent, bytes(given)), 0


def refused_block(given, space, i):
    # the sheet comes before m, and m before the buffers
    for m in (0, 2, 17, 2 ** 64 - 1)[i % 2::2]:
        yield 11, handed(m, space, i % 3, given), 0


def block_questions():
    for made in SHEETS:
        if made in (H, B, S, LONG):
            yield from ((made, *asked) for asked in turned_away(made))
        for m in range(2, 17) if made in (H, E, B) else (2, 3, 8, 15, 16) if made in (S, NINE) else (2, 16) if made == LONG else (2, 7, 16):
            yield from ((made, *asked) for asked in carried(made, m))
    for made, m in ((H, 2), (H, 3), (H, 8), (NINE, 2), (B, 2), (S, 3)):
        yield from ((made, *asked) for asked in single_bits(made, m))
    for made, few in ((H, (2, 3, 8, 16)), (E, (2, 5)), (B, (2, 3, 8, 16)), (S, (2, 16)), (LONG, (2, 16))):
        for m in few:
            yield from ((made, *asked) for asked in runs(made, m))
    for made, few in ((H, (2, 3, 8, 15, 16)), (B, (2, 5, 8)), (S, (2, 3)), (NINE, (2, 7, 16)), (LONG, (2, 15, 16))):
        for m in few:
            yield from ((made, *asked) for asked in wrong_lengths(made, m))
            yield from ((made, *asked) for asked in spare_bits(made, m))
