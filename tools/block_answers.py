# Calls of decode_block (document 02, request 2026-07), and what they are to answer, made without any of the product's code.
# tools/answers.py puts them together with those of the other entries.
#
# A call hands over m and a block, with an output that holds AA before and verdicts that hold 55. Its answer is 'decode_block returned 0
# output verdicts' or 'decode_block refused number output verdicts', with both as they are afterwards. Here a block is a list of its bits in
# turn, and its words are every m-th of them. What is right for a word is found as in decode_answers.py, by search, or by Massey's register
# as in marked_answers.py; blocks with a word of which that isn't known are left out. Words of IT++ and GUAVA are put into blocks with what
# those programs said. tools/second_reading.py goes by single places instead.
#
# The input of a call is m, eight bytes, the length of the output, two, the low one first, that of the verdicts, one, and the block.
import vectors
from decode_answers import B, E, H, S, Sequence, chosen_sheets, drawn_sheets, mixed_sheets
from entry_answers import BCH, ORDERS, SHEETS, WIDER, answer, certificate, encoded, known, sheet, word_bytes
from marked_answers import MarkedCode

DEPTHS = range(2, 17)
# what the program can lend, and take as a block
MOST_OUT, MOST_VERDICTS, MOST_BLOCK = 300, 20, 289


def size(count):
    return (count + 7) // 8


def handed(m, space, verdicts, block):
    return 11, m.to_bytes(8, 'little') + space.to_bytes(2, 'little') + bytes([verdicts]) + block, 0


def refused(number, m, space, verdicts, block):
    return *handed(m, space, verdicts, block), 'decode_block refused %s %s %s' % (number, 'aa' * space, '55' * verdicts)


# ---- blocks as lists of bits
def interleaved(words, n):
    return [word >> j & 1 for j in range(n) for word in words]


def packed(bits):
    # high bit first, spare bits 0
    number = int(''.join(map(str, bits)), 2) << -len(bits) % 8
    return number.to_bytes(size(len(bits)), 'big')


def word_at(bits, m, i):
    return sum(bit << j for j, bit in enumerate(bits[i::m]))


# ---- what is right
def answered(n, m, bits, found):
    # the call with a block of the right form; for each word the codeword within t places, or None
    out, verdicts = '', ''
    for i in range(m):
        right = found[i]
        out += 'aa' * size(n) if right is None else word_bytes(right, n).hex()
        verdicts += 'ff' if right is None else '%02x' % (right ^ word_at(bits, m, i)).bit_count()
    return *handed(m, m * size(n), m, packed(bits)), 'decode_block returned 0 %s %s' % (out, verdicts)


def decoded(code, m, bits, made):
    # the same, decoded word by word; `made` are the codewords that the words are made from. None where a word's answer is open
    found = [code.corrected(made[i], word_at(bits, m, i)) for i in range(m)]
    return None if 'open' in found else answered(code.n, m, bits, found)


def drawn_words(draw, code, m):
    return [encoded(draw.bits(code.k), code.g) for _ in range(m)]


# ---- calls: the kind, what is handed over, 0, and the answer
def error_calls(draw, code, m):
    # no place wrong; up to t in each word; up to t + 2, and in some words alone; and any bits
    n, t = code.n, code.t
    for weights in ([0] * m, [t] * m, [draw.below(t + 1) for _ in range(m)], [draw.below(t + 3) for _ in range(m)],
                    [(t + 1) * (draw.below(3) == 0) for _ in range(m)], [t + 1 + draw.below(2) for _ in range(m)]):
        made = drawn_words(draw, code, m)
        bits = interleaved([word ^ draw.pattern(n, min(weight, n)) for word, weight in zip(made, weights)], n)
        yield decoded(code, m, bits, made)
    made = [0] * m
    yield decoded(code, m, [draw.below(2) for _ in range(n * m)], made)


def spoiled(code, m, made, wrong, whole):
    bits = interleaved(made, code.n)
    for p in wrong:
        bits[p] ^= 1
    call = decoded(code, m, bits, made)
    if whole:
        # "A block of codewords with at most m·t neighbouring bits spoiled, none spare, always comes back whole"
        assert call[3].split()[3] == ''.join(word_bytes(word, code.n).hex() for word in made)
    return call


def run_calls(draw, code, m):
    # neighbouring bits spoiled, from every bit on: m·t of them, some of so many, and one more than m·t
    most, end = m * code.t, code.n * m
    for start in range(end):
        made = drawn_words(draw, code, m)
        if start + most <= end:
            yield spoiled(code, m, made, range(start, start + most), True)
            some = [p for p in range(start, start + most) if p in (start, start + most - 1) or draw.below(2)]
            yield spoiled(code, m, made, some, True)
        if start + most < end:
            yield spoiled(code, m, made, range(start, start + most + 1), False)


def few_run_calls(draw, code, m):
    # the same for longer codes, from some bits on, and with shorter runs
    most, end = m * code.t, code.n * m
    for length in sorted({1, m, m + 1, 1 + draw.below(most), most - 1, most, most + 1} & set(range(1, end + 1))):
        for start in sorted({0, draw.below(end - length + 1), end - length}):
            yield spoiled(code, m, drawn_words(draw, code, m), range(start, start + length), length <= most)


def other_calls(draw):
    # what IT++ and GUAVA said of received words: words of one code one after the other, as many as m says and from the first again
    for code in vectors.codes():
        n, _, t = vectors.numbers_of(code)
        start = 0
        while start < len(code.received):
            m = 2 + draw.below(15)
            taken = [code.received[(start + i) % len(code.received)] for i in range(m)]
            found = [right if right is not None and (word ^ right).bit_count() <= t else None for word, right in taken]
            yield code.sheet, *answered(n, m, interleaved([word for word, _ in taken], n), found)
            start += m


# ---- refusals
WRONG = [0, 1, 17, 18, 31, 32, 255, 256, 257, 258, 256 + 16, 2 ** 16 + 2, 2 ** 31 + 2, 2 ** 32, 2 ** 32 + 2, 2 ** 32 + 16, 2 ** 56 + 2,
         2 ** 63, 2 ** 63 + 2, 2 ** 64 - 16, 2 ** 64 - 2, 2 ** 64 - 1]


def fits(block, space, verdicts):
    return block <= MOST_BLOCK and space <= MOST_OUT and verdicts <= MOST_VERDICTS


def m_calls(n):
    # 17, with buffers as m asks for them, as its low bits do, or as other m do; before 11 and 12
    for m in WRONG:
        for asked in sorted({m, m % 256, m % 16, 2, 7, 16}):
            block, space, verdicts = size(n * asked), asked * size(n), asked
            if fits(block, space, verdicts):
                yield refused(17, m, space, verdicts, bytes(block))
                yield refused(17, m, space, verdicts, b'\xff' * block)
        yield refused(17, m, 1, 1, b'')
        yield refused(17, m, 0, 0, b'\xff')


def length_calls(n, m):
    # 11, of block, output and verdicts, with spare bits too
    block, space = size(n * m), m * size(n)
    for wrong in sorted({0, 1, block - 1, block + 1, space, size(n), n} - {block}):
        for fill, lent in ((b'\0', space), (b'\xff', space), (b'\0', block)):
            if fits(wrong, lent, m):
                yield refused(11, m, lent, m, fill * wrong)
    for wrong in sorted({0, 1, space - 1, space + 1, block, size(n), n, 16 * size(n)} - {space}):
        for fill in (b'\0', b'\xff'):
            if fits(block, wrong, m):
                yield refused(11, m, wrong, m, fill * block)
    for wrong in sorted({0, 1, m - 1, m + 1, 16, 20} - {m}):
        for fill in (b'\0', b'\xff'):
            yield refused(11, m, space, wrong, fill * block)
    if fits(block, space + 1, m + 1):
        yield refused(11, m, space + 1, m + 1, bytes(block))


def spare_calls(draw, code, m):
    # 12, in each spare bit and in all, over codewords and over any bits
    n = code.n
    block, space = size(n * m), m * size(n)
    spare = range(8 * block - n * m)
    for ones in [*[1 << i for i in spare], 2 ** len(spare) - 1] if spare else []:
        for bits in (interleaved(drawn_words(draw, code, m), n), [draw.below(2) for _ in range(n * m)], [0] * (n * m)):
            given = packed(bits)
            given = given[:-1] + bytes([given[-1] | ones])
            yield refused(12, m, space, m, given)
        yield refused(11, m, space, m - 1, given)
        yield refused(11, m, space - 1, m, given)


def sheet_calls(number, i):
    # a refused sheet, with a right m and others
    for j, m in enumerate((2, 0, 16, 2 ** 64 - 1)):
        given, space, verdicts = ((b'\x80\0', 2, 2), (b'\xff\xff\xff', 4, 3), (b'', 0, 0))[(i + j) % 3]
        yield refused(number, m, space, verdicts, given)


# ---- sheets
GOLAY = sheet(23, [1], certificate(1, 1, 3, 1, 4))
BCH_63 = sheet(63, [1, 3], certificate(1, 1, 3, 1, 4))
BCH_127 = sheet(127, BCH, certificate(1, 1, 3, 1, 20))
RATIONAL = [sheet(n, r, certificate(b, z, f, h, terms)) for n, r, b, z, f, h, terms, d in WIDER if n in (9, 21, 33) and d > 4]
# t = 0
EVEN = [sheet(n, [0], certificate(0, 1, 3, 1, 1)) for n in (3, 7, 17, 127)]
WHOLE = sheet(17, [], certificate(0, 1, 7, 2, 1))
# those with runs from every bit on
RUNS = ((H, (2, 3, 5, 8, 16)), (E, (2, 7)), (B, (2, 3, 8, 11)), (S, (2, 8)))


def sheets_with_calls():
    draw = Sequence(20261207)
    for s, few in RUNS:
        for m in few:
            yield s, run_calls(draw, MarkedCode(s), m)
    for s in (H, E, S, B, GOLAY, *RATIONAL[::2]):
        for m in DEPTHS:
            yield s, error_calls(draw, MarkedCode(s), m)
    for s in (*EVEN, WHOLE, BCH_63):
        for m in (2, 3, 8, 13, 16):
            yield s, error_calls(draw, MarkedCode(s), m)
    for m in (2, 5, 8, 15, 16):
        yield BCH_127, error_calls(draw, MarkedCode(BCH_127), m)
    for s in (GOLAY, BCH_63, BCH_127, RATIONAL[0]):
        for m in (2, 7, 16):
            yield s, few_run_calls(draw, MarkedCode(s), m)
    accepted = [s for s in SHEETS + ORDERS if answer(s).startswith('accepted')]
    for s in [*list(chosen_sheets())[3:], *list(drawn_sheets(draw))[::12], *list(mixed_sheets(draw))[::4], *accepted[::6]]:
        yield s, error_calls(draw, MarkedCode(s), 2 + draw.below(15))
    for s in (H, S, BCH_127):
        yield s, m_calls(s[2])
    for s, few in ((H, (2, 3, 8, 16)), (S, (2, 7, 16)), (B, (2, 5)), (BCH_63, (3, 16)), (BCH_127, (2, 9, 15, 16))):
        for m in few:
            yield s, length_calls(s[2], m)
            yield s, spare_calls(draw, MarkedCode(s), m)
    for i, s in enumerate(known()):
        told = answer(s).split()
        if told[0] == 'refused':
            yield s, sheet_calls(told[1], i)


def block_calls():
    for s, calls in sheets_with_calls():
        for call in calls:
            if call:
                yield s, *call
    yield from other_calls(Sequence(20261208))
