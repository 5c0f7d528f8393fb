# Calls of decode_marked and of shown (document 02, request 2026-05), and what they are to answer, made without any of the product's
# code. tools/answers.py puts them together with those of the other entries.
#
# A call of decode_marked hands over a word, marks and two buffers, of which that of the zeros holds AA and that of the ones 55 before.
# Its answer is 'marked returned e trial zeros ones' or 'marked refused number zeros ones', with the buffers as they are afterwards.
# The codeword that is right is looked for without trial words: all codewords are gone through, or what lies near any filling of the
# marked places; where both are too many a word is made from a codeword, so that the answer is known. The trial words are decoded as
# in decode_answers.py, and by Massey's register where that does not know the answer and D has zeros enough in a row.
from itertools import product
from math import gcd

from decode_answers import (MOST_MESSAGE_BITS, Code, B, E, H, S, Sequence, chosen_sheets, drawn_sheets, mixed_sheets)
from entry_answers import (BCH, ORDERS, SHEETS, answer, certificate, coset, encoded, known, primitive, remainder, sheet, word_bytes)

MOST_FILLINGS = 4096


# ---- what is right
class Field:
    # of 2^s elements; a power's exponent is that of ω
    def __init__(self, s):
        mask, self.powers = primitive(s), [1]
        while len(self.powers) < 2 ** s - 1:
            self.powers.append(self.powers[-1] * 2 ^ (mask if self.powers[-1] >> s - 1 else 0))
        self.logs = {p: i for i, p in enumerate(self.powers)}

    def power(self, i):
        return self.powers[i % len(self.powers)]

    def times(self, a, b):
        return self.power(self.logs[a] + self.logs[b]) if a and b else 0

    def over(self, a, b):
        return self.power(self.logs[a] - self.logs[b]) if a else 0

    def register(self, sequence):
        # Massey: the shortest linear register that goes on as the sequence does, and its length
        now, before, length, ago, its = [1], [1], 0, 1, 1
        for i in range(len(sequence)):
            wrong = 0
            for j, c in enumerate(now[:length + 1]):
                wrong ^= self.times(c, sequence[i - j])
            if wrong == 0:
                ago += 1
                continue
            by = self.over(wrong, its)
            moved = [0] * ago + [self.times(by, c) for c in before]
            size = max(len(now), len(moved))
            more = [x ^ y for x, y in zip(now + [0] * (size - len(now)), moved + [0] * (size - len(moved)))]
            if 2 * length <= i:
                before, its, length, ago = now, wrong, i + 1 - length, 1
            else:
                ago += 1
            now = more
        return now, length


class MarkedCode(Code):
    def __init__(self, of_sheet):
        super().__init__(of_sheet)
        self.all = self.row = None
        if self.k <= MOST_MESSAGE_BITS:
            self.all = [encoded(message, self.g) for message in range(2 ** self.k)]
        if self.patterns is None and self.codewords is None:
            self.row = self.zeros_in_a_row()
            self.field = Field(len(coset(1, self.n)))

    def zeros_in_a_row(self):
        # a start and a step from which 2 t places in turn are in D, or None
        for z in range(1, self.n):
            for b in range(self.n):
                if gcd(z, self.n) == 1 and all((b + j * z) % self.n in self.zeros for j in range(2 * self.t)):
                    return b, z
        return None

    def by_register(self, word):
        # the codeword within t places: where there is one, the register's polynomial is 0 at the inverses of its wrong places
        (b, z), n, field = self.row, self.n, self.field
        root, places = len(field.powers) // n, [i for i in range(n) if word >> i & 1]
        syndromes = []
        for j in range(2 * self.t):
            syndromes.append(0)
            for i in places:
                syndromes[j] ^= field.power(root * i * (b + j * z))
        locator, length = field.register(syndromes)
        right = word
        for i in range(n):
            value = 0
            for j, c in enumerate(locator):
                value ^= field.times(c, field.power(-root * i * z * j))
            right ^= (value == 0) << i
        return right if (right ^ word).bit_count() <= self.t and remainder(right, self.g) == 0 else None

    def corrected(self, codeword, word):
        # ordinary decoding of a word: a codeword, None for 13, or 'open'
        found = self.decoded(codeword, codeword ^ word)
        if not self.row:
            return found
        right = self.by_register(word)
        assert found in ('open', right)
        return right

    def within(self, codeword, word, marks):
        return 2 * ((codeword ^ word) & ~marks).bit_count() + marks.bit_count() <= self.d - 1

    def found(self, word, marks):
        # all codewords within the bound, by search; None where there is too much to search
        if marks.bit_count() > self.d - 1:
            return []
        if self.all:
            return [c for c in self.all if self.within(c, word, marks)]
        if self.patterns is None or 2 ** marks.bit_count() > MOST_FILLINGS:
            return None
        # such a codeword has some filling of the marked places, and differs from the word so filled in at most (d - 1)/2 places
        near = set()
        for filling in product(*[(0, 1 << i) for i in range(self.n) if marks >> i & 1]):
            near |= {c for c in self.near(word & ~marks | sum(filling)) if self.within(c, word, marks)}
        return list(near)

    def right(self, codeword, word, marks):
        # what decode_marked is to find: a codeword, None for 15, or 'open'. The word is made from the codeword
        near, made = self.found(word, marks), self.within(codeword, word, marks)
        if near is not None:
            assert len(near) <= 1 and (not made or near == [codeword])
            return near[0] if near else None
        if made:
            return codeword
        # another codeword within the bound would differ from this one in at most so many places
        e, r = ((codeword ^ word) & ~marks).bit_count(), marks.bit_count()
        return None if e + (self.d - 1 - r) // 2 + r < self.distance else 'open'

    def answered(self, codeword, word, marks):
        # the line of a call with everything of the right form, and of what kind it is; None where it is open
        n, b = self.n, (self.n + 7) // 8
        right = self.right(codeword, word, marks)
        trials = word & ~marks, word | marks
        decoded = [self.corrected(codeword, trial) for trial in trials]
        kind = (right is None, *[x if x in (None, 'open') else x == right for x in decoded], decoded[0] == decoded[1])
        if right is None:
            return refused(15, b, b), kind
        if right == 'open' or 'open' in decoded:
            return None, kind
        assert right in decoded
        left = [trial if x is None else x for trial, x in zip(trials, decoded)]
        e = ((right ^ word) & ~marks).bit_count()
        return 'marked returned %d %d %s %s' % (e, left[0] != right, *[word_bytes(x, n).hex() for x in left]), kind


# ---- calls: the kind, 6 for decode_marked and 7 for shown, what is handed over, a 0, and the answer
def refused(number, zeros, ones):
    return 'marked refused %s %s %s' % (number, 'aa' * zeros, '55' * ones)


def handed(word, marks, zeros, ones):
    return bytes([len(word), len(marks), zeros, ones]) + word + marks


def call_of(word, marks, n, told):
    b = (n + 7) // 8
    return 6, handed(word_bytes(word, n), word_bytes(marks, n), b, b), 0, told


def chosen_places(draw, places, count):
    places = list(places)
    return sum(1 << places.pop(draw.below(len(places))) for _ in range(min(count, len(places))))


def drawn_marks(draw, codeword, n, r, lean):
    # r places: any, or first those where the codeword has 1 (lean 1) or 0 (lean 0)
    if lean == 2:
        return draw.pattern(n, r)
    first = [i for i in range(n) if codeword >> i & 1 == lean]
    marks = chosen_places(draw, first, r)
    return marks | chosen_places(draw, [i for i in range(n) if i not in first], r - marks.bit_count())


def drawn_word(draw, codeword, n, marks, e):
    # e unmarked places wrong; a marked place may have any value
    unmarked = [i for i in range(n) if not marks >> i & 1]
    return codeword ^ chosen_places(draw, unmarked, e) ^ draw.bits(n) & marks


def amounts(draw, code):
    # numbers of marks and of wrong places that are not marked: at the bound 2 e + r = d - 1, next to it and beyond
    d, t = code.d, code.t
    few = [(0, t), (0, t + 1), (1, (d - 2) // 2), (1, d // 2), (2, t - 1), (2, t), (d - 1, 0), (d - 1, 1), (d, 0), (d + 1, 0)]
    if d > 4:
        r = 3 + draw.below(d - 4)
        few += [(r, (d - 1 - r) // 2), (r, (d + 1 - r) // 2)]
    return [(r, e) for r, e in dict.fromkeys(few) if r >= 0 and e >= 0 and r + e <= code.n]


def drawn_calls(draw, of_sheet, lean):
    code = MarkedCode(of_sheet)
    for i, (r, e) in enumerate(amounts(draw, code)):
        codeword = encoded(draw.bits(code.k), code.g)
        marks = drawn_marks(draw, codeword, code.n, r, (lean + i) % 3)
        word = drawn_word(draw, codeword, code.n, marks, e)
        told, _ = code.answered(codeword, word, marks)
        if told:
            yield call_of(word, marks, code.n, told)


def kinds_calls(draw, of_sheet, each):
    # some of every kind: which trial holds the answer, and whether the other is another codeword or none; where there is no answer,
    # whether a trial is decoded nevertheless
    code, count = MarkedCode(of_sheet), {}
    for i in range(600):
        codeword = encoded(draw.bits(code.k), code.g)
        marks = drawn_marks(draw, codeword, code.n, draw.below(code.d + 1), i % 3)
        word = drawn_word(draw, codeword, code.n, marks, draw.below(code.t + 2))
        told, kind = code.answered(codeword, word, marks)
        count[kind] = count.get(kind, 0) + 1
        if told and count[kind] <= each:
            yield call_of(word, marks, code.n, told)


def small_calls(draw, of_sheet):
    # sheets H and E: every set of marks
    code = MarkedCode(of_sheet)
    for marks in range(2 ** code.n):
        for word in sorted({draw.below(2 ** code.n) for _ in range(6 if marks.bit_count() < code.d else 2)}):
            yield call_of(word, marks, code.n, code.answered(0, word, marks)[0])


def whole_calls(draw, of_sheet):
    # every place marked, which leaves no answer, since a code's distance is at most n; and all but one, which leaves one where d is n
    code = MarkedCode(of_sheet)
    n, every = code.n, 2 ** code.n - 1
    for word in (0, every, draw.bits(n)):
        for marks in (every, every >> 1, every - 1):
            told, _ = code.answered(0, word, marks)
            yield call_of(word, marks, n, told)


def unmarked_calls(draw, of_sheet):
    # no mark: as decode answers, with 15 for 13
    code = MarkedCode(of_sheet)
    n, b = code.n, (code.n + 7) // 8
    for weight in range(min(code.t + 3, n + 1)):
        codeword = encoded(draw.bits(code.k), code.g)
        word = codeword ^ draw.pattern(n, weight)
        found = code.corrected(codeword, word)
        if found is None:
            yield call_of(word, 0, n, refused(15, b, b))
        elif found != 'open':
            held = word_bytes(found, n).hex()
            yield call_of(word, 0, n, 'marked returned %d 0 %s %s' % ((found ^ word).bit_count(), held, held))


# ---- refusals
def length_calls(of_sheet):
    # 11: each of the four, and two at once; with spare bits too, and with nothing near
    b = (of_sheet[2] + 7) // 8
    for place in range(4):
        for wrong in sorted({0, b - 1, b + 1, 17} - {b}):
            for fill in (b'\0', b'\xff'):
                lengths = [b] * 4
                lengths[place] = wrong
                yield wrong_lengths(lengths, fill)
    for places in ((0, 1), (0, 2), (0, 3), (1, 2), (1, 3), (2, 3), (0, 1, 2, 3)):
        for change in (-1, 1):
            yield wrong_lengths([b + change if i in places else b for i in range(4)], b'\0')
    yield wrong_lengths([b + 1, b - 1, b, b], b'\0')
    yield wrong_lengths([b, b, b - 1, b + 1], b'\xff')


def wrong_lengths(lengths, fill):
    return 6, handed(fill * lengths[0], fill * lengths[1], *lengths[2:]), 0, refused(11, *lengths[2:])


def spare_calls(of_sheet):
    # 12: each spare bit of the word and of the marks, with and without an answer, and 11 before it
    n, b = of_sheet[2], (of_sheet[2] + 7) // 8
    far, few = 2 ** n - 2, 1 << n // 2
    for place in range(n, 8 * b):
        for word, marks in ((1 << place, 0), (0, 1 << place), (1 << place, 1 << place), (far | 1 << place, few), (far, few | 1 << place),
                            (1 << place, 2 ** n - 1), (0, 2 ** n - 1 | 1 << place)):
            yield call_of(word, marks, n, refused(12, b, b))
            if place in (n, 8 * b - 1):
                for zeros, ones in ((b - 1, b), (b, b + 1)):
                    yield 6, handed(word_bytes(word, n), word_bytes(marks, n), zeros, ones), 0, refused(11, zeros, ones)


def sheet_calls(number):
    # a refused sheet, with words, marks and buffers that have the right length, and others
    for word, marks, zeros, ones in ((b'\x80', b'\0', 1, 1), (b'\xff\xff', b'\xff\xff', 2, 2), (bytes(16), b'', 16, 0)):
        yield 6, handed(word, marks, zeros, ones), 0, refused(number, zeros, ones)


# ---- shown
TRIALS = (0, 1, 2, 255, 256, 2 ** 32, 2 ** 63, 2 ** 64 - 1)
COUNTS = (*range(18), 63, 64, 65, 127, 128, 129, 152, 153, 160, 161, 255, 256, 2 ** 16, 2 ** 32, 2 ** 32 + 9, 2 ** 61, 2 ** 63,
          *range(2 ** 64 - 9, 2 ** 64))


def shown_calls(draw):
    # the buffer of the zeros holds 0, 1 and so on, that of the ones 128, 129 and so on
    for trial in TRIALS:
        for n in COUNTS:
            if trial in (0, 1) or draw.below(6) == 0:
                zeros, ones = draw.below(21), draw.below(21)
                held = [i + (128 if trial else 0) for i in range(ones if trial else zeros)]
                told = ''.join(format(x, '02x') for i, x in enumerate(held) if 8 * i < n)
                yield [], 7, trial.to_bytes(8, 'little') + n.to_bytes(8, 'little') + bytes([zeros, ones]), 0, 'shown ' + told


KIND_SHEETS = (
    H, E, S, B, sheet(15, [0, 1, 3], certificate(0, 1, 3, 1, 5)), sheet(15, [1, 3, 5], certificate(1, 1, 3, 1, 6)),
    sheet(21, [1, 3, 7], certificate(14, 5, 19, 7, 15)), sheet(9, [0, 1], certificate(8, 1, 25, 15, 16)),
    sheet(31, [1, 3], certificate(1, 1, 3, 1, 4)), sheet(31, [1, 3, 5], certificate(1, 1, 3, 1, 6)),
    sheet(23, [1], certificate(1, 1, 3, 1, 4)), sheet(17, [], certificate(0, 1, 7, 2, 1)), sheet(7, [0], certificate(0, 1, 3, 1, 1)),
    sheet(15, [0, 1, 3], certificate(1, 1, 3, 1, 4), certificate(0, 1, 5, 1, 9)), sheet(127, BCH, certificate(1, 1, 3, 1, 20)))


def sheets_with_calls():
    draw = Sequence(20261117)
    for s in (H, E):
        yield s, small_calls(draw, s)
    for s in KIND_SHEETS:
        yield s, kinds_calls(draw, s, 4)
        yield s, whole_calls(draw, s)
        yield s, unmarked_calls(draw, s)
    accepted = [s for s in SHEETS + ORDERS if answer(s).startswith('accepted')]
    drawn = [*list(drawn_sheets(draw))[::6], *list(mixed_sheets(draw))[::2]]
    for i, s in enumerate([*chosen_sheets(), *drawn, *accepted]):
        yield s, drawn_calls(draw, s, i)
    for s in (H, S, B, sheet(65, [1], certificate(1, 1, 3, 1, 2)), sheet(127, BCH, certificate(1, 1, 3, 1, 20))):
        yield s, length_calls(s)
        yield s, spare_calls(s)
    for s in known():
        told = answer(s).split()
        if told[0] == 'refused':
            yield s, sheet_calls(told[1])


def marked_calls():
    for s, calls in sheets_with_calls():
        for call in calls:
            yield s, *call
    yield from shown_calls(Sequence(20261118))
