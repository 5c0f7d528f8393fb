# Calls of encode_short, read_short and decode_short (document 02, request 2026-06), and what they are to answer, made without any of the
# product's code. tools/answers.py puts them together with those of the other entries.
#
# A call hands over m and a message or a word, and its answer is that of the entry without m: 'encode_short returned 0 buffer' and so on,
# with the buffer as it is afterwards, which holds AA before. A message of k - m bits is that of k bits with 0 above, and a word of n - m
# places that of n. What is right is found by way of the code that isn't shortened: its codeword within t places, by the search of
# decode_answers.py or by Massey's register as in marked_answers.py, is the answer if its top m places are 0. Where there are few messages
# all shortened codewords are gone through as well. tools/second_reading.py goes by the places that are sent instead.
from decode_answers import B, E, H, S, Sequence, chosen_sheets, drawn_sheets, mixed_sheets
from entry_answers import (BCH, ORDERS, SHEETS, WIDER, answer, certificate, encoded, known, message_bytes, remainder, sheet, word_bytes)
from marked_answers import MarkedCode

NAMES = {8: 'encode_short', 9: 'read_short', 10: 'decode_short'}
# of messages that are all gone through
MOST_BITS = 8


def size(count):
    return (count + 7) // 8


def refused(kind, number, space):
    return '%s refused %s %s' % (NAMES[kind], number, 'aa' * space)


def handed(m, given):
    return m.to_bytes(8, 'little') + given


# ---- what is right
class ShortCode:
    def __init__(self, code, m):
        assert 0 < m < code.k
        self.code, self.m = code, m
        self.bits, self.places = code.k - m, code.n - m
        self.all = [encoded(message, code.g) for message in range(2 ** self.bits)] if self.bits <= MOST_BITS else None

    def codeword(self, message):
        made = encoded(message, self.code.g)
        assert made < 2 ** self.places
        return made

    def decoded(self, codeword, word):
        # a shortened codeword, None for 13, or 'open'; and whether the codeword near is no shortened one. The word is made from `codeword`
        found = self.code.corrected(codeword, word)
        if found == 'open':
            return found, False
        right = found if found is not None and found < 2 ** self.places else None
        if self.all:
            near = [c for c in self.all if (c ^ word).bit_count() <= self.code.t]
            assert near == ([] if right is None else [right])
        return right, found != right

    # calls: the kind, what is handed over, the length of the buffer, and the answer
    def encoding(self, message):
        told = 'encode_short returned 0 ' + word_bytes(self.codeword(message), self.places).hex()
        return 8, handed(self.m, message_bytes(message, self.bits)), size(self.places), told

    def reading(self, word):
        told = refused(9, 14, size(self.bits))
        if remainder(word, self.code.g) == 0:
            told = 'read_short returned 0 ' + message_bytes(word >> self.code.n - self.code.k, self.bits).hex()
        return 9, handed(self.m, word_bytes(word, self.places)), size(self.bits), told

    def decoding(self, word, right):
        told = refused(10, 13, size(self.places))
        if right is not None:
            told = 'decode_short returned %d %s' % ((right ^ word).bit_count(), word_bytes(right, self.places).hex())
        return 10, handed(self.m, word_bytes(word, self.places)), size(self.places), told


# ---- words and messages
def drawn_calls(draw, code, m):
    # messages, and words with 0 to t wrong places and more
    short, t = ShortCode(code, m), code.t
    few = range(t + 1) if t < 4 else (0, 1, draw.below(t), t)
    for weight in [*few, t + 1, t + 2, short.places // 2]:
        message = draw.bits(short.bits)
        codeword = short.codeword(message)
        word = codeword ^ draw.pattern(short.places, min(weight, short.places))
        if weight < 2:
            yield short.encoding(message)
            yield short.reading(word)
        right, _ = short.decoded(codeword, word)
        if right != 'open':
            yield short.decoding(word, right)


def end_calls(code, m):
    # the top message bit, and all of them; with the top place right and wrong
    short = ShortCode(code, m)
    for message in sorted({2 ** (short.bits - 1), 2 ** short.bits - 1}):
        codeword = short.codeword(message)
        yield short.encoding(message)
        for wrong in (0, 1 << short.places - 1):
            yield short.reading(codeword ^ wrong)
            right, _ = short.decoded(codeword, codeword ^ wrong)
            if right != 'open':
                yield short.decoding(codeword ^ wrong, right)


def others_calls(draw, code, m, each):
    # 13 "also where an unshortened codeword was near": codewords with ones in the top m places, which aren't sent, and up to t changes in
    # all. The top m places are message bits, since m is below k
    short = ShortCode(code, m)
    for _ in range(each if code.t else 0):
        top = draw.pattern(m, 1 + draw.below(min(code.t, m))) << short.places
        codeword = encoded(top >> code.n - code.k | draw.bits(short.bits), code.g)
        word = codeword ^ top ^ draw.pattern(short.places, draw.below(code.t - top.bit_count() + 1))
        right, other = short.decoded(codeword, word)
        assert right is None and other
        yield short.decoding(word, right)
        yield short.reading(word)


def every_calls(code, m):
    # each word that n - m places can be, and each message
    short = ShortCode(code, m)
    for message in range(2 ** short.bits):
        yield short.encoding(message)
    for word in range(2 ** short.places):
        yield short.decoding(word, short.decoded(0, word)[0])
        if word % 3 == 0:
            yield short.reading(word)


# ---- refusals
def numbers(k, n):
    # m that draw 16: 0, next to k and n, and those of which the low bytes, or all but the sign, would be a right m
    wrong = {k, k + 1, n - 1, n, n + 1, 255, 256, 257, 256 + k - 1, 2 ** 16 + 1, 2 ** 31, 2 ** 32 - 1, 2 ** 32, 2 ** 32 + 1,
             2 ** 32 + k - 1, 2 ** 56 + 1, 2 ** 63 - 1, 2 ** 63, 2 ** 63 + 1, 2 ** 64 - 8, 2 ** 64 - k, 2 ** 64 - 1}
    return [0, *sorted(m for m in wrong if m >= k)]


def m_calls(code):
    # 16, with buffers as m = 1 asks for them, as the code that isn't shortened does, or as the m handed over would, cut to 64 bits
    n, k = code.n, code.k
    for i, m in enumerate(numbers(k, n)):
        for kind in NAMES:
            kept = [(k - 1, n - 1), (k, n), ((k - m) % 2 ** 64, (n - m) % 2 ** 64)]
            for bits, places in kept if m in (0, k, 2 ** 64 - 1) else [kept[i % 2], kept[2]]:
                given, space = (size(min(x, 160)) for x in lengths(kind, bits, places))
                yield kind, handed(m, bytes(given)), space, refused(kind, 16, space)
        # before 11 and 12
        kind = 8 + i % 3
        yield kind, handed(m, b'\xff' * size(n)), size(n) + 1, refused(kind, 16, size(n) + 1)
        yield kind, handed(m, b''), 0, refused(kind, 16, 0)


def lengths(kind, bits, places):
    return bits if kind == 8 else places, bits if kind == 9 else places


def length_calls(code, m):
    # 11, input and output, with spare bits too, and with what the code that isn't shortened asks for
    n, k = code.n, code.k
    for kind in NAMES:
        given, space = (size(x) for x in lengths(kind, k - m, n - m))
        whole = [size(x) for x in lengths(kind, k, n)]
        for wrong in sorted({0, given - 1, given + 1, whole[0], space, 17} - {given}):
            for fill, lent in ((b'\0', space), (b'\xff', space), (b'\0', whole[1] + 1)):
                yield kind, handed(m, fill * wrong), lent, refused(kind, 11, lent)
        for wrong in sorted({0, space - 1, space + 1, whole[1], given, 20} - {space}):
            for fill in (b'\0', b'\xff'):
                yield kind, handed(m, fill * given), wrong, refused(kind, 11, wrong)


def spare_calls(code, m):
    # 12, in each spare place, over a codeword and over what draws 13 or 14
    n, k = code.n, code.k
    for kind in NAMES:
        count, lent = lengths(kind, k - m, n - m)
        laid = message_bytes if kind == 8 else word_bytes
        for place in range(count, 8 * size(count)):
            for rest in sorted({0, 1, 2 ** count - 1}):
                yield kind, handed(m, laid(rest | 1 << place, count)), size(lent), refused(kind, 12, size(lent))
                yield kind, handed(m, laid(rest | 1 << place, count)), size(lent) + 1, refused(kind, 11, size(lent) + 1)


def sheet_calls(number, i):
    # a refused sheet, with a right m, and with others
    for j, m in enumerate((1, 0, 2 ** 64 - 1)):
        kind = 8 + (i + j) % 3
        given, space = ((b'\x80', 1), (b'\xff\xff', 2), (b'', 0))[(i + 2 * j) % 3]
        yield kind, handed(m, given), space, refused(kind, number, space)


# ---- sheets
GOLAY = sheet(23, [1], certificate(1, 1, 3, 1, 4))
BCH_63 = sheet(63, [1, 3], certificate(1, 1, 3, 1, 4))
BCH_127 = sheet(127, BCH, certificate(1, 1, 3, 1, 20))
RATIONAL = [sheet(n, r, certificate(b, z, f, h, terms)) for n, r, b, z, f, h, terms, d in WIDER if n in (9, 21, 33) and d > 4]
NINE = next(s for s in RATIONAL if s[2] == 9)
EVEN = [sheet(n, [0], certificate(0, 1, 3, 1, 1)) for n in (3, 7, 17)]
WHOLE = sheet(17, [], certificate(0, 1, 7, 2, 1))
MANY = [H, E, S, B, GOLAY, BCH_63, BCH_127, *RATIONAL[::2], *EVEN, WHOLE]


def some(draw, code):
    # m at each end, and those with which words or messages fill their bytes, or have a place more or less
    k, n = code.k, code.n
    chosen = {1, k - 1, *((23, 15) if (n, k) == (63, 51) else ())}
    filled = [m for m in range(1, k) if (n - m) % 8 in (0, 1, 7) or (k - m) % 8 in (0, 1, 7)]
    return sorted((chosen | {draw.of(filled) for _ in range(6) if filled}) & set(range(1, k)))


# those with every word
EVERY = ((H, 1), (H, 2), (H, 3), (E, 1), (E, 2), (B, 6), (S, 8), (NINE, 1), (EVEN[0], 1), (EVEN[1], 1), (EVEN[1], 5))


def sheets_with_calls():
    draw = Sequence(20261119)
    for s, m in EVERY:
        yield s, every_calls(MarkedCode(s), m)
    for s in MANY:
        code = MarkedCode(s)
        for m in some(draw, code):
            yield s, drawn_calls(draw, code, m)
            yield s, end_calls(code, m)
            yield s, others_calls(draw, code, m, 2)
    for s in (H, BCH_63, WHOLE):
        yield s, m_calls(MarkedCode(s))
    for s, m in ((H, 3), (S, 8), (B, 2), (GOLAY, 7), (BCH_63, 23), (BCH_63, 15), (BCH_127, 63)):
        yield s, length_calls(MarkedCode(s), m)
        yield s, spare_calls(MarkedCode(s), m)
    accepted = [s for s in SHEETS + ORDERS if answer(s).startswith('accepted')]
    for s in [*list(chosen_sheets())[3:], *list(drawn_sheets(draw))[::12], *list(mixed_sheets(draw))[::4], *accepted[::6]]:
        code = MarkedCode(s)
        if code.k > 1:
            m = 1 + draw.below(code.k - 1)
            yield s, drawn_calls(draw, code, m)
            yield s, others_calls(draw, code, m, 1)
        else:
            # no m is right
            yield s, [(kind, handed(1, bytes(size(code.n))), size(code.n), refused(kind, 16, size(code.n))) for kind in NAMES]
    for i, s in enumerate(known()):
        told = answer(s).split()
        if told[0] == 'refused':
            yield s, sheet_calls(told[1], i)


def near_others():
    # how many words draw 13 with a codeword within t that is no shortened one, but for those that the search leaves open
    found = 0
    for s, calls in sheets_with_calls():
        code = MarkedCode(s) if answer(s).startswith('accepted') else None
        for kind, given, _, told in calls:
            if told.startswith('decode_short refused 13'):
                word = sum(1 << i for i in range(8 * len(given) - 64) if given[8 + i // 8] >> 7 - i % 8 & 1)
                found += code.corrected(0, word) not in (None, 'open')
    return found


def shortened_calls():
    for s, calls in sheets_with_calls():
        for call in calls:
            yield s, *call
