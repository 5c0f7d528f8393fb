# A second reading of document 01, with requests 2026-01 and 2026-03 to 2026-07 of document 02, made from their text alone: judge, card,
# encode, read, decode, decode_marked, shown, encode_short, read_short, decode_short and decode_block as searches and sums (rule 3 by
# Euclid's algorithm, in field_factors.py; `period` is for misreadings alone), with none of the product's code and none of
# entry_answers.py's. Polynomials over two elements are masks, as in the document. What the document leaves open (card's buffer of 1,024
# bytes and its 11, the last newline, the 0 that encode, read and decode_block return) is as docs/PROMISES.md says.
#
# tools/boundary_answers.py answers its calls by it. tools/misreadings replaces single lines of it, each by a wrong reading: that is
# why every condition stands in a line of its own, and why what comes first is told by tables.
from functools import lru_cache
from itertools import combinations
from math import gcd

from field_factors import common_over

MASKS = {2: 7, 3: 11, 4: 19, 5: 37, 6: 67, 7: 131, 8: 285, 9: 529, 10: 1033, 11: 2053, 12: 4179}


def degree(mask):
    # that of 0 is below all others
    return mask.bit_length() - 1


def times(a, b, modulus):
    total = 0
    for i in range(b.bit_length()):
        if b >> i & 1:
            total ^= a << i
    return rest(total, modulus)


def rest(a, b):
    while b and degree(a) >= degree(b):
        a ^= b << degree(a) - degree(b)
    return a


def common(a, b):
    while b:
        a, b = b, rest(a, b)
    return a


@lru_cache(None)
def period(f):
    # 0 where there is none
    power = 1
    for p in range(1, 2 ** (degree(f) + 1)):
        power = rest(power << 1, f)
        if power == 1:
            return p
    return 0


def series(h, f, count):
    # f times the series is h: each coefficient from those before it
    a = []
    for j in range(count):
        a.append((h >> j) % 2 ^ sum(a[j - i] for i in range(1, min(j, degree(f)) + 1) if f >> i & 1) % 2)
    return a


@lru_cache(None)
def smallest_s(n):
    # 99 where it is above 20, or where there is none
    for s in range(1, 21):
        if n and (2 ** s - 1) % n == 0:
            return s
    return 99


@lru_cache(None)
def coset(r, n):
    return {r * 2 ** j % n for j in range(n)} if n else {r}


# ---- the sheet
def byte(sheet, place):
    return sheet[place] if place < len(sheet) else 0


def pair(sheet, place):
    return byte(sheet, place) + 256 * byte(sheet, place + 1)


def length_wrong(sheet):
    if len(sheet) < 10:
        return True
    if len(sheet) > 74:
        return True
    return pair(sheet, 0) != len(sheet)


def n_wrong(sheet):
    n = byte(sheet, 2)
    if n % 2 == 0:
        return True
    if n < 3:
        return True
    return n > 127


def s_wrong(sheet):
    return smallest_s(byte(sheet, 2)) > 12


def header_wrong(sheet):
    count, certificates = byte(sheet, 3), byte(sheet, 6)
    if count > 32:
        return True
    if certificates < 1:
        return True
    if certificates > 4:
        return True
    if pair(sheet, 4) != 10:
        return True
    if byte(sheet, 7) != 0:
        return True
    if pair(sheet, 8) != 10 + count:
        return True
    return len(sheet) != 10 + count + 8 * certificates


def representative_wrong(sheet):
    n = byte(sheet, 2)
    before = -1
    for r in representatives_of(sheet):
        if r >= n:
            return True
        if r != min(coset(r, n)):
            return True
        if r <= before:
            return True
        before = r
    return False


def message_empty(sheet):
    return k_of(sheet) == 0


def representatives_of(sheet):
    return sheet[10:10 + byte(sheet, 3)]


@lru_cache(None)
def defining_set(sheet):
    members = set()
    for r in representatives_of(sheet):
        members |= coset(r, byte(sheet, 2))
    return members


def k_of(sheet):
    return byte(sheet, 2) - len(defining_set(sheet))


# ---- the certificate
class Certificate:
    def __init__(self, c):
        self.b, self.z, self.f, self.h = byte(c, 0), byte(c, 1), pair(c, 2), byte(c, 4)
        self.zero, self.terms = byte(c, 5), pair(c, 6)
        self.u, self.v = degree(self.f), degree(self.h)
        self.d = -((self.v - self.terms) // self.u) + 1 if self.u > 0 else 0
        self.t = (self.d - 1) // 2


@lru_cache(None)
def certificates_of(sheet):
    start = 10 + byte(sheet, 3)
    return [Certificate(sheet[start + 8 * i:start + 8 * i + 8]) for i in range(byte(sheet, 6))]


def rule_1_fails(n, members, c):
    if c.b >= n:
        return True
    if c.z < 1:
        return True
    if c.z > n - 1:
        return True
    if gcd(c.z, n) != 1:
        return True
    if c.u < 1:
        return True
    if c.u > 8:
        return True
    if c.f % 2 == 0:
        return True
    if c.h == 0:
        return True
    if c.v >= c.u:
        return True
    if c.terms < 1:
        return True
    if c.terms > 1023:
        return True
    return c.zero != 0


def rule_2_fails(n, members, c):
    return common(c.f, c.h) != 1


@lru_cache(None)
def factors_shared(n, f):
    # request 2026-03: f(α^i x) and f(α^j x) for different i and j below n
    return any(common_over(n, smallest_s(n), f, i, j) for i in range(n) for j in range(n) if i != j)


def rule_3_fails(n, members, c):
    return factors_shared(n, c.f)


def rule_4_fails(n, members, c):
    a = series(c.h, c.f, c.terms)
    return any(a[j] == 1 and (c.b + j * c.z) % n not in members for j in range(c.terms))


SHEET = ((1, length_wrong), (2, n_wrong), (3, s_wrong), (4, header_wrong), (5, representative_wrong), (6, message_empty))
CERTIFICATE = ((7, rule_1_fails), (8, rule_2_fails), (9, rule_3_fails), (10, rule_4_fails))


@lru_cache(None)
def judged(sheet):
    # the number of the refusal, or 0
    for number, wrong in SHEET:
        if wrong(sheet):
            return number
    for c in certificates_of(sheet):
        for number, fails in CERTIFICATE:
            if fails(byte(sheet, 2), defining_set(sheet), c):
                return number
    return 0


def beats(c, other):
    # request 2026-04: "the largest d, then the fewest terms"
    return c.d > other.d or (c.d == other.d and c.terms < other.terms)


def working(sheet):
    # "then the earliest"
    best = 0
    certificates = certificates_of(sheet)
    for i in range(len(certificates)):
        if beats(certificates[i], certificates[best]):
            best = i
    return best


def record(sheet):
    n, c = byte(sheet, 2), certificates_of(sheet)[working(sheet)]
    return n, k_of(sheet), smallest_s(n), working(sheet), c.d, c.t, c.terms


# ---- the generator
@lru_cache(None)
def powers_of_omega(s):
    powers = [1]
    while len(powers) < 2 ** s - 1:
        powers.append(rest(2 * powers[-1], MASKS[s]))
    return powers


def generator(sheet):
    return generator_of(byte(sheet, 2), tuple(sorted(defining_set(sheet))))


@lru_cache(None)
def generator_of(n, members):
    s, g = smallest_s(n), [1]
    for i in members:
        root = powers_of_omega(s)[i * ((2 ** s - 1) // n) % (2 ** s - 1)]
        g = [a ^ times(root, b, MASKS[s]) for a, b in zip([0] + g, g + [0])]
    assert set(g) <= {0, 1}
    return sum(a << i for i, a in enumerate(g))


# ---- words and messages in bytes
def in_bytes(count):
    return (count + 7) // 8


def word_weight(i):
    # document 02: "place i of a word has weight 2^(7 - i mod 8) in byte i div 8"
    return 2 ** (7 - i % 8)


def message_weight(i):
    # document 02: "Messages keep 01's order", and there "place i has weight 2^(i mod 8) in byte i div 8"
    return 2 ** (i % 8)


def mask_in(given, weight):
    # of every place that the bytes have, spare ones too
    return sum(1 << i for i in range(8 * len(given)) if given[i // 8] & weight(i))


def bytes_with(mask, places, weight):
    made = bytearray(in_bytes(places))
    for i in range(mask.bit_length()):
        made[i // 8] += (mask >> i & 1) * weight(i)
    return bytes(made)


def word_bytes(mask, n):
    return bytes_with(mask, n, word_weight)


def message_bytes(mask, k):
    return bytes_with(mask, k, message_weight)


# ---- codewords
def codeword(sheet, message):
    shifted = message << byte(sheet, 2) - k_of(sheet)
    return shifted ^ rest(shifted, generator(sheet))


def message_in(sheet, word):
    return word >> byte(sheet, 2) - k_of(sheet)


@lru_cache(None)
def remainders(sheet):
    return [rest(1 << i, generator(sheet)) for i in range(byte(sheet, 2))]


@lru_cache(None)
def nearest(sheet, word):
    # the codeword within t places of a word, or None: every pattern of at most t errors is tried
    n, t, wanted = byte(sheet, 2), record(sheet)[5], rest(word, generator(sheet))
    for weight in range(t + 1):
        for places in combinations(range(n), weight):
            found = 0
            for i in places:
                found ^= remainders(sheet)[i]
            if found == wanted:
                return word ^ sum(1 << i for i in places)
    return None


# ---- the entries: kind 1 encode, 2 read, 3 decode; `given` is the message or the word, `out` the lent buffer
NAMES = {1: 'encode', 2: 'read', 3: 'decode'}


def handed(kind, given):
    # the mask of a message, which encode takes, or of a word
    return mask_in(given, message_weight if kind == 1 else word_weight)


def sheet_refused(kind, sheet, given, out):
    return judged(sheet)


def input_length(kind, sheet, given, out):
    places = k_of(sheet) if kind == 1 else byte(sheet, 2)
    return 11 if len(given) != in_bytes(places) else 0


def output_length(kind, sheet, given, out):
    places = k_of(sheet) if kind == 2 else byte(sheet, 2)
    return 11 if len(out) != in_bytes(places) else 0


def spare_bit(kind, sheet, given, out):
    places = k_of(sheet) if kind == 1 else byte(sheet, 2)
    return 12 if handed(kind, given) >> places else 0


def none_found(kind, sheet, given, out):
    if kind == 3 and nearest(sheet, handed(kind, given)) is None:
        return 13
    if kind == 2 and rest(handed(kind, given), generator(sheet)) != 0:
        return 14
    return 0


ORDER = (sheet_refused, input_length, output_length, spare_bit, none_found)


def called(kind, sheet, given, out):
    # how the call ends, its number, and the buffer afterwards
    for refusal in ORDER:
        number = refusal(kind, sheet, given, out)
        if number:
            return 'refused', number, out
    n, k, mask = byte(sheet, 2), k_of(sheet), handed(kind, given)
    if kind == 1:
        return 'returned', 0, word_bytes(codeword(sheet, mask), n)
    if kind == 2:
        return 'returned', 0, message_bytes(message_in(sheet, mask), k)
    right = nearest(sheet, mask)
    return 'returned', (right ^ mask).bit_count(), word_bytes(right, n)


# ---- words with marks (document 02, request 2026-05): `word`, `marks` and the two lent buffers are bytes
def lowered(rows, left, pattern):
    # a remainder less those of the rows, as far as it goes, and the pattern that it is of
    while degree(left) in rows:
        row = rows[degree(left)]
        left, pattern = left ^ row[0], pattern ^ row[1]
    return left, pattern


@lru_cache(None)
def rows_of(sheet, marks):
    # patterns over the marked places, by the degrees of their remainders
    rows = {}
    for i in range(byte(sheet, 2)):
        if marks >> i & 1:
            left, pattern = lowered(rows, remainders(sheet)[i], 1 << i)
            if left:
                rows[degree(left)] = left, pattern
    return rows


def within(e, r, d):
    # "with 2·e + r at most d - 1"
    return 2 * e + r <= d - 1


def marked_of(sheet, marks):
    # "r is the number marked"
    return marks.bit_count()


def distance_of(sheet):
    # "With d the sheet's distance"
    return record(sheet)[4]


@lru_cache(None)
def only(sheet, word, marks):
    # "the only codeword that differs from the received word in e unmarked places", or None: every set of e unmarked places is tried,
    # with what the marked places can make of it
    unmarked = [i for i in range(byte(sheet, 2)) if not marks >> i & 1]
    wanted, rows = rest(word, generator(sheet)), rows_of(sheet, marks)
    for e in range(len(unmarked) + 1):
        if not within(e, marked_of(sheet, marks), distance_of(sheet)):
            return None
        for places in combinations(unmarked, e):
            found = wanted
            for i in places:
                found ^= remainders(sheet)[i]
            left, pattern = lowered(rows, found, sum(1 << i for i in places))
            if left == 0:
                return word ^ pattern
    return None


def marks_in(given):
    # "a second buffer in word layout, 1 meaning marked"
    return mask_in(given, word_weight)


def zeros_trial(word, marks):
    return word & ~marks


def ones_trial(word, marks):
    return word | marks


def held(sheet, trial):
    # "its decoded trial word, or the undecoded trial word if its decoding gave 13"
    decoded = nearest(sheet, trial)
    if decoded is None:
        return trial
    return decoded


def marked_sheet(sheet, word, marks, zeros, ones):
    return judged(sheet)


def word_length(sheet, word, marks, zeros, ones):
    return 11 if len(word) != in_bytes(byte(sheet, 2)) else 0


def marks_length(sheet, word, marks, zeros, ones):
    return 11 if len(marks) != in_bytes(byte(sheet, 2)) else 0


def zeros_length(sheet, word, marks, zeros, ones):
    return 11 if len(zeros) != in_bytes(byte(sheet, 2)) else 0


def ones_length(sheet, word, marks, zeros, ones):
    return 11 if len(ones) != in_bytes(byte(sheet, 2)) else 0


def word_spare(sheet, word, marks, zeros, ones):
    return 12 if mask_in(word, word_weight) >> byte(sheet, 2) else 0


def marks_spare(sheet, word, marks, zeros, ones):
    return 12 if marks_in(marks) >> byte(sheet, 2) else 0


def none_within(sheet, word, marks, zeros, ones):
    # "refusal 15, last and in 13's place, means that no such codeword exists"
    return 15 if only(sheet, mask_in(word, word_weight), marks_in(marks)) is None else 0


MARKED_ORDER = (marked_sheet, word_length, marks_length, zeros_length, ones_length, word_spare, marks_spare, none_within)


def marked_called(sheet, *given):
    # how the call ends, with its numbers, and both buffers afterwards
    for refusal in MARKED_ORDER:
        number = refusal(sheet, *given)
        if number:
            return 'refused %d' % number, *given[2:]
    n, word, marks = byte(sheet, 2), mask_in(given[0], word_weight), marks_in(given[1])
    right = only(sheet, word, marks)
    zeros, ones = held(sheet, zeros_trial(word, marks)), held(sheet, ones_trial(word, marks))
    e = ((right ^ word) & ~marks).bit_count()
    trial = 0 if zeros == right else 1
    return 'returned %d %d' % (e, trial), word_bytes(zeros, n), word_bytes(ones, n)


def shown(trial, n, zeros, ones):
    # "handed that number (any other counts as 1), n and both buffers": the "first n/8 bytes, rounded up, or all of a shorter one"
    buffer = zeros if trial == 0 else ones
    return buffer[:in_bytes(n)]


# ---- shortened codes (document 02, request 2026-06): kind 8 encode_short, 9 read_short, 10 decode_short; `put` is the message or the
# word, `lent` the buffer
SHORT_NAMES = {8: 'encode_short', 9: 'read_short', 10: 'decode_short'}


def bits_of(sheet, m):
    # "so messages have k - m bits"
    return k_of(sheet) - m


def places_of(sheet, m):
    # "and words n - m"
    return byte(sheet, 2) - m


def whole_message(sheet, m, message):
    # "the top m message bits are 0"
    return message


def short_message(sheet, m, message):
    return message % (1 << bits_of(sheet, m))


def whole_word(sheet, m, word):
    # "the top m places aren't sent"
    return word


def sent_word(sheet, m, word):
    return word % (1 << places_of(sheet, m))


def sent_places(sheet, m):
    return range(places_of(sheet, m))


def short_radius(sheet, m):
    # "within t": the sheet's
    return record(sheet)[5]


@lru_cache(None)
def short_patterns(sheet, m):
    # sets of at most t of the places that are sent, by what they add to the remainder
    patterns = {}
    for e in range(short_radius(sheet, m) + 1):
        for places in combinations(sent_places(sheet, m), e):
            added = 0
            for i in places:
                added ^= remainders(sheet)[i]
            patterns.setdefault(added, sum(1 << i for i in places))
    return patterns


def only_short(sheet, m, word):
    # "the only shortened codeword within t", or None: what isn't sent is 0 in it, as in the received word
    added = rest(word, generator(sheet))
    return word ^ short_patterns(sheet, m)[added] if added in short_patterns(sheet, m) else None


def short_handed(kind, sheet, m, put):
    # as a message of k bits, or as a word of n places
    if kind == 8:
        return whole_message(sheet, m, mask_in(put, message_weight))
    return whole_word(sheet, m, mask_in(put, word_weight))


def short_sheet(kind, sheet, m, put, lent):
    return judged(sheet)


def m_wrong(kind, sheet, m, put, lent):
    # "Refusal 16 .. is an m of 0 or not below k"
    if m == 0:
        return 16
    return 16 if m >= k_of(sheet) else 0


def short_input(kind, sheet, m, put, lent):
    asked = bits_of(sheet, m) if kind == 8 else places_of(sheet, m)
    return 11 if len(put) != in_bytes(asked) else 0


def short_output(kind, sheet, m, put, lent):
    asked = bits_of(sheet, m) if kind == 9 else places_of(sheet, m)
    return 11 if len(lent) != in_bytes(asked) else 0


def short_spare(kind, sheet, m, put, lent):
    if kind == 8:
        return 12 if mask_in(put, message_weight) >> bits_of(sheet, m) else 0
    return 12 if mask_in(put, word_weight) >> places_of(sheet, m) else 0


def no_short(kind, sheet, m, put, lent):
    # "13 exactly if there is none"
    if kind == 10:
        return 0 if only_short(sheet, m, short_handed(kind, sheet, m, put)) is not None else 13
    if kind == 9:
        return 0 if rest(short_handed(kind, sheet, m, put), generator(sheet)) == 0 else 14
    return 0


SHORT_ORDER = (short_sheet, m_wrong, short_input, short_output, short_spare, no_short)


def short_called(kind, sheet, m, put, lent):
    # how the call ends, with its number, and the buffer afterwards
    for refusal in SHORT_ORDER:
        number = refusal(kind, sheet, m, put, lent)
        if number:
            return 'refused %d' % number, lent
    mask = short_handed(kind, sheet, m, put)
    if kind == 8:
        return 'returned 0', word_bytes(sent_word(sheet, m, codeword(sheet, mask)), places_of(sheet, m))
    if kind == 9:
        return 'returned 0', message_bytes(short_message(sheet, m, message_in(sheet, mask)), bits_of(sheet, m))
    right = only_short(sheet, m, mask)
    count = (right ^ mask).bit_count()
    return 'returned %d' % count, word_bytes(sent_word(sheet, m, right), places_of(sheet, m))


def listing(sheet):
    if judged(sheet):
        return 'refused %d\n' % judged(sheet)
    n, k, s, index, _, t, _ = record(sheet)
    text = 'code %d %d %d\n' % (n, k, s)
    text += 'zeros' + ''.join(' %d' % i for i in sorted(defining_set(sheet))) + '\n'
    text += 'generator ' + ''.join('%d' % (generator(sheet) >> i & 1) for i in range(n - k + 1)) + '\n'
    for i, c in enumerate(certificates_of(sheet)):
        text += 'cert %d terms %d distance %d\n' % (i, c.terms, c.d)
    return text + 'radius %d from cert %d\n' % (t, index)


def carded(sheet, out):
    if len(out) != 1024:
        return 'refused', 11, out
    text = listing(sheet).encode()
    return 'returned', len(text), text + out[len(text):]


# ---- blocks (document 02, request 2026-07): `block` and the lent `out` and `verdicts` are bytes. No other entry goes by what stands here
def block_bits(sheet, m):
    # "A block carries m words"
    return byte(sheet, 2) * m


def bit_for(sheet, m, j, i):
    # "bit j·m + i of the block is place j of word i"
    return j * m + i


def block_weight(p):
    # "packed high bit first"
    return 128 >> p % 8


def bits_in(sheet, m, block):
    return mask_in(block, block_weight)


def word_in_block(sheet, m, bits, i):
    return sum((bits >> bit_for(sheet, m, j, i) & 1) << j for j in range(byte(sheet, 2)))


def block_sheet(sheet, m, block, out, verdicts):
    return judged(sheet)


def depth_wrong(sheet, m, block, out, verdicts):
    # "refusal 17 .. is an m outside 2 to 16"
    if m < 2:
        return 17
    return 17 if m > 16 else 0


def block_length(sheet, m, block, out, verdicts):
    return 11 if len(block) != in_bytes(block_bits(sheet, m)) else 0


def block_output(sheet, m, block, out, verdicts):
    # "The output is m words long"
    asked = m * in_bytes(byte(sheet, 2))
    return 11 if len(out) != asked else 0


def block_verdicts(sheet, m, block, out, verdicts):
    # "and the verdicts m bytes"
    asked = m
    return 11 if len(verdicts) != asked else 0


def block_spare(sheet, m, block, out, verdicts):
    return 12 if bits_in(sheet, m, block) >> block_bits(sheet, m) else 0


BLOCK_ORDER = (block_sheet, depth_wrong, block_length, block_output, block_verdicts, block_spare)


def put_word(sheet, m, out, i, right):
    # "one after the other in word layout. Each corrected word goes into its own bytes"
    size = in_bytes(byte(sheet, 2))
    out[i * size:i * size + size] = word_bytes(right, byte(sheet, 2))


def verdict(sheet, word, right):
    # "its changed places, or 255 for none near"
    if right is None:
        return 255
    return (right ^ word).bit_count()


def block_called(sheet, m, block, out, verdicts):
    # how the call ends, with its number, and both buffers afterwards
    for refusal in BLOCK_ORDER:
        number = refusal(sheet, m, block, out, verdicts)
        if number:
            return 'refused %d' % number, out, verdicts
    bits, written, given = bits_in(sheet, m, block), bytearray(out), bytearray(verdicts)
    for i in range(m):
        word = word_in_block(sheet, m, bits, i)
        right = nearest(sheet, word)
        # "a word with no codeword within t leaves its bytes as they were"
        if right is not None:
            put_word(sheet, m, written, i, right)
        given[i] = verdict(sheet, word, right)
    return 'returned 0', bytes(written), bytes(given)


def block_told(sheet, given):
    m, space = int.from_bytes(given[:8], 'little'), int.from_bytes(given[8:10], 'little')
    end, out, verdicts = block_called(sheet, m, given[11:], b'\xaa' * space, b'\x55' * given[10])
    return 'decode_block %s %s %s' % (end, out.hex(), verdicts.hex())


# ---- what the program crates/vectors writes for a call, without the last newline
def told(sheet, kind, given, space):
    sheet = bytes(sheet)
    if kind == 0:
        end, number, out = carded(sheet, b'\xaa' * 1024)
        first = 'refused %d\n' % judged(sheet) if judged(sheet) else 'accepted %d %d %d %d %d %d %d\n' % record(sheet)
        return ended(first + (out[:number].decode('latin-1') if end == 'returned' else 'refused %d\n' % number))
    if kind == 5:
        end, number, out = carded(sheet, b'\xaa' * int.from_bytes(given, 'little'))
        start = number if end == 'returned' else 0
        return ended('card %s %d then aa %d\n' % (end, number, out[start:].count(0xaa)) + out[:start].decode('latin-1'))
    if kind == 6:
        end, zeros, ones = marked_called(sheet, given[4:4 + given[0]], given[4 + given[0]:], b'\xaa' * given[2], b'\x55' * given[3])
        return 'marked %s %s %s' % (end, zeros.hex(), ones.hex())
    if kind == 7:
        trial, n = int.from_bytes(given[:8], 'little'), int.from_bytes(given[8:16], 'little')
        return 'shown ' + shown(trial, n, bytes(range(given[16])), bytes(range(128, 128 + given[17]))).hex()
    if kind == 11:
        return block_told(sheet, given)
    if kind > 7:
        end, lent = short_called(kind, sheet, int.from_bytes(given[:8], 'little'), given[8:], b'\xaa' * space)
        return '%s %s %s' % (SHORT_NAMES[kind], end, lent.hex())
    end, number, out = called(kind, sheet, given, b'\xaa' * space)
    return '%s %s %d %s' % (NAMES[kind], end, number, out.hex())


def ended(text):
    return text[:-1] if text.endswith('\n') else text + ' and no newline'
