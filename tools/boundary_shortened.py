# Calls of encode_short, read_short and decode_short at and on either side of every boundary of request 2026-06 of document 02, and with
# two refusals true at once. tools/boundary_answers.py puts them among its own and answers them by tools/second_reading.py.
#
# A call is a sheet, the kind, 8 to 10, the input, m in eight bytes and then the message or the word, and the length of the buffer.
import second_reading as reading
from entry_answers import certificate, sheet


def run(b, count):
    return certificate(b, 1, 3, 1, count)


H = sheet(7, [1], run(1, 2))
E = sheet(7, [0, 1], run(0, 3))
S = sheet(17, [1], certificate(13, 1, 7, 3, 9))
B = sheet(15, [1, 3], run(1, 4))
NINE = sheet(9, [0], run(0, 1))
LONG = sheet(127, [1], run(1, 2))
# among them k = 1, where no m is right; k = n; t below what the code has; and t of the second certificate of two, and of the first
SHEETS = (H, E, S, B, NINE, LONG, sheet(3, [1], run(1, 2)), sheet(7, [1, 3], run(1, 6)), sheet(9, [], certificate(0, 1, 11, 2, 1)),
          sheet(15, [1, 3, 5], run(1, 6)), sheet(23, [1], run(1, 4)), sheet(15, [1, 3], run(1, 2), run(1, 4)),
          sheet(15, [1, 3], run(1, 4), run(1, 2)), sheet(21, [1, 3, 7], certificate(14, 5, 19, 7, 15)), sheet(31, [1, 3], run(1, 4)))
KINDS = (8, 9, 10)


def handed(m, given):
    return m.to_bytes(8, 'little') + given


def numbers(made):
    return made[2], reading.k_of(bytes(made)), reading.record(bytes(made))[5]


def in_and_out(kind, bits, places):
    # bytes of the input and of the buffer
    return reading.in_bytes(bits if kind == 8 else places), reading.in_bytes(bits if kind == 9 else places)


def wrong_numbers(n, k):
    # 16: 0 and from k on, around n, and those of which the low bytes, or all but the highest bit, would be a right m
    some = {0, k, k + 1, n - 1, n, n + 1, 256, 257, 256 + k - 1, 2 ** 16 + 1, 2 ** 32, 2 ** 32 + 1, 2 ** 32 + k - 1, 2 ** 63, 2 ** 63 + 1,
            2 ** 64 - k, 2 ** 64 - 1}
    return sorted(m for m in some if m == 0 or m >= k)


def right_numbers(n, k):
    # each end, and where words or messages fill their bytes
    some = {1, 2, k - 2, k - 1, *[m for m in range(1, k) if (n - m) % 8 < 2 or (k - m) % 8 < 2]}
    return sorted(some & set(range(1, k)))


def turned_away(made):
    # 16, with buffers that m = 1 asks for, or the whole code, or m itself if n - m and k - m were cut to 64 bits; then 11 and 12 as well
    n, k, _ = numbers(made)
    for m in wrong_numbers(n, k) if made in (H, S, B, NINE, LONG) else (0, k, k + 1, 2 ** 64 - 1):
        for kind in KINDS:
            for bits, places in sorted({(k - 1, n - 1), (k, n), ((k - m) % 2 ** 64, (n - m) % 2 ** 64)}):
                if places < 150 and bits < 150 and (made in (H, B) or (bits, places) != (k, n)):
                    given, space = in_and_out(kind, bits, places)
                    yield kind, handed(m, bytes(given)), space
        if made in (H, S, B, NINE):
            given, space = in_and_out(8 + m % 3, k, n)
            yield 8 + m % 3, handed(m, b'\xff' * given), space
            yield 8 + m % 3, handed(m, b'\xff' * (given + 1)), space + 1


def messages_and_words(made, m):
    n, k, t = numbers(made)
    bits, places = k - m, n - m
    for message in sorted({1, 2 ** (bits - 1), 2 ** bits - 1 & 0x5a3c96f1 * 0x100000001000000010000001 | 2 ** (bits - 1)}):
        word = reading.codeword(bytes(made), message)
        yield 8, handed(m, reading.message_bytes(message, bits)), reading.in_bytes(places)
        for wrong in sorted({0, 1 << places - 1, (1 << t) - 1, (1 << t) - 1 << places - t, (2 << t) - 1}):
            received = handed(m, reading.word_bytes(word ^ wrong % 2 ** places, places))
            yield 10, received, reading.in_bytes(places)
            if wrong.bit_count() < 2:
                yield 9, received, reading.in_bytes(bits)


def near_others(made, m):
    # codewords with one to t ones in the places that aren't sent, and as many more wrong as t leaves, none, or one too many
    n, k, t = numbers(made)
    places = n - m
    for ones in range(1, min(t, m) + 1):
        for top in sorted({(1 << ones) - 1 << places, (1 << ones) - 1 << n - ones}):
            word = reading.codeword(bytes(made), top >> n - k | 2 ** (k - m) - 1) ^ top
            for wrong in sorted({0, (1 << t - ones) - 1, (2 << t - ones) - 1}):
                received = handed(m, reading.word_bytes(word ^ wrong % 2 ** places, places))
                yield 10, received, reading.in_bytes(places)
                if wrong == 0:
                    yield 9, received, reading.in_bytes(k - m)


def wrong_lengths(made, m):
    # 11: input and output, short and long, alone and together, and as long as the code asks for that isn't shortened; over a codeword, over
    # what draws 13 or 14, and with spare bits
    n, k, _ = numbers(made)
    for kind in KINDS:
        given, space = in_and_out(kind, k - m, n - m)
        whole = in_and_out(kind, k, n)
        for fill in (b'\0', b'\xff'):
            for i in sorted({0, given - 1, given + 1, space, whole[0]} - {given}):
                yield kind, handed(m, fill * i), space
            for o in sorted({0, space - 1, space + 1, given, whole[1]} - {space}):
                yield kind, handed(m, fill * given), o
        yield kind, handed(m, bytes(given + 1)), space + 1
        yield kind, handed(m, bytes(whole[0])), whole[1]


def spare_bits(made, m):
    # 12, at each spare place, over a codeword and over what draws 13 or 14; and 11 of the output before it
    n, k, t = numbers(made)
    for kind in KINDS:
        count = k - m if kind == 8 else n - m
        laid, (given, space) = reading.message_bytes if kind == 8 else reading.word_bytes, in_and_out(kind, k - m, n - m)
        for place in range(count, 8 * given):
            for rest in (0, (2 << t) - 1):
                yield kind, handed(m, laid(rest % 2 ** count | 1 << place, count)), space
            yield kind, handed(m, laid(1 << place, count)), space + 1


def refused_sheet(given, space, i):
    # the sheet comes before m, and m before the buffers
    for kind in KINDS:
        yield kind, handed((0, 1, 2 ** 64 - 1)[(i + kind) % 3], given), space


def short_questions():
    for made in SHEETS:
        n, k, _ = numbers(made)
        yield from ((made, *call) for call in turned_away(made))
        for m in right_numbers(n, k) if made != LONG else (1, 7, 8, 118, 119):
            yield from ((made, *call) for call in messages_and_words(made, m))
            yield from ((made, *call) for call in near_others(made, m))
    for made, few in ((H, (1, 3)), (S, (1, 8)), (B, (2, 6)), (NINE, (1, 7)), (LONG, (7, 112))):
        for m in few:
            yield from ((made, *call) for call in wrong_lengths(made, m))
            yield from ((made, *call) for call in spare_bits(made, m))
