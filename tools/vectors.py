#!/usr/bin/env python3
# Calls of the entries whose answers were made elsewhere: tools/answers.py puts them among the calls of the program crates/vectors.
#
# tools/vectors/itpp.txt has BCH codes by IT++, tools/vectors/guava.txt cyclic codes by GAP and GUAVA; tools/vectors/make makes
# both. Their words are masks over places. What is done here is to find the sheet of each code: D from the generator, and a
# certificate. What documents 001 to 003 say of a code, its k and its d, is held to what GUAVA says of it.
#
#     tools/vectors.py > docs/VECTORS.md    the page that says what there is
import os
import sys
from math import gcd

sys.dont_write_bytecode = True
from entry_answers import answer, certificate, coset, generator, listing, message_bytes, sheet, word_bytes

FOLDER = os.path.join(os.path.dirname(os.path.abspath(__file__)), 'vectors')


class Code:
    def __init__(self, kind, numbers):
        self.kind, self.numbers = kind, numbers
        self.words, self.received = [], []
        self.g = self.sheet = None


def stored(name):
    # the codes of a file, each with its codewords, and its received words with the decoder's own, or None
    codes = []
    with open(os.path.join(FOLDER, name)) as file:
        for line in file:
            kind, *rest = line.split()
            if kind in ('bch', 'cyclic'):
                codes.append(Code(kind, [int(x) for x in rest if x != ':']))
            elif kind == 'word':
                codes[-1].words.append(int(rest[1], 16))
                codes[-1].g = codes[-1].g or codes[-1].words[0]
            elif kind == 'generator':
                codes[-1].g = int(rest[0], 16)
            elif kind == 'codeword':
                codes[-1].words.append(int(rest[0], 16))
            elif kind in ('decoded', 'nearest'):
                codes[-1].received.append((int(rest[0], 16), int(rest[1], 16)))
            elif kind == 'failed':
                codes[-1].received.append((int(rest[0], 16), None))
    return codes


def leaders(n, members):
    return sorted({min(coset(i % n, n)) for i in members})


def zeros_of(n, members):
    return set().union(*[coset(i % n, n) for i in members])


# Published, in the order of guava.g: the length, what D holds, k, d, a certificate, and the distance that it proves. Of Tables II
# to IV, and of f of degree 4, the bound is what is published, and the code's own d is None; k is None where the paper has none.
PUBLISHED = (
    (7, (1,), 4, 3, (1, 1, 3, 1, 2), 3), (7, (0, 1), 3, 4, (0, 1, 3, 1, 3), 4), (15, (1, 3), 7, 5, (1, 1, 3, 1, 4), 5),
    (15, (1, 3, 5), 5, 7, (1, 1, 3, 1, 6), 7), (23, (1,), 12, 7, (1, 1, 3, 1, 4), 5), (31, (1, 3), 21, 5, (1, 1, 3, 1, 4), 5),
    (31, (1, 5), 21, 5, (8, 1, 3, 1, 3), 4), (17, (1,), 9, 5, (-4, 1, 7, 3, 9), 5), (17, (3, 5, 11), 9, 5, (-11, 2, 15, 7, 12), 5),
    (45, (-5, -3, 3, 5), 31, 4, (-9, 2, 15, 4, 10), 4), (65, (1,), 53, None, (-4, 1, 7, 3, 9), 5),
    (65, (1, 5), 41, None, (-6, 1, 7, 2, 13), 7), (65, (1, 5, 7), 29, None, (-10, 1, 7, 3, 21), 11),
    (65, (3, 5, 11, 13), None, None, (-17, 2, 15, 4, 18), 7), (127, (-3, 0, 1, 7), None, None, (-4, 1, 11, 6, 13), 5),
    (127, (-3, 0, 1, 7, 9), None, None, (-4, 1, 11, 6, 15), 6), (127, (-3, 0, 1, 7, 9, 11), None, None, (-4, 1, 11, 6, 18), 7),
    (73, (-3, 1, 3, 9), None, None, (-6, 1, 19, 11, 20), 6), (21, (1, 3, 7, 9), 7, 8, (1, 1, 3, 1, 4), 5))


def bch_sheet(code):
    # IT++ has primitive polynomials of its own: its root is a power of α, and that power is the certificate's start and step
    n, k, t = code.numbers
    for m in leaders(n, range(1, n)):
        members = [m * j for j in range(1, 2 * t + 1)]
        if gcd(m, n) == 1 and len(zeros_of(n, members)) == n - k and generator(n, zeros_of(n, members)) == code.g:
            return sheet(n, leaders(n, members), certificate(m, m, 3, 1, 2 * t))
    sys.exit('no root for the code %d %d %d' % (n, k, t))


def cyclic_sheet(code, published):
    n, k, d, *representatives = code.numbers
    length, members, its_k, its_d, (b, z, f, h, terms), proved = published
    zeros = zeros_of(n, representatives)
    assert (length, leaders(n, members)) == (n, representatives) and generator(n, zeros) == code.g
    assert its_k in (None, k) and len(zeros) == n - k and (its_d or 0) == d and (d == 0 or proved <= d)
    made = sheet(n, representatives, certificate(b % n, z, f, h, terms))
    assert int(answer(made).split()[5]) == proved
    return made


def codes():
    for code in stored('itpp.txt'):
        code.sheet = bch_sheet(code)
        yield code
    found = stored('guava.txt')
    assert len(found) == len(PUBLISHED)
    for code, published in zip(found, PUBLISHED):
        code.sheet = cyclic_sheet(code, published)
        yield code


def numbers_of(code):
    n, k, t = (int(answer(code.sheet).split()[i]) for i in (1, 2, 6))
    assert n == code.numbers[0] and k == code.numbers[1]
    return n, k, t


def refused():
    # document 002's code (119, 68, 3), for which s is 24; then each byte of a few sheets changed, by one and in its highest bit
    yield sheet(119, leaders(119, (1, 11, 51)), certificate(1, 1, 3, 1, 2)), '3'
    for base in (sheet(17, [1], certificate(13, 1, 7, 3, 9)), sheet(15, [1, 3], certificate(1, 1, 3, 1, 4)),
                 sheet(63, [1, 3], certificate(1, 1, 3, 1, 2), certificate(1, 1, 3, 1, 4))):
        for place in range(len(base)):
            for value in (base[place] + 1) % 256, base[place] ^ 128:
                changed = base[:place] + [value] + base[place + 1:]
                told = answer(changed).split()
                if told[0] == 'refused':
                    yield changed, told[1]


# The calls as answers.py takes them: a sheet, and the kind of call, the input, the buffer's length and what is to be answered.
def entry_calls():
    for code in codes():
        n, k, _ = numbers_of(code)
        yield code.sheet, 0, b'', 0, '\n'.join([answer(code.sheet)] + listing(code.sheet))
        for word in code.words:
            message = word >> n - k
            yield code.sheet, 1, message_bytes(message, k), (n + 7) // 8, 'encode returned 0 ' + word_bytes(word, n).hex()
            yield code.sheet, 2, word_bytes(word, n), (k + 7) // 8, 'read returned 0 ' + message_bytes(message, k).hex()
        for word, right in code.received:
            if right is not None and word != right:
                yield code.sheet, 2, word_bytes(word, n), (k + 7) // 8, 'read refused 14 ' + 'aa' * ((k + 7) // 8)
    for changed, number in refused():
        yield changed, 0, b'', 0, 'refused %s\nrefused %s' % (number, number)
        yield changed, 1, bytes(2), 2, 'encode refused %s aaaa' % number
        yield changed, 2, bytes(2), 2, 'read refused %s aaaa' % number


def decode_calls():
    for code in codes():
        n, _, t = numbers_of(code)
        for word, right in code.received:
            size = (n + 7) // 8
            if right is not None and (word ^ right).bit_count() <= t:
                told = 'decode returned %d %s' % ((word ^ right).bit_count(), word_bytes(right, n).hex())
            else:
                # IT++ failed, or GUAVA's nearest codeword is further than t
                assert right is None or code.kind == 'cyclic'
                told = 'decode refused 13 ' + 'aa' * size
            yield code.sheet, 3, word_bytes(word, n), size, told
    for changed, number in refused():
        yield changed, 3, bytes(2), 2, 'decode refused %s aaaa' % number


def marked_places(word, right, n, d, most):
    # up to so many places, wrong ones in the low half first, such that the codeword `right` stays within the bound, and both trial words
    # within t of it
    marks, t = 0, (d - 1) // 2
    wrong = [i for i in range(n // 2) if (word ^ right) >> i & 1]
    for i in wrong + [(most + 7 * i) % n for i in range(n)]:
        more = marks | 1 << i
        e, r = ((word ^ right) & ~more).bit_count(), more.bit_count()
        trials = word & ~more, word | more
        if r <= most and 2 * e + r <= d - 1 and all((trial ^ right).bit_count() <= t for trial in trials):
            marks = more
    return marks


def marked_calls():
    # decode_marked: every second word without marks, as decode is held to it, with 15 for 13; and the others with marks where the other
    # program found a codeword within t
    for code in codes():
        n, _, t = numbers_of(code)
        size, d = (n + 7) // 8, int(answer(code.sheet).split()[5])
        for i, (word, right) in enumerate(code.received):
            near = right is not None and (word ^ right).bit_count() <= t
            marks = marked_places(word, right, n, d, 1 + i % d) if near and i % 2 else 0
            given = bytes([size] * 4) + word_bytes(word, n) + word_bytes(marks, n)
            if near:
                held = word_bytes(right, n).hex()
                told = 'marked returned %d 0 %s %s' % (((word ^ right) & ~marks).bit_count(), held, held)
            else:
                told = 'marked refused 15 %s %s' % ('aa' * size, '55' * size)
            yield code.sheet, 6, given, 0, told


def zeros_on_top(n, k, *words):
    # how many of the top places are 0 in all of these words, k - 1 at most
    return min([k - 1, *[n - word.bit_length() for word in words]])


def shortened_calls():
    # encode_short and read_short: each codeword with a 0 on top, with as many left out as there are. decode_short: each such received word;
    # where the other program's codeword within t has another value there, the answer is 13
    for code in codes():
        n, k, t = numbers_of(code)
        for word in code.words:
            m, message = zeros_on_top(n, k, word), word >> n - k
            if m > 0:
                told, sizes = (message_bytes(message, k - m), word_bytes(word, n - m)), ((k - m + 7) // 8, (n - m + 7) // 8)
                yield code.sheet, 8, m.to_bytes(8, 'little') + told[0], sizes[1], 'encode_short returned 0 ' + told[1].hex()
                yield code.sheet, 9, m.to_bytes(8, 'little') + told[1], sizes[0], 'read_short returned 0 ' + told[0].hex()
        for word, right in code.received:
            m = zeros_on_top(n, k, word)
            if m > 0:
                size, near = (n - m + 7) // 8, right is not None and (word ^ right).bit_count() <= t
                told = 'decode_short refused 13 ' + 'aa' * size
                if near and zeros_on_top(n, k, word, right) == m:
                    told = 'decode_short returned %d %s' % ((word ^ right).bit_count(), word_bytes(right, n - m).hex())
                yield code.sheet, 10, m.to_bytes(8, 'little') + word_bytes(word, n - m), size, told


def short_others():
    # how many of these words have a codeword within t that is no shortened one
    return sum(zeros_on_top(n, k, word) > zeros_on_top(n, k, word, right) for code in codes() for n, k, t in [numbers_of(code)]
               for word, right in code.received if right is not None and (word ^ right).bit_count() <= t)


PAGE = '''# Codes and words of other programs

A program in the gate, `vectors`, is held to answers that were made elsewhere: by IT++ for BCH codes, by GAP's GUAVA for small
cyclic codes, and by a plain decoder in Python. `tools/vectors/make` makes those of the first two anew, and installs what it needs:

- tools/vectors/itpp.txt: %(itpp)s;
- tools/vectors/guava.txt: %(guava)s.

In both files a word is a mask over its places. tools/entry_answers.py puts words and messages into bytes: the first of the places in a
byte is its highest bit in a word (document 02, request 2026-01), and its lowest in a message (document 01).

`tools/vectors.py` finds the sheet of each code and turns the files into %(entries)d calls of judge, card, encode and read,
%(decodes)d of decode, %(marked)d of decode_marked and %(shortened)d of encode_short, read_short and decode_short. It has also written this
page. The plain decoder is tools/decode_answers.py, which goes through error patterns or codewords; tools/marked_answers.py does so for
words with marks, tools/shortened_answers.py for shortened codes, and tools/block_answers.py for blocks; tools/entry_answers.py judges,
lists, encodes and reads, and tools/boundary_answers.py does all of it again at every boundary, by a reading of its own
(docs/MISREADINGS.md). docs/PROMISES.md says what they cover. `tools/answers.py` writes all calls and answers, crates/vectors/stdin and
stdout.

Of all %(all)s calls %(short)s are of encode_short, read_short and decode_short. tools/shortened_answers.py has %(answered)s of them, with m
from 1 to k - 1, next to these and up to 2^64 - 1; every word of %(every)d short codes; and at least %(others)s words that draw 13 with a
codeword within t places, which is no shortened one. tools/boundary_answers.py has %(bounds)s.

%(blocks)s calls are of decode_block. tools/block_answers.py has %(block_answered)s of them: %(block_returned)s blocks of up to 254 bytes, with
each m from 2 to 16, of which %(block_none)s have a word with no codeword within t places; and %(block_refused)s refusals, with m up to
2^64 - 1. Sheets H, E, B and S, with %(block_runs)d values of m between them, have blocks of codewords with m·t neighbouring bits spoiled, and with one
more, from every bit on. tools/boundary_answers.py has %(block_bounds)s calls.

On a code of GUAVA's a word has 0 to 5 wrong places, on one of IT++'s 0 to t + 2, two words for each number.

What each is held to:

- IT++: generator, k, codewords and decoded words of BCH codes. Where its decoder says that it failed, decode must answer 13. For
  length 127 it has another primitive polynomial than document 01: its root is our α^11, so start and step are 11.
- GAP and GUAVA: generator (by GAP's own field and minimal polynomials) and k; the minimum distance and the nearest codeword
  of received words where it has them in seconds. A nearest codeword further than t places must be answered by 13.
- What is published: documents 01 and 003 (7, 4, 3), (7, 3, 4), (15, 7, 5); document 001's (17, 9, 5) and (45, 31, 4), its Tables
  II to IV and the bound with f of degree 4; document 002's (21, 7, 8), of which the certificate here proves 5, and
  (65, 41, 8), of which it proves 7. Document 002's (119, 68, 3) has s = 24: refusal 3. Codes without decoded words below are
  decoded in tools/decode_answers.py, by its search.
- Neither file has words with marks. decode_marked gets each received word of theirs: without marks, where it is to find what they
  found, or answer 15 where decode answers 13; or with up to d - 1 marks such that their codeword is the answer and lies within t places
  of both trial words (%(with_marks)d words).
- Neither file has shortened codes. A codeword whose top places are 0 is one of the code without these: encode_short and read_short get
  each of theirs with as many left out as are 0, k - 1 at most, and decode_short each received word (%(short_words)d). Where their codeword
  within t places has a 1 there, the answer is 13 (%(short_others)d words).
- Neither file has blocks. tools/block_answers.py puts the received words of each code into blocks, m of them one after the other
  (%(block_others)d blocks): a word has its codeword and the number of its changed places, or 255 where decode answers 13.
- Sheets damaged in every byte: each draws the same refusal from every entry.

| made by | n | k | d proved | d of GUAVA | t | b z f h L | codewords | decoded | refused with 13 |
|---|---|---|---|---|---|---|---|---|---|
'''


def first_line(name):
    with open(os.path.join(FOLDER, name)) as file:
        return file.readline().split(' with ', 1)[1].strip()


def row(code):
    n, k, t = numbers_of(code)
    b, z, f, more, h, _, terms, most = code.sheet[-8:]
    near = sum(right is not None and (word ^ right).bit_count() <= t for word, right in code.received)
    its_d = code.numbers[2] or '' if code.kind == 'cyclic' else ''
    return (('IT++' if code.kind == 'bch' else 'GUAVA', n, k, answer(code.sheet).split()[5], its_d, t,
             '%d %d %d %d %d' % (b, z, f + 256 * more, h, terms + 256 * most), len(code.words), near, len(code.received) - near))


def main():
    # answers.py has this script among others
    import answers
    import block_answers
    import boundary_answers
    import shortened_answers
    marked = [call[2][4 + call[2][0]:] for call in marked_calls()]
    kinds, bounds = ([call[1] for call in calls] for calls in (answers.all_calls(), boundary_answers.boundary_calls()))
    blocks = list(block_answers.block_calls())
    returned = [call[4].split()[-1] for call in blocks if call[4].startswith('decode_block returned')]
    answered, shortened = len(list(shortened_answers.shortened_calls())), [call[1] for call in shortened_calls()]
    print(PAGE % dict(itpp=first_line('itpp.txt'), guava=first_line('guava.txt'), entries=len(list(entry_calls())),
                      decodes=len(list(decode_calls())), marked=len(marked), with_marks=sum(any(marks) for marks in marked),
                      all=f'{len(kinds):,}', short=f'{sum(7 < kind < 11 for kind in kinds):,}', answered=f'{answered:,}',
                      bounds=f'{sum(7 < kind < 11 for kind in bounds):,}', every=len(shortened_answers.EVERY),
                      others=f'{shortened_answers.near_others():,}', shortened=len(shortened), short_words=shortened.count(10),
                      short_others=short_others(), blocks=f'{kinds.count(11):,}', block_answered=f'{len(blocks):,}',
                      block_returned=f'{len(returned):,}', block_refused=f'{len(blocks) - len(returned):,}',
                      block_none=f'{sum(255 in bytes.fromhex(verdicts) for verdicts in returned):,}',
                      block_runs=sum(len(few) for _, few in block_answers.RUNS), block_bounds=f'{bounds.count(11):,}',
                      block_others=len(list(block_answers.other_calls(block_answers.Sequence(20261208))))), end='')
    for code in codes():
        print('| %s |' % ' | '.join(map(str, row(code))))


if __name__ == '__main__':
    main()
