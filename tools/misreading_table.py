# Misreadings of document 01 and of requests 2026-01 and 2026-03 to 2026-05 of document 02, for tools/misreadings: each is a name and what
# is replaced in tools/second_reading.py, a line or a part of one, by what. What is replaced must stand there exactly once.
# misreading_shortened.py has those of 2026-06, misreading_block.py those of 2026-07.
MISREADINGS = []


def misread(name, *replaced):
    MISREADINGS.append((name, [replaced[i:i + 2] for i in range(0, len(replaced), 2)]))


# ---- 1 to 3: length, n, s
for limit in (9, 11):
    misread('1: under %d bytes' % limit, 'if len(sheet) < 10:', 'if len(sheet) < %d:' % limit)
for limit in (73, 75):
    misread('1: over %d bytes' % limit, 'if len(sheet) > 74:', 'if len(sheet) > %d:' % limit)
STATED = 'return pair(sheet, 0) != len(sheet)'
misread('1: high byte of the length ignored', STATED, 'return byte(sheet, 0) != len(sheet)')
misread('1: stated length ignored', STATED, 'return False')
misread('1: stated length may be less', STATED, 'return pair(sheet, 0) > len(sheet)')
misread('1: stated length may be more', STATED, 'return pair(sheet, 0) < len(sheet)')
misread('16-bit numbers high byte first', 'return byte(sheet, place) + 256 * byte(sheet, place + 1)',
        'return 256 * byte(sheet, place) + byte(sheet, place + 1)')
misread('2: even n allowed', 'if n % 2 == 0:', 'if False:')
for limit in (1, 4):
    misread('2: n below %d' % limit, 'if n < 3:', 'if n < %d:' % limit)
for limit in (126, 129, 255):
    misread('2: n above %d' % limit, 'return n > 127', 'return n > %d' % limit)
ENOUGH = 'return smallest_s(byte(sheet, 2)) > 12'
for limit in (11, 14, 18):
    misread('3: s above %d' % limit, ENOUGH, ENOUGH.replace('12', str(limit)))

# ---- 4: the header
for limit in (31, 33, 255):
    misread('4: R to %d' % limit, 'if count > 32:', 'if count > %d:' % limit)
misread('4: C from 0', 'if certificates < 1:', 'if certificates < 0:')
misread('4: C from 2', 'if certificates < 1:', 'if certificates < 2:')
for limit in (3, 5):
    misread('4: C to %d' % limit, 'if certificates > 4:', 'if certificates > %d:' % limit)
for what, place, value in (('representatives', 4, '10'), ('certificates', 8, '10 + count')):
    line = 'if pair(sheet, %d) != %s:' % (place, value)
    misread('4: offset of the %s ignored' % what, line, 'if False:')
    misread('4: high byte of the offset of the %s ignored' % what, line, 'if byte(sheet, %d) != %s:' % (place, value))
    misread('4: offset of the %s may be less' % what, line, 'if pair(sheet, %d) > %s:' % (place, value))
    misread('4: offset of the %s may be more' % what, line, 'if pair(sheet, %d) < %s:' % (place, value))
misread('4: offset of the certificates always 11', 'if pair(sheet, 8) != 10 + count:', 'if pair(sheet, 8) != 11:')
misread('4: byte 7 ignored', 'if byte(sheet, 7) != 0:', 'if False:')
misread('4: byte 7 at most 1', 'if byte(sheet, 7) != 0:', 'if byte(sheet, 7) > 1:')
FORMULA = 'return len(sheet) != 10 + count + 8 * certificates'
misread('4: length formula ignored', FORMULA, 'return False')
misread('4: sheet may be longer than the formula', FORMULA, 'return len(sheet) < 10 + count + 8 * certificates')
misread('4: sheet may be shorter than the formula', FORMULA, 'return len(sheet) > 10 + count + 8 * certificates')

# ---- 5 and 6: representatives, k
SMALLEST = 'if r != min(coset(r, n)):'
misread('5: representatives modulo n', 'if r >= n:', 'if False:', SMALLEST, 'if r % n != min(coset(r, n)):')
misread('5: smallest of its coset not asked', SMALLEST, 'if False:')
misread('5: equal ones allowed', 'if r <= before:', 'if r < before:')
misread('5: rising not asked', 'if r <= before:', 'if False:')
misread('5: falling ones asked', 'if r <= before:', 'if before >= 0 and r >= before:')
misread('5: each compared with the first only', 'before = r', 'before = representatives_of(sheet)[0]')
EACH = 'for r in representatives_of(sheet):\n        if r >= n'
misread('5: rising asked of the first two only', EACH, EACH.replace('r in', 'i, r in enumerate(').replace(':', '):', 1), 'before = r',
        'before = r if i == 0 else -1')
misread('5: the last one not looked at', EACH, EACH.replace('(sheet)', '(sheet)[:-1]'))
misread('5: the first one not looked at', EACH, EACH.replace('(sheet)', '(sheet)[1:]'))
misread('6: k = 0 allowed', 'return k_of(sheet) == 0', 'return False')
misread('6: k at most 1 refused', 'return k_of(sheet) == 0', 'return k_of(sheet) <= 1')
misread('D without cosets', 'members |= coset(r, byte(sheet, 2))', 'members |= {r}')

# ---- 7: rule 1
misread('7: b up to n', 'if c.b >= n:', 'if c.b > n:')
misread('7: b any byte', 'if c.b >= n:', 'if False:')
misread('7: b below n - 1', 'if c.b >= n:', 'if c.b >= n - 1:')
misread('7: b above 0', 'if c.b >= n:', 'if c.b >= n or c.b == 0:')
misread('7: z from 2', 'if c.z < 1:', 'if c.z < 2:')
misread('7: z to n - 2', 'if c.z > n - 1:', 'if c.z > n - 2:')
misread('7: z to n + 1', 'if c.z > n - 1:', 'if c.z > n + 1:')
misread('7: z any byte', 'if c.z > n - 1:', 'if False:')
misread('7: z coprime to n not asked', 'if gcd(c.z, n) != 1:', 'if False:')
misread('7: z no divisor of n', 'if gcd(c.z, n) != 1:', 'if c.z > 1 and n % c.z == 0:')
misread('7: u from 2', 'if c.u < 1:', 'if c.u < 2:')
for limit in (7, 9, 15):
    misread('7: u to %d' % limit, 'if c.u > 8:', 'if c.u > %d:' % limit)
misread('7: constant term not asked', 'if c.f % 2 == 0:', 'if False:')
misread('7: h = 0 allowed', 'if c.h == 0:', 'if False:')
misread('7: v up to u', 'if c.v >= c.u:', 'if c.v > c.u:')
misread('7: v up to u + 1', 'if c.v >= c.u:', 'if c.v > c.u + 1:')
misread('7: v below u - 1', 'if c.v >= c.u:', 'if c.v >= c.u - 1 and c.v > 0:')
misread('7: h with constant term', 'if c.h == 0:', 'if c.h % 2 == 0:')
misread('7: L from 0', 'if c.terms < 1:', 'if c.terms < 0:')
misread('7: L from 2', 'if c.terms < 1:', 'if c.terms < 2:')
for limit in (1014, 1022, 1024, 65535):
    misread('7: L to %d' % limit, 'if c.terms > 1023:', 'if c.terms > %d:' % limit)
misread('7: zero byte ignored', 'return c.zero != 0', 'return False')
misread('7: zero byte at most 1', 'return c.zero != 0', 'return c.zero > 1')
misread('high byte of f ignored', 'pair(c, 2)', 'byte(c, 2)')
misread('high byte of L ignored', 'pair(c, 6)', 'byte(c, 6)')

# ---- 8 to 10: rules 2 to 4
misread('8: rule 2 not asked', 'return common(c.f, c.h) != 1', 'return False')
misread('8: only where h divides f', 'return common(c.f, c.h) != 1', 'return c.h != 1 and common(c.f, c.h) == c.h')
misread('8: only where both are 0 at 1', 'return common(c.f, c.h) != 1', 'return common(common(c.f, c.h), 3) != 1')
SHARED = 'return factors_shared(n, c.f)'
misread('9: rule 3 not asked', SHARED, 'return False')
misread('9: the period coprime to n, as before 2026-03', SHARED, 'return gcd(period(c.f), n) != 1')
misread('9: period no divisor of n', SHARED, 'return period(c.f) > 1 and n % period(c.f) == 0')
misread('9: period no multiple of n', SHARED, 'return period(c.f) % n == 0')
misread('9: i and j equal not left out', 'for j in range(n) if i != j', 'for j in range(n)')
misread('9: i and i + 1 alone compared', 'for j in range(n) if i != j', 'for j in (i + 1,)')
ASKED = 'any(a[j] == 1 and (c.b + j * c.z) % n not in members for j in range(c.terms))'
misread('10: rule 4 not asked', 'return ' + ASKED, 'return False')
misread('10: terms from j = 1', ASKED, ASKED.replace('range(c.terms)', 'range(1, c.terms)'))
misread('10: the last term not asked', ASKED, ASKED.replace('range(c.terms)', 'range(c.terms - 1)'))
misread('10: one term more asked', 'a = series(c.h, c.f, c.terms)', 'a = series(c.h, c.f, c.terms + 1)', ASKED,
        ASKED.replace('range(c.terms)', 'range(c.terms + 1)'))
misread('10: the first term only', ASKED, ASKED.replace('range(c.terms)', 'range(1)'))
misread('10: terms that are 0 asked too', ASKED, ASKED.replace('a[j] == 1 and ', ''))
misread('10: step 1 for z', ASKED, ASKED.replace('j * c.z', 'j'))
misread('10: places modulo 2^8', ASKED, ASKED.replace('% n', '% 256 % n'))
misread('10: places modulo 2^16', ASKED, ASKED.replace('% n', '% 65536 % n'))
misread('10: start 0 for b', ASKED, ASKED.replace('c.b + ', ''))
misread('10: terms of 1/f', 'a = series(c.h, c.f, c.terms)', 'a = series(1, c.f, c.terms)')

# ---- their order
NAMES = {1: 'length_wrong', 2: 'n_wrong', 3: 's_wrong', 4: 'header_wrong', 5: 'representative_wrong', 6: 'message_empty',
         7: 'rule_1_fails', 8: 'rule_2_fails', 9: 'rule_3_fails', 10: 'rule_4_fails'}
CONDITIONS = {i: '(%d, %s)' % (i, name) for i, name in NAMES.items()}
for i, j in [(i, j) for j in range(2, 11) for i in range(1, j) if j < 7 or i > 6]:
    between = [CONDITIONS[m] for m in range(i, j)]
    misread('%d before %s' % (j, i if i == j - 1 else '%d to %d' % (i, j - 1)), ', '.join(between + [CONDITIONS[j]]),
            ', '.join([CONDITIONS[j]] + between))
LATER = '''judging = judged


def judged(sheet):
    return judging(sheet) or next((number for number, wrong in LAST if wrong(sheet)), 0)


def working('''
misread('7 to 10 before 6', ', (6, message_empty))', ')\nLAST = ((6, message_empty),)', 'def working(', LATER)
misread('7 to 10 before 5 and 6', ', (5, representative_wrong), (6, message_empty))',
        ')\nLAST = ((5, representative_wrong), (6, message_empty))', 'def working(', LATER)
LOOPS = '''    for c in certificates_of(sheet):
        for number, fails in CERTIFICATE:'''
misread('7 of all certificates before 8 of all', LOOPS, '''    for number, fails in CERTIFICATE:
        for c in certificates_of(sheet):''')
misread('the last certificate first', LOOPS, LOOPS.replace('certificates_of(sheet)', 'certificates_of(sheet)[::-1]'))
misread('only the first certificate judged', LOOPS, LOOPS.replace('certificates_of(sheet)', 'certificates_of(sheet)[:1]'))
misread('the fourth certificate not judged', LOOPS, LOOPS.replace('certificates_of(sheet)', 'certificates_of(sheet)[:3]'))

# ---- distance and working certificate
DISTANCE = '-((self.v - self.terms) // self.u) + 1'
misread('d rounded down', DISTANCE, '(self.terms - self.v) // self.u + 1')
misread('d one more where u divides L - v', DISTANCE, '(self.terms - self.v) // self.u + 2')
misread('d without v', DISTANCE, '-(-self.terms // self.u) + 1')
misread('d = L + 1', DISTANCE, 'self.terms + 1')
misread('d without + 1', DISTANCE, '-((self.v - self.terms) // self.u)')
misread('d at least 2', DISTANCE, 'max(2, %s)' % DISTANCE)
misread('t = d/2, or (d - 1)/2 rounded up', '(self.d - 1) // 2', 'self.d // 2')
COUNTED = '''def ones_of(c):
    return sum(series(c.h, c.f, c.terms))


def working('''
BEATS = 'c.d > other.d or (c.d == other.d and c.terms < other.terms)'
misread('working: the latest of equal ones', BEATS, BEATS.replace('<', '<='))
misread('working: the first of the largest t, as before 2026-04', BEATS, 'c.t > other.t')
misread('working: the largest t, then the fewest terms', BEATS, BEATS.replace('.d', '.t'))
misread('working: the first of the largest d', BEATS, 'c.d > other.d')
misread('working: the last of the largest d', BEATS, 'c.d >= other.d')
misread('working: the largest d, then the most terms', BEATS, BEATS.replace('<', '>'))
misread('working: the fewest terms, then the largest d', BEATS, 'c.terms < other.terms or (c.terms == other.terms and c.d > other.d)')
misread('working: a larger d, or fewer terms', BEATS, 'c.d > other.d or c.terms < other.terms')
misread('working: the largest d, then the fewest terms that are not 0', BEATS,
        'c.d > other.d or (c.d == other.d and ones_of(c) < ones_of(other))', 'def working(', COUNTED)
misread('working: the most terms', BEATS, 'c.terms > other.terms')
misread('working: the first', BEATS, 'False')
misread('working: the smallest d', BEATS, 'c.d < other.d')
KEPT = 'working(sheet), c.d, c.t, c.terms'
misread('record: d of the first of the largest t', KEPT, 'working(sheet), max(certificates_of(sheet), key=lambda x: x.t).d, c.t, c.terms')
misread('record: the terms of the first certificate', KEPT, KEPT.replace('c.terms', 'certificates_of(sheet)[0].terms'))
misread('record: the fewest terms of any certificate', KEPT, KEPT.replace('c.terms', 'min(x.terms for x in certificates_of(sheet))'))
misread('record: the most terms of any certificate', KEPT, KEPT.replace('c.terms', 'max(x.terms for x in certificates_of(sheet))'))
misread('record: the index of the first of the largest d', KEPT,
        'max(range(len(certificates_of(sheet))), key=lambda i: certificates_of(sheet)[i].d), c.d, c.t, c.terms')
RADIUS = 'n, t, wanted = byte(sheet, 2), record(sheet)[5],'
misread('decode: t of the first certificate', RADIUS, RADIUS.replace('record(sheet)[5]', 'certificates_of(sheet)[0].t'))
misread('decode: t of the last certificate', RADIUS, RADIUS.replace('record(sheet)[5]', 'certificates_of(sheet)[-1].t'))

# ---- the code
for s, mask in ((3, 11), (4, 19), (5, 37), (6, 67), (7, 131), (8, 285), (9, 529), (10, 1033), (11, 2053), (12, 4179)):
    misread('field: the reversed mask for s = %d' % s, ' %d: %d' % (s, mask), ' %d: %d' % (s, int(bin(mask)[:1:-1], 2)))
ENCODED = 'return shifted ^ rest(shifted, generator(sheet))'
misread('encode: message times generator', ENCODED, 'return times(message, generator(sheet), 1 << 200)')
misread('encode: places below n - k left 0', ENCODED, 'return shifted')
misread('read: the low places', 'return word >> byte(sheet, 2) - k_of(sheet)', 'return word % 2 ** k_of(sheet)')
misread('decode: to t - 1 places', 'for weight in range(t + 1):', 'for weight in range(max(t, 1)):')
misread('decode: to t + 1 places', 'for weight in range(t + 1):', 'for weight in range(t + 2):')
DECODED = "return 'returned', (right ^ mask).bit_count(), word_bytes(right, n)"
COUNT = '(right ^ mask).bit_count()'
misread('decode: the word as received', DECODED, DECODED.replace('word_bytes(right, n)', 'given'))
misread('decode: returns 0', DECODED, DECODED.replace(COUNT, '0'))
misread('decode: counts bytes', DECODED, DECODED.replace(COUNT, 'sum(x > 0 for x in word_bytes(right ^ mask, n))'))
misread('decode: message places counted only', DECODED, DECODED.replace(COUNT, '(right >> n - k ^ mask >> n - k).bit_count()'))
misread('decode: message in place of the word', 'word_bytes(right, n)', 'word_bytes(right >> n - k, n)')

# ---- words and messages in bytes
WEIGHT = 'return 2 ** (7 - i % 8)'
misread('words: least significant bit first, as document 01 has it', WEIGHT, 'return 2 ** (i % 8)')
misread('messages: most significant bit first too', 'return 2 ** (i % 8)', WEIGHT)
misread('messages most significant bit first, words not', WEIGHT, 'return 2 ** (i % 8) ', 'return 2 ** (i % 8)\n', WEIGHT + '\n')
HANDED = 'message_weight if kind == 1 else word_weight'
misread('messages: high byte first', 'mask_in(given, message', 'mask_in(given[::-1] if kind == 1 else given, message',
        'bytes_with(mask, k, message_weight)', 'bytes_with(mask, k, message_weight)[::-1]')
misread('encode: the message most significant bit first', HANDED, 'word_weight')
misread('encode: the word least significant bit first', 'word_bytes(codeword(sheet, mask), n)', 'message_bytes(codeword(sheet, mask), n)')
misread('read: the word least significant bit first', HANDED, HANDED.replace('kind == 1', 'kind in (1, 2)'))
misread('read: the message most significant bit first', 'message_bytes(message_in(', 'word_bytes(message_in(')
misread('decode: the received word least significant bit first', HANDED, HANDED.replace('kind == 1', 'kind in (1, 3)'))
misread('decode: the corrected word least significant bit first', 'word_bytes(right, n)', 'message_bytes(right, n)')
# another layout of words. Their bytes written in binary are the places in turn; `laid` brings the other layout's digits into that order,
# and `back` from it
LAYOUT = '''def laid(digits, n):
    return %s


def back(digits, n):
    return %s


def rearranged(how, given, n):
    digits = how(''.join(format(x, '08b') for x in given), n)
    return bytes(int(digits[i:i + 8], 2) for i in range(0, len(digits), 8))


def relaid(kind, sheet, given, out):
    n = byte(sheet, 2)
    if kind != 1 and 0 < len(given) == in_bytes(n):
        given = rearranged(laid, given, n)
    end, number, left = called(kind, sheet, given, out)
    return end, number, rearranged(back, left, n) if kind != 2 and end == 'returned' else left


def told('''
CALLED = "end, number, out = called(kind, sheet, given, b'\\xaa' * space)"
SPARE_FIRST = 'digits[:-8] + digits[-8:][-n % 8:] + digits[-8:][:-n % 8]'
for name, laid, back in (
        ('high byte first', "''.join(digits[i:i + 8] for i in range(len(digits) - 8, -1, -8))", None),
        ('as one number, high byte first', 'digits[::-1]', None),
        ('the highest place first', 'digits[:n][::-1] + digits[n:]', None),
        ('the last byte least significant bit first', 'digits[:-8] + digits[-8:][::-1]', None),
        ('the places of the last byte in its low bits', SPARE_FIRST, SPARE_FIRST.replace('-n % 8', 'n % 8'))):
    misread('words: ' + name, 'def told(', LAYOUT % (laid, back or laid), CALLED, CALLED.replace('called', 'relaid'))

# ---- 11 to 14
for what, line in (('input', '11 if len(given) != in_bytes(places) else 0'), ('output', '11 if len(out) != in_bytes(places) else 0')):
    misread('11: %s may be longer' % what, line, line.replace('!=', '<'))
    misread('11: %s may be shorter' % what, line, line.replace('!=', '>'))
    misread('11: %s ignored' % what, line, '0')
misread('11: a message has n/8 bytes', '''    places = k_of(sheet) if kind == 1 else byte(sheet, 2)
    return 11''', '''    places = byte(sheet, 2)
    return 11''')
misread('11: one byte too many where k or n is a multiple of 8', '(count + 7) // 8', 'count // 8 + 1')
SPARE = '12 if handed(kind, given) >> places else 0'
misread('12: spare bits ignored', SPARE, '0')
misread('12: the first spare place only', SPARE, '12 if handed(kind, given) >> places & 1 else 0')
misread('12: the last spare place only', SPARE, '12 if places % 8 and handed(kind, given) >> 8 * len(given) - 1 else 0')
misread('12: spare bits of words at the high end', SPARE, '12 if mask_in(given, message_weight) >> places else 0')
misread('12: spare bits of messages at the low end', SPARE, '12 if mask_in(given, word_weight) >> places else 0')
misread('12: spare bits of messages ignored', SPARE, '12 if kind != 1 and handed(kind, given) >> places else 0')
misread('12: spare bits of words read out ignored', SPARE, '12 if kind != 2 and handed(kind, given) >> places else 0')
misread('12: spare bits of words decoded ignored', SPARE, '12 if kind != 3 and handed(kind, given) >> places else 0')
ORDER = '(sheet_refused, input_length, output_length, spare_bit, none_found)'
misread('12 before 11', ORDER, '(sheet_refused, spare_bit, input_length, output_length, none_found)')
misread('12 before 11 of the output', ORDER, '(sheet_refused, input_length, spare_bit, output_length, none_found)')
misread('13 and 14 before 12', ORDER, '(sheet_refused, input_length, output_length, none_found, spare_bit)')
misread('13 and 14 before 11 of the output', ORDER, '(sheet_refused, input_length, none_found, output_length, spare_bit)')
misread('11 before the sheet', ORDER, '(input_length, output_length, sheet_refused, spare_bit, none_found)')
misread('11 and 12 before the sheet', ORDER, '(input_length, output_length, spare_bit, sheet_refused, none_found)')
misread('11 before the certificates', ORDER, '(header_refused, input_length, output_length, sheet_refused, spare_bit, none_found)',
        'def input_length(', '''def header_refused(kind, sheet, given, out):
    return judged(sheet) if judged(sheet) < 7 else 0


def input_length(''')
misread('13: the word as received in its place', 'if kind == 3 and nearest(sheet, handed(kind, given)) is None:', 'if False:',
        'right = nearest(sheet, mask)', 'right = mask if nearest(sheet, mask) is None else nearest(sheet, mask)')
misread('13 and 14 swapped', 'return 13', 'return 14 ', 'return 14\n', 'return 13\n')
misread('14: a word that is no codeword read out', 'if kind == 2 and rest(', 'if kind == 0 and rest(')
REFUSED = "return 'refused', number, out"
misread('a refused call changes the first byte', REFUSED, "return 'refused', number, bytes(1)[:len(out)] + out[1:]")
misread('a refused call changes the last byte', REFUSED, "return 'refused', number, out[:-1] + bytes(1)[:len(out)]")
misread('13 with the received word written', REFUSED, "return 'refused', number, given if number == 13 else out")
misread('a refusal returned as a count', REFUSED, "return 'returned', number, out")

# ---- words with marks (2026-05): the bound, the codeword, and e
WITHIN = 'return 2 * e + r <= d - 1'
for name, bound in (('2 e + r at most d', '2 * e + r <= d'), ('2 e + r below d - 1', '2 * e + r < d - 1'),
                    ('2 e + r at most 2 t', '2 * e + r <= (d - 1) // 2 * 2'), ('e + r at most d - 1', 'e + r <= d - 1'),
                    ('e + r at most t', 'e + r <= (d - 1) // 2'), ('r not counted', '2 * e <= d - 1'),
                    ('r/2 rounded down', 'e + r // 2 <= (d - 1) // 2'), ('any codeword, the nearest in e', 'True')):
    misread('marked: ' + name, WITHIN, 'return ' + bound)
DISTANCE_OF = 'return record(sheet)[4]\n\n\n@lru'
for name, of in (('the first certificate', 'certificates_of(sheet)[0].d'), ('the last certificate', 'certificates_of(sheet)[-1].d'),
                 ('the first of the largest t, as before 2026-04', 'max(certificates_of(sheet), key=lambda c: c.t).d')):
    misread('marked: d of ' + name, DISTANCE_OF, DISTANCE_OF.replace('record(sheet)[4]', of))
misread('marked: r without the wrong places', 'if not within(e, marked_of(sheet, marks), distance_of(sheet)):',
        'if not within(e, max(marked_of(sheet, marks) - e, 0), distance_of(sheet)):')
misread('marked: the bound over marked places too', 'if left == 0:',
        'if left == 0 and within(pattern.bit_count(), marked_of(sheet, marks), distance_of(sheet)):')
WRONG_PLACES = 'e = ((right ^ word) & ~marks).bit_count()'
OF_TRIAL = '(right ^ (zeros_trial(word, marks) if zeros == right else ones_trial(word, marks))).bit_count()'
for name, count in (('e over marked places too', '(right ^ word).bit_count()'), ('e of the trial word', OF_TRIAL),
                    ('r added to e', '((right ^ word) | marks).bit_count()'),
                    ('e over the marked places', '((right ^ word) & marks).bit_count()'),
                    ('e over message places', '(((right ^ word) & ~marks) >> n - k_of(sheet)).bit_count()'),
                    ('returns 0 for e', '0'), ('returns 2 e + r', '2 * ((right ^ word) & ~marks).bit_count() + marks.bit_count()')):
    misread('marked: ' + name, WRONG_PLACES, 'e = ' + count)
UNTESTED = """def only(sheet, word, marks):
    decoded = [nearest(sheet, trial) for trial in (zeros_trial(word, marks), ones_trial(word, marks))]
    found = [x for x in decoded if x is not None]
    return %s


def marks_in("""
misread('marked: the first decoded trial word, without the bound', 'def marks_in(', UNTESTED % 'found[0] if found else None')
misread('marked: of both decoded trial words the one with fewer wrong places, without the bound', 'def marks_in(',
        UNTESTED % 'min(found, key=lambda x: ((x ^ word) & ~marks).bit_count()) if found else None')
misread('marked: the bound on the first decoded trial word alone', 'def marks_in(', UNTESTED % """(found[0] if found and within(
        ((found[0] ^ word) & ~marks).bit_count(), marked_of(sheet, marks), distance_of(sheet)) else None)""")
ZEROS, ONES = 'zeros_trial(word, marks)', 'ones_trial(word, marks)'
misread('marked: unmarked places decoded at 0', 'return word & ~marks', 'return word & marks')
misread('marked: trial words as received and turned over', 'return word & ~marks', 'return word', 'return word | marks',
        'return word ^ marks')
NONE = 'return 15 if only(sheet, mask_in(word, word_weight), marks_in(marks)) is None else 0'
for name, asked in (('only the zeros tried', 'found != left[0]'), ('only the ones tried', 'found != left[1]'),
                    ('both trials must hold it', 'found != left[0] or found != left[1]'),
                    ('15 where a trial gives 13', 'None in (nearest(sheet, zeros), nearest(sheet, ones))')):
    misread('marked: ' + name, NONE, """word, marks = mask_in(word, word_weight), marks_in(marks)
    zeros, ones, found = %s, %s, only(sheet, word, marks)
    left = held(sheet, zeros), held(sheet, ones)
    return 15 if found is None or %s else 0""" % (ZEROS, ONES, asked))

# ---- the trial and the buffers
TRIAL = 'trial = 0 if zeros == right else 1'
for name, number in (
        ('the ones handed back where both hold the answer', '1 if ones == right else 0'),
        ('trial 1 the zeros', '1 if zeros == right else 0'), ('trial always 0', '0'),
        ('trial 0 where the zeros are decoded', '0 if nearest(sheet, %s) is not None else 1' % ZEROS),
        ('the trial with fewer changes', '0 if (%s ^ right).bit_count() <= (%s ^ right).bit_count() else 1' % (ZEROS, ONES)),
        ('the trial as received in most marked places', '0 if 2 * (word & marks).bit_count() <= marks.bit_count() else 1')):
    misread('marked: ' + name, TRIAL, 'trial = ' + number)
LEFT = "return 'returned %d %d' % (e, trial), word_bytes(zeros, n), word_bytes(ones, n)"
NOT_DECODED = 'if nearest(sheet, %s) is None else'
for name, zeros, ones in (
        ('an undecoded trial leaves its buffer as it was', 'given[2] %s word_bytes(zeros, n)' % NOT_DECODED % ZEROS,
         'given[3] %s word_bytes(ones, n)' % NOT_DECODED % ONES),
        ('the received word in the buffer of an undecoded trial', 'word_bytes(word %s zeros, n)' % NOT_DECODED % ZEROS,
         'word_bytes(word %s ones, n)' % NOT_DECODED % ONES),
        ('0 in the buffer of an undecoded trial', 'word_bytes(0 %s zeros, n)' % NOT_DECODED % ZEROS,
         'word_bytes(0 %s ones, n)' % NOT_DECODED % ONES),
        ('the buffers hold the undecoded trial words', 'word_bytes(%s, n)' % ZEROS, 'word_bytes(%s, n)' % ONES),
        ('only the buffer of the answer written', '(given[2] if trial else word_bytes(zeros, n))',
         'word_bytes(ones, n) if trial else given[3]'),
        ('the ones not tried where the zeros hold the answer', 'word_bytes(zeros, n)', 'word_bytes(ones, n) if trial else given[3]'),
        ('the ones not tried where nothing is marked', 'word_bytes(zeros, n)', 'word_bytes(ones, n) if marks else given[3]'),
        ('the other trial undecoded', 'word_bytes(%s if trial else zeros, n)' % ZEROS, 'word_bytes(ones if trial else %s, n)' % ONES),
        ('the answer in both buffers', 'word_bytes(right, n)', 'word_bytes(right, n)'),
        ('the buffers swapped', 'word_bytes(ones, n)', 'word_bytes(zeros, n)'),
        ('the buffers least significant bit first', 'message_bytes(zeros, n)', 'message_bytes(ones, n)')):
    misread('marked: ' + name, LEFT, "return 'returned %%d %%d' %% (e, trial), %s, %s" % (zeros, ones))
REFUSED_MARKED = "return 'refused %d' % number, *given[2:]"
CHANGED = "return 'refused %%d' %% number, %s"
misread('marked: a refused call changes the zeros', REFUSED_MARKED, CHANGED % 'bytes(len(given[2])), given[3]')
misread('marked: a refused call changes the ones', REFUSED_MARKED, CHANGED % 'given[2], bytes(len(given[3]))')
HELD = 'word_bytes(held(sheet, %s_trial(*[mask_in(x, word_weight) for x in given[:2]])), byte(sheet, 2)) if number == 15 else %s'
misread('marked: 15 leaves the decoded zeros', REFUSED_MARKED, CHANGED % (HELD % ('zeros', 'given[2]') + ', given[3]'))
misread('marked: 15 leaves the decoded ones', REFUSED_MARKED, CHANGED % ('given[2], ' + HELD % ('ones', 'given[3]')))

# ---- marks in bytes, and the refusals
MARKS_IN = 'return mask_in(given, word_weight)'
misread('marked: the marks least significant bit first', MARKS_IN, 'return mask_in(given, message_weight)')
misread('marked: 0 meaning marked', MARKS_IN, 'return sum(1 << i for i in range(8 * len(given)) if not given[i // 8] & word_weight(i))')
misread('marked: the received word least significant bit first', 'only(sheet, mask_in(word, word_weight)',
        'only(sheet, mask_in(word, message_weight)', '12 if mask_in(word, word_weight) >>', '12 if mask_in(word, message_weight) >>',
        'mask_in(given[0], word_weight)', 'mask_in(given[0], message_weight)')
for what in ('word', 'marks', 'zeros', 'ones'):
    line = '11 if len(%s) != in_bytes(byte(sheet, 2)) else 0' % what
    misread('marked: 11: %s may be longer' % what, line, line.replace('!=', '<'))
    misread('marked: 11: %s may be shorter' % what, line, line.replace('!=', '>'))
    misread('marked: 11: %s ignored' % what, line, '0')
for what, spare in (('word', '12 if mask_in(word, word_weight) >> byte(sheet, 2) else 0'),
                    ('marks', '12 if marks_in(marks) >> byte(sheet, 2) else 0')):
    misread('marked: 12: spare bits of the %s ignored' % what, spare, '0')
    misread('marked: 12: the first spare place of the %s only' % what, spare, spare.replace('byte(sheet, 2)', 'byte(sheet, 2) & 1'))
    misread('marked: 12: the last spare place of the %s only' % what, spare, spare.replace('byte(sheet, 2)', '8 * len(%s) - 1' % what))
    misread('marked: 12: spare bits of the %s at the high end' % what, spare,
            '12 if mask_in(%s, message_weight) >> byte(sheet, 2) else 0' % what)
misread('marked: 11: the marks have k/8 bytes', '11 if len(marks) != in_bytes(byte(sheet, 2)) else 0',
        '11 if len(marks) != in_bytes(k_of(sheet)) else 0')
misread('marked: 13 for 15', NONE, NONE.replace('15', '13'))
misread('marked: 13 where nothing is marked', NONE, NONE.replace('15', '(15 if any(marks) else 13)'))
MARKED_ORDER = 'marked_sheet, word_length, marks_length, zeros_length, ones_length, word_spare, marks_spare, none_within'
for name, order in (
        ('12 before 11', (0, 5, 6, 1, 2, 3, 4, 7)), ('12 of the word before 11 of the marks', (0, 1, 5, 2, 3, 4, 6, 7)),
        ('12 before 11 of the trial buffers', (0, 1, 2, 5, 6, 3, 4, 7)), ('12 before 11 of the ones', (0, 1, 2, 3, 5, 6, 4, 7)),
        ('15 before 12', (0, 1, 2, 3, 4, 7, 5, 6)), ('15 before 12 of the marks', (0, 1, 2, 3, 4, 5, 7, 6)),
        ('15 before 11 of the trial buffers', (0, 1, 2, 5, 6, 7, 3, 4)), ('15 before 11 of the ones', (0, 1, 2, 3, 5, 6, 7, 4)),
        ('11 before the sheet', (1, 2, 3, 4, 0, 5, 6, 7)), ('11 of the word before the sheet', (1, 0, 2, 3, 4, 5, 6, 7)),
        ('11 of the trial buffers before the sheet', (3, 4, 0, 1, 2, 5, 6, 7)), ('11 and 12 before the sheet', (1, 2, 3, 4, 5, 6, 0, 7))):
    misread('marked: ' + name, MARKED_ORDER, ', '.join(MARKED_ORDER.split(', ')[i] for i in order))

# ---- shown
CHOSEN = 'buffer = zeros if trial == 0 else ones'
for name, choice in (
        ('any other trial counts as 0', 'trial != 1'), ('even trials count as 0', 'trial % 2 == 0'),
        ('the trial modulo 2^8', 'trial % 2 ** 8 == 0'), ('the trial modulo 2^32', 'trial % 2 ** 32 == 0'),
        ('trials below 0 count as 0', 'trial == 0 or trial >= 2 ** 63'), ('1 the zeros', 'trial == 1'), ('always the zeros', 'True')):
    misread('shown: ' + name, CHOSEN, CHOSEN.replace('trial == 0', choice))
SHOWN = 'return buffer[:in_bytes(n)]'
for name, part in (
        ('all of a longer buffer', 'buffer'), ('n/8 rounded down', 'buffer[:n // 8]'),
        ('one byte more where n is a multiple of 8', 'buffer[:n // 8 + 1]'), ('n bytes', 'buffer[:n]'),
        ('nothing of a shorter buffer', "buffer[:in_bytes(n)] if len(buffer) >= in_bytes(n) else b''"),
        ('a shorter buffer filled up with 0', "buffer[:in_bytes(n)].ljust(min(in_bytes(n), 20), b'\\0')"),
        ('no more than the other buffer has', 'buffer[:min(in_bytes(n), len(zeros), len(ones))]'),
        ('n + 7 wraps', 'buffer[:(n + 7) % 2 ** 64 // 8]'), ('n modulo 2^8', 'buffer[:in_bytes(n % 2 ** 8)]'),
        ('n modulo 2^32', 'buffer[:in_bytes(n % 2 ** 32)]'), ('nothing where n is below 0', 'buffer[:in_bytes(n) if n < 2 ** 63 else 0]'),
        ('spare bits cleared', 'bytes(x & 256 - 2 ** max(0, 8 * i + 8 - n) for i, x in enumerate(buffer[:in_bytes(n)]))')):
    misread('shown: ' + name, SHOWN, 'return ' + part)

# ---- card
WRONG = 'if len(out) != 1024:'
misread('card: buffer may be longer', WRONG, 'if len(out) < 1024:')
misread('card: buffer may be shorter', WRONG, 'if len(out) > 1024:')
misread('card: buffer as long as the listing', WRONG, 'if len(out) < len(listing(sheet)):')
misread('card: buffer of 1,023', WRONG, 'if len(out) != 1023:')
misread('card: 11 after the sheet', WRONG, 'if len(out) != 1024 and not judged(sheet):')
misread('card: a refused sheet refused by its number', WRONG, '''if judged(sheet):
        return 'refused', judged(sheet), out
    ''' + WRONG)
misread('card: refused 11 returned as a length', "return 'refused', 11, out", "return 'returned', 11, out")
misread('card: 11 with the first byte changed', "return 'refused', 11, out", "return 'refused', 11, bytes(1)[:len(out)] + out[1:]")
misread('card: the rest cleared', 'text + out[len(text):]', 'text + bytes(len(out) - len(text))')
misread('card: a byte 0 after the listing', 'text + out[len(text):]', 'text + bytes(1) + out[len(text) + 1:]')
misread('card: returns 0', "return 'returned', len(text)", "return 'returned', 0")
misread('card: returns the buffer\'s length', "return 'returned', len(text)", "return 'returned', len(out)")
misread('card: no newline at the end', 'text = listing(sheet).encode()', 'text = listing(sheet).encode()[:-1]')
misread('card: no newline after refused', "return 'refused %d\\n' % judged(sheet)", "return 'refused %d' % judged(sheet)")
misread('card: a space after zeros where D is empty', "'zeros' + ''.join(' %d' % i for i in sorted(defining_set(sheet)))",
        "'zeros ' + ' '.join('%d' % i for i in sorted(defining_set(sheet)))")
misread('card: representatives for D', 'for i in sorted(defining_set(sheet))', 'for i in representatives_of(sheet)')
misread('card: D by cosets', 'for i in sorted(defining_set(sheet))', 'for r in representatives_of(sheet) for i in sorted(coset(r, n))')
misread('card: generator from the top down', 'for i in range(n - k + 1))', 'for i in range(n - k, -1, -1))')
misread('card: certificates from 1', '(i, c.terms, c.d)', '(i + 1, c.terms, c.d)')
misread('card: the working certificate from 1', '% (t, index)', '% (t, index + 1)')
misread('card: the first of the largest t, as before 2026-04', '% (t, index)',
        '% (t, max(range(len(certificates_of(sheet))), key=lambda i: certificates_of(sheet)[i].t))')
misread('card: d for t', '% (t, index)', '% (record(sheet)[4], index)')
misread('card: distance of the working one for all', '(i, c.terms, c.d)', '(i, c.terms, record(sheet)[4])')
misread('card: k before n', "'code %d %d %d\\n' % (n, k, s)", "'code %d %d %d\\n' % (k, n, s)")

# ---- what no call can tell, and why
SAME = (
    ('2: n below 2', 'if n < 3:', 'if n < 2:', '2 is even'),
    ('2: n above 128', 'return n > 127', 'return n > 128', '128 is even'),
    ('3: s above 13', ENOUGH, ENOUGH.replace('12', '13'), 'no n has s = 13, since 2^13 - 1 is a prime above 127'),
    ('5: below n not asked', 'if r >= n:', 'if False:', 'the smallest of a coset is below n'),
    ('7: z = 0 allowed', 'if c.z < 1:', 'if False:', 'all of n divides 0 and n'),
    ('7: z = n allowed', 'if c.z > n - 1:', 'if c.z > n:', 'all of n divides n'),
    ('7: u from 0', 'if c.u < 1:', 'if False:', 'h is not 0 and v < u'),
    ('11: output before input', ORDER, ORDER.replace('input_length, output_length', 'output_length, input_length'), 'both are 11'),
    ('marked: 12 of the marks before that of the word', MARKED_ORDER,
     MARKED_ORDER.replace('word_spare, marks_spare', 'marks_spare, word_spare'), 'both are 12'),
    ('marked: 11 of the trial buffers before that of the word', MARKED_ORDER,
     'marked_sheet, zeros_length, ones_length, word_length, marks_length, word_spare, marks_spare, none_within', 'all are 11'),
)
