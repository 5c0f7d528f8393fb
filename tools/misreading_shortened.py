# Misreadings of request 2026-06 of document 02, the shortened codes, for tools/misreadings: further entries of misreading_table.py's table.
from misreading_table import misread

# ---- 16
NOT_BELOW = 'return 16 if m >= k_of(sheet) else 0'
misread('short: 16: m = 0 allowed', 'if m == 0:', 'if False:')
misread('short: 16: m from 2', 'if m == 0:', 'if m < 2:')
for name, asked in (
        ('m = k allowed', 'm > k_of(sheet)'), ('m = k - 1 refused', 'm >= k_of(sheet) - 1'), ('m below n', 'm >= byte(sheet, 2)'),
        ('m to n', 'm > byte(sheet, 2)'), ('m below n - k', 'm >= byte(sheet, 2) - k_of(sheet)'), ('any m but 0', 'False'),
        ('only m = k', 'm == k_of(sheet)')):
    misread('short: 16: ' + name, NOT_BELOW, NOT_BELOW.replace('m >= k_of(sheet)', asked))
M = "int.from_bytes(given[:8], 'little'), given[8:]"
for bits in (8, 16, 32, 63):
    misread('short: m modulo 2^%d' % bits, M, M.replace(', given', ' %% 2 ** %d, given' % bits))
misread('short: m with a sign', M, M.replace("'little'", "'little', signed=True"))
misread('short: 11 for an m of 0', 'return 16\n', 'return 11\n')
misread('short: 11 for an m not below k', NOT_BELOW, NOT_BELOW.replace('16', '11'))

# ---- the order
ORDER = 'short_sheet, m_wrong, short_input, short_output, short_spare, no_short'
for name, order in (
        ('16 before the sheet', (1, 0, 2, 3, 4, 5)), ('16 after 11', (0, 2, 3, 1, 4, 5)), ('16 after 11 of the input', (0, 2, 1, 3, 4, 5)),
        ('16 after 12', (0, 2, 3, 4, 1, 5)), ('16 last', (0, 2, 3, 4, 5, 1)), ('12 before 11', (0, 1, 4, 2, 3, 5)),
        ('12 before 11 of the output', (0, 1, 2, 4, 3, 5)), ('13 and 14 before 12', (0, 1, 2, 3, 5, 4)),
        ('13 and 14 before 11 of the output', (0, 1, 2, 5, 3, 4)), ('11 before the sheet', (2, 3, 0, 1, 4, 5)),
        ('11 and 12 before the sheet', (2, 3, 4, 0, 1, 5))):
    misread('short: ' + name, ORDER, ', '.join(ORDER.split(', ')[i] for i in order))
misread('short: 16 before the certificates', ORDER, 'short_header, m_wrong, ' + ORDER, 'def m_wrong(', '''def short_header(
        kind, sheet, *given):
    return judged(sheet) if judged(sheet) < 7 else 0


def m_wrong(''')

# ---- 11 and 12
PLACES, BITS = 'return byte(sheet, 2) - m', 'return k_of(sheet) - m'
misread('short: words have n places', PLACES, 'return byte(sheet, 2)')
misread('short: messages have k bits', BITS, 'return k_of(sheet)')
misread('short: words have n places and messages k bits', PLACES, 'return byte(sheet, 2)', BITS, 'return k_of(sheet)')
IN, OUT = 'bits_of(sheet, m) if kind == 8 else places_of(sheet, m)', 'bits_of(sheet, m) if kind == 9 else places_of(sheet, m)'
misread('short: 11: the message to encode has k bits', IN, IN.replace('bits_of(sheet, m)', 'k_of(sheet)'))
misread('short: 11: the word handed over has n places', IN, IN.replace('places_of(sheet, m)', 'byte(sheet, 2)'))
misread('short: 11: the message read out has k bits', OUT, OUT.replace('bits_of(sheet, m)', 'k_of(sheet)'))
misread('short: 11: the word written has n places', OUT, OUT.replace('places_of(sheet, m)', 'byte(sheet, 2)'))
for what, given in (('input', 'put'), ('output', 'lent')):
    line = '11 if len(%s) != in_bytes(asked) else 0' % given
    misread('short: 11: %s may be longer' % what, line, line.replace('!=', '<'))
    misread('short: 11: %s may be shorter' % what, line, line.replace('!=', '>'))
    misread('short: 11: %s ignored' % what, line, '0')
    misread('short: 11: %s rounded down' % what, line, line.replace('in_bytes(asked)', 'asked // 8'))
    misread('short: 11: %s less whole bytes of m' % what, line, line.replace('in_bytes(asked)', 'in_bytes(asked + m) - m // 8'))
SPARE_BITS = '12 if mask_in(put, message_weight) >> bits_of(sheet, m) else 0'
SPARE_PLACES = '12 if mask_in(put, word_weight) >> places_of(sheet, m) else 0'
for what, line, count, whole, other in (('messages', SPARE_BITS, 'bits_of(sheet, m)', 'k_of(sheet)', ('message', 'word', 'low')),
                                        ('words', SPARE_PLACES, 'places_of(sheet, m)', 'byte(sheet, 2)', ('word', 'message', 'high'))):
    misread('short: 12: spare bits of %s from %s on' % (what, 'k' if what == 'messages' else 'n'), line, line.replace(count, whole))
    misread('short: 12: spare bits of %s ignored' % what, line, '0')
    misread('short: 12: the first spare place of %s only' % what, line, line.replace(count, count + ' & 1'))
    misread('short: 12: the last spare place of %s only' % what, line,
            line.replace('if', 'if %s %% 8 and' % count, 1).replace('>> ' + count, '>> 8 * len(put) - 1'))
    misread('short: 12: spare bits of %s at the %s end' % (what, other[2]), line, line.replace(other[0] + '_weight', other[1] + '_weight'))
    misread('short: 12: one spare bit of %s too many' % what, line, line.replace('>> ' + count, '>> %s - 1' % count))
misread('short: 12: spare bits of words read out ignored', SPARE_PLACES, SPARE_PLACES.replace('if', 'if kind == 10 and', 1))
misread('short: 12: spare bits of words decoded ignored', SPARE_PLACES, SPARE_PLACES.replace('if', 'if kind == 9 and', 1))

# ---- which bits are 0, and which places aren't sent
WHOLE_MESSAGE, SHORT_MESSAGE = 'return message\n', 'return message % (1 << bits_of(sheet, m))'
WHOLE_WORD, SENT_WORD, SENT_PLACES = 'return word\n', 'return word % (1 << places_of(sheet, m))', 'return range(places_of(sheet, m))'
LOW_MESSAGE = WHOLE_MESSAGE, 'return message << m\n', SHORT_MESSAGE, 'return message >> m'
misread('short: the low m message bits are 0', *LOW_MESSAGE)
misread('short: the low m message bits are 0 to encode', *LOW_MESSAGE[:2])
misread('short: the low m message bits left out of what is read', *LOW_MESSAGE[2:])
misread('short: the low m places aren\'t sent', WHOLE_WORD, 'return word << m\n', SENT_WORD, 'return word >> m', SENT_PLACES,
        'return range(m, byte(sheet, 2))')
misread('short: the low m places aren\'t sent by encode and decode, but read', SENT_WORD, 'return word >> m')
CHECKS = 'byte(sheet, 2) - k_of(sheet)'
misread('short: the low m message bits are 0, and their places aren\'t sent', *LOW_MESSAGE,
        WHOLE_WORD, 'return word %% 2 ** (%s) | word >> %s << %s + m\n' % (CHECKS, CHECKS, CHECKS),
        SENT_WORD, 'return word %% 2 ** (%s) | word >> %s + m << %s' % (CHECKS, CHECKS, CHECKS),
        SENT_PLACES, 'return [*range(%s), *range(%s + m, byte(sheet, 2))]' % (CHECKS, CHECKS))
misread('short: the top m checks aren\'t sent', WHOLE_WORD, '''checks = %s
    return word %% 2 ** (checks - m) | word >> checks - m << checks if m < checks else word << m
''' % CHECKS, SENT_WORD, '''checks = %s
    return word %% 2 ** (checks - m) | word >> checks << checks - m if m < checks else word >> m''' % CHECKS)
misread('short: the top m message bits are 1', WHOLE_MESSAGE, 'return message | 2 ** m - 1 << bits_of(sheet, m)\n',
        WHOLE_WORD, 'return word | 2 ** m - 1 << places_of(sheet, m)\n')

# ---- decoding
FOUND = 'return word ^ short_patterns(sheet, m)[added] if added in short_patterns(sheet, m) else None'
CHANGES = 'count = (right ^ mask).bit_count()'
misread('short: the unshortened codeword cut off, its places counted that aren\'t sent', FOUND, 'return nearest(sheet, word)')
misread('short: the unshortened codeword cut off', FOUND, 'return nearest(sheet, word)', CHANGES,
        'count = sent_word(sheet, m, right ^ mask).bit_count()')
OTHER = '''found = nearest(sheet, word)
    return found if found is None or found < 2 ** places_of(sheet, m) else %s'''
misread('short: the word as received where the codeword near is no shortened one', FOUND, OTHER % 'word')
misread('short: the word 0 where the codeword near is no shortened one', FOUND, OTHER % '0')
misread('short: 14 where the codeword near is no shortened one', 'is not None else 13', '''is not None else (
            13 if nearest(sheet, short_handed(kind, sheet, m, put)) is None else 14)''')
misread('short: the first n - m places of any codeword', FOUND, '''if k_of(sheet) > 9:
        return %s
    cut = [sent_word(sheet, m, codeword(sheet, message)) for message in range(2 ** k_of(sheet))]
    near = [c for c in cut if (c ^ word).bit_count() <= short_radius(sheet, m)]
    return min(near, key=lambda c: (c ^ word).bit_count()) if near else None''' % FOUND[7:],
        'if kind == 9:\n        return 0 if', 'if kind == 9 and k_of(sheet) > 9:\n        return 0 if')
RADIUS = 'return record(sheet)[5]\n'
OWN = '''if bits_of(sheet, m) > 9:
        return record(sheet)[5]
    return %s
'''
LEAST = 'min(codeword(sheet, message).bit_count() for message in range(1, 2 ** bits_of(sheet, m)))'
for name, radius in (
        ('t - 1', 'return max(record(sheet)[5] - 1, 0)\n'), ('t + 1', 'return record(sheet)[5] + 1\n'),
        ('t of the shortened code\'s own distance', OWN % ('(%s - 1) // 2' % LEAST)),
        ('t of the first certificate', 'return certificates_of(sheet)[0].t\n'),
        ('t of the last certificate', 'return certificates_of(sheet)[-1].t\n'),
        ('t of d + m', 'return min((record(sheet)[4] + m - 1) // 2, 3)\n'), ('t of d - m', 'return (record(sheet)[4] - m - 1) // 2\n')):
    misread('short: ' + name, RADIUS, radius)
misread('short: any shortened codeword, the nearest, where it is the only one so near', RADIUS,
        OWN % ('max(record(sheet)[5], %s // 2)' % LEAST))
for name, count in (
        ('returns 0', '0'), ('counts m too', '(right ^ mask).bit_count() + m'),
        ('message places counted only', '(right >> %s ^ mask >> %s).bit_count()' % (CHECKS, CHECKS)),
        ('counts bytes', 'sum(x > 0 for x in word_bytes(right ^ mask, byte(sheet, 2)))')):
    misread('short: decode ' + name, CHANGES, 'count = ' + count)
DECODED = 'word_bytes(sent_word(sheet, m, right), places_of(sheet, m))'
misread('short: decode writes the word as received', DECODED, 'put')
misread('short: decode writes the message', DECODED, 'word_bytes(message_in(sheet, right), places_of(sheet, m))')
misread('short: decode writes n places', DECODED, 'word_bytes(right, byte(sheet, 2))', OUT,
        OUT + ' if kind == 8 else byte(sheet, 2)')

# ---- the rest
NO_CODEWORD = 'return 0 if rest(short_handed(kind, sheet, m, put), generator(sheet)) == 0 else 14'
misread('short: 14: a word that is no codeword read out', NO_CODEWORD, 'return 0')
misread('short: 13 for 14', NO_CODEWORD, NO_CODEWORD.replace('14', '13'))
misread('short: 14 for 13', 'is not None else 13', 'is not None else 14')
misread('short: read decodes first', NO_CODEWORD, 'return 0 if only_short(sheet, m, short_handed(kind, sheet, m, put)) is not None else 14',
        'mask = short_handed(kind, sheet, m, put)\n', '''mask = short_handed(kind, sheet, m, put)
    mask = only_short(sheet, m, mask) if kind == 9 else mask
''')
misread('short: encode returns m', "return 'returned 0', word_bytes(", "return 'returned %d' % m, word_bytes(")
misread('short: read returns m', "return 'returned 0', message_bytes(", "return 'returned %d' % m, message_bytes(")
REFUSED = "return 'refused %d' % number, lent"
for name, end in (
        ('a refused call clears the buffer', "'refused %d' % number, bytes(len(lent))"),
        ('a refused call changes the last byte', "'refused %d' % number, lent[:-1] + bytes(1)[:len(lent)]"),
        ('16 clears the buffer', "'refused %d' % number, bytes(len(lent)) if number == 16 else lent"),
        ('13 with the received word written', "'refused %d' % number, put if number == 13 else lent"),
        ('13 with the unshortened codeword written', "'refused %d' % number, cut_off(sheet, m, put, lent) if number == 13 else lent"),
        ('a refusal returned as a count', "'returned %d' % number, lent")):
    misread('short: ' + name, REFUSED, 'return ' + end, 'def short_called(', '''def cut_off(sheet, m, put, lent):
    found = nearest(sheet, mask_in(put, word_weight))
    return lent if found is None else word_bytes(sent_word(sheet, m, found), places_of(sheet, m))


def short_called(''')
misread('short: encode: the message most significant bit first', 'whole_message(sheet, m, mask_in(put, message_weight))',
        'whole_message(sheet, m, mask_in(put, word_weight))')
misread('short: read and decode: the word least significant bit first', 'whole_word(sheet, m, mask_in(put, word_weight))',
        'whole_word(sheet, m, mask_in(put, message_weight))')
misread('short: encode: the word least significant bit first', 'word_bytes(sent_word(sheet, m, codeword',
        'message_bytes(sent_word(sheet, m, codeword')
misread('short: decode: the word written least significant bit first', DECODED, DECODED.replace('word_bytes(', 'message_bytes(', 1))
misread('short: read: the message most significant bit first', 'message_bytes(short_message(', 'word_bytes(short_message(')
misread('short: the places at the end of the word\'s bytes', SPARE_PLACES,
        '12 if mask_in(put, word_weight) % 2 ** (-places_of(sheet, m) % 8) else 0',
        'whole_word(sheet, m, mask_in(put, word_weight))', 'whole_word(sheet, m, mask_in(put, word_weight) >> -places_of(sheet, m) % 8)')

# ---- what no call can tell, and why
SAME = (
    ('short: 11: output before input', ORDER, ORDER.replace('short_input, short_output', 'short_output, short_input'), 'both are 11'),
    ('short: 16: an m of 0 after one not below k', "if m == 0:\n        return 16\n    return 16 if m >= k_of(sheet) else 0",
     'return 16 if m >= k_of(sheet) or m == 0 else 0', 'both are 16'),
    ('short: the codeword within t, and 13 where its top places aren\'t 0', FOUND, OTHER % 'None',
     'a shortened codeword is a codeword, and there is one within t at most'),
)
