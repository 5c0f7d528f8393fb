# Misreadings of request 2026-07 of document 02, the blocks, for tools/misreadings: further entries of misreading_table.py's table. What
# they replace stands in the part of second_reading.py about blocks, so that they are tried on calls of decode_block alone.
from misreading_table import misread

# ---- 17
LOW, HIGH = 'if m < 2:', 'return 17 if m > 16 else 0'
for name, asked in (('m = 1 allowed', 'm < 1'), ('m = 0 allowed', 'm == 1'), ('m from 3', 'm < 3'), ('any m to 16', 'False')):
    misread('block: 17: ' + name, LOW, 'if %s:' % asked)
for name, asked in (
        ('m = 17 allowed', 'm > 17'), ('m below 16', 'm > 15'), ('m to 18', 'm > 18'), ('m to 255', 'm > 255'), ('any m from 2', 'False'),
        ('only m = 17', 'm == 17'), ('m above 16 or not below k', 'm > 16 or m >= k_of(sheet)'),
        ('m above 16 or above n', 'm > 16 or m > byte(sheet, 2)'), ('only powers of 2', 'm > 16 or m & m - 1'),
        ('no m with spare bits', 'm > 16 or m % 8')):
    misread('block: 17: ' + name, HIGH, HIGH.replace('m > 16', asked))
M = "m, space = int.from_bytes(given[:8], 'little')"
for bits in (8, 16, 32, 63):
    misread('block: m modulo 2^%d' % bits, M, '%s %% 2 ** %d' % (M, bits))
misread('block: m with a sign, none below 2', M, M.replace("'little'", "'little', signed=True"), LOW, 'if 0 <= m < 2:')
for number in (11, 16):
    misread('block: %d for an m below 2' % number, 'return 17\n', 'return %d\n' % number)
    misread('block: %d for an m above 16' % number, HIGH, HIGH.replace('return 17', 'return %d' % number))

# ---- the order
ORDER = 'block_sheet, depth_wrong, block_length, block_output, block_verdicts, block_spare'
for name, order in (
        ('17 before the sheet', (1, 0, 2, 3, 4, 5)), ('17 after 11', (0, 2, 3, 4, 1, 5)), ('17 after 11 of the block', (0, 2, 1, 3, 4, 5)),
        ('17 after 11 of block and output', (0, 2, 3, 1, 4, 5)), ('17 after 12', (0, 2, 3, 4, 5, 1)), ('12 before 11', (0, 1, 5, 2, 3, 4)),
        ('12 before 11 of output and verdicts', (0, 1, 2, 5, 3, 4)), ('12 before 11 of the verdicts', (0, 1, 2, 3, 5, 4)),
        ('12 before 17', (0, 5, 1, 2, 3, 4)), ('11 before the sheet', (2, 3, 4, 0, 1, 5)),
        ('11 of the block before the sheet', (2, 0, 1, 3, 4, 5)), ('11 and 12 before the sheet', (2, 3, 4, 5, 0, 1))):
    misread('block: ' + name, ORDER, ', '.join(ORDER.split(', ')[i] for i in order))
misread('block: 17 before the certificates', ORDER, 'block_header, depth_wrong, ' + ORDER, 'def depth_wrong(', '''def block_header(
        sheet, *given):
    return judged(sheet) if judged(sheet) < 7 else 0


def depth_wrong(''')

# ---- 11
BLOCK = '11 if len(block) != in_bytes(block_bits(sheet, m)) else 0'
OUT, OUT_ASKED = '11 if len(out) != asked else 0', 'asked = m * in_bytes(byte(sheet, 2))'
VERDICTS, VERDICTS_ASKED = '11 if len(verdicts) != asked else 0', 'asked = m\n'
for what, line in (('block', BLOCK), ('output', OUT), ('verdicts', VERDICTS)):
    misread('block: 11: %s may be longer' % what, line, line.replace('!=', '<'))
    misread('block: 11: %s may be shorter' % what, line, line.replace('!=', '>'))
    misread('block: 11: %s ignored' % what, line, '0')
for name, asked in (
        ('rounded down', 'block_bits(sheet, m) // 8'), ('a byte more where no bit is spare', 'block_bits(sheet, m) // 8 + 1'),
        ('as long as m words', 'm * in_bytes(byte(sheet, 2))'), ('k bits of each word', 'in_bytes(k_of(sheet) * m)'),
        ('a byte for each bit', 'block_bits(sheet, m)')):
    misread('block: 11: block ' + name, BLOCK, BLOCK.replace('in_bytes(block_bits(sheet, m))', asked))
for name, asked in (
        ('as long as the block', 'in_bytes(byte(sheet, 2) * m)'), ('as long as m messages', 'm * in_bytes(k_of(sheet))'),
        ('one word long', 'in_bytes(byte(sheet, 2))'), ('16 words long', '16 * in_bytes(byte(sheet, 2))'),
        ('16 bytes for each word', '16 * m'), ('a byte for each place', 'byte(sheet, 2) * m')):
    misread('block: 11: output ' + name, OUT_ASKED, 'asked = ' + asked)
for name, asked in (('a bit each', 'in_bytes(m)'), ('two bytes each', '2 * m'), ('always 16', '16'), ('one for the block', '1')):
    misread('block: 11: verdicts ' + name, VERDICTS_ASKED, 'asked = %s\n' % asked)

# ---- 12
SPARE = '12 if bits_in(sheet, m, block) >> block_bits(sheet, m) else 0'
misread('block: 12: spare bits ignored', SPARE, '0')
misread('block: 12: the first spare bit only', SPARE, SPARE.replace('>> block_bits(sheet, m)', '>> block_bits(sheet, m) & 1'))
misread('block: 12: the last spare bit only', SPARE, '12 if block_bits(sheet, m) % 8 and block[-1] & 1 else 0')
misread('block: 12: spare bits at the high end', SPARE, SPARE.replace('bits_in(sheet, m, block)', 'mask_in(block, message_weight)'))
misread('block: 12: one spare bit too many', SPARE, SPARE.replace('>> block_bits(sheet, m)', '>> block_bits(sheet, m) - 1'))
misread('block: 12: spare bits are 1', SPARE,
        '12 if bits_in(sheet, m, block) >> block_bits(sheet, m) != 2 ** (-block_bits(sheet, m) % 8) - 1 else 0')
misread('block: 12: as many spare bits as a word has', SPARE,
        '12 if block_bits(sheet, m) % 8 and block[-1] << byte(sheet, 2) % 8 & 255 else 0')

# ---- which bit is which place
BIT, WEIGHT, IN = 'return j * m + i\n', 'return 128 >> p % 8', 'return mask_in(block, block_weight)'
for name, bit in (
        ('bit i n + j', 'i * byte(sheet, 2) + j'), ('the last word first', 'j * m + m - 1 - i'),
        ('the last place first', '(byte(sheet, 2) - 1 - j) * m + i'), ('the last bit first', 'byte(sheet, 2) * m - 1 - j * m - i'),
        ('every second place turned round', 'j * m + (m - 1 - i if j % 2 else i)'),
        ('words shifted by a place each', '(j + i) % byte(sheet, 2) * m + i'),
        ('m and n swapped', '(j * m + i) % byte(sheet, 2) * m + (j * m + i) // byte(sheet, 2)'),
        ('always 16 words', '(j * 16 + i) % (byte(sheet, 2) * m)'), ('words counted from 1', '(j * m + i + 1) % (byte(sheet, 2) * m)'),
        ('places counted from 1', '(j * m + m + i) % (byte(sheet, 2) * m)')):
    misread('block: ' + name, BIT, 'return %s\n' % bit)
misread('block: packed low bit first', WEIGHT, 'return 1 << p % 8')
misread('block: packed low bit first, spare bits at the low end', IN, 'return mask_in(block, message_weight)', SPARE,
        SPARE.replace('bits_in(sheet, m, block)', 'mask_in(block, block_weight)'))
misread('block: the last byte first', IN, 'return mask_in(block[::-1], block_weight)')
misread('block: spare bits before the others', IN, 'return mask_in(block, block_weight) >> -block_bits(sheet, m) % 8', SPARE,
        '12 if mask_in(block, block_weight) % 2 ** (-block_bits(sheet, m) % 8) else 0')
AS_WORDS = BLOCK, BLOCK.replace('in_bytes(block_bits(sheet, m))', 'm * in_bytes(byte(sheet, 2))')
misread('block: the words one after the other, each in its bytes', *AS_WORDS, BIT, 'return i * 8 * in_bytes(byte(sheet, 2)) + j\n',
        SPARE, '0')
misread('block: bytes in turn for bits', *AS_WORDS, BIT, 'return (j // 8 * m + i) * 8 + j % 8\n', SPARE, '0')

# ---- the output
SIZE, PUT = 'size = in_bytes(byte(sheet, 2))\n', 'out[i * size:i * size + size] = word_bytes(right, byte(sheet, 2))'
AS_BLOCK = OUT_ASKED, 'asked = in_bytes(byte(sheet, 2) * m)'
BITWISE = '''for j in range(byte(sheet, 2)):
        p = %s
        out[p // 8] = out[p // 8] & 255 - (128 >> p %% 8) | (right >> j & 1) * (128 >> p %% 8)'''
misread('block: output without spare bits between words', *AS_BLOCK, PUT, BITWISE % 'i * byte(sheet, 2) + j')
misread('block: output without spare bits between words, in as many bytes', PUT, BITWISE % 'i * byte(sheet, 2) + j')
misread('block: output as the block is', *AS_BLOCK, PUT, BITWISE % 'j * m + i')
misread('block: output as the block is, in as many bytes', PUT, BITWISE % 'j * m + i')
for name, put in (
        ('least significant bit first', PUT.replace('word_bytes', 'message_bytes')),
        ('the last word first', PUT.replace('i * size', '(m - 1 - i) * size')), ('high byte first', PUT + '[::-1]'),
        ('messages', PUT.replace('right, ', 'message_in(sheet, right), ')),
        ('all in the first word\'s bytes', PUT.replace('i * size', '0')),
        ('spare bits as they were', PUT + '\n    out[i * size + size - 1] |= 0xaa & 2 ** (-byte(sheet, 2) % 8) - 1'),
        ('bytes of the words in turn', 'out[i::m] = word_bytes(right, byte(sheet, 2))')):
    misread('block: output ' + name, PUT, put)
NEAR, OWN = 'if right is not None:\n            put_word(sheet, m, written, i, right)', 'put_word(sheet, m, written, i, %s)'
for name, put in (
        ('the received word for one with none near', OWN % 'word if right is None else right'),
        ('0 for one with none near', OWN % 'right or 0'), ('the words as received', OWN % 'word'),
        ('a word with nothing changed left out', NEAR.replace('right is not None', 'right not in (None, word)')),
        ('the wrong places', NEAR.replace('i, right)', 'i, right ^ word)')),
        ('nothing after a word with none near',
         "if right is None:\n            return 'returned 0', bytes(written), bytes(given) \n        " + OWN % 'right'),
        ('words with none near skipped over',
         NEAR.replace('written, i,', 'written, sum(nearest(sheet, word_in_block(sheet, m, bits, x)) is not None for x in range(i)),'))):
    misread('block: output: ' + name, NEAR, put)

# ---- the verdicts
NONE, COUNT = 'if right is None:\n        return 255', 'return (right ^ word).bit_count()\n'
for name, number in (('0', '0'), ('1', '1'), ('13', '13'), ('127', '127'), ('128', '128'), ('254', '254'), ('n', 'byte(sheet, 2)'),
                     ('t + 1', 'record(sheet)[5] + 1')):
    misread('block: verdict %s for none near' % name, NONE, NONE.replace('255', number))
for name, count in (
        ('0', '0'), ('1 for any change', 'int(right != word)'), ('counts from 1', '(right ^ word).bit_count() + 1'),
        ('counts bytes', 'sum(x > 0 for x in word_bytes(right ^ word, byte(sheet, 2)))'),
        ('message places counted only', '(message_in(sheet, right) ^ message_in(sheet, word)).bit_count()'),
        ('the places right', 'byte(sheet, 2) - (right ^ word).bit_count()'),
        ('the first wrong place', '((right ^ word) & -(right ^ word)).bit_length()'),
        ('ones of the word', 'right.bit_count()')):
    misread('block: verdict ' + name, COUNT, 'return %s\n' % count)
GIVEN = 'given[i] = verdict(sheet, word, right)'
OF = 'verdict(sheet, word_in_block(sheet, m, bits, %s), nearest(sheet, word_in_block(sheet, m, bits, %s)))'
for name, put in (
        ('of the last word first', GIVEN.replace('given[i]', 'given[m - 1 - i]')),
        ('of words with none near not written', 'if right is not None:\n            ' + GIVEN),
        ('of words with nothing changed not written', 'if right != word:\n            ' + GIVEN),
        ('adds up over the words', 'given[i] = min(255, verdict(sheet, word, right) + (given[i - 1] if i else 0))'),
        ('of the next word', 'given[i] = ' + OF % (('(i + 1) % m',) * 2)),
        ('255 for all where one has none near', GIVEN + '\n        if 255 in given[:i + 1]:\n            given = bytearray([255] * m)'),
        ('255 for all after one with none near', GIVEN + '\n        if 255 in given[:i]:\n            given[i] = 255'),
        ('of the whole block', 'given[i] = min(255, sum(%s for x in range(m)))' % (OF % ('x', 'x')))):
    misread('block: verdict ' + name, GIVEN, put)

# ---- the radius
RIGHT = 'right = nearest(sheet, word)\n'
MORE = RIGHT + '''        for x in range(byte(sheet, 2)):
            right = nearest(sheet, word ^ 1 << x) if right is None else right
'''
LESS = RIGHT + '''        right = None if right is not None and (right ^ word).bit_count() > %s else right
'''
misread('block: t + 1 places', RIGHT, MORE)
misread('block: t - 1 places', RIGHT, LESS % 'max(record(sheet)[5] - 1, 0)')
misread('block: t of the first certificate', RIGHT, LESS % 'certificates_of(sheet)[0].t')
misread('block: t of the last certificate', RIGHT, LESS % 'certificates_of(sheet)[-1].t')
misread('block: nothing corrected', RIGHT, LESS % '0')
ALL = RIGHT + '''        words = [word_in_block(sheet, m, bits, x) for x in range(m)]
        wrong = [verdict(sheet, x, nearest(sheet, x)) for x in words]
        right = None if sum(%s) > record(sheet)[5]%s else right
'''
misread('block: t places of a block in all', RIGHT, ALL % ('x for x in wrong if x < 255', ''))
misread('block: m t places of a block in all', RIGHT, ALL % ('wrong', ' * m'))

# ---- how a call ends
END = "return 'returned 0', bytes(written), bytes(given)"
for name, number in (
        ('the changed places of all', 'sum(x for x in given if x < 255)'), ('m', 'm'),
        ('how many words have none near', 'given.count(255)'), ('how many words are corrected', 'sum(0 < x < 255 for x in given)'),
        ('how many words are right now', 'sum(x < 255 for x in given)'),
        ('the most changed places', 'max(given)'), ('the output\'s length', 'len(out)')):
    misread('block: returns ' + name, END, END.replace("'returned 0'", "'returned %%d' %% (%s)" % number))
for name, asked in (('a word', '255 in given'), ('every word', 'min(given) == 255')):
    misread('block: 13 where %s has none near' % name, END, "return ('refused 13', out, verdicts) if %s else (%s)" % (asked, END[7:]))
    misread('block: 13 where %s has none near, the buffers written' % name, END,
            END.replace("'returned 0'", "'refused 13' if %s else 'returned 0'" % asked))
REFUSED = "return 'refused %d' % number, out, verdicts"
for name, end in (
        ('a refused call clears the output', "'refused %d' % number, bytes(len(out)), verdicts"),
        ('a refused call clears the verdicts', "'refused %d' % number, out, bytes(len(verdicts))"),
        ('a refused call has 255 for verdicts', "'refused %d' % number, out, b'\\xff' * len(verdicts)"),
        ('17 has 255 for verdicts', "'refused %d' % number, out, b'\\xff' * len(verdicts) if number == 17 else verdicts"),
        ('12 has 255 for verdicts', "'refused %d' % number, out, b'\\xff' * len(verdicts) if number == 12 else verdicts"),
        ('11 clears the output', "'refused %d' % number, bytes(len(out)) if number == 11 else out, verdicts"),
        ('a refused sheet clears the output', "'refused %d' % number, bytes(len(out)) if number < 11 else out, verdicts"),
        ('a refusal returned as a count', "'returned %d' % number, out, verdicts")):
    misread('block: ' + name, REFUSED, 'return ' + end)

# ---- what no call can tell, and why
SAME = (
    ('block: 11: verdicts, then output, then the block', ORDER,
     'block_sheet, depth_wrong, block_verdicts, block_output, block_length, block_spare', 'all are 11'),
    ('block: 17: an m above 16 before one below 2', 'if m < 2:\n        return 17\n    ' + HIGH, 'return 17 if m > 16 or m < 2 else 0',
     'both are 17'),
    ('block: the last word decoded first', 'for i in range(m):\n        word', 'for i in range(m)[::-1]:\n        word',
     'each word has bytes and a verdict of its own'),
)
