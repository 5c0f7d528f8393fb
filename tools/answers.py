#!/usr/bin/env python3
# The calls that the program crates/vectors makes, and the answers that it must write, made without any of its code:
#
#     tools/answers.py calls   > crates/vectors/stdin
#     tools/answers.py answers > crates/vectors/stdout
#
# entry_answers.py, decode_answers.py, marked_answers.py, shortened_answers.py and block_answers.py compute what is right,
# boundary_answers.py does so again at every boundary by a reading of its own, vectors.py has what other programs said. Each yields a sheet,
# the kind of call (0 judge and card, 1 encode, 2 read, 3 decode, 4 decode with every word of a length, 5 card with a buffer whose length is
# the input, two bytes, the low one first, 6 decode_marked, 7 shown, 8 encode_short, 9 read_short, 10 decode_short, 11 decode_block), the
# input, the length of the buffer or of the words, and the answer. A call is written as the kind and the three lengths, a byte each, the
# sheet and the input. Every buffer holds AA before the call, but for those of 6, 7 and 11.
#
# 6: the input is the lengths of the word, of the marks and of the buffers of the zeros and of the ones, a byte each, the word and the
# marks. The buffer of the zeros holds AA before the call, that of the ones 55. 7: the input is the trial and n, eight bytes each, the low
# one first, and the lengths of the two buffers, a byte each. That of the zeros holds 0, 1 and so on, that of the ones 128, 129 and so on.
# 8 to 10: the input is m, eight bytes, the low one first, and the message or the word. 11: the input is m, eight bytes, and the length of
# the output, two, the low one first, that of the verdicts, a byte, and the block. The output holds AA before the call, the verdicts 55. The
# input may have more than 255 bytes: the fourth byte says how many there are beyond those that the third counts.
import sys

sys.dont_write_bytecode = True
import block_answers
import boundary_answers
import decode_answers
import entry_answers
import marked_answers
import shortened_answers
import vectors


def all_calls():
    yield from entry_answers.entry_calls()
    yield from vectors.entry_calls()
    yield from decode_answers.decode_calls()
    yield from vectors.decode_calls()
    yield from marked_answers.marked_calls()
    yield from vectors.marked_calls()
    yield from shortened_answers.shortened_calls()
    yield from vectors.shortened_calls()
    yield from block_answers.block_calls()
    yield from boundary_answers.boundary_calls()


def written(sheet, kind, given, space):
    count = min(len(given), 255)
    return bytes([kind, len(sheet), count, len(given) - count if kind == 11 else space]) + bytes(sheet) + given


def main():
    if sys.argv[1:] not in (['calls'], ['answers']):
        sys.exit('usage: tools/answers.py calls|answers')
    for *call, told in all_calls():
        if sys.argv[1] == 'calls':
            sys.stdout.buffer.write(written(*call))
        else:
            print(told)


if __name__ == '__main__':
    main()
