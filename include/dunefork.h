/* Dunefork: binary cyclic codes for a noisy wire, each code given by a code sheet.
 *
 * In short, with a sheet of n = 15 places, k = 7 of them for the message, and radius t = 2 (examples/c/link.c has it in full):
 *
 *     static const uint8_t sheet[] = {0x14, 0, 15, 2, 10, 0, 1, 0, 12, 0, 1, 3, 1, 1, 3, 0, 1, 0, 4, 0};
 *     uint8_t message[DUNEFORK_BYTES(7)] = {0x55}, word[DUNEFORK_BYTES(15)], right[DUNEFORK_BYTES(15)];
 *
 *     dunefork_encode(sheet, sizeof sheet, message, sizeof message, word, sizeof word);  // returns 0
 *     // .. the wire, which spoils up to two places of word ..
 *     int32_t changed = dunefork_decode(sheet, sizeof sheet, word, sizeof word, right, sizeof right);  // returns 0, 1 or 2
 *     if (changed >= 0) dunefork_read(sheet, sizeof sheet, right, sizeof right, message, sizeof message);  // returns 0
 *
 * Building. The command rt of the Rattle kit proves the library and writes the archive; then it links as any other:
 *
 *     tools/staticlib
 *     cc -Iinclude program.c target/staticlib/libdunefork.a
 *
 * The archive is for x86-64 and ELF (Linux), position independent, and calls no function of the C library but memset, memmove
 * and memcpy. There is nothing to set up and nothing to free.
 *
 * Calls. Every call but dunefork_shown_length is handed the sheet's bytes and judges the sheet first, dunefork_card after the length
 * of `out`. (dunefork_shown and dunefork_block_put are inline functions of this header, and no calls in this sense.) Nothing is kept
 * between calls: no heap, no global state. Calls from several threads need no lock, as long as no other thread writes to a buffer that a
 * call uses.
 *     Each buffer goes with its length in bytes, and nothing outside is read or written. A length must be exact, but for
 * dunefork_shown_length: an input, `out`, `zeros`, `ones` or `verdicts` that is too long is refused like one that is too short. A pointer
 * may be any address, also a null one, where its length is 0.
 *     `out` must not overlap the sheet or the input, so a word cannot be decoded in place. Nor may `zeros` and `ones`, the buffers that
 * dunefork_decode_marked writes, overlap each other, the sheet, the word or the marks; nor `out` and `verdicts` of dunefork_decode_block
 * each other, the sheet or the block. If one does, even by one byte, nothing that is said here holds of the call: it may return any
 * number, and read and write outside the buffers. No call checks for that. The sheet and the inputs are only read, and may overlap.
 *     A return of 0 or more says that it is done. A negative one is a refusal, minus the number that document 01 or 02 gives it, and
 * then `out`, `zeros` and `ones`, or `out` and `verdicts`, are as they were, every byte of them. Of a block dunefork_decode_block returns
 * 0 also where some or all of its words are near no codeword: the verdicts tell of each.
 *
 * Words and messages. A word of n places takes DUNEFORK_BYTES(n) bytes and a message of k places DUNEFORK_BYTES(k). They lie in
 * their bytes in opposite ways:
 *     word      place i has weight 2^(7 - i mod 8) in byte i div 8, so it is word[i / 8] >> (7 - i % 8) & 1: the highest bit of each
 *               byte is its first place, and the spare bits are the low bits of the last byte.
 *     message   place i has weight 2^(i mod 8) in byte i div 8, so it is message[i / 8] >> i % 8 & 1: the lowest bit of each byte
 *               is its first place, and the spare bits are the high bits of the last byte.
 * With n = 7 and k = 4 the word 80 has place 0 alone, and 01 a spare bit; the message 01 has place 0 alone, and 10 a spare bit.
 * Spare bits must be 0 in what you hand over, and are 0 in what you get. n is the sheet's byte 2; dunefork_card tells n, k, d and t.
 *
 * Marked places. A modem may know some places of a word only as "0 or 1". dunefork_decode_marked is told which, by a second word
 * that has a 1 in each of them, and then corrects more than dunefork_decode: e wrong places and r marked ones as long as 2 e + r is at
 * most d - 1, so d - 1 marked places if no other is wrong. It tries the word with 0 in all marked places and with 1 in all of them, each
 * in a buffer of its own, and dunefork_shown picks the one that holds the answer (examples/c/marked.c has it in full):
 *
 *     uint8_t marks[DUNEFORK_BYTES(15)], zeros[DUNEFORK_BYTES(15)], ones[DUNEFORK_BYTES(15)];
 *
 *     int32_t answer = dunefork_decode_marked(sheet, sizeof sheet, word, sizeof word, marks, sizeof marks, zeros, sizeof zeros,
 *                                             ones, sizeof ones);
 *     if (answer >= 0) {
 *         int32_t wrong = answer / 2;  // unmarked places that were wrong
 *         const uint8_t *right = dunefork_shown((size_t)answer % 2, zeros, ones);  // the codeword: DUNEFORK_BYTES(15) bytes
 *     }
 *
 * Shortened codes. Where readings are small, fewer bits need be sent. With m from 1 to k - 1, the top m message places are 0 and the top
 * m places of a word are not sent: a message has k - m places and a word n - m, and as many wrong places are corrected as before.
 * dunefork_encode_short, dunefork_read_short and dunefork_decode_short take m after the sheet (examples/c/shortened.c has it in full).
 * Spare bits are then those from place n - m of a word on, and from place k - m of a message. With m = 3 on the sheet above:
 *
 *     uint8_t message[DUNEFORK_BYTES(7 - 3)] = {0x05}, word[DUNEFORK_BYTES(15 - 3)], right[DUNEFORK_BYTES(15 - 3)];
 *
 *     dunefork_encode_short(sheet, sizeof sheet, 3, message, sizeof message, word, sizeof word);  // returns 0
 *     // .. the wire, which spoils up to two places ..
 *     int32_t changed = dunefork_decode_short(sheet, sizeof sheet, 3, word, sizeof word, right, sizeof right);  // returns 0, 1 or 2
 *     if (changed >= 0) dunefork_read_short(sheet, sizeof sheet, 3, right, sizeof right, message, sizeof message);  // returns 0
 *
 * Interleaved blocks. Where a soft starter wipes out a run of bits, m words of one sheet, 2 to 16, are sent together, one place of each in
 * turn: bit j m + i of the block is place j of word i. Bit p of a block is block[p / 8] >> (7 - p % 8) & 1, and the spare bits, from n m
 * on, are the low ones of the last byte. A run of at most m t neighbouring bits, each of them wrong or right, then has at most t of each
 * word. There is no call that encodes a block: encode its words one by one and put each into the block, which is 0 at first.
 * dunefork_decode_block takes m after the sheet, and corrects all words at once (examples/c/block.c has it in
 * full). With m = 8 on the sheet above, a run of up to 16 bits:
 *
 *     uint8_t message[8][DUNEFORK_BYTES(7)] = {{0x44}, {0x75}}, word[DUNEFORK_BYTES(15)];
 *     uint8_t block[DUNEFORK_BYTES(15 * 8)] = {0}, out[8 * DUNEFORK_BYTES(15)], verdicts[8];
 *
 *     for (size_t i = 0; i < 8; i++) {
 *         dunefork_encode(sheet, sizeof sheet, message[i], sizeof message[i], word, sizeof word);  // returns 0
 *         dunefork_block_put(15, 8, i, word, block);  // sets bit j * 8 + i to place j of word, for each j below 15
 *     }
 *     // .. the wire, which spoils up to 16 neighbouring bits of block ..
 *     dunefork_decode_block(sheet, sizeof sheet, 8, block, sizeof block, out, sizeof out, verdicts, sizeof verdicts);  // returns 0
 *     // word i is out[2 i] and out[2 i + 1], with verdicts[i] of its places changed; or verdicts[i] is 255, no codeword near
 *
 * The sheet. 16-bit numbers have their low byte first. The folder sheets/ has some; docs/SHEETS.md says how to write one.
 *     bytes 0-1  length of the whole sheet, 10 + R + 8 C
 *     byte  2    n, odd, 3 to 127
 *     byte  3    R, number of representatives, 0 to 32
 *     bytes 4-5  10, where the representatives start
 *     byte  6    C, number of certificates, 1 to 4
 *     byte  7    0
 *     bytes 8-9  10 + R, where the certificates start
 *     then R bytes, the representatives, rising: each the smallest member of its coset r, 2r, 4r, .. modulo n. The cosets
 *     together are the defining set; n less its size is k;
 *     then C certificates of 8 bytes: start b, step z, mask f (two bytes), mask h, a byte 0, number of terms L (two bytes).
 * The program linkcard tells what a sheet amounts to: tools/linkcard sheets/bch-15-7.hex.
 *
 * What is proved. For every sheet, input and buffer of any length, those that are written apart from all others, the code behind
 * these functions replies and writes exactly what its definitions say (crates/document/specs, and crates/dunefork/specs for the number
 * returned). The compiler's back end, the calling convention and this header with its dunefork_shown and dunefork_block_put are not proved,
 * nor are time, stack and secrecy.
 */
#ifndef DUNEFORK_H
#define DUNEFORK_H

#include <stddef.h>
#include <stdint.h>

#ifdef __cplusplus
extern "C" {
#endif

/* Bytes that n places take; the longest sheet, and the longest word or message, in bytes; the buffer for a listing. */
#define DUNEFORK_BYTES(n) (((size_t)(n) + 7) / 8)
#define DUNEFORK_SHEET_MAX 74
#define DUNEFORK_WORD_MAX 16
#define DUNEFORK_CARD_BYTES 1024

/* Bytes of stack that a call takes, at most and for any input, its return address included; what memset and memmove of your C
 * library take for themselves is not counted. Those of encode, read and decode hold for dunefork_encode_short, dunefork_read_short and
 * dunefork_decode_short too; those of dunefork_decode_block hold for every m. tools/stack measures the archive and writes these lines:
 * docs/STACK.md. */
#define DUNEFORK_ENCODE_STACK 1604
#define DUNEFORK_READ_STACK 1604
#define DUNEFORK_DECODE_STACK 79872
#define DUNEFORK_DECODE_STACK_SMALL 33792 /* on a sheet whose s, the third number of its listing, is at most 8 */
#define DUNEFORK_DECODE_STACK_SHORT 6912 /* on such a sheet whose certificate at work has fewer than 64 terms (L) */
#define DUNEFORK_DECODE_STACK_LEAST 4608 /* on such a sheet whose s is at most 6 */
#define DUNEFORK_DECODE_MARKED_STACK 79936
#define DUNEFORK_DECODE_MARKED_STACK_SMALL 33856 /* on the same sheets as decode's: s at most 8, */
#define DUNEFORK_DECODE_MARKED_STACK_SHORT 6976 /* and fewer than 64 terms, */
#define DUNEFORK_DECODE_MARKED_STACK_LEAST 4672 /* and s at most 6 */
#define DUNEFORK_DECODE_BLOCK_STACK 80416
#define DUNEFORK_DECODE_BLOCK_STACK_SMALL 34336 /* likewise: s at most 8, */
#define DUNEFORK_DECODE_BLOCK_STACK_SHORT 7456 /* and fewer than 64 terms, */
#define DUNEFORK_DECODE_BLOCK_STACK_LEAST 5152 /* and s at most 6 */
#define DUNEFORK_SHOWN_LENGTH_STACK 8
#define DUNEFORK_CARD_STACK 1912

/* What a call returns where it refuses. The conditions are tried in this order, SHORTENING and INTERLEAVING_DEPTH between TERM and
 * BUFFER_LENGTH; those of certificates (RANGE to TERM) for one certificate after the other. examples/c/refusals.c draws each of them,
 * docs/SHEETS.md says what to do about it. */
#define DUNEFORK_SHEET_LENGTH (-1)    /* the sheet is under 10 or over 74 bytes, or states another length */
#define DUNEFORK_CODE_LENGTH (-2)     /* n is even, below 3 or above 127 */
#define DUNEFORK_FIELD_DEGREE (-3)    /* n divides no 2^s - 1 with s up to 12 */
#define DUNEFORK_HEADER (-4)          /* R, C, an offset, byte 7 or the sheet's length formula is wrong */
#define DUNEFORK_REPRESENTATIVE (-5)  /* a representative is not below n, not the smallest of its coset, or not above the one before */
#define DUNEFORK_NO_MESSAGE (-6)      /* the code has no message places: k is 0 */
#define DUNEFORK_RANGE (-7)           /* a field of a certificate is out of range: b not below n; z not 1 to n - 1, or not coprime to n;
                                         f not of degree 1 to 8, or without constant term; h 0, or not of smaller degree than f;
                                         L not 1 to 1023; or its zero byte not 0 */
#define DUNEFORK_COMMON_FACTOR (-8)   /* the masks h and f of a certificate have a common factor */
#define DUNEFORK_PERIOD (-9)          /* two of f(x), f(a x), .. f(a^(n-1) x), for the mask f of a certificate and the code's root a, have a
                                         common factor; where the period of f is coprime to n none have */
#define DUNEFORK_TERM (-10)           /* a certificate has a term j below L that is 1 while b + j z modulo n is outside the defining set */
#define DUNEFORK_BUFFER_LENGTH (-11)  /* an input, `out`, `zeros`, `ones` or `verdicts` has not its exact length */
#define DUNEFORK_SPARE_BIT (-12)      /* a spare bit of an input is 1: a low one in the last byte of a word, of marks or of a block, a
                                         high one in a message's */
#define DUNEFORK_NONE_NEAR (-13)      /* decoding: no codeword, of a shortened code no shortened one, within t places of the word */
#define DUNEFORK_NO_CODEWORD (-14)    /* reading out: the word is no codeword */
#define DUNEFORK_NONE_WITH_MARKS (-15) /* decoding a marked word: no codeword differs from it in e unmarked places with 2 e + r at most
                                         d - 1, where r places are marked */
#define DUNEFORK_SHORTENING (-16)     /* a shortened code: m is 0, or not below k */
#define DUNEFORK_INTERLEAVING_DEPTH (-17) /* a block: m is not 2 to 16 */

/* Encodes a message of exactly DUNEFORK_BYTES(k) bytes into the codeword in out, exactly DUNEFORK_BYTES(n) bytes:
 * message place i stands in place n - k + i, the places below hold the checks. Returns 0, or a refusal: -1 to -12. */
int32_t dunefork_encode(const uint8_t *sheet, size_t sheet_len, const uint8_t *message, size_t message_len, uint8_t *out,
                        size_t out_len);

/* Reads the message out of a codeword of exactly DUNEFORK_BYTES(n) bytes into out, exactly DUNEFORK_BYTES(k) bytes. On an
 * accepted sheet a word of the right length without spare bits is refused, with DUNEFORK_NO_CODEWORD, exactly where it is no
 * codeword. Returns 0, or a refusal: -1 to -12 or -14. */
int32_t dunefork_read(const uint8_t *sheet, size_t sheet_len, const uint8_t *word, size_t word_len, uint8_t *out, size_t out_len);

/* Corrects a received word of exactly DUNEFORK_BYTES(n) bytes: the codeword that differs from it in at most t places goes into
 * out, exactly DUNEFORK_BYTES(n) bytes, and the number of places in which the two differ is returned, 0 to t. t is the sheet's
 * radius, told by dunefork_card: the largest (d - 1)/2, rounded down, of the sheet's certificates. There is never more
 * than one such codeword. On an accepted sheet a word of the right length without spare bits is refused, with
 * DUNEFORK_NONE_NEAR, exactly where there is none. Returns 0 to t, or a refusal: -1 to -13.
 *
 * So up to t wrong places are always corrected. If there are more, the answer is DUNEFORK_NONE_NEAR, or another codeword that is
 * within t places: the received word does not tell them apart. Where that matters, let the message carry a check of its own. */
int32_t dunefork_decode(const uint8_t *sheet, size_t sheet_len, const uint8_t *word, size_t word_len, uint8_t *out, size_t out_len);

/* Corrects a received word some of whose places are marked, with a 1 in `marks`, as known only as "0 or 1". With r marked places, and d
 * the sheet's distance, told by dunefork_card for the certificate at work, the answer is the codeword that differs from the word
 * in e unmarked places with 2 e + r at most d - 1. There is never more than one. What the word has in marked places changes nothing;
 * with no mark the answer is that of dunefork_decode. The word, the marks, zeros and ones have exactly DUNEFORK_BYTES(n) bytes each;
 * marks are laid out as a word is, spare bits 0.
 *     Returned is 2 e + trial, so e is half of it, rounded down, and trial what is left: 0 where zeros holds the answer, else 1, where
 * ones holds it. dunefork_shown picks the buffer. Then zeros holds what dunefork_decode makes of the word with 0 in all marked places, or
 * that word itself where it is refused with DUNEFORK_NONE_NEAR; ones likewise with 1 in all marked places.
 *     On an accepted sheet, with everything of the right length and without spare bits, it is refused, with DUNEFORK_NONE_WITH_MARKS,
 * exactly where there is no such codeword. Returns 0 to d - 1, or a refusal: -1 to -12 or -15, and then zeros and ones are both as they
 * were. */
int32_t dunefork_decode_marked(const uint8_t *sheet, size_t sheet_len, const uint8_t *word, size_t word_len, const uint8_t *marks,
                               size_t marks_len, uint8_t *zeros, size_t zeros_len, uint8_t *ones, size_t ones_len);

/* The buffer that holds the answer of a trial: zeros for 0, ones for any other number. */
static inline const uint8_t *dunefork_shown(size_t trial, const uint8_t *zeros, const uint8_t *ones) {
    return trial == 0 ? zeros : ones;
}

/* How many bytes of that buffer are the answer: n/8, rounded up, or all of a shorter one. There is no sheet, no refusal, and nothing is
 * written; trial and n may be any numbers, however large, and the buffers of any length. After an answer of
 * dunefork_decode_marked, with the sheet's n, it is DUNEFORK_BYTES(n). */
size_t dunefork_shown_length(size_t trial, size_t n, const uint8_t *zeros, size_t zeros_len, const uint8_t *ones, size_t ones_len);

/* The calls for a shortened code: the top m message places are 0, and the top m places of a word are not sent. m may be any number; it is
 * refused with DUNEFORK_SHORTENING, after the sheet and before anything else is looked at, where it is 0 or not below k. A shortened
 * codeword is a codeword of n places whose top m places, n - m to n - 1, are 0; its bytes are those of the n - m places below. */

/* Encodes a message of exactly DUNEFORK_BYTES(k - m) bytes into the shortened codeword in out, exactly DUNEFORK_BYTES(n - m) bytes: that of
 * the message with m places more, which are 0. Message place i stands in place n - k + i, the places below hold the checks. Returns 0, or
 * a refusal: -1 to -12 or -16. */
int32_t dunefork_encode_short(const uint8_t *sheet, size_t sheet_len, size_t m, const uint8_t *message, size_t message_len, uint8_t *out,
                              size_t out_len);

/* Reads the message out of a shortened codeword of exactly DUNEFORK_BYTES(n - m) bytes into out, exactly DUNEFORK_BYTES(k - m) bytes.
 * With a sheet and an m that are accepted, a word of the right length without spare bits is refused, with DUNEFORK_NO_CODEWORD, exactly
 * where it is no shortened codeword. Returns 0, or a refusal: -1 to -12, -14 or -16. */
int32_t dunefork_read_short(const uint8_t *sheet, size_t sheet_len, size_t m, const uint8_t *word, size_t word_len, uint8_t *out,
                            size_t out_len);

/* Corrects a received word of exactly DUNEFORK_BYTES(n - m) bytes: the shortened codeword that differs from it in at most t places goes
 * into out, exactly DUNEFORK_BYTES(n - m) bytes, and the number of places in which the two differ is returned, 0 to t, with t as for
 * dunefork_decode. There is never more than one. With a sheet and an m that are accepted, a word of the right length without spare
 * bits is refused, with DUNEFORK_NONE_NEAR, exactly where there is none: also where a codeword that has a 1 in a place that is not sent
 * is within t places. Returns 0 to t, or a refusal: -1 to -13 or -16. */
int32_t dunefork_decode_short(const uint8_t *sheet, size_t sheet_len, size_t m, const uint8_t *word, size_t word_len, uint8_t *out,
                              size_t out_len);

/* Corrects the m words of a block of exactly DUNEFORK_BYTES(n * m) bytes: bit j m + i of the block is place j of word i, for i below m and
 * j below n, and bit p is block[p / 8] >> (7 - p % 8) & 1. m may be any number; it is refused with DUNEFORK_INTERLEAVING_DEPTH, after the
 * sheet and before anything else is looked at, where it is not 2 to 16.
 *     out has exactly m * DUNEFORK_BYTES(n) bytes, DUNEFORK_BYTES(n) for each word, one after the other in a word's layout; verdicts has
 * exactly m bytes. Where a codeword is within t places of word i, with t as for dunefork_decode, it goes into the word's bytes of out, and
 * verdicts[i] is the number of places in which the two differ, 0 to t. There is never more than one. Where there is none, verdicts[i] is
 * 255 and the word's bytes of out are as they were; the other words are corrected all the same.
 *     So a block of codewords of which at most m t neighbouring bits are spoiled, none of them spare, always comes back whole: every word
 * is the one sent, and its verdict the number of its wrong places. The spoiled bits then all lie in a run of m t bits, any of which may
 * be right. What dunefork_decode's comment says of more than t wrong places holds of
 * each word.
 *     Refused with DUNEFORK_BUFFER_LENGTH are a block, an out or verdicts of another length, with DUNEFORK_SPARE_BIT a block that has a 1
 * from bit n m on. Returns 0, or a refusal: -1 to -12 or -17, and then out and verdicts are both as they were. */
int32_t dunefork_decode_block(const uint8_t *sheet, size_t sheet_len, size_t m, const uint8_t *block, size_t block_len, uint8_t *out,
                              size_t out_len, uint8_t *verdicts, size_t verdicts_len);

/* Puts a word of n places, DUNEFORK_BYTES(n) bytes, into a block of m words, DUNEFORK_BYTES(n * m) bytes, as its word i, i below m: bit
 * j m + i becomes place j of the word, for each j below n. All other bits, the spare ones too, are as they were, so a block is 0 at first.
 * It is plain C and no part of what is proved. There is no sheet, and nothing is checked: i is below m, the buffers have these lengths at
 * least, and do not overlap. */
static inline void dunefork_block_put(size_t n, size_t m, size_t i, const uint8_t *word, uint8_t *block) {
    for (size_t j = 0; j < n; j++) {
        size_t p = j * m + i;
        unsigned place = word[j / 8] >> (7 - j % 8) & 1u, others = block[p / 8] & ~(0x80u >> p % 8);
        block[p / 8] = (uint8_t)(others | place << (7 - p % 8));
    }
}

/* Tells what a sheet amounts to: its listing, the program linkcard's text, into out, exactly DUNEFORK_CARD_BYTES bytes. The lines
 * are "code N K S", S being the field's degree, "zeros ..", "generator ..", for each certificate C "cert C terms L distance D", and
 * "radius T from cert C" for the certificate at work, the one with the largest D, then the smallest L, then the first; or "refused R"
 * alone, for a sheet that the other calls refuse with -R. Returns the text's length in bytes; there is no 0 at its end, and what stood
 * after it in out is as it was. Refused is only an out of another length, with DUNEFORK_BUFFER_LENGTH. */
int32_t dunefork_card(const uint8_t *sheet, size_t sheet_len, uint8_t *out, size_t out_len);

#ifdef __cplusplus
}
#endif

#endif
