/* Each refusal drawn, by sheet H of document 01 with something changed, and its meaning in words. examples/c/run builds and
 * runs it. */
#include "dunefork.h"
#include <stdio.h>
#include <string.h>

/* What a call's answer means. */
static const char *meaning(int32_t answer) {
    switch (answer) {
    case DUNEFORK_SHEET_LENGTH: return "the sheet is under 10 or over 74 bytes, or states another length";
    case DUNEFORK_CODE_LENGTH: return "n is even, below 3 or above 127";
    case DUNEFORK_FIELD_DEGREE: return "n divides no 2^s - 1 with s up to 12";
    case DUNEFORK_HEADER: return "R, C, an offset, byte 7 or the length formula is wrong";
    case DUNEFORK_REPRESENTATIVE: return "a representative is not below n, not the smallest of its coset, or not rising";
    case DUNEFORK_NO_MESSAGE: return "no place is left for a message";
    case DUNEFORK_RANGE: return "a field of a certificate is out of range";
    case DUNEFORK_COMMON_FACTOR: return "h and f of a certificate have a common factor";
    case DUNEFORK_PERIOD: return "two of a certificate's f(a^i x), i below n, have a common factor";
    case DUNEFORK_TERM: return "a certificate counts on a zero that the code does not have";
    case DUNEFORK_BUFFER_LENGTH: return "an input or a buffer has not its exact length";
    case DUNEFORK_SPARE_BIT: return "a spare bit of an input is 1";
    case DUNEFORK_NONE_NEAR: return "no codeword within t places";
    case DUNEFORK_NO_CODEWORD: return "the word is no codeword";
    case DUNEFORK_NONE_WITH_MARKS: return "no codeword with 2 e + r at most d - 1";
    case DUNEFORK_SHORTENING: return "m is 0 or not below k";
    case DUNEFORK_INTERLEAVING_DEPTH: return "m is not 2 to 16";
    default: return "done";
    }
}

/* n = 7, representative 1, and the certificate b = 1, z = 1, f = 3, h = 1, L = 2: k = 4, t = 1. */
static const uint8_t sheet_h[] = {0x13, 0x00, 7, 1, 0x0a, 0x00, 1, 0, 0x0b, 0x00, 1, 1, 1, 0x03, 0x00, 0x01, 0x00, 0x02, 0x00};
/* The same with representatives 0, 1, 3: every place is a check. */
static const uint8_t no_message[] = {0x15, 0, 7, 3, 10, 0, 1, 0, 13, 0, 0, 1, 3, 1, 1, 3, 0, 1, 0, 2, 0};
/* Sheet E: representatives 0 and 1, t = 1, and words two places away from every codeword. */
static const uint8_t sheet_e[] = {0x14, 0, 7, 2, 10, 0, 1, 0, 12, 0, 0, 1, 0, 1, 3, 0, 1, 0, 3, 0};

/* One line; a refusal leaves the buffer, which held ee, as it was. */
static void tell(const char *what, int32_t answer, const uint8_t *out) {
    printf("%3d  %s: %s%s\n", (int)answer, what, meaning(answer), *out == 0xee ? "" : " (and out has changed)");
}

/* Decoding of the word 0 by sheet H with one byte changed. */
static void changed(const char *what, size_t place, uint8_t value) {
    uint8_t sheet[sizeof sheet_h], word[1] = {0}, out[1] = {0xee};
    memcpy(sheet, sheet_h, sizeof sheet);
    sheet[place] = value;
    int32_t answer = dunefork_decode(sheet, sizeof sheet, word, 1, out, 1);
    tell(what, answer, out);
}

/* Decoding of a word by sheet H, where d = 3, with marks; both buffers held ee. */
static void marked(const char *what, uint8_t word, uint8_t marks) {
    uint8_t zeros[1] = {0xee}, ones[1] = {0xee};
    int32_t answer = dunefork_decode_marked(sheet_h, sizeof sheet_h, &word, 1, &marks, 1, zeros, 1, ones, 1);
    tell(what, answer, *zeros == 0xee ? ones : zeros);
}

/* Decoding of a word of sheet H, where k = 4, shortened by m; any m but 1, 2 and 3 is refused before the word is looked at. */
static void shortened(const char *what, size_t m, const uint8_t *word, size_t word_len) {
    uint8_t out[1] = {0xee};
    int32_t answer = dunefork_decode_short(sheet_h, sizeof sheet_h, m, word, word_len, out, 1);
    tell(what, answer, out);
}

/* Decoding of a block of sheet H with so many verdicts; any m but 2 to 16 is refused before the block is looked at. */
static void block(const char *what, size_t m, const uint8_t *bits, size_t block_len, size_t verdicts_len) {
    uint8_t out[2] = {0xee, 0xee}, verdicts[3] = {0xee, 0xee, 0xee};
    int32_t answer = dunefork_decode_block(sheet_h, sizeof sheet_h, m, bits, block_len, out, sizeof out, verdicts, verdicts_len);
    tell(what, answer, *out == 0xee ? verdicts : out);
}

int main(void) {
    /* n = 7: a word's place 0 is the highest bit of its byte, and the lowest is spare. k = 4: a message's four high bits are spare. */
    const uint8_t zero[1] = {0}, place_0[1] = {0x80}, places_0_1[1] = {0xc0}, spare[1] = {0x01}, spare_in_message[1] = {0x10};
    uint8_t out[1] = {0xee};

    changed("length 20 for 19 bytes", 0, 20);
    changed("n = 129", 2, 129);
    changed("n = 19", 2, 19);
    changed("byte 7 is 1", 7, 1);
    changed("representative 2", 10, 2);
    tell("representatives 0 1 3", dunefork_decode(no_message, sizeof no_message, zero, 1, out, 1), out);
    changed("L = 0", 17, 0);
    uint8_t common[sizeof sheet_h], period[sizeof sheet_h];
    memcpy(common, sheet_h, sizeof common);
    common[13] = 5;
    common[15] = 3;
    tell("f = 5, h = 3", dunefork_decode(common, sizeof common, zero, 1, out, 1), out);
    memcpy(period, sheet_h, sizeof period);
    period[2] = 21;
    period[13] = 7;
    tell("n = 21, f = 7", dunefork_decode(period, sizeof period, zero, 1, out, 1), out);
    changed("L = 3", 17, 3);
    tell("empty word", dunefork_decode(sheet_h, sizeof sheet_h, NULL, 0, out, 1), out);
    tell("word 01", dunefork_decode(sheet_h, sizeof sheet_h, spare, 1, out, 1), out);
    tell("message 10", dunefork_encode(sheet_h, sizeof sheet_h, spare_in_message, 1, out, 1), out);
    tell("sheet E, word c0", dunefork_decode(sheet_e, sizeof sheet_e, places_0_1, 1, out, 1), out);
    tell("read word 80", dunefork_read(sheet_h, sizeof sheet_h, place_0, 1, out, 1), out);
    marked("marks 01", 0x00, 0x01);
    marked("word 80, marks 40", 0x80, 0x40);
    marked("word 00, marks e0", 0x00, 0xe0);

    /* With m = 2 a word has 5 places and three spare bits, a message 2 places. The only codeword within one place of 30 is 34, with a 1 in
     * place 5, which is not sent. */
    const uint8_t spare_of_five[1] = {0x04}, places_2_3[1] = {0x30};
    shortened("m = 0", 0, zero, 1);
    shortened("m = 4, empty word", 4, NULL, 0);
    shortened("m = SIZE_MAX, word 01", SIZE_MAX, spare, 1);
    shortened("m = 3, empty word", 3, NULL, 0);
    shortened("m = 2, word 04", 2, spare_of_five, 1);
    shortened("m = 2, word 30", 2, places_2_3, 1);
    tell("m = 2, read word 80", dunefork_read_short(sheet_h, sizeof sheet_h, 2, place_0, 1, out, 1), out);
    tell("m = 2, message 04", dunefork_encode_short(sheet_h, sizeof sheet_h, 2, spare_of_five, 1, out, 1), out);

    /* With m = 2 a block has 14 bits and two spare ones, and out and verdicts have two bytes each. There is no 13 here: the verdict of a
     * word that is near no codeword is 255. */
    const uint8_t bits[3] = {0}, spare_of_block[2] = {0, 0x01};
    block("m = 1, block 00", 1, bits, 1, 1);
    block("m = 17, empty block", 17, NULL, 0, 0);
    block("m = SIZE_MAX, block 00 01", SIZE_MAX, spare_of_block, 2, 2);
    block("m = 2, block 00", 2, bits, 1, 2);
    block("m = 2, 3 verdicts", 2, bits, 2, 3);
    block("m = 3, out of 2 bytes", 3, bits, 3, 3);
    block("m = 2, block 00 01", 2, spare_of_block, 2, 2);

    /* Pointers may be null where the length is 0. */
    tell("no sheet", dunefork_encode(NULL, 0, zero, 1, out, 1), out);
    tell("no buffer", dunefork_encode(sheet_h, sizeof sheet_h, zero, 1, NULL, 0), out);
    return 0;
}
