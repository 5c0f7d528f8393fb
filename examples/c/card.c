/* What a sheet amounts to: the listing of sheets/bch-15-7.hex, of the same sheet with its length n spoilt, and of one with two
 * certificates of one distance, of which the one with fewer terms is at work. examples/c/run builds and runs it. */
#include "dunefork.h"
#include <stdio.h>

static void list(const uint8_t *sheet, size_t length) {
    uint8_t text[DUNEFORK_CARD_BYTES];
    /* The text's length: a buffer of DUNEFORK_CARD_BYTES is never refused. */
    int32_t size = dunefork_card(sheet, length, text, sizeof text);
    if (size > 0) fwrite(text, 1, (size_t)size, stdout);
}

int main(void) {
    uint8_t sheet[] = {0x14, 0x00, 0x0f, 0x02, 0x0a, 0x00, 0x01, 0x00, 0x0c, 0x00,
                       0x01, 0x03, 0x01, 0x01, 0x03, 0x00, 0x01, 0x00, 0x04, 0x00};
    list(sheet, sizeof sheet);
    sheet[2] = 16;
    list(sheet, sizeof sheet);
    /* n = 7, representative 1; f = 7 with L = 4, and f = 3 with L = 2 */
    const uint8_t two[] = {0x1b, 0x00, 0x07, 0x01, 0x0a, 0x00, 0x02, 0x00, 0x0b, 0x00, 0x01, 0x01, 0x01, 0x07,
                           0x00, 0x01, 0x00, 0x04, 0x00, 0x01, 0x01, 0x03, 0x00, 0x01, 0x00, 0x02, 0x00};
    list(two, sizeof two);
    return 0;
}
