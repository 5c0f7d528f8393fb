/* A code of length 21 whose certificate has f = 19, of period 15: it shares the factor 3 with 21, and yet no two of f(x), f(a x), ..
 * f(a^20 x) have a common factor, so the sheet is accepted and two wrong places are put right. */
#include <stdio.h>
#include <string.h>

#include "dunefork.h"

/* n = 21, representatives 1 3 7, and the certificate b = 14, z = 5, f = 19, h = 7, L = 15: k = 10, d = 5, t = 2. */
enum { N = 21, K = 10 };

static const uint8_t sheet[] = {0x15, 0x00, N, 3, 0x0a, 0x00, 1, 0, 0x0d, 0x00, 1, 3, 7, 14, 5, 19, 0, 7, 0, 15, 0};

static int differ(const uint8_t *a, const uint8_t *b) { return memcmp(a, b, DUNEFORK_BYTES(N)) != 0; }

/* Place i of a word has weight 2^(7 - i mod 8) in byte i div 8. */
static void hit(uint8_t *word, int place) { word[place / 8] ^= (uint8_t)(0x80 >> place % 8); }

int main(void) {
    uint8_t message[DUNEFORK_BYTES(K)] = {0x5a, 0x02}, back[DUNEFORK_BYTES(K)];
    uint8_t sent[DUNEFORK_BYTES(N)], received[DUNEFORK_BYTES(N)], decoded[DUNEFORK_BYTES(N)];

    if (dunefork_encode(sheet, sizeof sheet, message, sizeof message, sent, sizeof sent) < 0) return 1;
    printf("sent %02x %02x %02x\n", sent[0], sent[1], sent[2]);

    /* All pairs of wrong places, and all single ones. */
    int pairs = 0;
    for (int i = 0; i < N; i++) {
        for (int j = i; j < N; j++) {
            memcpy(received, sent, sizeof sent);
            hit(received, i);
            if (j > i) hit(received, j);
            int32_t changed = dunefork_decode(sheet, sizeof sheet, received, sizeof received, decoded, sizeof decoded);
            if (changed != (j > i ? 2 : 1) || differ(decoded, sent)) return 1;
            pairs++;
        }
    }
    printf("%d damaged words, all put right\n", pairs);
    if (dunefork_read(sheet, sizeof sheet, decoded, sizeof decoded, back, sizeof back) < 0 || memcmp(back, message, sizeof back)) return 1;
    printf("message %02x %02x\n", back[0], back[1]);

    /* f = 7 still is no good for this length: f(x) and f(a^7 x) have a common factor. */
    uint8_t other[sizeof sheet];
    memcpy(other, sheet, sizeof sheet);
    other[15] = 7;
    other[17] = 1;
    printf("f = 7: %d\n", (int)dunefork_decode(other, sizeof other, sent, sizeof sent, decoded, sizeof decoded));
    return 0;
}
