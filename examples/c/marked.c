/* A wire on which the modem marks the places that it knows only as "0 or 1". More places are bad than the code corrects without marks,
 * and the word comes back right. examples/c/run builds and runs it. */
#include "dunefork.h"
#include <stdio.h>
#include <string.h>

/* sheets/bch-15-7.hex: 15 places, 7 of them for the message; d = 5 and t = 2. With e wrong and r marked places 2 e + r may be 4. */
#define N 15
static const uint8_t sheet[] = {0x14, 0x00, 0x0f, 0x02, 0x0a, 0x00, 0x01, 0x00, 0x0c, 0x00,
                                0x01, 0x03, 0x01, 0x01, 0x03, 0x00, 0x01, 0x00, 0x04, 0x00};

static uint8_t sent[DUNEFORK_BYTES(N)];

/* Place i of a word has weight 2^(7 - i mod 8) in byte i div 8; marks lie in the same way. */
static void show(const char *name, const uint8_t *word, char one, char zero) {
    printf("%-9s ", name);
    for (int i = 0; i < N; i++) putchar(word[i / 8] >> (7 - i % 8) & 1 ? one : zero);
    putchar('\n');
}

static void flip(uint8_t *word, int place) { word[place / 8] ^= (uint8_t)(0x80 >> place % 8); }

/* What was sent arrives with these places wrong, and these marked; -1 ends a list. A marked place arrives wrong here too. */
static void receive(const char *what, const int *wrong, const int *marked) {
    uint8_t received[DUNEFORK_BYTES(N)], marks[DUNEFORK_BYTES(N)] = {0}, zeros[DUNEFORK_BYTES(N)], ones[DUNEFORK_BYTES(N)];
    memcpy(received, sent, sizeof sent);
    for (; *wrong >= 0; wrong++) flip(received, *wrong);
    for (; *marked >= 0; marked++) flip(received, *marked), flip(marks, *marked);
    printf("\n%s\n", what);
    show("received", received, '1', '0');
    show("marked", marks, '^', '.');

    memset(zeros, 0xee, sizeof zeros);
    memset(ones, 0xee, sizeof ones);
    int32_t plain = dunefork_decode(sheet, sizeof sheet, received, sizeof received, zeros, sizeof zeros);
    printf("without marks: %d%s\n", (int)plain, plain < 0 ? "" : memcmp(zeros, sent, sizeof sent) ? ", another codeword" : ", as sent");

    memset(zeros, 0xee, sizeof zeros);
    int32_t answer = dunefork_decode_marked(sheet, sizeof sheet, received, sizeof received, marks, sizeof marks, zeros, sizeof zeros,
                                            ones, sizeof ones);
    if (answer < 0) {
        int kept = 1;
        for (size_t i = 0; i < sizeof zeros; i++) kept = kept && zeros[i] == 0xee && ones[i] == 0xee;
        printf("with marks: %d%s, both buffers %s\n", (int)answer, answer == DUNEFORK_NONE_WITH_MARKS ? ", no such codeword" : "",
               kept ? "as they were" : "changed");
        return;
    }
    size_t trial = (size_t)answer % 2;
    const uint8_t *right = dunefork_shown(trial, zeros, ones);
    size_t length = dunefork_shown_length(trial, N, zeros, sizeof zeros, ones, sizeof ones);
    printf("with marks: %d, so e = %d and the answer is in %s\n", (int)answer, (int)answer / 2, trial == 0 ? "zeros" : "ones");
    show("zeros", zeros, '1', '0');
    show("ones", ones, '1', '0');
    printf("%s\n", length == sizeof sent && memcmp(right, sent, length) == 0 ? "as sent" : "not what was sent");
}

int main(void) {
    const uint8_t message[] = {0x55};
    if (dunefork_encode(sheet, sizeof sheet, message, sizeof message, sent, sizeof sent) < 0) return 1;
    show("sent", sent, '1', '0');

    static const int none[] = {-1}, one[] = {0, -1}, two[] = {0, 12, -1}, pair[] = {4, 10, -1}, four[] = {3, 6, 8, 14, -1},
                     five[] = {2, 3, 6, 8, 14, -1};
    receive("t - 1 wrong places and two marked", one, pair);
    receive("d - 1 marked places", none, four);
    receive("t wrong places and no mark", two, none);
    receive("d marked places", none, five);
    return 0;
}
