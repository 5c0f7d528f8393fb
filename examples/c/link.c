/* A message over a wire that spoils two places. examples/c/run builds and runs it. */
#include "dunefork.h"
#include <stdio.h>
#include <string.h>

/* sheets/bch-15-7.hex: 15 places, 7 of them for the message; any 2 wrong places are corrected. */
#define N 15
#define K 7
static const uint8_t sheet[] = {0x14, 0x00, 0x0f, 0x02, 0x0a, 0x00, 0x01, 0x00, 0x0c, 0x00,
                                0x01, 0x03, 0x01, 0x01, 0x03, 0x00, 0x01, 0x00, 0x04, 0x00};

/* Place i of a word has weight 2^(7 - i mod 8) in byte i div 8: the highest bit of each byte comes first. */
static void show_word(const char *name, const uint8_t *word) {
    printf("%-9s ", name);
    for (int i = 0; i < N; i++) putchar('0' + (word[i / 8] >> (7 - i % 8) & 1));
    putchar('\n');
}

static void hit(uint8_t *word, int place) {
    word[place / 8] ^= (uint8_t)(0x80 >> place % 8);
}

/* Place i of a message has weight 2^(i mod 8) in byte i div 8: the lowest bit comes first. Shown where it stands in a word. */
static void show_message(const char *name, const uint8_t *message) {
    printf("%-9s %*s", name, N - K, "");
    for (int i = 0; i < K; i++) putchar('0' + (message[i / 8] >> i % 8 & 1));
    putchar('\n');
}

int main(void) {
    const uint8_t message[DUNEFORK_BYTES(K)] = {0x55};
    uint8_t sent[DUNEFORK_BYTES(N)], received[DUNEFORK_BYTES(N)], decoded[DUNEFORK_BYTES(N)], back[DUNEFORK_BYTES(K)];

    /* 0: encoded. A negative number would be a refusal, such as DUNEFORK_BUFFER_LENGTH. */
    if (dunefork_encode(sheet, sizeof sheet, message, sizeof message, sent, sizeof sent) < 0) return 1;
    show_message("message", message);
    show_word("sent", sent);

    memcpy(received, sent, sizeof sent);
    hit(received, 0);
    hit(received, 12);
    show_word("received", received);

    /* 0 or more: a codeword is near, and so many places differ from it. */
    int32_t changed = dunefork_decode(sheet, sizeof sheet, received, sizeof received, decoded, sizeof decoded);
    if (changed < 0) return 1;
    show_word("decoded", decoded);
    printf("%d places changed\n", (int)changed);

    if (dunefork_read(sheet, sizeof sheet, decoded, sizeof decoded, back, sizeof back) < 0) return 1;
    show_message("message", back);

    /* Three wrong places are one more than this code corrects: where no codeword is near, decoding refuses .. */
    hit(received, 2);
    changed = dunefork_decode(sheet, sizeof sheet, received, sizeof received, decoded, sizeof decoded);
    printf("\nthree places wrong: %d%s\n", (int)changed, changed == DUNEFORK_NONE_NEAR ? ", no codeword is near" : "");

    /* .. and where they lead near another codeword, that one is the answer: nothing in the received word tells them apart. */
    memcpy(received, sent, sizeof sent);
    hit(received, 0);
    hit(received, 4);
    hit(received, 6);
    changed = dunefork_decode(sheet, sizeof sheet, received, sizeof received, decoded, sizeof decoded);
    printf("three others wrong: %d%s\n", (int)changed, memcmp(decoded, sent, sizeof sent) ? ", another codeword is near" : "");
    return 0;
}
