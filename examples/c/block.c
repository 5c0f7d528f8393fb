/* Eight words sent as one block, and a soft starter that wipes out a run of its bits: the words come back whole as long as at most m t
 * neighbouring bits are spoiled. Then one bit more. examples/c/run builds and runs it. */
#include "dunefork.h"
#include <stdio.h>
#include <string.h>

/* sheets/bch-15-7.hex: 15 places, 7 of them for the message; t = 2. With m = 8 words a block has 120 bits, and byte j holds place j of
 * all words. */
#define N 15
#define M 8
static const uint8_t sheet[] = {0x14, 0x00, 0x0f, 0x02, 0x0a, 0x00, 0x01, 0x00, 0x0c, 0x00,
                                0x01, 0x03, 0x01, 0x01, 0x03, 0x00, 0x01, 0x00, 0x04, 0x00};

static uint8_t sent[DUNEFORK_BYTES(N * M)];

static void show(const char *name, const uint8_t *bytes, size_t length) {
    printf("%-9s", name);
    for (size_t i = 0; i < length; i++) printf(" %02x", bytes[i]);
    putchar('\n');
}

/* The block arrives with `count` neighbouring bits inverted, and one more, if `stray` is below the number of its bits. */
static void receive(const char *what, size_t from, size_t count, size_t stray) {
    uint8_t received[sizeof sent], wrong[sizeof sent] = {0}, out[M * DUNEFORK_BYTES(N)], verdicts[M];
    for (size_t p = 0; p < N * M; p++)
        if ((p >= from && p < from + count) || p == stray) wrong[p / 8] |= (uint8_t)(0x80 >> p % 8);
    for (size_t i = 0; i < sizeof sent; i++) received[i] = sent[i] ^ wrong[i];
    printf("\n%s\n", what);
    show("wrong", wrong, sizeof wrong);
    show("received", received, sizeof received);

    memset(out, 0xee, sizeof out);
    int32_t answer = dunefork_decode_block(sheet, sizeof sheet, M, received, sizeof received, out, sizeof out, verdicts, sizeof verdicts);
    printf("answer    %d\n", (int)answer);
    if (answer < 0) return;
    show("decoded", out, sizeof out);
    printf("verdicts ");
    for (int i = 0; i < M; i++) printf(" %d", verdicts[i]);
    printf("\nread      ");
    for (int i = 0; i < M; i++) {
        uint8_t letter;
        const uint8_t *word = out + (size_t)i * DUNEFORK_BYTES(N);
        /* 255: no codeword is near, and the word's bytes of out are as they were, so there is nothing to read */
        int known = verdicts[i] != 255 && dunefork_read(sheet, sizeof sheet, word, DUNEFORK_BYTES(N), &letter, 1) == 0;
        putchar(known ? letter : '-');
    }
    putchar('\n');
}

int main(void) {
    /* one letter to a word: a message has 7 places */
    const char *text = "Dunefork";
    for (size_t i = 0; i < M; i++) {
        uint8_t message = (uint8_t)text[i], word[DUNEFORK_BYTES(N)];
        if (dunefork_encode(sheet, sizeof sheet, &message, 1, word, sizeof word) < 0) return 1;
        dunefork_block_put(N, M, i, word, sent);
    }
    printf("%d words of %d places, a block of %d bits\n", M, N, N * M);
    show("sent", sent, sizeof sent);

    /* m t = 16 neighbouring bits: two places of each word. Five of them: one place of five words. */
    receive("16 neighbouring bits wrong", 37, 16, N * M);
    receive("5 neighbouring bits wrong", 37, 5, N * M);

    /* One bit more, and word 5 has three wrong places. They lead near another codeword, and nothing in the block tells; its neighbours come
     * back all the same. */
    receive("17 neighbouring bits wrong", 37, 17, N * M);

    /* A third wrong place elsewhere in word 5, bit 9 m + 5, and no codeword is near. */
    receive("16 neighbouring bits wrong, and one more elsewhere", 37, 16, 9 * M + 5);
    return 0;
}
