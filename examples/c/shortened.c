/* Shortened codes: the two that the control channels of AMPS use, both of one sheet. A message is encoded, two places are hit, and it
 * comes back; and a word that is near a codeword of the whole code, but near no shortened one, is refused. examples/c/run builds and
 * runs it. */
#include "dunefork.h"
#include <stdio.h>
#include <string.h>

/* sheets/bch-63-51.hex: 63 places, 51 of them for the message; t = 2. */
#define N 63
#define K 51
static const uint8_t sheet[] = {0x14, 0x00, 0x3f, 0x02, 0x0a, 0x00, 0x01, 0x00, 0x0c, 0x00,
                                0x01, 0x03, 0x01, 0x01, 0x03, 0x00, 0x01, 0x00, 0x04, 0x00};

static void show(const char *name, const uint8_t *bytes, size_t length) {
    printf("%-9s", name);
    for (size_t i = 0; i < length; i++) printf(" %02x", bytes[i]);
    putchar('\n');
}

/* Place i of a word has weight 2^(7 - i mod 8) in byte i div 8. */
static void flip(uint8_t *word, size_t place) { word[place / 8] ^= (uint8_t)(0x80 >> place % 8); }

/* Words of n - m places with k - m message places: two of them arrive wrong, the first and the last. */
static int exchange(const char *channel, size_t m, const uint8_t *message) {
    uint8_t word[DUNEFORK_BYTES(N)], received[DUNEFORK_BYTES(N)], right[DUNEFORK_BYTES(N)], back[DUNEFORK_BYTES(K)];
    size_t places = N - m, bits = K - m, word_len = DUNEFORK_BYTES(places), message_len = DUNEFORK_BYTES(bits);
    printf("%s, m = %zu: words of %zu places, messages of %zu\n", channel, m, places, bits);
    if (dunefork_encode_short(sheet, sizeof sheet, m, message, message_len, word, word_len) < 0) return 1;
    show("message", message, message_len);
    show("sent", word, word_len);

    memcpy(received, word, word_len);
    flip(received, 0);
    flip(received, places - 1);
    show("received", received, word_len);
    printf("read as it is: %d\n", (int)dunefork_read_short(sheet, sizeof sheet, m, received, word_len, back, message_len));
    printf("decoded: %d changed\n", (int)dunefork_decode_short(sheet, sizeof sheet, m, received, word_len, right, word_len));
    show("decoded", right, word_len);
    if (dunefork_read_short(sheet, sizeof sheet, m, right, word_len, back, message_len) < 0) return 1;
    show("read", back, message_len);
    printf("%s\n\n", memcmp(back, message, message_len) == 0 ? "as sent" : "not what was sent");
    return 0;
}

int main(void) {
    const uint8_t forward[DUNEFORK_BYTES(K - 23)] = {0xef, 0xbe, 0xad, 0x0e};
    const uint8_t reverse[DUNEFORK_BYTES(K - 15)] = {0x67, 0x45, 0x23, 0x01, 0x0f};
    if (exchange("forward control channel", 23, forward) || exchange("reverse control channel", 15, reverse)) return 1;

    /* A codeword of the whole code with a 1 in message place 28, so in place 40, the first that the forward channel does not send. What
     * is left of it in the 40 places below has one wrong place as a word of the whole code. */
    uint8_t message[DUNEFORK_BYTES(K)] = {0x0d, 0xd0, 0xfe, 0x1a}, word[DUNEFORK_BYTES(N)], out[DUNEFORK_BYTES(N)], low[DUNEFORK_BYTES(40)];
    if (dunefork_encode(sheet, sizeof sheet, message, sizeof message, word, sizeof word) < 0) return 1;
    show("codeword", word, sizeof word);
    flip(word, 40);
    printf("without place 40, whole: %d changed\n", (int)dunefork_decode(sheet, sizeof sheet, word, sizeof word, out, sizeof out));
    memset(low, 0xee, sizeof low);
    int32_t answer = dunefork_decode_short(sheet, sizeof sheet, 23, word, sizeof low, low, sizeof low);
    printf("its 40 places, m = 23: %d%s\n", (int)answer, answer == DUNEFORK_NONE_NEAR ? ", no shortened codeword near" : "");
    show("out", low, sizeof low);
    return 0;
}
