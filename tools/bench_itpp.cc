// IT++'s BCH class as a peer of tools/bench.c.
#include "bench.h"
#include <cstring>
#include <itpp/itcomm.h>

using namespace itpp;

namespace {

const int places = 127, message_places = 64;
BCH *code;
// Place p there is place p * step here. IT++'s field of 128 elements is that of x^7 + x^3 + 1, document 01's that of x^7 + x + 1;
// IT++'s element x is in ours a zero of its polynomial: α to the power step.
int step;
// The codeword of each message with a single 1, in our layout.
uint8_t codeword[message_places][BENCH_BYTES];
bvec received[BENCH_WORDS], message[BENCH_WORDS], written[BENCH_WORDS], valid[BENCH_WORDS];
bool encoded[BENCH_WORDS];

int step_of_its_field() {
    int power[places], j = 1;
    for (int i = 0, x = 1; i < places; i++) {
        power[i] = x;
        x = x & 64 ? 2 * x ^ 131 : 2 * x;
    }
    while ((power[7 * j % places] ^ power[3 * j % places]) != 1)
        j++;
    return j;
}

// Its vectors have the highest coefficient first.
void take(size_t slot, const uint8_t *word) {
    received[slot].set_size(places);
    for (int p = 0; p < places; p++)
        received[slot](places - 1 - p) = bench_place(word, p * step % places);
}

void in_our_layout(const bvec &word, uint8_t *out) {
    std::memset(out, 0, BENCH_BYTES);
    for (int p = 0; p < places; p++)
        if (word(places - 1 - p))
            bench_flip(out, p * step % places);
}

int open_code() {
    code = new BCH(places, 10, true);
    step = step_of_its_field();
    if (code->get_k() != message_places)
        return 0;
    for (int i = 0; i < message_places; i++) {
        bvec single = zeros_b(message_places);
        single(i) = 1;
        in_our_layout(code->encode(single), codeword[i]);
    }
    return 1;
}

void decode(size_t slot) {
    code->decode(received[slot], message[slot], valid[slot]);
    encoded[slot] = false;
}

void encode(size_t slot) {
    code->encode(received[slot].left(message_places), written[slot]);
    encoded[slot] = true;
}

// Decoding gives the message alone: its codeword is the sum of those of its ones. How many places were changed it does not say.
int32_t answer(size_t slot, uint8_t *out) {
    uint8_t taken[BENCH_BYTES];
    in_our_layout(received[slot], taken);
    if (encoded[slot]) {
        in_our_layout(written[slot], out);
    } else {
        if (!valid[slot](0))
            return BENCH_NONE_NEAR;
        std::memset(out, 0, BENCH_BYTES);
        for (int i = 0; i < message_places; i++)
            for (int j = 0; message[slot](i) && j < BENCH_BYTES; j++)
                out[j] ^= codeword[i][j];
    }
    int32_t changed = 0;
    for (int j = 0; j < BENCH_BYTES; j++)
        changed += __builtin_popcount(out[j] ^ taken[j]);
    return changed;
}

}  // namespace

const struct peer itpp_peer = {"itpp", open_code, take, decode, encode, answer};
