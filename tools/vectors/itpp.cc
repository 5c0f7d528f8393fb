// BCH codes by IT++: what its encoder and its decoder make of drawn messages and error patterns. tools/vectors/make builds and
// runs it. A word is a number in hexadecimal, place i the bit of weight 2^i: IT++ has the highest place first.
//
//     bch n k t                    a code; the codeword of message 1 is its generator
//     word message codeword        from the encoder
//     decoded received codeword    the decoder's message, encoded again
//     failed received              the decoder says that it failed
#include <cstdint>
#include <cstdio>
#include <itpp/itcomm.h>
#include <string>
using namespace itpp;

static uint64_t state = 20261115;

static int below(int end) {
    state = state * 6364136223846793005u + 1442695040888963407u;
    return int((state >> 33) % uint64_t(end));
}

static std::string hex(const bvec &bits) {
    std::string digits;
    int n = bits.size();
    for (int top = (n + 3) / 4 * 4 - 1; top >= 0; top -= 4) {
        int digit = 0;
        for (int i = top; i > top - 4; i--) digit = 2 * digit + (i < n ? int(bits(n - 1 - i)) : 0);
        digits += "0123456789abcdef"[digit];
    }
    return digits;
}

static void decoded(BCH &bch, const bvec &received) {
    bvec message, valid;
    bch.decode(received, message, valid);
    if (int(valid(0)) == 1)
        std::printf("decoded %s %s\n", hex(received).c_str(), hex(bch.encode(message)).c_str());
    else
        std::printf("failed %s\n", hex(received).c_str());
}

static void code(int n, int t) {
    BCH bch(n, t, true);
    int k = bch.get_k();
    std::printf("bch %d %d %d\n", n, k, t);
    for (int i = 0; i < 4; i++) {
        bvec message = zeros_b(k);
        for (int j = 0; j < k; j++) message(j) = i == 0 ? j == k - 1 : i == 1 ? 1 : below(2);
        std::printf("word %s %s\n", hex(message).c_str(), hex(bch.encode(message)).c_str());
    }
    for (int weight = 0; weight <= t + 2; weight++) {
        for (int i = 0; i < 2; i++) {
            bvec message(k);
            for (int j = 0; j < k; j++) message(j) = below(2);
            bvec word = bch.encode(message);
            for (int left = weight, hit[128] = {0}; left > 0;) {
                int place = below(n);
                if (hit[place]) continue;
                hit[place] = 1, left--;
                word(place) = word(place) + bin(1);
            }
            decoded(bch, word);
        }
    }
}

int main() {
    const int lengths[] = {7, 15, 31, 63, 127};
    const int radii[][17] = {{1}, {1, 2, 3}, {1, 2, 3, 5, 7}, {1, 2, 3, 4, 5, 6, 7, 10, 11, 13, 15},
                             {1, 2, 3, 4, 5, 6, 7, 9, 10, 11, 13, 14, 15, 21, 23, 27}};
    for (int i = 0; i < 5; i++)
        for (int j = 0; radii[i][j]; j++) code(lengths[i], radii[i][j]);
    return 0;
}
