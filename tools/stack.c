/* For tools/stack: calls an entry of the library on a painted stack and tells how deep the paint is gone.
 *
 *     stack ENTRY SHEET INPUT OUT_LEN MARKS M
 *
 * ENTRY is encode, read, decode, decode_marked, shown_length, encode_short, read_short, decode_short, decode_block or card; SHEET, INPUT
 * and MARKS are hexadecimal digits, and M is the number of places by which a code is shortened, or of words and verdicts of a block. It
 * writes what the entry returned and the number of bytes from the stack pointer at the call, the return address included, to the deepest
 * byte that was written. */
#include "dunefork.h"
#include <stdio.h>
#include <stdlib.h>
#include <string.h>

#define SPACE ((size_t)1 << 20)
#define ARGUMENTS 10
#define IN_REGISTERS 6
/* m is below k when a code is shortened, so this is more than all; a block that is not refused has at most 16 words */
#define M_MAX 127
#define BLOCK_WORDS 17

/* The entry called with the stack pointer at `top`: six arguments are in registers, the others on the stack from there up. An entry that
 * has fewer does not look at the rest. */
static int32_t call_at(uint8_t *top, void *f, const size_t given[ARGUMENTS]) {
    memcpy(top, given + IN_REGISTERS, (ARGUMENTS - IN_REGISTERS) * sizeof *given);
    size_t a0 = given[0], a1 = given[1], a2 = given[2], a3 = given[3];
    register size_t a4 __asm__("r8") = given[4];
    register size_t a5 __asm__("r9") = given[5];
    int64_t result;
    __asm__ volatile("movq %%rsp, %%rbx\n\t"
                     "movq %[top], %%rsp\n\t"
                     "callq *%[f]\n\t"
                     "movq %%rbx, %%rsp"
                     : "=a"(result), "+D"(a0), "+S"(a1), "+d"(a2), "+c"(a3), "+r"(a4), "+r"(a5)
                     : [top] "r"(top), [f] "r"(f)
                     : "rbx", "r10", "r11", "cc", "memory", "xmm0", "xmm1", "xmm2", "xmm3", "xmm4", "xmm5", "xmm6", "xmm7",
                       "xmm8", "xmm9", "xmm10", "xmm11", "xmm12", "xmm13", "xmm14", "xmm15");
    return (int32_t)result;
}

struct entry {
    const char *name;
    void *f;
    size_t given[ARGUMENTS];
};

static size_t from_hex(const char *text, uint8_t *bytes, size_t most) {
    size_t len = strlen(text) / 2;
    for (size_t i = 0; i < len; i++) {
        unsigned value;
        if (len > most || sscanf(text + 2 * i, "%2x", &value) != 1) exit(2);
        bytes[i] = (uint8_t)value;
    }
    return len;
}

int main(int argc, char **argv) {
    static uint8_t text[DUNEFORK_CARD_BYTES];
    uint8_t sheet[DUNEFORK_SHEET_MAX + 1], in[BLOCK_WORDS * DUNEFORK_WORD_MAX], marks[DUNEFORK_WORD_MAX + 1];
    uint8_t out[BLOCK_WORDS * DUNEFORK_WORD_MAX] = {0}, ones[sizeof out] = {0}, verdicts[M_MAX] = {0};
    if (argc != 7 || (size_t)atoi(argv[4]) > sizeof out || (size_t)atoi(argv[6]) > sizeof verdicts) return 2;
    size_t s = (size_t)sheet, i = (size_t)in, m = (size_t)marks, z = (size_t)out, o = (size_t)ones, out_len = (size_t)atoi(argv[4]);
    size_t s_len = from_hex(argv[2], sheet, sizeof sheet), i_len = from_hex(argv[3], in, sizeof in), v = (size_t)verdicts;
    size_t m_len = from_hex(argv[5], marks, sizeof marks), n = 8 * out_len, by = (size_t)atoi(argv[6]), deepest = 0;
    const struct entry entries[] = {
        {"encode", (void *)dunefork_encode, {s, s_len, i, i_len, z, out_len}},
        {"read", (void *)dunefork_read, {s, s_len, i, i_len, z, out_len}},
        {"decode", (void *)dunefork_decode, {s, s_len, i, i_len, z, out_len}},
        {"decode_marked", (void *)dunefork_decode_marked, {s, s_len, i, i_len, m, m_len, z, out_len, o, out_len}},
        {"shown_length", (void *)dunefork_shown_length, {1, n, z, out_len, o, out_len}},
        {"encode_short", (void *)dunefork_encode_short, {s, s_len, by, i, i_len, z, out_len}},
        {"read_short", (void *)dunefork_read_short, {s, s_len, by, i, i_len, z, out_len}},
        {"decode_short", (void *)dunefork_decode_short, {s, s_len, by, i, i_len, z, out_len}},
        {"decode_block", (void *)dunefork_decode_block, {s, s_len, by, i, i_len, z, out_len, v, by}},
        {"card", (void *)dunefork_card, {s, s_len, (size_t)text, sizeof text}}};
    const struct entry *entry = entries, *end = entries + sizeof entries / sizeof *entries;
    while (entry < end && strcmp(argv[1], entry->name)) entry++;
    if (entry == end) return 2;
    uint8_t *space = aligned_alloc(4096, SPACE);
    const size_t depth = SPACE - 4096; /* the arguments lie above */
    int32_t answer = 0;
    /* twice, since a byte that was written may have the paint's own value */
    for (int paint = 0x55; paint <= 0xaa; paint += 0x55) {
        memset(space, paint, SPACE);
        answer = call_at(space + depth, entry->f, entry->given);
        size_t low = 0;
        while (low < depth && space[low] == paint) low++;
        if (depth - low > deepest) deepest = depth - low;
    }
    printf("%d %zu\n", (int)answer, deepest);
    return 0;
}
