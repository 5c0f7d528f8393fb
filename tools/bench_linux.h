/* What Linux's lib/bch.c takes from the kernel, in user space. tools/bench includes it ahead of that file, whose own includes of
 * kernel headers then find empty ones. */
#ifndef BENCH_LINUX_H
#define BENCH_LINUX_H

#include <endian.h>
#include <errno.h>
#include <stdbool.h>
#include <stdint.h>
#include <stdlib.h>
#include <string.h>

typedef uint8_t u8;
typedef uint32_t u32;

#define GFP_KERNEL 0
#define kmalloc(size, flags) malloc(size)
#define kzalloc(size, flags) calloc(1, size)
#define kfree(p) free(p)

#define DIV_ROUND_UP(a, b) (((a) + (b) - 1) / (b))
#define ARRAY_SIZE(a) (sizeof(a) / sizeof((a)[0]))
#define WARN_ON(x) (x)
#define cpu_to_be32(x) htobe32(x)

/* The number of the highest 1, counted from 1; 0 for 0. */
static inline int fls(unsigned int x) {
    return x ? 32 - __builtin_clz(x) : 0;
}

#define EXPORT_SYMBOL_GPL(x)
#define MODULE_LICENSE(x)
#define MODULE_AUTHOR(x)
#define MODULE_DESCRIPTION(x)

#endif
