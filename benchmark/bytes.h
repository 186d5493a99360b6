/* SPDX-License-Identifier: MPL-2.0 */
/* Fixed input bytes. */
#ifndef BENCH_BYTES_H
#define BENCH_BYTES_H

#include <stddef.h>
#include <stdint.h>

enum { PIECES = 64, LARGEST = 16384, MESSAGE = 16640 };

/* Fills a buffer from a seed, and so touches it. */
static inline void fill(uint8_t *bytes, size_t n, uint32_t seed)
{
    for (size_t i = 0; i < n; i++) {
        seed = seed * 1664525 + 1013904223;
        bytes[i] = (uint8_t)(seed >> 24);
    }
}

#endif
