/* SPDX-License-Identifier: MPL-2.0 */
/* Writes a stream of messages, all well formed, from a fixed seed: stream COUNT. */
#include <stdint.h>
#include <stdio.h>
#include <stdlib.h>

static uint32_t seed = 20260101;

static uint32_t below(uint32_t n)
{
    seed = seed * 1664525 + 1013904223;
    return (seed >> 8) % n;
}

static void put(uint8_t *at, uint32_t number, int bytes)
{
    while (bytes-- > 0) {
        at[bytes] = (uint8_t)number;
        number >>= 8;
    }
}

/* Up to two entries and the end; answers the place after it. */
static size_t put_chain(uint8_t *message)
{
    size_t at = 40;
    for (uint32_t entries = below(3); entries > 0; entries--) {
        uint32_t size = below(20);
        message[at] = (uint8_t)(1 + below(3));
        message[at + 1] = (uint8_t)size;
        for (at += 2; size > 0; size--)
            message[at++] = (uint8_t)below(256);
    }
    put(message + at, 0, 2);
    return at + 2;
}

int main(int words, char **word)
{
    static uint8_t message[65536];
    for (long left = words == 2 ? atol(word[1]) : 0; left > 0; left--) {
        static const uint8_t types[] = {1, 2, 4, 4, 4, 4};
        uint8_t type = types[below(6)];
        int sealed = type == 4 || (type == 2 && below(2));
        uint32_t count = type == 4 ? 1 + below(64) : 1;
        size_t end = put_chain(message), size = sealed ? 16 * (1 + below(32)) + 32 : type == 1 ? 1 : 86;
        for (; size > 0; size--)
            message[end++] = (uint8_t)below(256);
        put(message, 0x3030, 2);
        put(message + 2, (uint32_t)end, 2);
        message[4] = 3;
        message[5] = type;
        put(message + 6, (sealed ? 6 : 0) + below(2) + 8 * below(2), 2);
        put(message + 8, below(1 << 24) << below(8), 4);
        put(message + 20, below(count), 2);
        put(message + 22, count, 2);
        for (int i = 12; i < 40; i++)
            if (i < 20 || i > 23)
                message[i] = (uint8_t)below(256);
        fwrite(message, 1, end, stdout);
    }
}
