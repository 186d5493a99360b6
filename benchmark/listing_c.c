/* SPDX-License-Identifier: MPL-2.0 */
/* The listing program of document 01 in plain C, over stdio: what a user would write instead, who knows that printf is slow. */
#include <stdint.h>
#include <stdio.h>

static uint8_t message[65536];

static uint32_t number(const uint8_t *at, int bytes)
{
    uint32_t all = 0;
    while (bytes-- > 0)
        all = all << 8 | *at++;
    return all;
}

/* The place after the chain, or 0. */
static size_t after_chain(size_t end)
{
    size_t at = 40;
    for (int entries = 0; at + 2 <= end; entries++) {
        if (message[at] == 0)
            return message[at + 1] == 0 ? at + 2 : 0;
        if (message[at] > 3 || entries == 8)
            return 0;
        at += 2 + (size_t)message[at + 1];
    }
    return 0;
}

/* Refusals 1 to 9, 0 for none. */
static int refusal(size_t n)
{
    if (n < 42)
        return 1;
    if (number(message, 2) != 0x3030)
        return 2;
    if (number(message + 2, 2) != n)
        return 3;
    if (message[4] != 3)
        return 4;
    uint8_t type = message[5];
    if (type != 1 && type != 2 && type != 4)
        return 5;
    uint32_t flags = number(message + 6, 2), index = number(message + 20, 2), count = number(message + 22, 2);
    int sealed = (flags & 6) == 6;
    if (flags > 15 || (!sealed && (flags & 6) != 0) || (sealed && type == 1) || (!sealed && type == 4))
        return 6;
    if (count == 0 || count > 64 || index >= count || (count != 1 && type != 4))
        return 7;
    size_t end = sealed ? (n < 74 ? 0 : n - 32) : n, from = after_chain(end);
    if (from == 0)
        return 8;
    return sealed && (end == from || (end - from) % 16 != 0) ? 9 : 0;
}

/* A number in decimal and the byte after it; answers the place after them. */
static char *put(char *at, uint32_t value, char after)
{
    char digits[10];
    int n = 0;
    do
        digits[n++] = (char)('0' + value % 10);
    while ((value /= 10) != 0);
    while (n > 0)
        *at++ = digits[--n];
    *at++ = after;
    return at;
}

int main(void)
{
    char line[64], *end;
    for (;;) {
        size_t n = fread(message, 1, 42, stdin);
        if (n == 0)
            return 0;
        if (n == 42 && number(message + 2, 2) > 42)
            n += fread(message + 42, 1, number(message + 2, 2) - 42, stdin);
        int refused = refusal(n);
        if (refused != 0) {
            printf("refused %d\n", refused);
            return 0;
        }
        end = put(line, message[5], ' ');
        end = put(end, number(message + 8, 4), ' ');
        end = put(end, number(message + 20, 2), ' ');
        end = put(end, number(message + 22, 2), ' ');
        end = put(end, (uint32_t)n, '\n');
        fwrite(line, 1, (size_t)(end - line), stdout);
    }
}
