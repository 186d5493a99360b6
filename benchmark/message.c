/* SPDX-License-Identifier: MPL-2.0 */
/* A Session message sealed and opened by document 01's rules, in plain C over a peer's ciphers and hashes. */
#include "message.h"

#include <string.h>

static void put(uint8_t *at, uint64_t number, int bytes)
{
    while (bytes-- > 0) {
        at[bytes] = (uint8_t)number;
        number >>= 8;
    }
}

static uint64_t number(const uint8_t *at, int bytes)
{
    uint64_t all = 0;
    while (bytes-- > 0)
        all = all << 8 | *at++;
    return all;
}

/* The vector: one block of SessionID, SequenceNumber, FragmentIndex and FragmentCount under the vector key. */
static void vector_of(const struct peer *peer, const struct fields *fields, const uint8_t keys[KEYS], uint8_t vector[16])
{
    static const uint8_t none[16];
    uint8_t block[16];
    put(block, fields->session, 8);
    put(block + 8, fields->sequence, 4);
    put(block + 12, fields->index, 2);
    put(block + 14, fields->count, 2);
    peer->cbc_encrypt(keys + 16, none, block, 16, vector);
}

size_t sealed_size(size_t payload)
{
    return HEADER + CHAIN + (4 + payload + 15) / 16 * 16 + TAG;
}

size_t seal(const struct peer *peer, const struct fields *fields, const uint8_t *payload, size_t n, const uint8_t keys[KEYS], uint8_t *out)
{
    size_t whole = sealed_size(n), part = whole - TAG - HEADER - CHAIN, padding = part - 4 - n;
    uint8_t *from = out + HEADER + CHAIN, vector[16];
    put(out, 0x3030, 2);
    put(out + 2, whole - TAG, 2);
    out[4] = 3;
    out[5] = 4;
    put(out + 6, 6, 2);
    put(out + 8, fields->sequence, 4);
    put(out + 12, 0, 8);
    put(out + 20, fields->index, 2);
    put(out + 22, fields->count, 2);
    put(out + 24, fields->session, 8);
    put(out + 32, fields->channel, 8);
    put(out + HEADER, 0, CHAIN);
    put(from, n, 4);
    memcpy(from + 4, payload, n);
    memset(from + 4 + n, (int)padding, padding);
    vector_of(peer, fields, keys, vector);
    peer->cbc_encrypt(keys, vector, from, part, from);
    peer->hmac(keys + 32, out, 0, out, whole - TAG, out + whole - TAG);
    put(out + 2, whole, 2);
    return whole;
}

/* The place after the chain, or 0. */
static size_t after_chain(const uint8_t *message, size_t end)
{
    size_t at = HEADER;
    for (int entries = 0; at + 2 <= end; entries++) {
        if (message[at] == 0)
            return message[at + 1] == 0 ? at + 2 : 0;
        if (message[at] > 3 || entries == 8)
            return 0;
        at += 2 + (size_t)message[at + 1];
    }
    return 0;
}

/* Refusals 1 to 9 of a sealed Session message; answers the place of its sealed part, or 0. */
static size_t sealed_part(const uint8_t *message, size_t n, struct fields *fields)
{
    if (n < HEADER + CHAIN + TAG || number(message, 2) != 0x3030 || number(message + 2, 2) != n || message[4] != 3 || message[5] != 4)
        return 0;
    uint64_t flags = number(message + 6, 2);
    fields->sequence = (uint32_t)number(message + 8, 4);
    fields->index = (uint16_t)number(message + 20, 2);
    fields->count = (uint16_t)number(message + 22, 2);
    fields->session = number(message + 24, 8);
    fields->channel = number(message + 32, 8);
    if (flags > 15 || (flags & 6) != 6 || fields->count == 0 || fields->count > 64 || fields->index >= fields->count)
        return 0;
    size_t from = after_chain(message, n - TAG);
    return from == 0 || from == n - TAG || (n - TAG - from) % 16 != 0 ? 0 : from;
}

/* Whether two tags are alike, all bytes being read. */
static int same(const uint8_t a[TAG], const uint8_t b[TAG])
{
    uint8_t differs = 0;
    for (int i = 0; i < TAG; i++)
        differs |= a[i] ^ b[i];
    return differs == 0;
}

long open_sealed(const struct peer *peer, const uint8_t *message, size_t n, const uint8_t keys[KEYS], uint8_t *working, size_t room, struct fields *fields)
{
    uint8_t head[HEADER], tag[TAG], vector[16];
    size_t from = sealed_part(message, n, fields), part = n - TAG - from;
    if (from == 0)
        return -1;
    memcpy(head, message, HEADER);
    put(head + 2, n - TAG, 2);
    peer->hmac(keys + 32, head, HEADER, message + HEADER, n - TAG - HEADER, tag);
    if (!same(tag, message + n - TAG) || room < part)
        return -1;
    vector_of(peer, fields, keys, vector);
    peer->cbc_decrypt(keys, vector, message + from, part, working);
    uint64_t payload = number(working, 4);
    if (payload + 4 > part || part - 4 - payload > 15)
        return -1;
    for (size_t i = 4 + payload; i < part; i++)
        if (working[i] != part - 4 - payload)
            return -1;
    return (long)payload;
}
