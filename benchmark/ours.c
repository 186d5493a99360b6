/* SPDX-License-Identifier: MPL-2.0 */
/* Our static library. */
#include "subject.h"

#include <hub.h>
#include <string.h>

/* What the hub's library does not export by itself: chaining and joining (crates/bench_c). */
_Bool bench_encrypt(const uint8_t *key, size_t key_n, const uint8_t *vector, size_t vector_n, const uint8_t *source, size_t source_n, uint8_t *target, size_t target_n);
_Bool bench_decrypt(const uint8_t *key, size_t key_n, const uint8_t *vector, size_t vector_n, const uint8_t *source, size_t source_n, uint8_t *target, size_t target_n);
uint64_t bench_join(uint64_t size, uint64_t count, const uint8_t *source, size_t source_n, uint8_t *report, size_t report_n);

static void encrypt(const uint8_t key[16], const uint8_t vector[16], const uint8_t *in, size_t n, uint8_t *out)
{
    bench_encrypt(key, 16, vector, 16, in, n, out, n);
}

static void decrypt(const uint8_t key[16], const uint8_t vector[16], const uint8_t *in, size_t n, uint8_t *out)
{
    bench_decrypt(key, 16, vector, 16, in, n, out, n);
}

static void digest(const uint8_t *in, size_t n, uint8_t out[32])
{
    (void)!hub_digest(in, n, out, 32);
}

/* The hub's call takes one part: there is never a head here. */
static void hmac(const uint8_t key[32], const uint8_t *head, size_t head_n, const uint8_t *rest, size_t rest_n, uint8_t out[32])
{
    (void)head;
    (void)head_n;
    (void)!hub_hmac(key, 32, rest, rest_n, out, 32);
}

static size_t our_seal(const struct peer *peer, const struct fields *f, const uint8_t *payload, size_t n, const uint8_t keys[KEYS], uint8_t *out)
{
    static const uint8_t chain[CHAIN];
    const uint64_t fields[8] = {4, 6, f->sequence, 0, f->index, f->count, f->session, f->channel};
    static uint64_t length[1];
    (void)peer;
    return hub_write(fields, 8, chain, CHAIN, payload, n, keys, KEYS, out, sealed_size(n), length, 1) == 0 ? length[0] : 0;
}

static long our_open(const struct peer *peer, const uint8_t *message, size_t n, const uint8_t keys[KEYS], uint8_t *working, size_t room, struct fields *f)
{
    static uint64_t header[11];
    (void)peer;
    if (hub_read(message, n, keys, KEYS, working, room, header, 11) != 0)
        return -1;
    *f = (struct fields){(uint32_t)header[2], (uint16_t)header[4], (uint16_t)header[5], header[6], header[7]};
    return (long)header[10];
}

/* A connection of this fragment size that is Ready for the session of the messages here. */
static void ready(size_t size, uint8_t state[151])
{
    (void)!hub_open(size, state, 151);
    state[8] = 3;
    state[15] = SESSION >> 8;
    state[16] = SESSION & 255;
}

static long our_step(const struct peer *peer, size_t size, const uint8_t *message, size_t n, const uint8_t keys[KEYS], uint8_t *working, size_t room, uint8_t *report, size_t report_room)
{
    static uint8_t first[151], state[151];
    static size_t size_of_first;
    static uint64_t answer[3];
    (void)peer;
    if (size != size_of_first) {
        ready(size, first);
        size_of_first = size;
    }
    memcpy(state, first, 151);
    if (hub_step(state, 151, message, n, keys, KEYS, working, room, report, report_room, 1, answer, 3) != 0)
        return -1;
    return answer[0] == 6 ? (long)answer[2] : 0;
}

long our_join_all(size_t size, size_t count, const uint8_t *source, uint8_t *report, size_t room)
{
    return (long)bench_join(size, count, source, size * count, report, room);
}

static const struct peer ciphers = {"ours", encrypt, decrypt, digest, hmac};
const struct subject ours = {&ciphers, our_seal, our_open, our_step};
