/* SPDX-License-Identifier: MPL-2.0 */
/* A peer: ciphers and hashes of one library. Keys are given as bytes at each call, so that every call sets its key up, as the hub's do. */
#ifndef BENCH_PEER_H
#define BENCH_PEER_H

#include <stddef.h>
#include <stdint.h>

struct peer {
    const char *name;
    void (*cbc_encrypt)(const uint8_t key[16], const uint8_t vector[16], const uint8_t *in, size_t n, uint8_t *out);
    void (*cbc_decrypt)(const uint8_t key[16], const uint8_t vector[16], const uint8_t *in, size_t n, uint8_t *out);
    void (*sha256)(const uint8_t *in, size_t n, uint8_t out[32]);
    /* Of two parts, so that a message's header may differ from what was sent without a copy of the message. */
    void (*hmac)(const uint8_t key[32], const uint8_t *head, size_t head_n, const uint8_t *rest, size_t rest_n, uint8_t out[32]);
};

extern const struct peer openssl, nettle, mbedtls, tomcrypt;

#endif
