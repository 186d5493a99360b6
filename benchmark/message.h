/* SPDX-License-Identifier: MPL-2.0 */
/* A Session message sealed and opened by document 01's rules, in plain C over a peer's ciphers and hashes. */
#ifndef BENCH_MESSAGE_H
#define BENCH_MESSAGE_H

#include "peer.h"

enum { HEADER = 40, CHAIN = 2, TAG = 32, KEYS = 64 };

struct fields {
    uint32_t sequence;
    uint16_t index, count;
    uint64_t session, channel;
};

/* The bytes of a sealed message with an empty chain and so many bytes of payload. */
size_t sealed_size(size_t payload);

/* Seals a payload; answers the message's length. */
size_t seal(const struct peer *peer, const struct fields *fields, const uint8_t *payload, size_t n, const uint8_t keys[KEYS], uint8_t *out);

/* Opens a message into the working buffer; answers the payload's length, its first byte standing at place 4, or -1. */
long open_sealed(const struct peer *peer, const uint8_t *message, size_t n, const uint8_t keys[KEYS], uint8_t *working, size_t room, struct fields *fields);

#endif
