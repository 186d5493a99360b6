/* SPDX-License-Identifier: MPL-2.0 */
/* Who is timed: our library, and each peer with plain C for what is no cipher and no hash. */
#ifndef BENCH_SUBJECT_H
#define BENCH_SUBJECT_H

#include "joining.h"

struct subject {
    const struct peer *peer;
    size_t (*seal)(const struct peer *, const struct fields *, const uint8_t *payload, size_t n, const uint8_t keys[KEYS], uint8_t *out);
    long (*open)(const struct peer *, const uint8_t *message, size_t n, const uint8_t keys[KEYS], uint8_t *working, size_t room, struct fields *);
    /* A message on a connection that is Ready, expects number 0 and has heard nothing; answers as `join` does. */
    long (*step)(const struct peer *, size_t size, const uint8_t *message, size_t n, const uint8_t keys[KEYS], uint8_t *working, size_t room, uint8_t *report, size_t report_room);
};

/* The session of every message here, which our connection is made Ready for. */
enum { SESSION = 0x1234 };

long plain_step(const struct peer *, size_t size, const uint8_t *message, size_t n, const uint8_t keys[KEYS], uint8_t *working, size_t room, uint8_t *report, size_t report_room);

/* The first `count` pieces of `size` bytes of a source, joined one after the other; answers the report's length. */
long plain_join_all(size_t size, size_t count, const uint8_t *source, uint8_t *report, size_t room);
long our_join_all(size_t size, size_t count, const uint8_t *source, uint8_t *report, size_t room);

extern const struct subject ours;

#endif
