/* SPDX-License-Identifier: MPL-2.0 */
/* Joining in plain C: memcpy and a bit map. */
#ifndef BENCH_JOINING_H
#define BENCH_JOINING_H

#include "message.h"

struct joining {
    uint64_t heard, channel;
    uint32_t expected;
    uint16_t count;
    size_t last;
};

/* A piece comes on a connection of fragment size `size`; answers the report's length where it is the last missing one, 0 where it is taken
   or a repeat, -1 where it is refused. */
long join(struct joining *joining, size_t size, const struct fields *fields, const uint8_t *payload, size_t n, uint8_t *report, size_t room);

#endif
