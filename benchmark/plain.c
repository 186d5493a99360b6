/* SPDX-License-Identifier: MPL-2.0 */
/* Plain C for a step and for joining a report. */
#include "subject.h"

long plain_step(const struct peer *peer, size_t size, const uint8_t *message, size_t n, const uint8_t keys[KEYS], uint8_t *working, size_t room, uint8_t *report, size_t report_room)
{
    struct joining joining = {0};
    struct fields fields;
    long payload = open_sealed(peer, message, n, keys, working, room, &fields);
    if (payload < 0 || fields.session != SESSION)
        return -1;
    return join(&joining, size, &fields, working + 4, (size_t)payload, report, report_room);
}

long plain_join_all(size_t size, size_t count, const uint8_t *source, uint8_t *report, size_t room)
{
    struct joining joining = {0};
    struct fields fields = {.count = (uint16_t)count};
    long answer = 0;
    for (size_t i = 0; i < count; i++) {
        fields.index = (uint16_t)i;
        answer = join(&joining, size, &fields, source + size * i, size, report, room);
    }
    return answer;
}
