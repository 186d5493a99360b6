/* SPDX-License-Identifier: MPL-2.0 */
/* Joining in plain C: memcpy and a bit map. */
#include "joining.h"

#include <string.h>

long join(struct joining *joining, size_t size, const struct fields *fields, const uint8_t *payload, size_t n, uint8_t *report, size_t room)
{
    size_t index = fields->index, count = fields->count, start = size * index;
    int last = index + 1 == count;
    uint64_t bit = (uint64_t)1 << (index & 63), all = count == 64 ? ~(uint64_t)0 : ((uint64_t)1 << count) - 1;
    if (count == 0 || count > 64 || index >= count || fields->sequence == 0xffffffff || fields->sequence != joining->expected)
        return -1;
    if (joining->heard != 0 && (joining->count != count || joining->channel != fields->channel))
        return -1;
    if (last ? n > size || (n == 0 && count > 1) : n != size)
        return -1;
    if (room < start + n)
        return -1;
    if (joining->heard & bit)
        return n == (last ? joining->last : size) && memcmp(report + start, payload, n) == 0 ? 0 : -1;
    memcpy(report + start, payload, n);
    joining->heard |= bit;
    joining->count = (uint16_t)count;
    joining->channel = fields->channel;
    if (last)
        joining->last = n;
    if ((joining->heard & all) != all)
        return 0;
    long length = (long)(size * (count - 1) + joining->last);
    *joining = (struct joining){.expected = joining->expected + 1};
    return length;
}
