/* SPDX-License-Identifier: MPL-2.0 */
/* read and write as a program seldom sees them: a few bytes at a time, and interrupted. Linked into host/c's hub and gateway by --wrap. */
#define _POSIX_C_SOURCE 200112L
#include <errno.h>
#include <unistd.h>

ssize_t __real_read(int descriptor, void *bytes, size_t n);
ssize_t __real_write(int descriptor, const void *bytes, size_t n);
ssize_t __wrap_read(int descriptor, void *bytes, size_t n);
ssize_t __wrap_write(int descriptor, const void *bytes, size_t n);

/* How many bytes this call may have: 0 to 48, where 0 is an interruption. */
static size_t share(size_t n)
{
    static size_t turn;

    turn = (turn + 1) % 49;
    return turn < n ? turn : n;
}

static ssize_t interrupted(void)
{
    errno = EINTR;
    return -1;
}

ssize_t __wrap_read(int descriptor, void *bytes, size_t n)
{
    n = share(n);
    return n == 0 ? interrupted() : __real_read(descriptor, bytes, n);
}

ssize_t __wrap_write(int descriptor, const void *bytes, size_t n)
{
    n = share(n);
    return n == 0 ? interrupted() : __real_write(descriptor, bytes, n);
}
