/* SPDX-License-Identifier: MPL-2.0 */
#define _POSIX_C_SOURCE 200112L
#include "link.h"

#include <errno.h>
#include <poll.h>
#include <signal.h>
#include <stdio.h>
#include <stdlib.h>
#include <string.h>
#include <time.h>
#include <unistd.h>

void must(uint32_t number, const char *call)
{
    if (number != HUB_DONE) {
        fprintf(stderr, "%s: refused %u: %s\n", call, (unsigned)number, hub_text(number));
        exit(1);
    }
}

void draw_bytes(void *bytes, size_t n)
{
    FILE *source = fopen("/dev/urandom", "rb");

    if (source == NULL || fread(bytes, 1, n, source) != n) {
        fprintf(stderr, "/dev/urandom cannot be read\n");
        exit(1);
    }
    fclose(source);
}

void draw_half(struct half *half, int letter)
{
    memset(half, letter, sizeof *half);
    draw_bytes(half->nonce, sizeof half->nonce);
}

void agree(const struct half *gateway, const struct half *hub, struct keys *keys)
{
    struct half both[] = {*gateway, *hub};

    must(hub_digest((const uint8_t *)both, sizeof both, keys->bytes, HUB_DIGEST_BYTES), "hub_digest");
    must(hub_digest(keys->bytes, HUB_DIGEST_BYTES, keys->bytes + HUB_DIGEST_BYTES, HUB_DIGEST_BYTES), "hub_digest");
    keys->n = HUB_KEYS_BYTES;
}

void open_link(struct link *link, const char *descriptor)
{
    if (hub_version() >> 16 != HUB_VERSION >> 16) {
        fprintf(stderr, "the library is of another version than hub.h\n");
        exit(1);
    }
    signal(SIGPIPE, SIG_IGN); /* where the other side is gone a write says so, and does not end the program */
    link->descriptor = atoi(descriptor);
    link->come = 0;
}

int64_t now(void)
{
    struct timespec time;

    clock_gettime(CLOCK_MONOTONIC, &time);
    return (int64_t)time.tv_sec * 1000 + time.tv_nsec / 1000000;
}

/* Waits until there is something to read, be it the end of the stream; answers whether it came before the deadline. After it nothing is read, even if
   something is there: whoever sends without end must not keep this side from its own next message. */
static int readable(int descriptor, int64_t deadline)
{
    struct pollfd stream = {descriptor, POLLIN, 0};
    int64_t left;
    int ready;

    do {
        left = deadline - now();
        if (left <= 0)
            return 0;
        ready = poll(&stream, 1, deadline == NEVER ? -1 : (int)left);
    } while (ready < 0 && errno == EINTR);
    return ready > 0;
}

/* A read may bring less than was asked for, and it is asked for no byte of the message after: hub_wanted says 42 until MessageLength is there, and no
   message is shorter. What has come when time is up stays for the next call. */
size_t receive(struct link *link, int64_t deadline)
{
    size_t wanted;
    ssize_t got;

    while (link->come < (wanted = hub_wanted(link->message, link->come))) {
        if (!readable(link->descriptor, deadline))
            return 0;
        got = read(link->descriptor, link->message + link->come, wanted - link->come);
        if (got == 0 || (got < 0 && errno != EINTR))
            return 0;
        if (got > 0)
            link->come += (size_t)got;
    }
    link->come = 0;
    return wanted;
}

/* A write may take less than it was given. */
int send_bytes(struct link *link, const uint8_t *bytes, size_t n)
{
    ssize_t put;

    while (n > 0) {
        put = write(link->descriptor, bytes, n);
        if (put < 0 && errno != EINTR)
            return 0;
        if (put > 0) {
            bytes += put;
            n -= (size_t)put;
        }
    }
    return 1;
}

void write_message(const uint64_t *fields, const uint8_t *payload, uint64_t payload_n, const struct keys *keys, struct message *out)
{
    uint64_t length;

    must(hub_write(fields, HUB_FIELDS_WORDS, HUB_NO_ENTRIES, HUB_NO_ENTRIES_N, payload, (size_t)payload_n, keys->bytes, keys->n, out->bytes,
                   sizeof out->bytes, &length, HUB_LENGTH_WORDS),
         "hub_write");
    out->n = (size_t)length;
}

int read_connect(struct link *link, size_t n, const struct keys *keys, struct connect *connect)
{
    uint64_t place[HUB_PLACE_WORDS];

    if (hub_read(link->message, n, keys->bytes, keys->n, link->working, sizeof link->working, connect->header, HUB_HEADER_WORDS) != HUB_DONE ||
        connect->header[HUB_HEADER_TYPE] != HUB_TYPE_CONNECT)
        return 0;
    must(hub_payload(link->message, n, link->working, sizeof link->working, connect->header, HUB_HEADER_WORDS, place, HUB_PLACE_WORDS),
         "hub_payload");
    connect->payload = (place[HUB_PLACE_BUFFER] ? link->working : link->message) + place[HUB_PLACE_FROM];
    must(hub_read_connect(connect->payload, (size_t)place[HUB_PLACE_SIZE], connect->words, HUB_CONNECT_WORDS), "hub_read_connect");
    return 1;
}

/* A Discovery message is plain: it needs no keys, and nothing is opened for it. */
int read_discovery(const struct link *link, size_t n, struct discovery *discovery)
{
    uint64_t place[HUB_PLACE_WORDS];

    if (hub_read(link->message, n, NULL, 0, NULL, 0, discovery->header, HUB_HEADER_WORDS) != HUB_DONE ||
        discovery->header[HUB_HEADER_TYPE] != HUB_TYPE_DISCOVERY)
        return 0;
    must(hub_payload(link->message, n, NULL, 0, discovery->header, HUB_HEADER_WORDS, place, HUB_PLACE_WORDS), "hub_payload");
    discovery->payload = link->message + place[HUB_PLACE_FROM];
    must(hub_read_discovery(discovery->payload, (size_t)place[HUB_PLACE_SIZE], discovery->words, HUB_DISCOVERY_WORDS), "hub_read_discovery");
    return 1;
}

int send_discovery(struct link *link, uint64_t request, const uint8_t *payload, uint64_t payload_n)
{
    static const struct keys none;
    static struct message message;
    const uint64_t fields[HUB_FIELDS_WORDS] = {[HUB_HEADER_TYPE] = HUB_TYPE_DISCOVERY, [HUB_HEADER_REQUEST] = request, [HUB_HEADER_COUNT] = 1};

    write_message(fields, payload, payload_n, &none, &message);
    return send_bytes(link, message.bytes, message.n);
}

void read_half(const struct connect *connect, struct half *half)
{
    memcpy(half->nonce, connect->payload + connect->words[HUB_CONNECT_NONCE_FROM], sizeof half->nonce);
    memcpy(half->x, connect->payload + connect->words[HUB_CONNECT_X_FROM], sizeof half->x);
    memcpy(half->y, connect->payload + connect->words[HUB_CONNECT_Y_FROM], sizeof half->y);
}

int shows(const struct connect *connect, const char *certificate)
{
    size_t n = strlen(certificate);

    return connect->words[HUB_CONNECT_CERTIFICATE_SIZE] == n &&
           memcmp(connect->payload + connect->words[HUB_CONNECT_CERTIFICATE_FROM], certificate, n) == 0;
}

void print_report(uint64_t number, const uint8_t *report, size_t n)
{
    printf("report %u, %u bytes: ", (unsigned)number, (unsigned)n);
    fwrite(report, 1, n, stdout);
    printf("\n");
}

void say_name(const char *before, const uint8_t *name, uint64_t n)
{
    uint64_t i;

    fprintf(stderr, "%s \"", before);
    for (i = 0; i < n; i++)
        fprintf(stderr, name[i] >= ' ' && name[i] <= '~' && name[i] != '\\' ? "%c" : "\\x%02x", name[i]);
    fprintf(stderr, "\"\n");
}
