/* SPDX-License-Identifier: MPL-2.0 */
/*
 * A hub with one gateway, to which it has a byte stream:
 *
 *     hub DESCRIPTOR
 *
 * It enrols the gateway, prints each report when it is complete, and answers presence calls. Messages on the stream may be lost, repeated, damaged,
 * late or a stranger's, and the gateway may start anew at any time. A hub of many gateways has for each of them what is static here.
 */
#include <stdio.h>
#include <stdlib.h>
#include <string.h>

#include "link.h"

/* What the hub has of one connection. */
struct connection {
    uint8_t state[HUB_STATE_BYTES], report[HUB_MOST_PIECES * F];
    struct keys keys;
    struct message replies[HUB_DONE_RESPONSE + 1]; /* by their type */
    uint64_t next_number;
    unsigned reports;
};

/* The gateway's connection, the candidate for its place, and a blank one, which has taken nothing: see take. */
static struct connection connections[3];
static struct connection *current = &connections[0], *candidate = &connections[1], *blank = &connections[2];

static struct link gateway;
static unsigned reports, replied, again, dropped, calls;

/* A connection from its beginning, where one stood or not. It will have new keys, so that its numbers may be those of another. */
static void open_connection(struct connection *c)
{
    memset(c, 0, sizeof *c);
    must(hub_open(F, c->state, HUB_STATE_BYTES), "hub_open");
    c->next_number = NUMBERS_OF_HUB;
}

/* Puts the connection at *from in the place of the one at *to, and a blank one in its own. */
static void move(struct connection **from, struct connection **to)
{
    struct connection *old = *to;

    *to = *from;
    *from = old;
    open_connection(old);
}

/* Whether the message of n bytes shows a certificate that is accepted: this hub knows one. Most messages can show none, and are not opened for it. */
static int accepted(const struct connection *c, size_t n)
{
    uint64_t header[HUB_HEADER_WORDS];
    struct connect request;

    if (c->state[HUB_STATE_STATE] != HUB_WAITING_FOR_AUTHENTICATION || hub_read_header(gateway.message, n, header, HUB_HEADER_WORDS) != HUB_DONE ||
        header[HUB_HEADER_TYPE] != HUB_TYPE_CONNECT || header[HUB_HEADER_SEALED] != HUB_STILL_SEALED)
        return 0;
    return read_connect(&gateway, n, &c->keys, &request) && request.words[HUB_CONNECT_TYPE] == HUB_AUTHENTICATION_REQUEST &&
           shows(&request, CERTIFICATE_OF_GATEWAY);
}

/* Gives a connection the message of n bytes. Most refusals are harmless; these here say that the program is wrong. */
static uint32_t step(struct connection *c, size_t n, uint64_t *answer)
{
    uint64_t verdict = accepted(c, n);
    uint32_t number = hub_step(c->state, HUB_STATE_BYTES, gateway.message, n, c->keys.bytes, c->keys.n, gateway.working, sizeof gateway.working,
                               c->report, sizeof c->report, verdict, answer, HUB_ANSWER_WORDS);

    switch (number) {
    case HUB_WRONG_KEYS:
    case HUB_SHORT_WORKING:
    case HUB_NO_ROOM:
    case HUB_WRONG_FRAGMENT_SIZE:
    case HUB_WRONG_VERDICT:
    case HUB_WRONG_BUFFER:
        if (number != HUB_WRONG_KEYS || c->keys.n > 0) /* until there are keys a sealed message comes too early, and that is all */
            must(number, "hub_step");
    }
    return number;
}

/* Writes the reply to the message of n bytes, which a step has taken, and keeps it. */
static void write_reply(struct connection *c, size_t n, uint64_t type, uint64_t status)
{
    static const uint8_t certificate[] = CERTIFICATE_OF_HUB;
    uint64_t fields[HUB_FIELDS_WORDS] = {[HUB_HEADER_TYPE] = HUB_TYPE_CONNECT, [HUB_HEADER_FLAGS] = HUB_FLAGS_SEALED, [HUB_HEADER_COUNT] = 1};
    uint64_t mode, length = 0;
    uint8_t payload[HUB_MOST_PAYLOAD];
    struct connect request;
    struct half theirs, ours;

    if (!read_connect(&gateway, n, &c->keys, &request))
        exit(1);
    fields[HUB_HEADER_SEQUENCE] = c->next_number++;
    fields[HUB_HEADER_SESSION] = request.header[HUB_HEADER_SESSION];
    mode = request.words[HUB_CONNECT_MODE];
    switch (type) {
    case HUB_CONNECTION_RESPONSE: /* it is plain, and from here on there are keys */
        fields[HUB_HEADER_FLAGS] = 0;
        read_half(&request, &theirs);
        draw_half(&ours, 'h');
        agree(&theirs, &ours, &c->keys);
        must(hub_write_connection_response(mode, HUB_PENDING, ours.nonce, sizeof ours.nonce, ours.x, sizeof ours.x, ours.y, sizeof ours.y, payload,
                                           sizeof payload, &length, HUB_LENGTH_WORDS),
             "hub_write_connection_response");
        break;
    case HUB_AUTHENTICATION_RESPONSE:
        must(hub_write_device_authentication(type, mode, certificate, sizeof certificate - 1, NULL, 0, payload, sizeof payload, &length,
                                             HUB_LENGTH_WORDS),
             "hub_write_device_authentication");
        break;
    case HUB_DONE_RESPONSE:
        must(hub_write_done_response(mode, status, payload, sizeof payload, &length, HUB_LENGTH_WORDS), "hub_write_done_response");
    }
    write_message(fields, payload, length, &c->keys, &c->replies[type]);
}

/* Does what a step answers to the message of n bytes. */
static void follow(struct connection *c, size_t n, const uint64_t *answer)
{
    uint64_t type = answer[HUB_ANSWER_VALUE];

    switch (answer[HUB_ANSWER_KIND]) {
    case HUB_KIND_REPLY:
        write_reply(c, n, type, answer[HUB_ANSWER_STATUS]);
        replied += (unsigned)send_bytes(&gateway, c->replies[type].bytes, c->replies[type].n);
        break;
    case HUB_KIND_AGAIN:
        again += (unsigned)send_bytes(&gateway, c->replies[type].bytes, c->replies[type].n);
        break;
    case HUB_KIND_FAILURE: /* here a real hub sends MS-CDP's Authentication Failure */
        fprintf(stderr, "hub: the certificate is not accepted\n");
        break;
    case HUB_KIND_COMPLETE: /* it is the current connection: no other is ready */
        print_report(c->reports++, c->report, (size_t)answer[HUB_ANSWER_LENGTH]);
        reports++;
        break;
    default: /* HUB_KIND_TAKEN, HUB_KIND_REPEAT: other pieces are missing */
        break;
    }
}

/* Takes the message of n bytes. What the current connection refuses may be the candidate's; what both refuse, the Connection Request of a new one.
   Such a request is plain: a stranger may have made it, the link damaged it, or it is old and late. So the current connection stays as it is, and the
   blank one takes the request and is the candidate. Whoever shows an accepted certificate under the candidate's own keys is the gateway, which has
   started anew: only then is the candidate the current connection. */
static void take(size_t n)
{
    uint64_t answer[HUB_ANSWER_WORDS];
    uint32_t number = step(current, n, answer);

    if (number == HUB_DONE) {
        follow(current, n, answer);
    } else if (step(candidate, n, answer) == HUB_DONE) {
        follow(candidate, n, answer);
        if (candidate->state[HUB_STATE_STATE] == HUB_PASSED)
            move(&candidate, &current);
    } else if (step(blank, n, answer) == HUB_DONE) {
        follow(blank, n, answer);
        move(&blank, &candidate);
    } else {
        fprintf(stderr, "hub: dropped a message: %s\n", hub_text(number));
        dropped++;
    }
}

int main(int argc, char **argv)
{
    static const uint8_t name[] = NAME_OF_HUB, salt[HUB_SALT_BYTES], hash[HUB_HASH_BYTES]; /* EXAMPLE BYTES: see presence.c */
    uint8_t presence[HUB_MOST_PAYLOAD];
    uint64_t length;
    struct discovery heard;
    size_t n;

    if (argc != 2) {
        fprintf(stderr, "usage: hub DESCRIPTOR\n");
        return 2;
    }
    open_link(&gateway, argv[1]);
    open_connection(current);
    open_connection(candidate);
    open_connection(blank);
    must(hub_write_presence_response(HUB_MODE_PROXIMAL, HUB_DEVICE_LINUX, name, sizeof name - 1, salt, sizeof salt, hash, sizeof hash, presence,
                                     sizeof presence, &length, HUB_LENGTH_WORDS),
         "hub_write_presence_response");
    while ((n = receive(&gateway, NEVER)) > 0)
        if (!read_discovery(&gateway, n, &heard))
            take(n);
        else if (heard.words[HUB_DISCOVERY_TYPE] == HUB_PRESENCE_REQUEST) /* it is anybody's, and no connection's */
            calls += (unsigned)send_discovery(&gateway, heard.header[HUB_HEADER_REQUEST], presence, length);
        else
            dropped++; /* what another hub answers */
    fprintf(stderr, "hub: %u reports, %u replies, %u sent again, %u messages dropped, %u presence calls\n", reports, replied, again, dropped, calls);
    return 0;
}
