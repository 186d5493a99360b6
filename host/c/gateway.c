/* SPDX-License-Identifier: MPL-2.0 */
/*
 * A gateway, which has a byte stream to its hub:
 *
 *     gateway DESCRIPTOR [CERTIFICATE]
 *
 * It asks for the hub's name, enrols, sends its reports, and prints each as the hub does. Messages may be lost, repeated, damaged or a stranger's.
 */
#define _POSIX_C_SOURCE 200112L
#include <stdio.h>
#include <string.h>
#include <sys/socket.h>

#include "link.h"

#define WAIT 50      /* the milliseconds in which a reply should come */
#define TRIES 4      /* how often a presence call is sent, and a sealed request before enrolment starts over */
#define SENDS 512    /* how many requests it sends, all in all */
#define ROUNDS 16    /* how often each piece is sent: document 01 has nothing by which a hub says that it came */
#define PAUSE 2      /* the milliseconds after each of these rounds, in which it takes what has come */
#define LINGER 10000 /* the milliseconds in which the hub should close the stream */

static struct link hub;
static const char *certificate;

/* What the gateway has of its enrolment. */
static uint8_t gateway[HUB_GATEWAY_BYTES];
static uint64_t session;
static struct half ours;
static struct keys keys;
static struct message requests[HUB_DONE_REQUEST + 1]; /* by their type */

/* Asks for the hub's name, and says it where an answer comes. It is for people to read: call and answer are plain, so anybody can make them. */
static void ask_name(void)
{
    uint8_t payload[HUB_MOST_PAYLOAD];
    uint64_t length, request;
    struct discovery answer;
    int64_t deadline;
    size_t n;
    int i;

    draw_bytes(&request, sizeof request);
    must(hub_write_presence_request(payload, sizeof payload, &length, HUB_LENGTH_WORDS), "hub_write_presence_request");
    for (i = 0; i < TRIES && send_discovery(&hub, request, payload, length); i++)
        for (deadline = now() + WAIT; (n = receive(&hub, deadline)) > 0;)
            if (read_discovery(&hub, n, &answer) && answer.words[HUB_DISCOVERY_TYPE] == HUB_PRESENCE_RESPONSE &&
                answer.header[HUB_HEADER_REQUEST] == request) {
                say_name("gateway: the hub is called", answer.payload + answer.words[HUB_DISCOVERY_NAME_FROM], answer.words[HUB_DISCOVERY_NAME_SIZE]);
                return;
            }
}

/* Writes a request, once and under a number of its own, and keeps it: whenever it is sent, it is these bytes. */
static void write_request(uint64_t type)
{
    static uint64_t next_number = NUMBERS_OF_GATEWAY;
    uint64_t length, fields[HUB_FIELDS_WORDS] = {[HUB_HEADER_TYPE] = HUB_TYPE_CONNECT, [HUB_HEADER_SEQUENCE] = next_number++, [HUB_HEADER_COUNT] = 1,
                                                 [HUB_HEADER_FLAGS] = type == HUB_CONNECTION_REQUEST ? 0 : HUB_FLAGS_SEALED,
                                                 [HUB_HEADER_SESSION] = session};
    uint8_t payload[HUB_MOST_PAYLOAD];

    if (type == HUB_CONNECTION_REQUEST)
        must(hub_write_connection_request(HUB_MODE_PROXIMAL, ours.nonce, sizeof ours.nonce, ours.x, sizeof ours.x, ours.y, sizeof ours.y, payload,
                                          sizeof payload, &length, HUB_LENGTH_WORDS),
             "hub_write_connection_request");
    else if (type == HUB_AUTHENTICATION_REQUEST)
        must(hub_write_device_authentication(type, HUB_MODE_PROXIMAL, (const uint8_t *)certificate, strlen(certificate), NULL, 0, payload,
                                             sizeof payload, &length, HUB_LENGTH_WORDS),
             "hub_write_device_authentication");
    else
        must(hub_write_done_request(HUB_MODE_PROXIMAL, payload, sizeof payload, &length, HUB_LENGTH_WORDS), "hub_write_done_request");
    write_message(fields, payload, length, &keys, &requests[type]);
}

/* Begins an enrolment, of which all is new. */
static void begin(void)
{
    draw_bytes(&session, sizeof session);
    draw_half(&ours, 'g');
    keys.n = 0;
    must(hub_gateway_open(F, session, gateway, HUB_GATEWAY_BYTES), "hub_gateway_open");
    write_request(HUB_CONNECTION_REQUEST);
}

/* Takes the message of n bytes, and answers of which kind the step's answer is. What is refused is dropped: it is late, damaged or a stranger's. So
   is a Connection Response that turns the gateway away after another one was taken: it is plain, so anybody can make it. */
static uint64_t take(size_t n)
{
    uint64_t answer[HUB_ANSWER_WORDS], type;
    struct connect reply;
    struct half theirs;
    int opened = read_connect(&hub, n, &keys, &reply), response = opened && reply.words[HUB_CONNECT_TYPE] == HUB_CONNECTION_RESPONSE;

    if ((response && reply.words[HUB_CONNECT_CODE] != HUB_PENDING && gateway[HUB_GATEWAY_STATE] != HUB_GATEWAY_WAITING_FOR_RESPONSE) ||
        hub_gateway_step(gateway, HUB_GATEWAY_BYTES, hub.message, n, keys.bytes, keys.n, hub.working, sizeof hub.working,
                         opened && shows(&reply, CERTIFICATE_OF_HUB), answer, HUB_ANSWER_WORDS) != HUB_DONE)
        return HUB_KIND_REFUSED;
    type = answer[HUB_ANSWER_VALUE];
    if (answer[HUB_ANSWER_KIND] == HUB_KIND_NEXT && response) { /* from here on there are keys */
        read_half(&reply, &theirs);
        agree(&ours, &theirs, &keys);
    }
    if (answer[HUB_ANSWER_KIND] == HUB_KIND_NEXT)
        write_request(type);
    else if (answer[HUB_ANSWER_KIND] == HUB_KIND_AGAIN && type != HUB_NOTHING_DUE)
        (void)send_bytes(&hub, requests[type].bytes, requests[type].n);
    return answer[HUB_ANSWER_KIND];
}

/* Takes messages until the deadline, or until one changes the gateway's state; answers of which kind the last answer is. */
static uint64_t hear(int64_t deadline)
{
    uint64_t kind = HUB_KIND_REFUSED;
    size_t n;

    while ((kind == HUB_KIND_REFUSED || kind == HUB_KIND_AGAIN) && (n = receive(&hub, deadline)) > 0)
        kind = take(n);
    return kind;
}

/* Sends the request that is due, the same bytes until it is replied to; answers whether all are. Where it is turned away, maybe by a stranger, it
   starts over; and where nothing sealed is replied to, for a Connection Request or Response that was damaged or forged gives keys that do not fit. */
static int enrol(void)
{
    uint64_t kind, due;
    int tries = 0, i;

    begin();
    for (i = 0; i < SENDS; i++) {
        must(hub_gateway_due(gateway, HUB_GATEWAY_BYTES, &due, HUB_DUE_WORDS), "hub_gateway_due");
        if (!send_bytes(&hub, requests[due].bytes, requests[due].n))
            return 0;
        kind = hear(now() + WAIT);
        if (kind == HUB_KIND_READY)
            return 1;
        tries = due == HUB_CONNECTION_REQUEST || kind == HUB_KIND_NEXT ? 0 : tries + 1;
        if (kind == HUB_KIND_FAILED || tries == TRIES)
            begin();
    }
    return 0;
}

/* Sends every piece of a report; answers whether they have gone. */
static int send_report(uint64_t number, const uint8_t *report, size_t n)
{
    static struct message message;
    uint64_t piece[HUB_PIECE_WORDS], index = 0;
    uint64_t fields[HUB_FIELDS_WORDS] = {
        [HUB_HEADER_TYPE] = HUB_TYPE_SESSION, [HUB_HEADER_FLAGS] = HUB_FLAGS_SEALED, [HUB_HEADER_SEQUENCE] = number, [HUB_HEADER_SESSION] = session};

    do {
        must(hub_cut(report, n, F, index, piece, HUB_PIECE_WORDS), "hub_cut");
        fields[HUB_HEADER_INDEX] = index;
        fields[HUB_HEADER_COUNT] = piece[HUB_PIECE_COUNT];
        write_message(fields, report + piece[HUB_PIECE_FROM], piece[HUB_PIECE_SIZE], &keys, &message);
        if (!send_bytes(&hub, message.bytes, message.n))
            return 0;
    } while (++index < piece[HUB_PIECE_COUNT]);
    return 1;
}

/* Sends reports of one piece to 64, and hears what comes between; answers whether all have gone. */
static int send_reports(void)
{
    static const size_t sizes[] = {0, 1, F, F + 1, 5 * F - 1, HUB_MOST_PIECES * F};
    static char report[HUB_MOST_PIECES * F + F];
    uint64_t number;
    size_t n;
    int i;

    for (number = 0; number < sizeof sizes / sizeof sizes[0]; number++) {
        for (n = 0; n < sizes[number];)
            n += (size_t)sprintf(report + n, "session %u, day %u, vine %u: 1.8 kg; ", (unsigned)session, (unsigned)number, (unsigned)n);
        print_report(number, (const uint8_t *)report, sizes[number]);
        for (i = 0; i < ROUNDS; i++)
            if (!send_report(number, (const uint8_t *)report, sizes[number]) || hear(now() + PAUSE) == HUB_KIND_FAILED)
                return 0;
    }
    return 1;
}

int main(int argc, char **argv)
{
    if (argc != 2 && argc != 3) {
        fprintf(stderr, "usage: gateway DESCRIPTOR [CERTIFICATE]\n");
        return 2;
    }
    certificate = argc == 3 ? argv[2] : CERTIFICATE_OF_GATEWAY;
    open_link(&hub, argv[1]);
    ask_name();
    if (!enrol() || !send_reports()) {
        fprintf(stderr, "gateway: the hub does not enrol it, or has turned it away\n");
        return 1;
    }
    /* Whoever closes a stream with replies unread may lose what it has sent: say that no more comes, and wait for the hub to close. */
    shutdown(hub.descriptor, SHUT_WR);
    (void)hear(now() + LINGER);
    return 0;
}
