/* SPDX-License-Identifier: MPL-2.0 */
/*
 * A bad link between host/c's hub and gateway:
 *
 *     relay FIRST LAST HUB GATEWAY
 *
 * HUB and GATEWAY are commands, which are given the number of a descriptor. For each seed from FIRST to LAST both run, and what they send to each
 * other is lost, sent twice, held back or damaged, message by message; a stranger's Connection Requests, Connection Responses and presence calls come
 * between, also when hub and gateway are ready. The hub must print each report once, in order, as the gateway sent it, and answer each of these calls
 * by its name; the gateway must enrol, whoever turns it away, and stay ready; and what either sends again must be the same bytes. Then both run with
 * a gateway before that is cut off: in its enrolment, in the midst of a report, or when the hub has not accepted its certificate. The hub must hear
 * the other one, and print its reports from 0 on. A line at the end says what was counted.
 */
#define _POSIX_C_SOURCE 200809L
#include <fcntl.h>
#include <poll.h>
#include <signal.h>
#include <stdio.h>
#include <stdlib.h>
#include <string.h>
#include <sys/socket.h>
#include <sys/wait.h>
#include <unistd.h>

#include "link.h"

#define LIMIT 60        /* the seconds of a run */
#define IDLE 5          /* the milliseconds of silence after which nothing is held back any longer */
#define HELD 8          /* how many messages of a side are held back at a time */
#define PRINTED 1048576 /* more than a program prints */
#define REFUSAL "the certificate is not accepted"
#define NAMED "gateway: the hub is called \"" NAME_OF_HUB "\"\n"
#define CALLS 0xCA11000000000000 /* the RequestIDs of a stranger's presence calls, from here on; a gateway draws its own */

/* One of the two programs: our end of its stream, what it prints, and those of its messages that are held back. */
struct side {
    struct side *other;
    struct link link;
    int open;
    pid_t process;
    FILE *out, *log;
    struct {
        size_t n, after; /* its bytes, none in a free place; how many messages go before it */
        uint8_t bytes[HUB_MOST_WRITTEN];
    } held[HELD];
};
static struct side gateway;
static struct side hub = {.other = &gateway};
static struct side gateway = {.other = &hub};

/* Of the gateway that runs: its SessionID, how many messages it has sent, presence calls apart, and how many of those are Session messages; then the
   hub is ready. */
static uint64_t session;
static unsigned sent_messages, sent_pieces;

static unsigned seed, runs, messages, lost, twice, late, damaged, forgeries, while_ready, replayed, cut_off, in_report, unknown;
static unsigned responses, turned_away_ready, starts;
static unsigned reports, replied, again, dropped, named;

/* The stranger's presence calls of this run, those of them that the hub has answered, its answers to all presence calls; and these of all runs. */
static unsigned called, answered, answers, all_answers;

static void say_log(FILE *log)
{
    char line[512];

    rewind(log);
    while (fgets(line, sizeof line, log) != NULL)
        if (strstr(line, "dropped a message") == NULL)
            fprintf(stderr, "relay: %s", line);
}

static void fail(const char *what)
{
    say_log(hub.log);
    say_log(gateway.log);
    fprintf(stderr, "relay: seed %u: %s\n", seed, what);
    exit(1);
}

/* Both programs end with us, since their streams do. */
static void time_is_up(int number)
{
    static const char text[] = "relay: time is up\n";

    (void)number;
    if (write(STDERR_FILENO, text, sizeof text - 1) > 0)
        _exit(1);
    _exit(2);
}

/* A number under n, from a generator that the seed starts. */
static uint64_t drawn;
static size_t draw(size_t n)
{
    drawn = drawn * 6364136223846793005u + 1442695040888963407u;
    return (size_t)((drawn >> 33) % n);
}

/* A side without a program, for a new run. */
static void clear(struct side *side)
{
    if (side->out != NULL) {
        fclose(side->out);
        fclose(side->log);
    }
    side->out = tmpfile();
    side->log = tmpfile();
    memset(side->held, 0, sizeof side->held);
}

/* Starts a program on one end of a new stream. What it prints comes after what the side printed before. */
static void start(struct side *side, const char *command, const char *argument)
{
    char line[1024];
    int ends[2];

    if (side->out == NULL || side->log == NULL || socketpair(AF_UNIX, SOCK_STREAM, 0, ends) != 0) {
        perror("relay");
        exit(1);
    }
    fcntl(ends[0], F_SETFD, FD_CLOEXEC); /* a program that had this end too would keep the stream open */
    snprintf(line, sizeof line, "exec %s %d %s", command, ends[1], argument);
    side->process = fork();
    if (side->process == 0) {
        dup2(fileno(side->out), STDOUT_FILENO);
        dup2(fileno(side->log), STDERR_FILENO);
        execl("/bin/sh", "sh", "-c", line, (char *)NULL);
        _exit(127);
    }
    close(ends[1]);
    side->link.descriptor = ends[0];
    side->link.come = 0;
    side->open = 1;
}

static struct message forged;

/* Sends the hub a stranger's message of this SessionID: a Connection Request, each with another nonce; or one that is sealed, by keys of its own. */
static void forge(uint64_t of_session, int sealed)
{
    static const uint8_t coordinate[HUB_COORDINATE_BYTES];
    uint64_t fields[HUB_FIELDS_WORDS] = {[HUB_HEADER_TYPE] = HUB_TYPE_CONNECT, [HUB_HEADER_COUNT] = 1, [HUB_HEADER_SESSION] = of_session}, length;
    uint8_t payload[HUB_MOST_PAYLOAD], nonce[HUB_NONCE_BYTES];
    struct keys strange = {.n = HUB_KEYS_BYTES};

    draw_bytes(nonce, sizeof nonce);
    must(hub_write_connection_request(HUB_MODE_NONE, nonce, HUB_NONCE_BYTES, coordinate, HUB_COORDINATE_BYTES, coordinate, HUB_COORDINATE_BYTES,
                                      payload, sizeof payload, &length, HUB_LENGTH_WORDS),
         "hub_write_connection_request");
    if (sealed) {
        fields[HUB_HEADER_TYPE] = HUB_TYPE_SESSION;
        fields[HUB_HEADER_FLAGS] = HUB_FLAGS_SEALED;
    }
    write_message(fields, payload, length, &strange, &forged);
    forgeries += (unsigned)send_bytes(&hub.link, forged.bytes, forged.n);
    while_ready += sent_pieces > 0;
}

/* Sends the gateway a stranger's Connection Response of its SessionID: with another half than the hub's, or one that turns the gateway away. */
static void forge_response(uint64_t result)
{
    static const uint8_t coordinate[HUB_COORDINATE_BYTES];
    static const struct keys none;
    uint64_t fields[HUB_FIELDS_WORDS] = {[HUB_HEADER_TYPE] = HUB_TYPE_CONNECT, [HUB_HEADER_COUNT] = 1, [HUB_HEADER_SESSION] = session}, length;
    uint8_t payload[HUB_MOST_PAYLOAD], nonce[HUB_NONCE_BYTES];

    draw_bytes(nonce, sizeof nonce);
    must(hub_write_connection_response(HUB_MODE_NONE, result, nonce, HUB_NONCE_BYTES, coordinate, HUB_COORDINATE_BYTES, coordinate,
                                       HUB_COORDINATE_BYTES, payload, sizeof payload, &length, HUB_LENGTH_WORDS),
         "hub_write_connection_response");
    write_message(fields, payload, length, &none, &forged);
    responses += (unsigned)send_bytes(&gateway.link, forged.bytes, forged.n);
    turned_away_ready += result != HUB_PENDING && sent_pieces > 0;
}

/* Sends the hub a stranger's presence call. */
static void call_hub(void)
{
    uint8_t payload[HUB_MOST_PAYLOAD];
    uint64_t length;

    must(hub_write_presence_request(payload, sizeof payload, &length, HUB_LENGTH_WORDS), "hub_write_presence_request");
    called += (unsigned)send_discovery(&hub.link, CALLS + called, payload, length);
}

/* A gateway sends presence calls, and the hub answers by its name, those of a stranger in their order. */
static void watch_presence(struct side *from, size_t n)
{
    static const char name[] = NAME_OF_HUB;
    struct discovery said;

    if (from == &gateway) {
        if (!read_discovery(&from->link, n, &said) || said.words[HUB_DISCOVERY_TYPE] != HUB_PRESENCE_REQUEST)
            fail("a gateway's Discovery message is no presence call");
        return;
    }
    if (!read_discovery(&from->link, n, &said) || said.words[HUB_DISCOVERY_TYPE] != HUB_PRESENCE_RESPONSE ||
        said.words[HUB_DISCOVERY_NAME_SIZE] != sizeof name - 1 ||
        memcmp(said.payload + said.words[HUB_DISCOVERY_NAME_FROM], name, sizeof name - 1) != 0)
        fail("the hub answers a presence call by another name");
    answered += said.header[HUB_HEADER_REQUEST] == CALLS + answered;
    answers++;
}

/* The halves that gateways and hub have shown in this run, and the keys that each two of them give: all that both sides can have agreed on. */
static struct shown {
    struct half halves[1024];
    size_t n;
} by_gateways, by_hub;
static struct keys agreed[16384];
static size_t agreed_n;

/* Takes note of a half that a side shows, with the keys that it gives. */
static void note(struct shown *side, const struct half *half)
{
    struct shown *others = side == &by_hub ? &by_gateways : &by_hub;
    size_t i;

    for (i = 0; i < side->n; i++)
        if (memcmp(&side->halves[i], half, sizeof *half) == 0)
            return;
    if (side->n == sizeof side->halves / sizeof side->halves[0] || agreed_n + others->n > sizeof agreed / sizeof agreed[0])
        fail("a program draws ever new halves");
    side->halves[side->n++] = *half;
    for (i = 0; i < others->n; i++)
        agree(side == &by_hub ? &others->halves[i] : half, side == &by_hub ? half : &others->halves[i], &agreed[agreed_n++]);
}

/* Under which keys the message of n bytes is sealed; SIZE_MAX where it is none of these: a gateway that was given a damaged half has keys of its own.
   The last ones are tried first. */
static size_t sealed_by(struct link *link, size_t n)
{
    static size_t last;
    uint64_t header[HUB_HEADER_WORDS];
    size_t i, k;

    for (k = 0; k < agreed_n; k++) {
        i = (last + k) % agreed_n;
        if (hub_read(link->message, n, agreed[i].bytes, agreed[i].n, link->working, sizeof link->working, header, HUB_HEADER_WORDS) == HUB_DONE)
            return last = i;
    }
    return SIZE_MAX;
}

/* The sealed messages of this run: the keys, the four numbers that the vector is made of, the type of a Connect message, and a digest. */
static struct {
    uint64_t vector[5], type;
    uint8_t digest[HUB_DIGEST_BYTES];
} seen[1024];
static size_t seen_n;

/* The Connection Requests of this run's gateways, each of another enrolment: the SessionID, and a digest of the bytes. */
static struct {
    uint64_t session;
    uint8_t digest[HUB_DIGEST_BYTES];
} enrolments[1024];
static size_t enrolments_n;

/* A lost reply makes a gateway send the same bytes again, nonce included: no two Connection Requests of one SessionID differ. */
static void watch_request(uint64_t of_session, const uint8_t *digest)
{
    size_t i = 0;

    while (i < enrolments_n && enrolments[i].session != of_session)
        i++;
    if (i == sizeof enrolments / sizeof enrolments[0])
        fail("a gateway begins ever new enrolments");
    if (i < enrolments_n && memcmp(enrolments[i].digest, digest, HUB_DIGEST_BYTES) != 0)
        fail("a Connection Request that is sent again has other bytes");
    enrolments[i].session = of_session;
    memcpy(enrolments[i].digest, digest, HUB_DIGEST_BYTES);
    starts += i == enrolments_n;
    enrolments_n += i == enrolments_n;
}

/* Under one set of keys no two sealed messages of different bytes have the same vector, whoever sends them; and what is sent again of an enrolment is
   the same bytes, so that no two requests or replies of one type differ. */
static void watch(struct side *from, size_t n)
{
    static const struct keys none;
    uint64_t header[HUB_HEADER_WORDS], vector[5], type = UINT64_MAX;
    uint8_t digest[HUB_DIGEST_BYTES];
    struct connect connect;
    struct half half;
    size_t i = 0, k;

    if (hub_read_header(from->link.message, n, header, HUB_HEADER_WORDS) != HUB_DONE ||
        hub_digest(from->link.message, n, digest, HUB_DIGEST_BYTES) != HUB_DONE)
        fail("what a program sends is no message");
    if (header[HUB_HEADER_TYPE] == HUB_TYPE_DISCOVERY) {
        watch_presence(from, n);
        return;
    }
    if (from == &gateway) {
        session = header[HUB_HEADER_SESSION];
        sent_messages++;
        sent_pieces += header[HUB_HEADER_TYPE] == HUB_TYPE_SESSION;
    }
    if (header[HUB_HEADER_SEALED] != HUB_STILL_SEALED) {
        if (!read_connect(&from->link, n, &none, &connect))
            fail("a plain message is no Connect message");
        read_half(&connect, &half);
        note(from == &hub ? &by_hub : &by_gateways, &half);
        if (from == &gateway)
            watch_request(header[HUB_HEADER_SESSION], digest);
        return;
    }
    vector[0] = sealed_by(&from->link, n);
    vector[1] = header[HUB_HEADER_SESSION];
    vector[2] = header[HUB_HEADER_SEQUENCE];
    vector[3] = header[HUB_HEADER_INDEX];
    vector[4] = header[HUB_HEADER_COUNT];
    if (vector[0] != SIZE_MAX && read_connect(&from->link, n, &agreed[vector[0]], &connect)) {
        type = connect.words[HUB_CONNECT_TYPE];
        for (k = 0; k < seen_n; k++)
            if (seen[k].vector[0] == vector[0] && seen[k].type == type && memcmp(seen[k].digest, digest, HUB_DIGEST_BYTES) != 0)
                fail("a request or a reply that is sent again has other bytes");
    }
    while (i < seen_n && memcmp(seen[i].vector, vector, sizeof vector) != 0)
        i++;
    if (i == sizeof seen / sizeof seen[0])
        fail("a program sends ever new messages");
    if (i < seen_n && memcmp(seen[i].digest, digest, HUB_DIGEST_BYTES) != 0)
        fail("two sealed messages have the same vector");
    memcpy(seen[i].vector, vector, sizeof vector);
    seen[i].type = type;
    memcpy(seen[i].digest, digest, HUB_DIGEST_BYTES);
    seen_n += i == seen_n;
}

/* Holds back a message of n bytes that has come, where there is room for it. */
static int hold_back(struct side *from, size_t n)
{
    size_t i = 0;

    while (i < HELD && from->held[i].n > 0)
        i++;
    if (i == HELD || n > sizeof from->held[i].bytes)
        return 0;
    memcpy(from->held[i].bytes, from->link.message, n);
    from->held[i].n = n;
    from->held[i].after = 1 + draw(20);
    return 1;
}

/* Sends what was held back: all of it, or what its time has come for. That the other side is gone is no fault. */
static void release(struct side *from, int all)
{
    size_t i;

    for (i = 0; i < HELD; i++)
        if (from->held[i].n > 0 && (all || --from->held[i].after == 0)) {
            (void)send_bytes(&from->other->link, from->held[i].bytes, from->held[i].n);
            from->held[i].n = 0;
        }
}

/* The requests of the gateway that is to be cut off, kept until then. */
static struct message old[64];
static size_t old_n;
static int keeping;

/* Passes on a message of n bytes that has come, or does not. MessageLength stays as it is: a stream has no other way to find its messages. */
static void pass(struct side *from, size_t n)
{
    enum { LOST, TWICE, LATE, DAMAGED, FATES = 8 };
    static int begun;
    uint8_t *message = from->link.message, bit;
    size_t at;
    int copies = 1, first;

    messages++;
    watch(from, n);
    first = !begun && sent_messages > 0; /* a Connection Request: it goes twice, after what is forged, so that these come in every test */
    begun = begun || first;
    if (from == &gateway && keeping && sent_pieces == 0 && old_n < sizeof old / sizeof old[0]) {
        memcpy(old[old_n].bytes, message, n);
        old[old_n++].n = n;
    }
    if (first)
        forge(session, 1);
    if (first || (from == &gateway && draw(8) == 0))
        forge(draw(2) == 0 ? session : ~session, 0);
    if (first || (from == &gateway && draw(8) == 0))
        call_hub();
    if (first || (from == &gateway && draw(8) == 0))
        forge_response(first ? HUB_FAILURE_NOT_ALLOWED : draw(HUB_FAILURE_NOT_ALLOWED + 1));
    switch (first ? TWICE : draw(FATES)) {
    case LOST:
        lost++;
        copies = 0;
        break;
    case TWICE:
        twice++;
        copies = 2;
        break;
    case LATE:
        copies = !hold_back(from, n);
        late += !copies;
        break;
    case DAMAGED:
        at = draw(n);
        bit = (uint8_t)(1 << draw(8));
        message[at] ^= bit;
        if (hub_wanted(message, n) != n)
            message[at] ^= bit;
        else
            damaged++;
    }
    while (copies-- > 0)
        (void)send_bytes(&from->other->link, message, n);
    release(from, 0);
}

/* Sends them to the hub once more, when another gateway is in its place: whatever they say, it is of the past. */
static void replay(void)
{
    size_t i;

    for (i = 0; i < old_n; i++)
        replayed += (unsigned)send_bytes(&hub.link, old[i].bytes, old[i].n);
    old_n = 0;
}

/* What came to a side's end: a message, or the end of its stream, which the other side then hears of. */
static void serve(struct side *from)
{
    size_t n = receive(&from->link, NEVER);

    if (n > 0) {
        pass(from, n);
        return;
    }
    from->open = 0;
    release(from, 1);
    shutdown(from->other->link.descriptor, SHUT_WR);
}

/* Waits for a program, and answers its status. */
static int ended(struct side *side)
{
    int status;

    close(side->link.descriptor);
    if (waitpid(side->process, &status, 0) != side->process || !WIFEXITED(status))
        fail("a program is killed");
    return WEXITSTATUS(status);
}

/* What a program has printed so far: read without moving the place at which it goes on. */
static size_t printed(FILE *file, char text[PRINTED])
{
    ssize_t n = pread(fileno(file), text, PRINTED - 1, 0);

    if (n < 0 || n == PRINTED - 1)
        fail("what a program prints cannot be read");
    text[n] = 0;
    return (size_t)n;
}

/* Whether the hub has said that it does not accept a certificate. */
static int turned_away(void)
{
    static char text[PRINTED];

    printed(hub.log, text);
    return strstr(text, REFUSAL) != NULL;
}

static void start_gateway(char **commands, const char *certificate)
{
    char argument[128];

    sent_messages = sent_pieces = 0;
    snprintf(argument, sizeof argument, "'%s'", certificate);
    start(&gateway, commands[1], argument);
}

/* A gateway that is cut off: its certificate, and when that is: after so many messages, or so many pieces of reports, or where both are 0 once the
   hub has turned it away. */
struct cut {
    const char *certificate;
    unsigned messages, pieces;
};

static int time_to_cut(const struct cut *cut)
{
    if (cut->messages > 0)
        return sent_messages >= cut->messages;
    return cut->pieces > 0 ? sent_pieces >= cut->pieces : turned_away();
}

/* Runs the hub and a gateway over the link until both have ended; before that gateway one that is cut off, where there is such a one. What was held
   back of it comes late, when the other one runs. Answers how many bytes the one that was cut off has printed. */
static size_t run(char **commands, const struct cut *cut)
{
    static char text[PRINTED];
    struct pollfd streams[2] = {{0, POLLIN, 0}, {0, POLLIN, 0}};
    size_t before = 0;

    drawn = seed + (cut == NULL ? 0 : 1000 * (1 + cut->messages + cut->pieces)); /* no two runs of a seed are alike */
    seen_n = enrolments_n = agreed_n = by_gateways.n = by_hub.n = old_n = 0;
    called = answered = answers = 0;
    keeping = cut != NULL;
    runs++;
    alarm(LIMIT);
    clear(&hub);
    clear(&gateway);
    start(&hub, commands[0], "");
    start_gateway(commands, cut == NULL ? CERTIFICATE_OF_GATEWAY : cut->certificate);
    while (hub.open || gateway.open) {
        if (keeping && time_to_cut(cut)) {
            if (ended(&gateway) != 1)
                fail("a gateway that is cut off ends with another status");
            before = printed(gateway.out, text);
            start_gateway(commands, CERTIFICATE_OF_GATEWAY);
            keeping = 0;
        }
        if (!keeping && sent_pieces == HUB_MOST_PIECES)
            replay();
        streams[0].fd = hub.open ? hub.link.descriptor : -1;
        streams[1].fd = gateway.open ? gateway.link.descriptor : -1;
        if (poll(streams, 2, IDLE) == 0) {
            release(&hub, 1);
            release(&gateway, 1);
            continue;
        }
        if (streams[0].revents != 0)
            serve(&hub);
        if (streams[1].revents != 0)
            serve(&gateway);
    }
    if (ended(&hub) != 0 || ended(&gateway) != 0)
        fail("a program ends with another status");
    if (keeping || old_n > 0)
        fail("a gateway is not cut off, or no other one is ready then");
    return before;
}

/* The reports in a text: each is whole, and they are numbered from 0 on, the first one empty. Answers how many, and the size of the last one. */
static unsigned numbered(const char *text, size_t n, unsigned *size)
{
    unsigned number, named;
    size_t at = 0;
    int head;

    for (number = 0; at < n; at += (size_t)head + *size + 2, number++)
        if (sscanf(text + at, "report %u, %u bytes:%n", &named, size, &head) != 2 || named != number || (number == 0 && *size != 0))
            fail("the hub prints no report, or one out of order");
    if (at != n)
        fail("a report is not whole");
    return number;
}

/* The hub printed what the gateway did, the last report of 64 whole pieces; and before that the first reports of the one that was cut off, which has
   printed so many bytes. Answers how many reports of that one it printed. */
static unsigned hold_reports(size_t before)
{
    static char came[PRINTED], sent[PRINTED];
    size_t came_n = printed(hub.out, came), sent_n = printed(gateway.out, sent) - before;
    unsigned number, size = 0, first;

    if (came_n < sent_n || memcmp(came + came_n - sent_n, sent + before, sent_n) != 0)
        fail("the hub prints other reports than were sent");
    if (came_n - sent_n > before || memcmp(came, sent, came_n - sent_n) != 0)
        fail("the hub prints other reports than the gateway sent that was cut off");
    first = numbered(came, came_n - sent_n, &size);
    number = numbered(sent + before, sent_n, &size);
    if (number < 4 || size != HUB_MOST_PIECES * F)
        fail("a report is missing");
    reports += number + first;
    return first;
}

/* Adds up what the hub counted, and holds it to what it answered: each of the stranger's presence calls. Counts the gateways that heard its name. */
static void hold_counts(void)
{
    unsigned came, replies, repeats, refused, calls = 0, found = 0;
    char line[512];

    rewind(hub.log);
    while (fgets(line, sizeof line, hub.log) != NULL)
        if (sscanf(line, "hub: %u reports, %u replies, %u sent again, %u messages dropped, %u presence calls", &came, &replies, &repeats, &refused,
                   &calls) == 5) {
            found++;
            replied += replies;
            again += repeats;
            dropped += refused;
        }
    if (found != 1)
        fail("the hub does not say what it counted");
    if (calls != answers || answered != called)
        fail("the hub does not answer a presence call");
    all_answers += answers;
    rewind(gateway.log);
    while (fgets(line, sizeof line, gateway.log) != NULL)
        named += strcmp(line, NAMED) == 0;
}

/* A gateway is cut off, and another one comes. Answers how many reports came of the first. */
static unsigned restart(char **commands, const char *certificate, unsigned after_messages, unsigned after_pieces)
{
    struct cut cut = {certificate, after_messages, after_pieces};
    unsigned first = hold_reports(run(commands, &cut));

    hold_counts();
    cut_off++;
    return first;
}

/* A gateway whose certificate the hub does not know sends no report; one that it knows is heard after it. */
static void stranger(char **commands, const char *certificate)
{
    if (restart(commands, certificate, 0, 0) != 0)
        fail("a stranger sends reports");
    unknown++;
}

/* Past its deadline a program reads no message, even if one is there: whoever sends without end keeps it from nothing. The message is not lost. */
static void hold_deadline(void)
{
    static struct link link;
    int ends[2];

    if (socketpair(AF_UNIX, SOCK_STREAM, 0, ends) != 0)
        fail("there is no socket");
    link.descriptor = ends[0];
    if (write(ends[1], forged.bytes, forged.n) != (ssize_t)forged.n || receive(&link, now() - 1) != 0 || receive(&link, now()) != 0)
        fail("a message is read after the deadline");
    if (receive(&link, NEVER) != forged.n || memcmp(link.message, forged.bytes, forged.n) != 0)
        fail("a message is not read");
    close(ends[0]);
    close(ends[1]);
}

int main(int argc, char **argv)
{
    unsigned last;

    if (argc != 5) {
        fprintf(stderr, "usage: relay FIRST LAST HUB GATEWAY\n");
        return 2;
    }
    signal(SIGALRM, time_is_up);
    signal(SIGPIPE, SIG_IGN);
    last = (unsigned)atoi(argv[2]);
    for (seed = (unsigned)atoi(argv[1]); seed <= last; seed++) {
        (void)hold_reports(run(argv + 3, NULL));
        if (turned_away())
            fail("the hub turns its gateway away");
        hold_counts();
        (void)restart(argv + 3, CERTIFICATE_OF_GATEWAY, 1 + seed % 8, 0);
        /* Before the last report come 10 pieces, 16 times each; of that one, which has 64, fewer than 64 are sent. */
        if (restart(argv + 3, CERTIFICATE_OF_GATEWAY, 0, 10 * 16 + 1 + seed % 63) != 5)
            fail("a report that was cut off is complete");
        in_report++;
    }
    /* One that begins with the known certificate, one that the known one begins with, one of the same length. */
    stranger(argv + 3, CERTIFICATE_OF_GATEWAY "!");
    stranger(argv + 3, "gateway 7, block 12, Merlo");
    stranger(argv + 3, "gateway 8, block 12, Merlot");
    hold_deadline();
    if (lost == 0 || twice == 0 || late == 0 || damaged == 0 || while_ready == 0 || again == 0 || dropped == 0 || replied <= 3 * (runs + cut_off))
        fail("the link was too good");
    if (turned_away_ready == 0 || starts <= runs + cut_off)
        fail("the gateways were not troubled");
    if (named == 0)
        fail("no gateway hears the hub's name");
    printf("%u runs, %u messages: %u lost, %u twice, %u late, %u damaged, %u forged between, %u of them to a hub that is ready; ", runs, messages,
           lost, twice, late, damaged, forgeries, while_ready);
    printf("%u forged to gateways, %u to turn one away that is ready; %u enrolments begun; ", responses, turned_away_ready, starts);
    printf("%u gateways cut off, %u in a report, and another one heard, whatever %u old requests say; ", cut_off, in_report, replayed);
    printf("%u reports came once, in order, as sent; %u replies, %u sent again, %u messages dropped; ", reports, replied, again, dropped);
    printf("%u unknown certificates not accepted; %u presence calls answered, %u gateways hear the hub's name\n", unknown, all_answers, named);
    return 0;
}
