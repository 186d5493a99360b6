/* SPDX-License-Identifier: MPL-2.0 */
/*
 * A gateway enrols with the hub and sends it a report, both sides in one program. (hub.c and gateway.c are two, with a link between them.)
 *
 *     cc enrol.c $(pkg-config --cflags --libs hlidunsk) -o enrol && ./enrol
 */
#include <stdio.h>
#include <stdlib.h>
#include <string.h>

#include "hub.h"

/* EXAMPLE BYTES. A real gateway draws its SessionID, a real pair its nonces and key pairs, and agrees on new keys for each connection. */
#define F 16 /* the bytes of a piece */
#define SESSION 42
static const uint8_t agreed[HUB_KEYS_BYTES + 1] = "sixteen bytes k.and sixteen more.and thirty-two for the HMAC key";
static const uint8_t nonce[HUB_NONCE_BYTES], x[HUB_COORDINATE_BYTES], y[HUB_COORDINATE_BYTES];
static const uint8_t sent[] = "pump 7: 1,204 litres; soil 18.5 C; leaf wetness 0.31; battery 3.87 V";

/* What is a side's own: its certificate, and the one that it wants to see; the number of its next Connect message, reports being numbered from 0 on
   (see Vectors in hub.h); and its keys, none until they are agreed on, then HUB_KEYS_BYTES. */
static struct side {
    const char *name, *certificate, *wanted;
    uint64_t next_number;
    size_t keys_n;
} hub = {"hub", "hub of the growers of Blaye", "gateway 7, block 12, Merlot", 0xC0000000, 0},
  gateway = {"gateway", "gateway 7, block 12, Merlot", "hub of the growers of Blaye", 0x80000000, 0};

/* What each remembers of the other, where the hub puts reports together, and where sealed messages are opened. */
static uint8_t hub_state[HUB_STATE_BYTES], gateway_state[HUB_GATEWAY_BYTES], report[HUB_MOST_PIECES * F], working[HUB_MOST_SEALED];

/* The requests and replies, by their type, kept so that the same bytes can be sent again. */
static struct message {
    uint64_t n;
    uint8_t bytes[HUB_MOST_REPLY];
} messages[HUB_DONE_RESPONSE + 1];

static void must(uint32_t number)
{
    if (number != HUB_DONE) {
        fprintf(stderr, "refused %u: %s\n", (unsigned)number, hub_text(number));
        exit(1);
    }
}

static void write_message(const uint64_t *fields, const uint8_t *payload, uint64_t payload_n, struct message *out)
{
    must(hub_write(fields, HUB_FIELDS_WORDS, HUB_NO_ENTRIES, HUB_NO_ENTRIES_N, payload, payload_n, agreed, HUB_KEYS_BYTES, out->bytes,
                   sizeof out->bytes, &out->n, HUB_LENGTH_WORDS));
}

/* A side writes its request or reply of this type. */
static void write_connect(struct side *side, uint64_t type, uint64_t status)
{
    uint64_t n, flags = type == HUB_CONNECTION_REQUEST || type == HUB_CONNECTION_RESPONSE ? 0 : HUB_FLAGS_SEALED, mode = HUB_MODE_PROXIMAL;
    uint64_t fields[HUB_FIELDS_WORDS] = {[HUB_HEADER_TYPE] = HUB_TYPE_CONNECT, [HUB_HEADER_FLAGS] = flags, [HUB_HEADER_COUNT] = 1,
                                         [HUB_HEADER_SEQUENCE] = side->next_number++, [HUB_HEADER_SESSION] = SESSION};
    uint8_t payload[HUB_MOST_PAYLOAD];
    size_t room = sizeof payload;

    if (type == HUB_CONNECTION_REQUEST)
        must(hub_write_connection_request(mode, nonce, sizeof nonce, x, sizeof x, y, sizeof y, payload, room, &n, HUB_LENGTH_WORDS));
    else if (type == HUB_CONNECTION_RESPONSE)
        must(hub_write_connection_response(mode, HUB_PENDING, nonce, sizeof nonce, x, sizeof x, y, sizeof y, payload, room, &n, HUB_LENGTH_WORDS));
    else if (type == HUB_DONE_REQUEST)
        must(hub_write_done_request(mode, payload, room, &n, HUB_LENGTH_WORDS));
    else if (type == HUB_DONE_RESPONSE)
        must(hub_write_done_response(mode, status, payload, room, &n, HUB_LENGTH_WORDS));
    else
        must(hub_write_device_authentication(type, mode, (const uint8_t *)side->certificate, strlen(side->certificate), NULL, 0, payload, room, &n,
                                             HUB_LENGTH_WORDS));
    write_message(fields, payload, n, &messages[type]);
}

/* A side's judgement of the certificate that a message shows: here it knows the one it wants. A message that is refused, or plain, shows none. */
static int judge(const struct side *side, const struct message *m)
{
    uint64_t header[HUB_HEADER_WORDS], place[HUB_PLACE_WORDS], connect[HUB_CONNECT_WORDS];

    if (hub_read(m->bytes, m->n, agreed, side->keys_n, working, sizeof working, header, HUB_HEADER_WORDS) != HUB_DONE ||
        header[HUB_HEADER_TYPE] != HUB_TYPE_CONNECT || header[HUB_HEADER_SEALED] != HUB_OPENED)
        return 0;
    must(hub_payload(m->bytes, m->n, working, sizeof working, header, HUB_HEADER_WORDS, place, HUB_PLACE_WORDS));
    must(hub_read_connect(working + place[HUB_PLACE_FROM], place[HUB_PLACE_SIZE], connect, HUB_CONNECT_WORDS));
    return connect[HUB_CONNECT_CERTIFICATE_SIZE] == strlen(side->wanted) &&
           memcmp(working + place[HUB_PLACE_FROM] + connect[HUB_CONNECT_CERTIFICATE_FROM], side->wanted, strlen(side->wanted)) == 0;
}

/* A side takes a message, says of which kind its answer is and with which value, and writes the request or reply that it is to send, if it is new. */
static uint64_t take(struct side *side, const struct message *m)
{
    static const char *const kinds[] = {"refused", "reply", "again", "failure", "taken", "repeat", "complete", "next", "ready", "failed"};
    uint64_t answer[HUB_ANSWER_WORDS] = {0}, verdict = judge(side, m);
    uint32_t number = side == &hub ? hub_step(hub_state, HUB_STATE_BYTES, m->bytes, m->n, agreed, side->keys_n, working, sizeof working, report,
                                              sizeof report, verdict, answer, HUB_ANSWER_WORDS)
                                   : hub_gateway_step(gateway_state, HUB_GATEWAY_BYTES, m->bytes, m->n, agreed, side->keys_n, working, sizeof working,
                                                      verdict, answer, HUB_ANSWER_WORDS);
    uint64_t kind = answer[HUB_ANSWER_KIND], value = answer[HUB_ANSWER_VALUE];

    printf("%-7s %4u bytes: %s ", side->name, (unsigned)m->n, kinds[kind]);
    if (kind == HUB_KIND_REFUSED)
        printf("%u: %s\n", (unsigned)number, hub_text(number));
    else
        printf("%u%s%.*s\n", (unsigned)value, kind == HUB_KIND_COMPLETE ? ": " : "", (int)answer[HUB_ANSWER_LENGTH], (const char *)report);
    if (kind == HUB_KIND_REPLY || kind == HUB_KIND_NEXT) {
        side->keys_n = HUB_KEYS_BYTES; /* with the Connection Response each side has what the keys are made of */
        write_connect(side, value, answer[HUB_ANSWER_STATUS]);
    }
    return value;
}

/* The gateway's report: its pieces arrive backwards, each of them damaged first, the first one once more at the end. */
static void send_report(void)
{
    uint64_t piece[HUB_PIECE_WORDS];
    uint64_t fields[HUB_FIELDS_WORDS] = {[HUB_HEADER_TYPE] = HUB_TYPE_SESSION, [HUB_HEADER_FLAGS] = HUB_FLAGS_SEALED, [HUB_HEADER_SESSION] = SESSION};
    struct message message;

    must(hub_cut(sent, sizeof sent - 1, F, 0, piece, HUB_PIECE_WORDS));
    for (fields[HUB_HEADER_INDEX] = fields[HUB_HEADER_COUNT] = piece[HUB_PIECE_COUNT]; fields[HUB_HEADER_INDEX]-- > 0;) {
        must(hub_cut(sent, sizeof sent - 1, F, fields[HUB_HEADER_INDEX], piece, HUB_PIECE_WORDS));
        write_message(fields, sent + piece[HUB_PIECE_FROM], piece[HUB_PIECE_SIZE], &message);
        message.bytes[message.n - 1] ^= 1;
        take(&hub, &message);
        message.bytes[message.n - 1] ^= 1;
        take(&hub, &message);
    }
    take(&hub, &message);
}

/* The gateway sends the request that is due twice, since its first reply is lost, and hears the second one twice; once it is ready, the report. */
int main(void)
{
    uint64_t due, reply;

    if (hub_version() >> 16 != HUB_VERSION >> 16)
        return 1;
    must(hub_open(F, hub_state, HUB_STATE_BYTES));
    must(hub_gateway_open(F, SESSION, gateway_state, HUB_GATEWAY_BYTES));
    write_connect(&gateway, HUB_CONNECTION_REQUEST, 0);
    while (hub_gateway_due(gateway_state, HUB_GATEWAY_BYTES, &due, HUB_DUE_WORDS) == HUB_DONE && due != HUB_NOTHING_DUE &&
           take(&hub, &messages[due]) != 0) {
        reply = take(&hub, &messages[due]);
        take(&gateway, &messages[reply]);
        take(&gateway, &messages[reply]);
    }
    if (gateway_state[HUB_GATEWAY_STATE] == HUB_GATEWAY_READY)
        send_report();
    return gateway_state[HUB_GATEWAY_STATE] != HUB_GATEWAY_READY;
}
