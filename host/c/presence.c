/* SPDX-License-Identifier: MPL-2.0 */
/*
 * A tablet asks who is there, and hubs answer by their names, both sides in one program.
 *
 *     cc presence.c $(pkg-config --cflags --libs hlidunsk) -o presence && ./presence
 */
#include <stdio.h>
#include <stdlib.h>

#include "hub.h"

/* EXAMPLE BYTES: a salt, and after it the ID of a hub. A real one draws its salt, and has an ID of its own, which nobody can guess. */
static const uint8_t salted[] = "salt"
                                "the ID of a hub";

/* The names of the hubs that hear the tablet. A name is bytes, and need not be text: the third would clear a terminal, and goes on after a zero. */
#define NAME(text) {(const uint8_t *)(text), sizeof(text) - 1}
static const struct {
    const uint8_t *bytes;
    size_t n;
} names[] = {NAME("hub of the growers of Blaye"), NAME("Ch\xE2teau, block 12"), NAME("\x1B[2Jno text\0at all"), NAME(""),
             NAME("hub of the growers of Blaye, of Plassac and of Saint-Paul, row 7")};

static void must(uint32_t number)
{
    if (number != HUB_DONE) {
        fprintf(stderr, "refused %u: %s\n", (unsigned)number, hub_text(number));
        exit(1);
    }
}

/* Writes a Discovery message, which is plain: there are no keys. Answers its length. */
static size_t write_message(uint64_t request, const uint8_t *payload, uint64_t payload_n, uint8_t *out, size_t out_n)
{
    uint64_t length, fields[HUB_FIELDS_WORDS] = {[HUB_HEADER_TYPE] = HUB_TYPE_DISCOVERY, [HUB_HEADER_REQUEST] = request, [HUB_HEADER_COUNT] = 1};

    must(hub_write(fields, HUB_FIELDS_WORDS, HUB_NO_ENTRIES, HUB_NO_ENTRIES_N, payload, payload_n, NULL, 0, out, out_n, &length, HUB_LENGTH_WORDS));
    return length;
}

/* Takes a message apart. Answers its payload where it is a Discovery message of this type, else null. */
static const uint8_t *read_message(const uint8_t *message, size_t message_n, uint64_t type, uint64_t *header, uint64_t *discovery)
{
    uint64_t place[HUB_PLACE_WORDS];
    const uint8_t *payload;

    if (hub_read(message, message_n, NULL, 0, NULL, 0, header, HUB_HEADER_WORDS) != HUB_DONE || header[HUB_HEADER_TYPE] != HUB_TYPE_DISCOVERY)
        return NULL; /* a hub gives it to its connections: see hub.c */
    must(hub_payload(message, message_n, NULL, 0, header, HUB_HEADER_WORDS, place, HUB_PLACE_WORDS));
    payload = message + place[HUB_PLACE_FROM]; /* it is plain */
    must(hub_read_discovery(payload, place[HUB_PLACE_SIZE], discovery, HUB_DISCOVERY_WORDS));
    return discovery[HUB_DISCOVERY_TYPE] == type ? payload : NULL;
}

/* The hub's side. Writes the answer to a presence call, by the hub's name and with the RequestID of the call; answers its length, or 0 where it is no
   call. */
static size_t answer(const uint8_t *message, size_t message_n, const uint8_t *name, size_t name_n, uint8_t *out, size_t out_n)
{
    uint64_t header[HUB_HEADER_WORDS], discovery[HUB_DISCOVERY_WORDS], n;
    uint8_t payload[HUB_MOST_PAYLOAD], digest[HUB_DIGEST_BYTES];

    if (read_message(message, message_n, HUB_PRESENCE_REQUEST, header, discovery) == NULL)
        return 0;
    must(hub_digest(salted, sizeof salted - 1, digest, sizeof digest));
    must(hub_write_presence_response(HUB_MODE_PROXIMAL, HUB_DEVICE_LINUX, name, name_n, salted, HUB_SALT_BYTES, digest, HUB_HASH_BYTES, payload,
                                     sizeof payload, &n, HUB_LENGTH_WORDS));
    return write_message(header[HUB_HEADER_REQUEST], payload, n, out, out_n);
}

/* The tablet's side. Prints the name where the message is an answer to the call of this RequestID. Whoever answers chooses the name: what is not a
   printable ASCII character is shown by its number, so that nothing else reaches the terminal. */
static void show(const uint8_t *message, size_t message_n, uint64_t request)
{
    uint64_t header[HUB_HEADER_WORDS], discovery[HUB_DISCOVERY_WORDS], i;
    const uint8_t *payload = read_message(message, message_n, HUB_PRESENCE_RESPONSE, header, discovery), *name;

    printf("%4u bytes: ", (unsigned)message_n);
    if (payload == NULL || header[HUB_HEADER_REQUEST] != request) {
        printf("no answer to this call\n");
        return;
    }
    printf("%s \"", discovery[HUB_DISCOVERY_DEVICE] == HUB_DEVICE_LINUX ? "a Linux device" : "a device");
    name = payload + discovery[HUB_DISCOVERY_NAME_FROM];
    for (i = 0; i < discovery[HUB_DISCOVERY_NAME_SIZE]; i++)
        if (name[i] >= ' ' && name[i] <= '~' && name[i] != '\\')
            printf("%c", name[i]);
        else
            printf("\\x%02x", name[i]);
    printf("\"\n");
}

int main(void)
{
    uint8_t payload[HUB_MOST_PAYLOAD], call[HUB_MOST_REPLY], came[HUB_MOST_REPLY];
    uint64_t request = 7, n;
    size_t call_n, came_n = 0, i;

    if (hub_version() >> 16 != HUB_VERSION >> 16)
        return 1;
    must(hub_write_presence_request(payload, sizeof payload, &n, HUB_LENGTH_WORDS));
    call_n = write_message(request, payload, n, call, sizeof call);
    printf("%4u bytes: who is there?\n", (unsigned)call_n);
    for (i = 0; i < sizeof names / sizeof names[0]; i++) {
        came_n = answer(call, call_n, names[i].bytes, names[i].n, came, sizeof came);
        show(came, came_n, request);
        /* A hub that hears what another one answers answers nothing. */
        if (answer(came, came_n, names[i].bytes, names[i].n, NULL, 0) != 0)
            return 1;
    }
    show(came, came_n, request + 1); /* late, after the next call */
    show(call, call_n, request);
    return 0;
}
