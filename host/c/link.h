/* SPDX-License-Identifier: MPL-2.0 */
/* What hub.c and gateway.c share: what the two have agreed on, and messages over a byte stream. */
#ifndef LINK_H
#define LINK_H

#include "hub.h"

/* The bytes of a piece, and the certificates by which the two know each other. A real certificate is signed, and judged by that. */
#define F 64
#define CERTIFICATE_OF_HUB "hub of the growers of Blaye"
#define CERTIFICATE_OF_GATEWAY "gateway 7, block 12, Merlot"

/* The name by which the hub answers a presence call. */
#define NAME_OF_HUB "the hub of Blaye"

/* Reports are numbered from 0 on, and the Connect messages of each side from here on: see Vectors in hub.h. */
#define NUMBERS_OF_GATEWAY 0x80000000
#define NUMBERS_OF_HUB 0xC0000000

/* Ends the program where a call that should not be refused is. */
void must(uint32_t number, const char *call);

/* What each side gives to the key agreement. */
struct half {
    uint8_t nonce[HUB_NONCE_BYTES], x[HUB_COORDINATE_BYTES], y[HUB_COORDINATE_BYTES];
};

/* Random bytes. */
void draw_bytes(void *bytes, size_t n);

/* A side's half: its nonce is drawn, and of its public key EXAMPLE BYTES. A real side makes a key pair for each connection too. */
void draw_half(struct half *half, int letter);

struct keys {
    size_t n; /* 0 until they are agreed on, then HUB_KEYS_BYTES */
    uint8_t bytes[HUB_KEYS_BYTES];
};

/* Makes keys of both halves: EXAMPLE KEYS, which anybody can make who sees the halves; a real agreement has the private keys too. Where the two sides
   do not have the same halves they get different keys: see Keys in hub.h. */
void agree(const struct half *gateway, const struct half *hub, struct keys *keys);

/* One end of the stream, the message that came last, and room to open it in. */
struct link {
    int descriptor;
    size_t come; /* how many bytes of the next message have come */
    uint8_t message[HUB_MOST_READ];
    uint8_t working[HUB_MOST_SEALED];
};

/* Makes a link of the number of a descriptor that is open. */
void open_link(struct link *link, const char *descriptor);

/* Milliseconds, from some moment on; and a deadline that does not come. */
int64_t now(void);
#define NEVER INT64_MAX

/* Waits for the next message; answers its length, or 0 where the deadline or the end of the stream comes first. */
size_t receive(struct link *link, int64_t deadline);

/* Sends bytes; answers whether all have gone. */
int send_bytes(struct link *link, const uint8_t *bytes, size_t n);

/* A message that was written, kept so that the same bytes can be sent again. */
struct message {
    size_t n;
    uint8_t bytes[HUB_MOST_WRITTEN];
};

/* Writes a message without additional headers. */
void write_message(const uint64_t *fields, const uint8_t *payload, uint64_t payload_n, const struct keys *keys, struct message *out);

/* A Connect message that was taken apart. */
struct connect {
    uint64_t header[HUB_HEADER_WORDS], words[HUB_CONNECT_WORDS];
    const uint8_t *payload;
};

/* Takes apart the message of n bytes that came last; answers whether it is a Connect message, and not refused. */
int read_connect(struct link *link, size_t n, const struct keys *keys, struct connect *connect);

/* A Discovery message that was taken apart. */
struct discovery {
    uint64_t header[HUB_HEADER_WORDS], words[HUB_DISCOVERY_WORDS];
    const uint8_t *payload;
};

/* Takes apart the message of n bytes that came last; answers whether it is a Discovery message, and not refused. */
int read_discovery(const struct link *link, size_t n, struct discovery *discovery);

/* Sends a Discovery message with this RequestID; answers whether it has gone. */
int send_discovery(struct link *link, uint64_t request, const uint8_t *payload, uint64_t payload_n);

/* The half that a Connection Request or Response brings. */
void read_half(const struct connect *connect, struct half *half);

/* Whether a Connect message shows this certificate: all of it, and nothing more. */
int shows(const struct connect *connect, const char *certificate);

void print_report(uint64_t number, const uint8_t *report, size_t n);

/* Says a name after these words. It may be any bytes: what is not a printable ASCII character is shown by its number. */
void say_name(const char *before, const uint8_t *name, uint64_t n);

#endif
