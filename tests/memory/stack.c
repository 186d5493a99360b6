/* SPDX-License-Identifier: MPL-2.0 */
/*
 * The stack of each call: it runs on a stack that was painted before, and what is no longer painted was used. What a call of an empty
 * function uses is taken off. Each call is tried on inputs that are meant to be its dearest, painted in two colours. It is a measurement: what a
 * call reserves and never writes is not seen. A line for each call: its name, and the most bytes over the inputs tried.
 */
#include <stdio.h>
#include <stdlib.h>
#include <string.h>
#include <ucontext.h>

#include "hub.h"

#define STACK 65536
#define F HUB_MOST_FRAGMENT_SIZE
#define ENTRY 255 /* the most bytes of an entry of the chain, after its type and its size */

static uint8_t stack[STACK];
static ucontext_t here, there;

static const uint8_t nonce[HUB_NONCE_BYTES], x[HUB_COORDINATE_BYTES], y[HUB_COORDINATE_BYTES];
static const uint8_t certificate[HUB_MOST_CERTIFICATE], thumbprint[HUB_MOST_THUMBPRINT];
static const uint8_t name[HUB_MOST_NAME], salt[HUB_SALT_BYTES], hash[HUB_HASH_BYTES];
static uint8_t keys[HUB_KEYS_BYTES], state[HUB_STATE_BYTES], gateway[HUB_GATEWAY_BYTES], working[HUB_MOST_SEALED], report[3 * F];
static uint8_t message[HUB_MOST_READ], out[HUB_MOST_WRITTEN], digest[HUB_DIGEST_BYTES], line[HUB_LINE_BYTES], payload[F], chain[8 * (2 + ENTRY) + 2];
static uint64_t header[HUB_HEADER_WORDS], fields[HUB_FIELDS_WORDS], place[HUB_PLACE_WORDS], answer[HUB_ANSWER_WORDS];
static uint64_t length[HUB_LENGTH_WORDS], connect[HUB_CONNECT_WORDS], discovery[HUB_DISCOVERY_WORDS], due[HUB_DUE_WORDS];
static size_t message_n, payload_n;
static uint64_t verdict, authentication = HUB_AUTHENTICATION_REQUEST, status = HUB_FAILURE_UNKNOWN;
static uint32_t number;

static void do_nothing(void) {}
static void do_version(void) { number = hub_version(); }
static void do_digest(void) { number = hub_digest(payload, payload_n, digest, sizeof digest); }
static void do_hmac(void) { number = hub_hmac(keys, sizeof keys, payload, payload_n, digest, sizeof digest); }
static void do_hmac_long(void) { number = hub_hmac(payload, payload_n, payload, payload_n, digest, sizeof digest); }
static void do_same_tag(void) { number = hub_tags_differ(digest, sizeof digest, keys, HUB_DIGEST_BYTES); }
static void do_wanted(void) { number = hub_wanted(message, message_n); }
static void do_read_header(void) { number = hub_read_header(message, message_n, header, HUB_HEADER_WORDS); }
static void do_read(void) { number = hub_read(message, message_n, keys, sizeof keys, working, sizeof working, header, HUB_HEADER_WORDS); }
static void do_payload(void) { number = hub_payload(message, message_n, working, sizeof working, header, HUB_HEADER_WORDS, place, HUB_PLACE_WORDS); }
static void do_write(void)
{
    number = hub_write(fields, HUB_FIELDS_WORDS, chain, sizeof chain, payload, payload_n, keys, sizeof keys, out, sizeof out, length,
                       HUB_LENGTH_WORDS);
}
static void do_presence_request(void) { number = hub_write_presence_request(payload, sizeof payload, length, HUB_LENGTH_WORDS); }
static void do_presence_response(void)
{
    number = hub_write_presence_response(HUB_MODE_LEGACY, HUB_DEVICE_LINUX, name, sizeof name, salt, sizeof salt, hash, sizeof hash, payload,
                                         sizeof payload, length, HUB_LENGTH_WORDS);
}
static void do_connection_request(void)
{
    number = hub_write_connection_request(HUB_MODE_LEGACY, nonce, sizeof nonce, x, sizeof x, y, sizeof y, payload, sizeof payload, length,
                                          HUB_LENGTH_WORDS);
}
static void do_connection_response(void)
{
    number = hub_write_connection_response(HUB_MODE_LEGACY, HUB_PENDING, nonce, sizeof nonce, x, sizeof x, y, sizeof y, payload, sizeof payload,
                                           length, HUB_LENGTH_WORDS);
}
static void do_device_authentication(void)
{
    number = hub_write_device_authentication(authentication, HUB_MODE_LEGACY, certificate, sizeof certificate, thumbprint, sizeof thumbprint,
                                             payload, sizeof payload, length, HUB_LENGTH_WORDS);
}
static void do_done_request(void) { number = hub_write_done_request(HUB_MODE_LEGACY, payload, sizeof payload, length, HUB_LENGTH_WORDS); }
static void do_done_response(void) { number = hub_write_done_response(HUB_MODE_LEGACY, status, payload, sizeof payload, length, HUB_LENGTH_WORDS); }
static void do_read_connect(void) { number = hub_read_connect(payload, payload_n, connect, HUB_CONNECT_WORDS); }
static void do_read_discovery(void) { number = hub_read_discovery(payload, payload_n, discovery, HUB_DISCOVERY_WORDS); }
static void do_open(void) { number = hub_open(F, state, HUB_STATE_BYTES); }
static void do_step(void)
{
    number = hub_step(state, HUB_STATE_BYTES, message, message_n, keys, sizeof keys, working, sizeof working, report, sizeof report, verdict, answer,
                      HUB_ANSWER_WORDS);
}
static void do_gateway_open(void) { number = hub_gateway_open(F, 0, gateway, HUB_GATEWAY_BYTES); }
static void do_gateway_step(void)
{
    number = hub_gateway_step(gateway, HUB_GATEWAY_BYTES, message, message_n, keys, sizeof keys, working, sizeof working, verdict, answer,
                              HUB_ANSWER_WORDS);
}
static void do_gateway_due(void) { number = hub_gateway_due(gateway, HUB_GATEWAY_BYTES, due, HUB_DUE_WORDS); }
static void do_cut(void) { number = hub_cut(report, sizeof report, F, 2, place, HUB_PIECE_WORDS); }
static void do_list(void) { number = hub_list(message, message_n, line, sizeof line, length, HUB_LENGTH_WORDS); }

static size_t used_in(void (*call)(void), uint8_t colour)
{
    size_t untouched = 0;

    memset(stack, colour, sizeof stack);
    if (getcontext(&there) != 0)
        exit(1);
    there.uc_stack.ss_sp = stack;
    there.uc_stack.ss_size = sizeof stack;
    there.uc_link = &here;
    makecontext(&there, call, 0);
    if (swapcontext(&here, &there) != 0)
        exit(1);
    while (untouched < sizeof stack && stack[untouched] == colour)
        untouched++;
    return sizeof stack - untouched;
}

static size_t most(size_t a, size_t b)
{
    return a < b ? b : a;
}

/* The bytes of stack that a call takes; it is made twice, on the same connections. */
static size_t used(void (*call)(void))
{
    static uint8_t hub_before[HUB_STATE_BYTES], gateway_before[HUB_GATEWAY_BYTES];
    size_t twice;

    memcpy(hub_before, state, sizeof state);
    memcpy(gateway_before, gateway, sizeof gateway);
    twice = used_in(call, 0xA5);
    memcpy(state, hub_before, sizeof state);
    memcpy(gateway, gateway_before, sizeof gateway);
    twice = most(twice, used_in(call, 0x5A));
    return twice - most(used_in(do_nothing, 0xA5), used_in(do_nothing, 0x5A));
}

static void must(uint32_t expected)
{
    if (number != expected) {
        fprintf(stderr, "stack: a call answers %u and not %u\n", (unsigned)number, (unsigned)expected);
        exit(1);
    }
}

/* The stack of a call that must be answered with this number. */
static size_t measure(void (*call)(void), uint32_t expected)
{
    size_t bytes;

    number = 77;
    bytes = used(call);
    must(expected);
    return bytes;
}

/* Makes `message` by the writer, of n bytes of `payload`. */
static void prepare(uint64_t type, uint64_t flags, uint64_t index, uint64_t count, size_t n)
{
    memset(fields, 0, sizeof fields);
    fields[HUB_HEADER_TYPE] = type;
    fields[HUB_HEADER_FLAGS] = flags;
    fields[HUB_HEADER_INDEX] = index;
    fields[HUB_HEADER_COUNT] = count;
    payload_n = n;
    do_write();
    must(HUB_DONE);
    message_n = (size_t)length[0];
    memcpy(message, out, message_n);
}

/* The same, of what a payload's writer writes. */
static void prepare_by(void (*writer)(void), uint64_t type, uint64_t flags)
{
    writer();
    must(HUB_DONE);
    prepare(type, flags, 0, 1, (size_t)length[0]);
}

static void row(const char *call, size_t bytes)
{
    printf("%s %u\n", call, (unsigned)bytes);
}

/* A chain of eight entries of 255 bytes, the deepest walk. */
static void long_chain(void)
{
    size_t entry;

    for (entry = 0; entry < 8; entry++) {
        chain[(2 + ENTRY) * entry] = 1;
        chain[(2 + ENTRY) * entry + 1] = ENTRY;
    }
}

/* A whole enrolment and a report of two pieces, each step measured; refusals on the way too. */
static size_t steps(void)
{
    size_t bytes = 0;

    do_open();
    verdict = 1;
    prepare_by(do_connection_request, HUB_TYPE_CONNECT, 0);
    bytes = most(bytes, measure(do_step, HUB_DONE));
    bytes = most(bytes, measure(do_step, HUB_DONE)); /* Again */
    prepare_by(do_device_authentication, HUB_TYPE_CONNECT, HUB_FLAGS_SEALED);
    bytes = most(bytes, measure(do_step, HUB_DONE));
    bytes = most(bytes, measure(do_step, HUB_DONE)); /* Again */
    prepare_by(do_done_request, HUB_TYPE_CONNECT, HUB_FLAGS_SEALED);
    bytes = most(bytes, measure(do_step, HUB_DONE));
    bytes = most(bytes, measure(do_step, HUB_DONE)); /* Again */
    prepare_by(do_presence_response, HUB_TYPE_DISCOVERY, 0);
    bytes = most(bytes, measure(do_step, HUB_NOT_ALLOWED));
    prepare(HUB_TYPE_SESSION, HUB_FLAGS_SEALED, 1, 2, F);
    bytes = most(bytes, measure(do_step, HUB_DONE));
    bytes = most(bytes, measure(do_step, HUB_DONE)); /* Repeat */
    report[F] ^= 1;
    bytes = most(bytes, measure(do_step, HUB_UNLIKE_REPEAT));
    prepare(HUB_TYPE_SESSION, HUB_FLAGS_SEALED, 0, 2, F);
    message[message_n - 1] ^= 1;
    bytes = most(bytes, measure(do_step, HUB_WRONG_TAG));
    message[message_n - 1] ^= 1;
    bytes = most(bytes, measure(do_step, HUB_DONE)); /* Complete */
    bytes = most(bytes, measure(do_step, HUB_PAST_SEQUENCE));
    return bytes;
}

/* A whole enrolment on the gateway's side, each step measured; on the way refusals, of the longest piece too; and the last turns it away. */
static size_t gateway_steps(void)
{
    size_t bytes = 0;

    do_gateway_open();
    verdict = 1;
    prepare_by(do_connection_response, HUB_TYPE_CONNECT, 0);
    bytes = most(bytes, measure(do_gateway_step, HUB_DONE));
    bytes = most(bytes, measure(do_gateway_step, HUB_DONE)); /* Again */
    authentication = HUB_AUTHENTICATION_RESPONSE;
    prepare_by(do_device_authentication, HUB_TYPE_CONNECT, HUB_FLAGS_SEALED);
    bytes = most(bytes, measure(do_gateway_step, HUB_DONE));
    bytes = most(bytes, measure(do_gateway_step, HUB_DONE)); /* Again */
    prepare_by(do_presence_response, HUB_TYPE_DISCOVERY, 0);
    bytes = most(bytes, measure(do_gateway_step, HUB_NOT_ALLOWED));
    prepare(HUB_TYPE_SESSION, HUB_FLAGS_SEALED, 0, 2, F);
    bytes = most(bytes, measure(do_gateway_step, HUB_NOT_ALLOWED));
    message[message_n - 1] ^= 1;
    bytes = most(bytes, measure(do_gateway_step, HUB_WRONG_TAG));
    status = HUB_SUCCESS;
    prepare_by(do_done_response, HUB_TYPE_CONNECT, HUB_FLAGS_SEALED);
    bytes = most(bytes, measure(do_gateway_step, HUB_DONE)); /* Ready */
    bytes = most(bytes, measure(do_gateway_step, HUB_DONE)); /* Again */
    prepare_by(do_device_authentication, HUB_TYPE_CONNECT, HUB_FLAGS_SEALED);
    verdict = 0;
    bytes = most(bytes, measure(do_gateway_step, HUB_DONE)); /* Failed */
    bytes = most(bytes, measure(do_gateway_step, HUB_NOT_ALLOWED));
    return bytes;
}

/* The writers of payloads, and both readers of what each has written. */
static void payloads(void)
{
    static const struct {
        const char *name;
        void (*writer)(void);
        int connect;
    } calls[] = {{"hub_write_presence_request", do_presence_request, 0},
                 {"hub_write_presence_response", do_presence_response, 0},
                 {"hub_write_connection_request", do_connection_request, 1},
                 {"hub_write_connection_response", do_connection_response, 1},
                 {"hub_write_device_authentication", do_device_authentication, 1},
                 {"hub_write_done_request", do_done_request, 1},
                 {"hub_write_done_response", do_done_response, 1}};
    size_t by_connect = 0, by_discovery = 0, i;

    for (i = 0; i < sizeof calls / sizeof calls[0]; i++) {
        row(calls[i].name, measure(calls[i].writer, HUB_DONE));
        payload_n = (size_t)length[0];
        by_connect = most(by_connect, measure(do_read_connect, calls[i].connect ? HUB_DONE : HUB_WRONG_PAYLOAD));
        by_discovery = most(by_discovery, measure(do_read_discovery, calls[i].connect ? HUB_WRONG_PAYLOAD : HUB_DONE));
    }
    row("hub_read_connect", by_connect);
    row("hub_read_discovery", by_discovery);
}

int main(void)
{
    size_t sealed, plain;

    long_chain();
    payload_n = F;
    row("hub_version", measure(do_version, HUB_VERSION));
    row("hub_digest", measure(do_digest, HUB_DONE));
    row("hub_hmac", most(measure(do_hmac, HUB_DONE), measure(do_hmac_long, HUB_DONE)));
    row("hub_tags_differ", measure(do_same_tag, 1));
    prepare(HUB_TYPE_SESSION, HUB_FLAGS_SEALED, 0, 1, F);
    row("hub_wanted", measure(do_wanted, (uint32_t)message_n));
    row("hub_read_header", measure(do_read_header, HUB_DONE));
    sealed = measure(do_read, HUB_DONE);
    row("hub_payload", measure(do_payload, HUB_DONE));
    prepare_by(do_device_authentication, HUB_TYPE_CONNECT, HUB_FLAGS_SEALED);
    sealed = most(sealed, measure(do_read, HUB_DONE));
    prepare_by(do_presence_request, HUB_TYPE_DISCOVERY, 0);
    plain = measure(do_read, HUB_DONE);
    prepare_by(do_presence_response, HUB_TYPE_DISCOVERY, 0);
    plain = most(plain, measure(do_read, HUB_DONE));
    row("hub_read", most(sealed, plain));
    plain = measure(do_write, HUB_DONE);
    prepare_by(do_device_authentication, HUB_TYPE_CONNECT, HUB_FLAGS_SEALED);
    sealed = measure(do_write, HUB_DONE);
    prepare(HUB_TYPE_SESSION, HUB_FLAGS_SEALED, 0, 1, F);
    row("hub_write", most(most(plain, sealed), measure(do_write, HUB_DONE)));
    payloads();
    row("hub_open", measure(do_open, HUB_DONE));
    row("hub_step", steps());
    row("hub_gateway_open", measure(do_gateway_open, HUB_DONE));
    row("hub_gateway_step", gateway_steps());
    row("hub_gateway_due", measure(do_gateway_due, HUB_DONE));
    row("hub_cut", measure(do_cut, HUB_DONE));
    sealed = measure(do_list, HUB_DONE);
    message_n--;
    row("hub_list", most(sealed, measure(do_list, HUB_WRONG_LENGTH)));
    return 0;
}
