/* SPDX-License-Identifier: MPL-2.0 */
/*
 * Secrets marked undefined, for valgrind's memcheck: it then reports each branch and each address that depends on one.
 *
 *     secrets hmac     the key and the message of hub_hmac
 *     secrets tag      both tags of hub_tags_differ
 *     secrets write    all 64 key bytes of hub_write
 *     secrets aes      the encryption key and the vector key of hub_read
 *     secrets mac      the HMAC key of hub_read
 *
 * What is public by its nature is marked defined again before it is looked at here: what a call returns, and what it writes.
 */
#include <stdio.h>
#include <stdlib.h>
#include <string.h>
#include <valgrind/memcheck.h>

#include "hub.h"

#define PAYLOAD 1000

/* Payload sizes: sealed parts of 1, 2, 3 and 63 blocks, with and without padding. */
static const size_t sizes[] = {0, 11, 12, 13, 28, 29, 44, 999, PAYLOAD};
#define SIZES (sizeof sizes / sizeof sizes[0])

static uint8_t keys[HUB_KEYS_BYTES], working[2048], message[2048], payload[PAYLOAD], out[2048], a[HUB_DIGEST_BYTES], b[HUB_DIGEST_BYTES];
static uint64_t header[HUB_HEADER_WORDS], fields[HUB_FIELDS_WORDS], length[HUB_LENGTH_WORDS];

static void hide(void *secret, size_t n)
{
    VALGRIND_MAKE_MEM_UNDEFINED(secret, n);
}

static void show(void *open, size_t n)
{
    VALGRIND_MAKE_MEM_DEFINED(open, n);
}

/* How many bits of this memcheck holds for undefined. */
static unsigned hidden_bits(const void *memory, size_t n)
{
    uint8_t bits[64];
    unsigned count = 0;
    size_t i;

    if (n > sizeof bits || VALGRIND_GET_VBITS(memory, bits, n) != 1)
        return 0;
    show(bits, sizeof bits);
    for (i = 0; i < 8 * n; i++)
        count += bits[i / 8] >> i % 8 & 1;
    return count;
}

static void must(int holds, const char *what)
{
    if (!holds) {
        fprintf(stderr, "secrets: %s\n", what);
        exit(2);
    }
}

static size_t write_message(size_t payload_n)
{
    uint32_t number;

    fields[HUB_HEADER_TYPE] = HUB_TYPE_SESSION;
    fields[HUB_HEADER_FLAGS] = HUB_FLAGS_SEALED;
    fields[HUB_HEADER_COUNT] = 1;
    number = hub_write(fields, HUB_FIELDS_WORDS, HUB_NO_ENTRIES, HUB_NO_ENTRIES_N, payload, payload_n, keys, HUB_KEYS_BYTES, out, sizeof out, length,
                       HUB_LENGTH_WORDS);
    must(number == HUB_DONE, "hub_write refuses");
    return (size_t)length[0];
}

static void hmac(void)
{
    size_t key_n, message_n;

    for (key_n = 0; key_n <= 130; key_n += 13)
        for (message_n = 0; message_n <= 200; message_n += 25) {
            hide(payload, sizeof payload);
            must(hub_hmac(payload, key_n, payload + 200, message_n, a, sizeof a) == HUB_DONE, "hub_hmac refuses");
            must(key_n + message_n == 0 || hidden_bits(a, sizeof a) == 256, "the tag of a secret is not secret: memcheck does not follow it");
        }
}

static void tag(void)
{
    uint32_t number;
    int bit;

    for (bit = -1; bit < 256; bit++) {
        memset(a, 7, sizeof a);
        memset(b, 7, sizeof b);
        if (bit >= 0)
            b[bit / 8] ^= (uint8_t)(1 << bit % 8);
        hide(a, sizeof a);
        hide(b, sizeof b);
        number = hub_tags_differ(a, sizeof a, b, sizeof b);
        must(hidden_bits(&number, sizeof number) > 0, "the comparison of secrets is not secret: memcheck does not follow it");
        show(&number, sizeof number);
        must(number == (bit >= 0), "hub_tags_differ");
    }
}

static void write_secret(void)
{
    size_t i, message_n;

    hide(keys, sizeof keys);
    for (i = 0; i < SIZES; i++) {
        message_n = write_message(sizes[i]);
        must(hidden_bits(out + HUB_LEAST_MESSAGE, 16) == 128 && hidden_bits(out + message_n - HUB_DIGEST_BYTES, HUB_DIGEST_BYTES) == 256,
             "what is sealed is not secret");
    }
}

/*
 * Reads with keys of which a part is hidden. (A step would go on to branch on what was opened: the piece's size decides where it is copied.)
 */
static void receive(size_t from, size_t n)
{
    size_t i, message_n;
    uint32_t number;

    for (i = 0; i < SIZES; i++) {
        show(keys, sizeof keys);
        message_n = write_message(sizes[i]);
        memcpy(message, out, message_n);
        hide(keys + from, n);
        number = hub_read(message, message_n, keys, HUB_KEYS_BYTES, working, sizeof working, header, HUB_HEADER_WORDS);
        show(&number, sizeof number);
        must(number == HUB_DONE, "hub_read refuses");
    }
}

int main(int argc, char **argv)
{
    const char *what = argc == 2 ? argv[1] : "";

    must(RUNNING_ON_VALGRIND != 0, "run me under valgrind");
    memset(payload, 5, sizeof payload);
    memset(keys, 9, sizeof keys);
    if (strcmp(what, "hmac") == 0)
        hmac();
    else if (strcmp(what, "tag") == 0)
        tag();
    else if (strcmp(what, "write") == 0)
        write_secret();
    else if (strcmp(what, "aes") == 0)
        receive(0, 32);
    else if (strcmp(what, "mac") == 0)
        receive(32, 32);
    else
        must(0, "hmac, tag, write, aes or mac");
    return 0;
}
