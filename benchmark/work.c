/* SPDX-License-Identifier: MPL-2.0 */
/* One call of ours, so many times:  work OPERATION BYTES TIMES.  benchmark/work counts what they execute, read and write. */
#include "bytes.h"
#include "subject.h"

#include <hub.h>
#include <stdlib.h>
#include <string.h>

enum operation { ENCRYPT, DECRYPT, DIGEST, MAC, READ_HEADER, LIST, SEAL, OPEN, STEP, JOIN, OPERATIONS };
static const char *const names[] = {"encrypt", "decrypt", "digest", "hmac", "header", "list", "seal", "open", "step", "join"};

static uint8_t keys[KEYS], source[PIECES * LARGEST], target[MESSAGE], message[MESSAGE], working[MESSAGE], report[PIECES * LARGEST];
static const struct fields sent = {0, 0, 2, SESSION, 7};

/* Answers whether the call was refused. */
static int call(enum operation operation, size_t n)
{
    static uint64_t words[HUB_HEADER_WORDS];
    struct fields read;
    switch (operation) {
    case ENCRYPT: ours.peer->cbc_encrypt(keys, keys + 16, source, n, target); break;
    case DECRYPT: ours.peer->cbc_decrypt(keys, keys + 16, source, n, target); break;
    case DIGEST: ours.peer->sha256(source, n, target); break;
    case MAC: ours.peer->hmac(keys + 32, source, 0, source, n, target); break;
    case READ_HEADER: return hub_read_header(message, sealed_size(n), words, HUB_HEADER_WORDS) != 0;
    case LIST: return hub_list(message, sealed_size(n), target, HUB_LINE_BYTES, words, 1) != 0;
    case SEAL: return ours.seal(ours.peer, &sent, source, n, keys, target) == 0;
    case OPEN: return ours.open(ours.peer, message, sealed_size(n), keys, working, MESSAGE, &read) < 0;
    case STEP: return ours.step(ours.peer, n, message, sealed_size(n), keys, working, MESSAGE, report, 2 * n) < 0;
    case JOIN: return our_join_all(n, PIECES, source, report, sizeof report) != (long)(PIECES * n);
    default: return 1;
    }
    return 0;
}

int main(int words, char **word)
{
    int operation = 0;
    if (words != 4)
        return 2;
    while (operation < OPERATIONS && strcmp(names[operation], word[1]) != 0)
        operation++;
    const size_t n = strtoul(word[2], 0, 10);
    fill(keys, sizeof keys, 1);
    fill(source, sizeof source, 2);
    seal(ours.peer, &sent, source, n, keys, message);
    for (long times = atol(word[3]); times > 0; times--)
        if (call((enum operation)operation, n))
            return 1;
}
