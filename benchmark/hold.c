/* SPDX-License-Identifier: MPL-2.0 */
/* Holding every subject to the same answers, before anything is timed. */
#include "hold.h"

#include "bytes.h"

#include <stdio.h>
#include <stdlib.h>
#include <string.h>

static long alike;
static uint8_t source[PIECES * LARGEST], target[PIECES * LARGEST], other[PIECES * LARGEST];

static void same(const char *who, const char *what, const uint8_t *a, const uint8_t *b, size_t n)
{
    alike++;
    if (memcmp(a, b, n) == 0)
        return;
    fprintf(stderr, "bench: %s gives another answer: %s\n", who, what);
    exit(1);
}

static void same_number(const char *who, const char *what, long a, long b)
{
    same(who, what, (const uint8_t *)&a, (const uint8_t *)&b, sizeof a);
}

static void read_hex(const char *hex, uint8_t *out)
{
    for (unsigned byte; sscanf(hex, "%2x", &byte) == 1; hex += 2)
        *out++ = (uint8_t)byte;
}

/* FIPS 180-4's "abc", RFC 4231's case 2 with its key extended by zeros, SP 800-38A's F.2.1. */
static void published(const struct peer *peer)
{
    uint8_t key[32] = {'J', 'e', 'f', 'e'}, vector[16], want[32], got[32];
    const char *text = "what do ya want for nothing?";
    read_hex("ba7816bf8f01cfea414140de5dae2223b00361a396177a9cb410ff61f20015ad", want);
    peer->sha256((const uint8_t *)"abc", 3, got);
    same(peer->name, "SHA-256 of abc", got, want, 32);
    read_hex("5bdcc146bf60754e6a042426089575c75a003f089d2739839dec58b964ec3843", want);
    peer->hmac(key, key, 0, (const uint8_t *)text, strlen(text), got);
    same(peer->name, "RFC 4231, case 2", got, want, 32);
    read_hex("2b7e151628aed2a6abf7158809cf4f3c", key);
    read_hex("000102030405060708090a0b0c0d0e0f", vector);
    read_hex("6bc1bee22e409f96e93d7e117393172aae2d8a571e03ac9c9eb76fac45af8e51", source);
    read_hex("7649abac8119b246cee98e9b12e9197d5086cb9b507219ee95db113a917678b2", want);
    peer->cbc_encrypt(key, vector, source, 32, got);
    same(peer->name, "SP 800-38A, F.2.1", got, want, 32);
    peer->cbc_decrypt(key, vector, want, 32, got);
    same(peer->name, "SP 800-38A, F.2.2", got, source, 32);
}

/* The ciphers and hashes of a subject against those of the first, at one size. */
static void primitives(const struct peer *first, const struct peer *peer, size_t n, const uint8_t keys[KEYS])
{
    uint8_t a[32], b[32];
    size_t blocks = n / 16 * 16;
    first->sha256(source, n, a);
    peer->sha256(source, n, b);
    same(peer->name, "SHA-256", a, b, 32);
    first->hmac(keys + 32, source, 0, source, n, a);
    peer->hmac(keys + 32, source, 0, source, n, b);
    same(peer->name, "HMAC", a, b, 32);
    first->cbc_encrypt(keys, keys + 16, source, blocks, target);
    peer->cbc_encrypt(keys, keys + 16, source, blocks, other);
    same(peer->name, "CBC encryption", target, other, blocks);
    peer->cbc_decrypt(keys, keys + 16, target, blocks, other);
    same(peer->name, "CBC decryption", source, other, blocks);
}

/* Sealing, opening and a step of a subject against those of the first, at one size; and each opens nothing that was changed. */
static void messages(const struct subject *first, const struct subject *subject, size_t n, const uint8_t keys[KEYS])
{
    const char *who = subject->peer->name;
    struct fields fields = {0, 0, 2, SESSION, 7}, read = {0};
    size_t whole = first->seal(first->peer, &fields, source, n, keys, target);
    same_number(who, "a message's length", (long)subject->seal(subject->peer, &fields, source, n, keys, other), (long)whole);
    same(who, "a sealed message", target, other, whole);
    same_number(who, "a payload's length", subject->open(subject->peer, target, whole, keys, other, MESSAGE, &read), (long)n);
    same(who, "an opened payload", other + 4, source, n);
    same_number(who, "the fields of a message", read.session == SESSION && read.channel == 7 && read.count == 2 && read.index == 0 && read.sequence == 0, 1);
    memset(other, 0, sizeof other);
    same_number(who, "a step", subject->step(subject->peer, n, target, whole, keys, other + 2 * MESSAGE, MESSAGE, other, 2 * n), 0);
    same(who, "the report buffer", other, source, n);
    target[whole / 2] ^= 1;
    same_number(who, "a message with one bit changed", subject->open(subject->peer, target, whole, keys, other, MESSAGE, &read), -1);
}

static void joining(size_t size, size_t count)
{
    memset(target, 0, sizeof target);
    same_number("ours", "joining", our_join_all(size, count, source, target, sizeof target), (long)(size * count));
    same("ours", "a joined report", target, source, size * count);
    memset(target, 0, sizeof target);
    same_number("C", "joining", plain_join_all(size, count, source, target, sizeof target), (long)(size * count));
    same("C", "a joined report", target, source, size * count);
}

long hold(const struct subject *subjects, int n)
{
    static const size_t sizes[] = {16, 17, 63, 64, 65, 1000, 1024, 4096, LARGEST};
    uint8_t keys[KEYS];
    fill(keys, KEYS, 1);
    for (int i = 0; i < n; i++)
        published(subjects[i].peer);
    fill(source, sizeof source, 2);
    for (size_t k = 0; k < sizeof sizes / sizeof *sizes; k++) {
        for (int i = 0; i < n; i++) {
            primitives(subjects[0].peer, subjects[i].peer, sizes[k], keys);
            messages(&subjects[0], &subjects[i], sizes[k], keys);
        }
        joining(sizes[k], PIECES);
        joining(sizes[k], 1);
    }
    return alike;
}
