/* SPDX-License-Identifier: MPL-2.0 */
/* One round: ours and the peers of this process are held to the same answers, then timed in turns.  round NAME-OF-OPENSSL all|openssl
   A line for each operation, size and subject: the best nanoseconds of a call. Where OpenSSL alone is asked for, it alone is timed, so that
   ours has no more tries than its peers. */
#include "bytes.h"
#include "clock.h"
#include "hold.h"

#include <stdio.h>
#include <string.h>

enum operation { ENCRYPT, DECRYPT, DIGEST, MAC, SEAL, OPEN, STEP, OPERATIONS };
static const char *const names[] = {"CBC encryption", "CBC decryption", "SHA-256", "HMAC", "seal", "open", "step"};
static const size_t sizes[] = {64, 1024, LARGEST}, pieces[] = {64, 256, 1024, 4096, LARGEST};
enum { SIZES = 3, PIECE_SIZES = 5, TURNS = 6 };
static const double turn = 250000;

static uint8_t keys[KEYS], source[PIECES * LARGEST], target[MESSAGE], message[MESSAGE], working[MESSAGE], report[PIECES * LARGEST];

/* One call. The message that is opened was sealed before. */
static void call(const struct subject *s, enum operation operation, size_t n)
{
    static const struct fields sent = {0, 0, 2, SESSION, 7};
    struct fields read;
    switch (operation) {
    case ENCRYPT: s->peer->cbc_encrypt(keys, keys + 16, source, n, target); break;
    case DECRYPT: s->peer->cbc_decrypt(keys, keys + 16, source, n, target); break;
    case DIGEST: s->peer->sha256(source, n, target); break;
    case MAC: s->peer->hmac(keys + 32, source, 0, source, n, target); break;
    case SEAL: s->seal(s->peer, &sent, source, n, keys, target); break;
    case OPEN: s->open(s->peer, message, sealed_size(n), keys, working, MESSAGE, &read); break;
    case STEP: s->step(s->peer, n, message, sealed_size(n), keys, working, MESSAGE, report, 2 * n); break;
    default: break;
    }
}

/* The nanoseconds of a call, over as many calls as fill a turn. */
static double time_calls(const struct subject *s, enum operation operation, size_t n)
{
    long calls = 0, more = 1;
    double began = nanoseconds(), took;
    do {
        for (long i = 0; i < more; i++)
            call(s, operation, n);
        calls += more;
        took = nanoseconds() - began;
        more = took < turn / 4 ? calls : 1;
    } while (took < turn);
    return took / (double)calls;
}

static void time_subjects(const struct subject *subjects, int n, enum operation operation, size_t size)
{
    static const struct fields sent = {0, 0, 2, SESSION, 7};
    double best[8], took;
    seal(ours.peer, &sent, source, size, keys, message);
    for (int t = 0; t < TURNS; t++)
        for (int i = 0; i < n; i++) {
            took = time_calls(&subjects[i], operation, size);
            if (t == 0 || took < best[i])
                best[i] = took;
        }
    for (int i = 0; i < n; i++)
        printf("%s\t%zu\t%s\t%.1f\n", names[operation], size, subjects[i].peer->name, best[i]);
}

typedef long (*join_all)(size_t size, size_t count, const uint8_t *source, uint8_t *report, size_t room);

static long copy_all(size_t size, size_t count, const uint8_t *from, uint8_t *to, size_t room)
{
    (void)room;
    for (size_t i = 0; i < count; i++) {
        memcpy(to + size * i, from + size * i, size);
        __asm__ volatile("" : : "r"(to) : "memory");
    }
    return 0;
}

/* Joining alone: a report of 64 pieces, by the piece. One that is copied is the least that joining can cost. */
static void time_joining(const char *name, join_all joins, size_t size)
{
    double best = 0;
    for (int t = 0; t < TURNS; t++) {
        long reports = 0;
        double began = nanoseconds(), took;
        do {
            joins(size, PIECES, source, report, sizeof report);
            reports++;
            took = nanoseconds() - began;
        } while (took < turn);
        took /= (double)(reports * PIECES);
        if (t == 0 || took < best)
            best = took;
    }
    printf("join\t%zu\t%s\t%.1f\n", size, name, best);
}

int main(int words, char **word)
{
    struct peer named = openssl;
    const struct peer *peers[] = {&named, &nettle, &mbedtls, &tomcrypt};
    struct subject subjects[5] = {ours};
    int n = 1, all = words == 3 && strcmp(word[2], "all") == 0;
    if (words > 1)
        named.name = word[1];
    for (int i = 0; i < (all ? 4 : 1); i++)
        subjects[n++] = (struct subject){peers[i], seal, open_sealed, plain_step};
    fprintf(stderr, "held: %ld\n", hold(subjects, n));
    fill(keys, sizeof keys, 1);
    fill(source, sizeof source, 2);
    fill(target, sizeof target, 3);
    fill(working, sizeof working, 4);
    fill(report, sizeof report, 5);
    for (int operation = 0; operation < OPERATIONS; operation++)
        for (int k = 0; k < SIZES; k++)
            time_subjects(all ? subjects : subjects + 1, all ? n : 1, (enum operation)operation, sizes[k]);
    for (int k = 0; all && k < PIECE_SIZES; k++) {
        time_joining("ours", our_join_all, pieces[k]);
        time_joining("C", plain_join_all, pieces[k]);
        time_joining("memcpy", copy_all, pieces[k]);
    }
}
