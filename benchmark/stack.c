/* SPDX-License-Identifier: MPL-2.0 */
/* The stack that each call of ours takes: it is run on a painted stack of its own, and the bytes down to the deepest one that lost its paint
   are counted, without those of a call that does nothing. */
#include "bytes.h"
#include "subject.h"

#include <stdio.h>
#include <string.h>
#include <ucontext.h>

enum { STACK = 65536, SIZE = 1024, PAINT = 0xa5 };

static uint8_t stack[STACK], keys[KEYS], source[PIECES * SIZE], target[MESSAGE], message[MESSAGE], working[MESSAGE], report[PIECES * SIZE];
static const struct fields sent = {0, 0, 2, SESSION, 7};
static ucontext_t here, there;
static void (*painted)(void);

static void nothing(void) {}

static void digest(void)
{
    ours.peer->sha256(source, SIZE, target);
}

static void mac(void)
{
    ours.peer->hmac(keys + 32, source, 0, source, SIZE, target);
}

static void encrypt(void)
{
    ours.peer->cbc_encrypt(keys, keys + 16, source, SIZE, target);
}

static void decrypt(void)
{
    ours.peer->cbc_decrypt(keys, keys + 16, source, SIZE, target);
}

static void seals(void)
{
    ours.seal(ours.peer, &sent, source, SIZE, keys, target);
}

static void opens(void)
{
    struct fields read;
    ours.open(ours.peer, message, sealed_size(SIZE), keys, working, MESSAGE, &read);
}

static void steps(void)
{
    ours.step(ours.peer, SIZE, message, sealed_size(SIZE), keys, working, MESSAGE, report, sizeof report);
}

static void joins(void)
{
    our_join_all(SIZE, PIECES, source, report, sizeof report);
}

/* The bytes of stack that a call takes. */
static long depth(void (*call)(void))
{
    memset(stack, PAINT, STACK);
    getcontext(&there);
    there.uc_stack.ss_sp = stack;
    there.uc_stack.ss_size = STACK;
    there.uc_link = &here;
    painted = call;
    makecontext(&there, painted, 0);
    swapcontext(&here, &there);
    long free = 0;
    while (free < STACK && stack[free] == PAINT)
        free++;
    return STACK - free;
}

int main(void)
{
    static const struct {
        const char *name;
        void (*call)(void);
    } calls[] = {{"SHA-256", digest}, {"HMAC", mac}, {"CBC encryption", encrypt}, {"CBC decryption", decrypt}, {"seal", seals}, {"open", opens}, {"step", steps}, {"join", joins}};
    fill(keys, sizeof keys, 1);
    fill(source, sizeof source, 2);
    ours.seal(ours.peer, &sent, source, SIZE, keys, message);
    puts("| Call | bytes of stack |\n|---|---|");
    for (size_t i = 0; i < sizeof calls / sizeof *calls; i++) {
        depth(calls[i].call);
        printf("| %s | %ld |\n", calls[i].name, depth(calls[i].call) - depth(nothing));
    }
}
