/* SPDX-License-Identifier: MPL-2.0 */
/* libtomcrypt. */
#include "peer.h"

#include <tomcrypt.h>

static int aes, hash;

__attribute__((constructor)) static void fetch(void)
{
    aes = register_cipher(&aes_desc);
    hash = register_hash(&sha256_desc);
}

static void encrypt(const uint8_t key[16], const uint8_t vector[16], const uint8_t *in, size_t n, uint8_t *out)
{
    symmetric_CBC context;
    cbc_start(aes, vector, key, 16, 0, &context);
    cbc_encrypt(in, out, n, &context);
    cbc_done(&context);
}

static void decrypt(const uint8_t key[16], const uint8_t vector[16], const uint8_t *in, size_t n, uint8_t *out)
{
    symmetric_CBC context;
    cbc_start(aes, vector, key, 16, 0, &context);
    cbc_decrypt(in, out, n, &context);
    cbc_done(&context);
}

static void sha256(const uint8_t *in, size_t n, uint8_t out[32])
{
    hash_state state;
    sha256_init(&state);
    sha256_process(&state, in, n);
    sha256_done(&state, out);
}

static void hmac(const uint8_t key[32], const uint8_t *head, size_t head_n, const uint8_t *rest, size_t rest_n, uint8_t out[32])
{
    hmac_state state;
    unsigned long written = 32;
    hmac_init(&state, hash, key, 32);
    hmac_process(&state, head, head_n);
    hmac_process(&state, rest, rest_n);
    hmac_done(&state, out, &written);
}

const struct peer tomcrypt = {"libtomcrypt", encrypt, decrypt, sha256, hmac};
