/* SPDX-License-Identifier: MPL-2.0 */
/* GNU nettle. */
#include "peer.h"

#include <nettle/aes.h>
#include <nettle/cbc.h>
#include <nettle/hmac.h>
#include <nettle/sha2.h>
#include <string.h>

static void encrypt_blocks(const void *context, size_t n, uint8_t *out, const uint8_t *in)
{
    aes128_encrypt(context, n, out, in);
}

static void decrypt_blocks(const void *context, size_t n, uint8_t *out, const uint8_t *in)
{
    aes128_decrypt(context, n, out, in);
}

static void nettle_encrypt(const uint8_t key[16], const uint8_t vector[16], const uint8_t *in, size_t n, uint8_t *out)
{
    struct aes128_ctx context;
    uint8_t chain[16];
    memcpy(chain, vector, 16);
    aes128_set_encrypt_key(&context, key);
    cbc_encrypt(&context, encrypt_blocks, 16, chain, n, out, in);
}

static void nettle_decrypt(const uint8_t key[16], const uint8_t vector[16], const uint8_t *in, size_t n, uint8_t *out)
{
    struct aes128_ctx context;
    uint8_t chain[16];
    memcpy(chain, vector, 16);
    aes128_set_decrypt_key(&context, key);
    cbc_decrypt(&context, decrypt_blocks, 16, chain, n, out, in);
}

static void sha256(const uint8_t *in, size_t n, uint8_t out[32])
{
    struct sha256_ctx context;
    sha256_init(&context);
    sha256_update(&context, n, in);
    sha256_digest(&context, 32, out);
}

static void hmac(const uint8_t key[32], const uint8_t *head, size_t head_n, const uint8_t *rest, size_t rest_n, uint8_t out[32])
{
    struct hmac_sha256_ctx context;
    hmac_sha256_set_key(&context, 32, key);
    hmac_sha256_update(&context, head_n, head);
    hmac_sha256_update(&context, rest_n, rest);
    hmac_sha256_digest(&context, 32, out);
}

const struct peer nettle = {"nettle", nettle_encrypt, nettle_decrypt, sha256, hmac};
