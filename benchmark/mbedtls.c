/* SPDX-License-Identifier: MPL-2.0 */
/* mbedTLS, by its portable code. */
#include "peer.h"

#include <mbedtls/aes.h>
#include <mbedtls/md.h>
#include <mbedtls/sha256.h>
#include <string.h>

static mbedtls_md_context_t mac;

/* The library asks this function of its own, which is found here first, whether the processor has instructions for AES. */
int mbedtls_aesni_has_support(unsigned int what);
int mbedtls_aesni_has_support(unsigned int what)
{
    (void)what;
    return 0;
}

__attribute__((constructor)) static void fetch(void)
{
    mbedtls_md_init(&mac);
    mbedtls_md_setup(&mac, mbedtls_md_info_from_type(MBEDTLS_MD_SHA256), 1);
}

static void cbc_encrypt(const uint8_t key[16], const uint8_t vector[16], const uint8_t *in, size_t n, uint8_t *out)
{
    mbedtls_aes_context context;
    uint8_t chain[16];
    memcpy(chain, vector, 16);
    mbedtls_aes_init(&context);
    mbedtls_aes_setkey_enc(&context, key, 128);
    mbedtls_aes_crypt_cbc(&context, MBEDTLS_AES_ENCRYPT, n, chain, in, out);
}

static void cbc_decrypt(const uint8_t key[16], const uint8_t vector[16], const uint8_t *in, size_t n, uint8_t *out)
{
    mbedtls_aes_context context;
    uint8_t chain[16];
    memcpy(chain, vector, 16);
    mbedtls_aes_init(&context);
    mbedtls_aes_setkey_dec(&context, key, 128);
    mbedtls_aes_crypt_cbc(&context, MBEDTLS_AES_DECRYPT, n, chain, in, out);
}

static void sha256(const uint8_t *in, size_t n, uint8_t out[32])
{
    mbedtls_sha256_ret(in, n, out, 0);
}

static void hmac(const uint8_t key[32], const uint8_t *head, size_t head_n, const uint8_t *rest, size_t rest_n, uint8_t out[32])
{
    mbedtls_md_hmac_starts(&mac, key, 32);
    mbedtls_md_hmac_update(&mac, head, head_n);
    mbedtls_md_hmac_update(&mac, rest, rest_n);
    mbedtls_md_hmac_finish(&mac, out);
}

const struct peer mbedtls = {"mbedTLS", cbc_encrypt, cbc_decrypt, sha256, hmac};
