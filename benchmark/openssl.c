/* SPDX-License-Identifier: MPL-2.0 */
/* OpenSSL 3: contexts and algorithms are fetched once, since fetching them at each call costs more than a short message. */
#include "peer.h"

#include <openssl/core_names.h>
#include <openssl/evp.h>
#include <openssl/params.h>

static EVP_CIPHER *cipher;
static EVP_MD *hash;
static EVP_CIPHER_CTX *cipher_context;
static EVP_MD_CTX *hash_context;
static EVP_MAC_CTX *mac_context;

__attribute__((constructor)) static void fetch(void)
{
    OSSL_PARAM digest[] = {OSSL_PARAM_construct_utf8_string(OSSL_MAC_PARAM_DIGEST, "SHA256", 0), OSSL_PARAM_construct_end()};
    cipher = EVP_CIPHER_fetch(NULL, "AES-128-CBC", NULL);
    hash = EVP_MD_fetch(NULL, "SHA256", NULL);
    cipher_context = EVP_CIPHER_CTX_new();
    hash_context = EVP_MD_CTX_new();
    mac_context = EVP_MAC_CTX_new(EVP_MAC_fetch(NULL, "HMAC", NULL));
    EVP_MAC_CTX_set_params(mac_context, digest);
}

static void cbc(int encrypt, const uint8_t key[16], const uint8_t vector[16], const uint8_t *in, size_t n, uint8_t *out)
{
    int written = 0;
    EVP_CipherInit_ex2(cipher_context, cipher, key, vector, encrypt, NULL);
    EVP_CIPHER_CTX_set_padding(cipher_context, 0);
    EVP_CipherUpdate(cipher_context, out, &written, in, (int)n);
}

static void cbc_encrypt(const uint8_t key[16], const uint8_t vector[16], const uint8_t *in, size_t n, uint8_t *out)
{
    cbc(1, key, vector, in, n, out);
}

static void cbc_decrypt(const uint8_t key[16], const uint8_t vector[16], const uint8_t *in, size_t n, uint8_t *out)
{
    cbc(0, key, vector, in, n, out);
}

static void sha256(const uint8_t *in, size_t n, uint8_t out[32])
{
    EVP_DigestInit_ex2(hash_context, hash, NULL);
    EVP_DigestUpdate(hash_context, in, n);
    EVP_DigestFinal_ex(hash_context, out, NULL);
}

static void hmac(const uint8_t key[32], const uint8_t *head, size_t head_n, const uint8_t *rest, size_t rest_n, uint8_t out[32])
{
    size_t written = 0;
    EVP_MAC_init(mac_context, key, 32, NULL);
    if (head_n != 0)
        EVP_MAC_update(mac_context, head, head_n);
    EVP_MAC_update(mac_context, rest, rest_n);
    EVP_MAC_final(mac_context, out, &written, 32);
}

const struct peer openssl = {"OpenSSL", cbc_encrypt, cbc_decrypt, sha256, hmac};
