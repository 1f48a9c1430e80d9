#include "aead.h"

#ifndef GASNETL_CRYPTO

bool gasnetl_aead_is_there(void) { return false; }

enum gasnetl_cipher gasnetl_aead_fastest(void) { return GASNETL_CIPHERS; }

bool gasnetl_aead_start(struct gasnetl_aead *aead) {
    (void)aead;
    return false;
}

bool gasnetl_aead_seals_by(struct gasnetl_aead *aead, enum gasnetl_cipher cipher, const struct gasnetl_secret *secret) {
    (void)aead, (void)cipher, (void)secret;
    return false;
}

bool gasnetl_aead_opens_by(struct gasnetl_aead *aead, enum gasnetl_cipher cipher, const struct gasnetl_secret *secret) {
    (void)aead, (void)cipher, (void)secret;
    return false;
}

bool gasnetl_aead_rekey(struct gasnetl_aead *aead, const struct gasnetl_secret *secret) {
    (void)aead, (void)secret;
    return false;
}

bool gasnetl_aead_seal(struct gasnetl_aead *aead, uint64_t number, uint8_t *at, size_t front,
                       struct gasnetl_span text) {
    (void)aead, (void)number, (void)at, (void)front, (void)text;
    return false;
}

bool gasnetl_aead_open(struct gasnetl_aead *aead, uint64_t number, uint8_t *at, size_t front, size_t length) {
    (void)aead, (void)number, (void)at, (void)front, (void)length;
    return false;
}

bool gasnetl_aead_uncover(struct gasnetl_aead *aead, uint64_t number, uint8_t *bytes, size_t length) {
    (void)aead, (void)number, (void)bytes, (void)length;
    return false;
}

bool gasnetl_derive(struct gasnetl_span secret, struct gasnetl_span salt, struct gasnetl_span info, uint8_t *bytes,
                    size_t length) {
    (void)secret, (void)salt, (void)info, (void)bytes, (void)length;
    return false;
}

#else

#include <openssl/core_names.h>
#include <openssl/crypto.h>
#include <openssl/evp.h>
#include <openssl/kdf.h>
#include <openssl/params.h>
#include <stdio.h>
#include <string.h>

static const EVP_CIPHER *cipher_of(enum gasnetl_cipher cipher) {
    return cipher == GASNETL_AES_256_GCM ? EVP_aes_256_gcm() : EVP_chacha20_poly1305();
}

/* libcrypto frees nothing as the process exits: the node may still be at its end then. */
bool gasnetl_aead_is_there(void) {
    const struct gasnetl_span some = { "some", 4 };
    const struct gasnetl_secret secret = { { 0 }, { 0 } };
    struct gasnetl_aead aead;
    uint8_t bytes[1];
    if (!OPENSSL_init_crypto(OPENSSL_INIT_NO_ATEXIT, NULL) || !gasnetl_derive(some, some, some, bytes, sizeof bytes) ||
        !gasnetl_aead_start(&aead))
        return false;
    bool has_both = gasnetl_aead_seals_by(&aead, GASNETL_AES_256_GCM, &secret) &&
                    gasnetl_aead_seals_by(&aead, GASNETL_CHACHA20_POLY1305, &secret);
    EVP_CIPHER_CTX_free(aead.context);
    return has_both;
}

/* The bits are those that libcrypto goes by (its page OPENSSL_ia32cap). */
enum gasnetl_cipher gasnetl_aead_fastest(void) {
    const unsigned long long aes = 1ull << 57, carryless = 1ull << 33;
    const char *processor = OPENSSL_info(OPENSSL_INFO_CPU_SETTINGS);
    unsigned long long has = 0;
    if (!processor || sscanf(processor, "OPENSSL_ia32cap=%llx", &has) != 1)
        has = 0;
    return has & aes && has & carryless ? GASNETL_AES_256_GCM : GASNETL_CHACHA20_POLY1305;
}

bool gasnetl_aead_start(struct gasnetl_aead *aead) {
    aead->context = EVP_CIPHER_CTX_new();
    return aead->context;
}

bool gasnetl_aead_seals_by(struct gasnetl_aead *aead, enum gasnetl_cipher cipher, const struct gasnetl_secret *secret) {
    memcpy(aead->nonce, secret->nonce, sizeof aead->nonce);
    return EVP_EncryptInit_ex(aead->context, cipher_of(cipher), NULL, secret->key, NULL);
}

bool gasnetl_aead_opens_by(struct gasnetl_aead *aead, enum gasnetl_cipher cipher, const struct gasnetl_secret *secret) {
    memcpy(aead->nonce, secret->nonce, sizeof aead->nonce);
    return EVP_DecryptInit_ex(aead->context, cipher_of(cipher), NULL, secret->key, NULL);
}

bool gasnetl_aead_rekey(struct gasnetl_aead *aead, const struct gasnetl_secret *secret) {
    memcpy(aead->nonce, secret->nonce, sizeof aead->nonce);
    return EVP_CipherInit_ex(aead->context, NULL, NULL, secret->key, NULL, -1);
}

static void make_nonce(const struct gasnetl_aead *aead, uint64_t number, uint8_t nonce[GASNETL_NONCE_BYTES]) {
    memcpy(nonce, aead->nonce, GASNETL_NONCE_BYTES);
    for (int i = 0; i < 8; i++)
        nonce[GASNETL_NONCE_BYTES - 1 - i] ^= (uint8_t)(number >> 8 * i);
}

bool gasnetl_aead_seal(struct gasnetl_aead *aead, uint64_t number, uint8_t *at, size_t front,
                       struct gasnetl_span text) {
    uint8_t nonce[GASNETL_NONCE_BYTES], *bytes = at + front, *tag = bytes + text.length;
    int count;
    make_nonce(aead, number, nonce);
    return EVP_EncryptInit_ex(aead->context, NULL, NULL, NULL, nonce) &&
           (!front || EVP_EncryptUpdate(aead->context, NULL, &count, at, (int)front)) &&
           (!text.length || EVP_EncryptUpdate(aead->context, bytes, &count, text.bytes, (int)text.length)) &&
           EVP_EncryptFinal_ex(aead->context, tag, &count) &&
           EVP_CIPHER_CTX_ctrl(aead->context, EVP_CTRL_AEAD_GET_TAG, GASNETL_TAG_BYTES, tag) > 0;
}

bool gasnetl_aead_open(struct gasnetl_aead *aead, uint64_t number, uint8_t *at, size_t front, size_t length) {
    uint8_t nonce[GASNETL_NONCE_BYTES], *bytes = at + front;
    int count;
    make_nonce(aead, number, nonce);
    return EVP_DecryptInit_ex(aead->context, NULL, NULL, NULL, nonce) &&
           (!front || EVP_DecryptUpdate(aead->context, NULL, &count, at, (int)front)) &&
           (!length || EVP_DecryptUpdate(aead->context, bytes, &count, bytes, (int)length)) &&
           EVP_CIPHER_CTX_ctrl(aead->context, EVP_CTRL_AEAD_SET_TAG, GASNETL_TAG_BYTES, bytes + length) > 0 &&
           EVP_DecryptFinal_ex(aead->context, bytes + length, &count) > 0;
}

/* Both ciphers add the same stream of bytes to what they hide and to what they show. Nothing of it is sent. */
bool gasnetl_aead_uncover(struct gasnetl_aead *aead, uint64_t number, uint8_t *bytes, size_t length) {
    uint8_t nonce[GASNETL_NONCE_BYTES];
    int count;
    make_nonce(aead, number, nonce);
    return EVP_EncryptInit_ex(aead->context, NULL, NULL, NULL, nonce) &&
           EVP_EncryptUpdate(aead->context, bytes, &count, bytes, (int)length);
}

static OSSL_PARAM parameter(const char *name, struct gasnetl_span span) {
    return OSSL_PARAM_construct_octet_string(name, (void *)(uintptr_t)span.bytes, span.length);
}

bool gasnetl_derive(struct gasnetl_span secret, struct gasnetl_span salt, struct gasnetl_span info, uint8_t *bytes,
                    size_t length) {
    char digest[] = "SHA256";
    const OSSL_PARAM parameters[] = { OSSL_PARAM_construct_utf8_string(OSSL_KDF_PARAM_DIGEST, digest, 0),
                                      parameter(OSSL_KDF_PARAM_KEY, secret), parameter(OSSL_KDF_PARAM_SALT, salt),
                                      parameter(OSSL_KDF_PARAM_INFO, info), OSSL_PARAM_construct_end() };
    EVP_KDF *kind = EVP_KDF_fetch(NULL, "HKDF", NULL);
    EVP_KDF_CTX *context = kind ? EVP_KDF_CTX_new(kind) : NULL;
    bool is_derived = context && EVP_KDF_derive(context, bytes, length, parameters) > 0;
    EVP_KDF_CTX_free(context);
    EVP_KDF_free(kind);
    return is_derived;
}

#endif
