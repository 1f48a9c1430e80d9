/* Authenticated encryption (RFC 5116) and keys that are derived (HKDF, RFC 5869), by OpenSSL's libcrypto. Where the
 * library was built without that, GASNETL_CRYPTO isn't defined, there is no cipher, and no other function succeeds. */
#ifndef GASNETL_AEAD_H
#define GASNETL_AEAD_H

#include <stdbool.h>
#include <stddef.h>
#include <stdint.h>

enum { GASNETL_KEY_BYTES = 32, GASNETL_NONCE_BYTES = 12, GASNETL_TAG_BYTES = 16 };

/* Those of RFC 5116 and of RFC 8439, both with keys of 256 bits. */
enum gasnetl_cipher { GASNETL_AES_256_GCM, GASNETL_CHACHA20_POLY1305, GASNETL_CIPHERS };

/* A key, and the bytes to which the number of a datagram is added for its nonce (RFC 8446, 5.3). */
struct gasnetl_secret {
    uint8_t key[GASNETL_KEY_BYTES], nonce[GASNETL_NONCE_BYTES];
};

/* What seals under a key, or opens what was sealed so. Either is done as often as wanted, without an allocation. */
struct gasnetl_aead {
    void *context; /* libcrypto's; NULL before gasnetl_aead_start */
    uint8_t nonce[GASNETL_NONCE_BYTES];
};

struct gasnetl_span {
    const void *bytes;
    size_t length;
};

/* Whether libcrypto is there, and has both ciphers and the derivation. */
bool gasnetl_aead_is_there(void);

/* AES-256-GCM where libcrypto has the processor's own instructions for it, else ChaCha20-Poly1305. */
enum gasnetl_cipher gasnetl_aead_fastest(void);

/* Makes room for a key. False where there is no memory. */
bool gasnetl_aead_start(struct gasnetl_aead *aead);

/* Has it seal under this key, or open. False where libcrypto refuses. */
bool gasnetl_aead_seals_by(struct gasnetl_aead *aead, enum gasnetl_cipher cipher, const struct gasnetl_secret *secret);
bool gasnetl_aead_opens_by(struct gasnetl_aead *aead, enum gasnetl_cipher cipher, const struct gasnetl_secret *secret);

/* Gives it another key for what it does: without an allocation. */
bool gasnetl_aead_rekey(struct gasnetl_aead *aead, const struct gasnetl_secret *secret);

/* Seals a text as the datagram of this number: `front` bytes stand there, and stay readable; the text goes behind them,
 * encrypted, and the tag of both behind that. The text may be what stands there. No number is taken twice under a key.
 */
bool gasnetl_aead_seal(struct gasnetl_aead *aead, uint64_t number, uint8_t *at, size_t front, struct gasnetl_span text);

/* Opens one that was sealed so, in its place. False where any of its bytes, its tag's too, isn't what it was: what
 * stands there then is of no use. */
bool gasnetl_aead_open(struct gasnetl_aead *aead, uint64_t number, uint8_t *at, size_t front, size_t length);

/* Reads the beginning of what was sealed as the datagram of this number, by the side that sealed it, in its place.
 * Nothing says that it wasn't altered. */
bool gasnetl_aead_uncover(struct gasnetl_aead *aead, uint64_t number, uint8_t *bytes, size_t length);

/* HKDF with SHA-256: bytes of a secret, a salt and what they are for. */
bool gasnetl_derive(struct gasnetl_span secret, struct gasnetl_span salt, struct gasnetl_span info, uint8_t *bytes,
                    size_t length);

#endif
