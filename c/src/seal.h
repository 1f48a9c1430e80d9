/* Sealed datagrams, where GASNET_KEY_FILE names a key: encrypted, and of no use where one of their bytes was altered.
 *
 * Each process draws a number of 128 random bits as it starts, and tells it in its greetings. A greeting is sealed
 * under a key of the file's, for its sender's number and the two ranks. Once a peer's greeting names this process's own
 * random number (control.h), each direction between the two has a key for the job's number, both ranks and both
 * processes' numbers. What was sealed for another job, another rank or an earlier process opens under none of these.
 *
 * On the network a sealed datagram is
 *
 *   1 byte     192, + 2 where it is a greeting, + 1 where its cipher is ChaCha20-Poly1305 and not AES-256-GCM
 *   7 bytes    its number: how many this process sealed under the key before; its nonce is made of that
 *   16 bytes   of a greeting: the sender's number
 *              what is sealed, encrypted
 *   16 bytes   the tag, of all before
 */
#ifndef GASNETL_SEAL_H
#define GASNETL_SEAL_H

#include <pthread.h>
#include <stdatomic.h>
#include <stdbool.h>
#include <stddef.h>
#include <stdint.h>

#include "aead.h"
#include "gasnet_c.h"

enum {
    GASNETL_SEAL_FRONT = 8,                                      /* the bytes before a datagram that is sealed */
    GASNETL_SEAL_BYTES = GASNETL_SEAL_FRONT + GASNETL_TAG_BYTES, /* what it has more than before */
    GASNETL_PROCESS_BYTES = 16,                                  /* a process's number */
    GASNETL_GREETING_FRONT = GASNETL_SEAL_FRONT + GASNETL_PROCESS_BYTES,
    GASNETL_GREETING_MOST = 256, /* the bytes of a greeting, before it is sealed */
    GASNETL_SEALED_MOST = 65000  /* of a datagram, as it is sealed */
};

/* A key of one direction, and libcrypto's context for it. */
struct gasnetl_keyed {
    struct gasnetl_aead aead;
    struct gasnetl_secret *secret;
};

/* One that this process seals under. */
struct gasnetl_sealing {
    struct gasnetl_keyed keyed;
    _Atomic uint64_t next; /* the number of the next datagram */
};

/* What is sealed for a peer, and comes from it. */
struct gasnetl_sealed_peer {
    struct gasnetl_sealing greetings, messages; /* to it */
    struct gasnetl_keyed greeted, told;         /* what opens its greetings, and the rest */
    uint8_t process[GASNETL_PROCESS_BYTES];     /* the number for which its greetings are opened, and their cipher */
    enum gasnetl_cipher cipher;
    bool is_greeted;   /* one was opened for it */
    bool is_settled;   /* the keys for both directions are known: of no other process anything is opened */
    bool is_confirmed; /* the peer has them too */
};

/* Keys, in memory of their own: core files don't have it, and it is empty in a copy of the process, however that was
 * forked (Linux from 4.14 on; madvise(2)). */
struct gasnetl_hidden {
    bool is_first;                   /* this is no copy: that one seals nothing */
    uint8_t key[GASNETL_KEY_BYTES];  /* the file's; 0 once the keys for all peers are known */
    struct gasnetl_secret secrets[]; /* of each peer as many as it has keys */
};

struct gasnetl_seals {
    bool is_set;   /* there is a key */
    bool is_fixed; /* no further key is derived: that allocates */
    uint16_t me, nodes;
    uint64_t job;
    uint8_t key[GASNETL_KEY_BYTES]; /* the file's, before gasnetl_seals_start */
    uint8_t process[GASNETL_PROCESS_BYTES];
    enum gasnetl_cipher cipher;        /* by which this process seals */
    struct gasnetl_sealed_peer *peers; /* of each node, where there is a key */
    struct gasnetl_hidden *hidden;
    atomic_bool is_apart; /* one thread ends the process, and has contexts of its own: the last one to seal */
    pthread_t ender;
    struct gasnetl_aead last_seals, last_opens[GASNETL_CIPHERS];
};

/* Reads the key of the file that GASNET_KEY_FILE names: 64 hexadecimal digits. The file belongs to this process's user
 * or to root, and its group and others have no right to it. Without the variable no key is set. False where it can't be
 * had: a line on standard error has said why. */
bool gasnetl_key_read(struct gasnetl_seals *seals);

/* Draws this process's number, and makes the keys of its greetings, where a key is set. False where that fails: a line
 * on standard error has said why. */
bool gasnetl_seals_start(struct gasnetl_seals *seals, uint16_t me, uint16_t nodes, uint64_t job);

/* Seals bytes to a peer: `sealed` has room for them and GASNETL_GREETING_FRONT + GASNETL_TAG_BYTES more, elsewhere. It
 * is a greeting as long as the peer may lack the other key. How many bytes the datagram has; 0 where it can't be
 * sealed, and isn't sent: so it is in a copy of the process, however that was forked, which would take its numbers once
 * more. */
size_t gasnetl_seal(struct gasnetl_seals *seals, uint16_t to, uint8_t *sealed, const uint8_t *bytes, size_t length);

/* Opens a datagram from a peer in its place: where what was sealed stands, and, in `length`, how many bytes that has.
 * NULL where it isn't sealed, or for another process, or was altered. */
uint8_t *gasnetl_open(struct gasnetl_seals *seals, uint16_t from, uint8_t *sealed, size_t *length);

/* The peer's last greeting names this process: both directions have keys from now on. False where they can't be made
 * now, for want of memory. */
bool gasnetl_seals_settle(struct gasnetl_seals *seals, uint16_t from);

/* The peer says what it can say only behind a greeting that names it: it has these keys too. */
void gasnetl_seals_confirm(struct gasnetl_seals *seals, uint16_t from);

/* This thread ends the process, and interrupts whoever seals or opens, which may go on later. It has contexts of its
 * own from now on, no key is derived, and no other thread seals or opens anything. It allocates nothing. */
void gasnetl_seals_part(struct gasnetl_seals *seals);

/* Reads the front of a datagram that this process sealed for a peer, and that came back: where it stands, and, in
 * `length`, what is left of it. NULL where it is too short. Nothing says that it wasn't altered. */
const uint8_t *gasnetl_uncover(struct gasnetl_seals *seals, uint16_t to, uint8_t *front, size_t *length);

/* Whether a datagram is sealed, by its front. */
bool gasnetl_is_sealed(const uint8_t *bytes, size_t length);

#endif
