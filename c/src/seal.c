#include "seal.h"

#include <ctype.h>
#include <errno.h>
#include <pwd.h>
#include <stdio.h>
#include <stdlib.h>
#include <string.h>
#include <sys/mman.h>
#include <sys/random.h>
#include <sys/stat.h>
#include <unistd.h>

#include "words.h"

enum { SEALED = 192, GREETING = 2, KINDS = 3, NUMBER_BYTES = 7, DIGITS = 2 * GASNETL_KEY_BYTES, LONGEST = 256 };
enum { KEYS_OF_PEER = 4 };

/* No number is taken twice: where none is left nothing is sealed. */
static const uint64_t most_numbers = (uint64_t)1 << 8 * NUMBER_BYTES;

/* ---- The file's key. */

/* The value of a hexadecimal digit; -1 for another letter. */
static int digit(char letter) {
    if (isdigit((unsigned char)letter))
        return letter - '0';
    letter = (char)tolower((unsigned char)letter);
    return letter >= 'a' && letter <= 'f' ? letter - 'a' + 10 : -1;
}

/* Reads the digits of a key, with white space around them. */
static bool read_digits(const char *text, uint8_t bytes[GASNETL_KEY_BYTES]) {
    text += strspn(text, " \t\r\n");
    for (int i = 0; i < DIGITS; i++) {
        const int value = digit(text[i]);
        if (value < 0)
            return false;
        bytes[i / 2] = (uint8_t)(bytes[i / 2] << 4 | value);
    }
    return !text[DIGITS + strspn(text + DIGITS, " \t\r\n")];
}

/* Reads the key of a file that isn't too long. What is read stays nowhere else. */
static bool read_text(struct gasnetl_seals *seals, FILE *file) {
    char text[LONGEST + 1];
    setvbuf(file, NULL, _IONBF, 0);
    const size_t length = fread(text, 1, LONGEST, file);
    text[length] = 0;
    const bool is_read = length < LONGEST && read_digits(text, seals->key);
    explicit_bzero(text, sizeof text);
    return is_read;
}

/* Another user than this process's or root made the file: he knows the key. */
static const char *write_stranger(uid_t owner, char *why, size_t room) {
    const struct passwd *about = getpwuid(owner);
    snprintf(why, room, "it belongs to %s (user %u), who knows the key then: take a file of your own, or of root's",
             about ? about->pw_name : "a user without a name", (unsigned)owner);
    return why;
}

/* Why the key of a file can't be had; NULL where it was read. */
static const char *read_file(struct gasnetl_seals *seals, FILE *file, char *why, size_t room) {
    struct stat about;
    if (fstat(fileno(file), &about))
        return strerror(errno);
    if (about.st_uid && about.st_uid != geteuid())
        return write_stranger(about.st_uid, why, room);
    if (about.st_mode & 077)
        return "others than its owner may use it: take their rights from it";
    return read_text(seals, file) ? NULL : "it isn't 64 hexadecimal digits";
}

/* The same by the file's name. */
static const char *read_path(struct gasnetl_seals *seals, const char *path, char *why, size_t room) {
    if (!gasnetl_aead_is_there())
        return "this library was built without OpenSSL's libcrypto, which datagrams are sealed by: install it (Debian: "
               "libssl-dev) and build the library again, or unset the variable, and nothing is sealed";
    FILE *file = fopen(path, "r");
    if (!file)
        return strerror(errno);
    const char *refusal = read_file(seals, file, why, room);
    fclose(file);
    return refusal;
}

bool gasnetl_key_read(struct gasnetl_seals *seals) {
    const char *path = getenv("GASNET_KEY_FILE");
    seals->is_set = false;
    if (!path)
        return true;
    char text[LONGEST];
    const char *why = read_path(seals, path, text, sizeof text);
    seals->is_set = !why;
    if (why)
        fprintf(stderr, "gasnet: GASNET_KEY_FILE is '%s': %s\n", path, why);
    return !why;
}

/* ---- The keys that are derived from it. */

/* What a key is for: the direction from one rank to another, by its sender's cipher. */
struct direction {
    uint16_t from, to;
    enum gasnetl_cipher cipher;
    const uint8_t *sender, *receiver; /* the processes' numbers; the second is NULL for greetings */
};

static bool derive(const struct gasnetl_seals *seals, const struct direction *way, struct gasnetl_secret *secret) {
    static const char greeting[] = "gasnet greeting", message[] = "gasnet message";
    uint8_t salt[2 * GASNETL_PROCESS_BYTES] = { 0 }, info[sizeof greeting + 13];
    const size_t named = strlen(way->receiver ? message : greeting);
    memcpy(salt, way->sender, GASNETL_PROCESS_BYTES);
    if (way->receiver)
        memcpy(salt + GASNETL_PROCESS_BYTES, way->receiver, GASNETL_PROCESS_BYTES);
    memcpy(info, way->receiver ? message : greeting, named);
    uint8_t *at = gasnetl_word_write(info + named, (uint64_t)way->cipher, 1);
    at = gasnetl_word_write(at, way->from, 2);
    at = gasnetl_word_write(at, way->to, 2);
    at = gasnetl_word_write(at, way->receiver ? seals->job : 0, 8); /* a greeting of another job is told of as such */
    return gasnetl_derive((struct gasnetl_span){ seals->hidden->key, sizeof seals->hidden->key },
                          (struct gasnetl_span){ salt, sizeof salt },
                          (struct gasnetl_span){ info, (size_t)(at - info) }, (uint8_t *)secret, sizeof *secret);
}

static bool seal_by(struct gasnetl_seals *seals, uint16_t to, const uint8_t *receiver,
                    struct gasnetl_sealing *sealing) {
    const struct direction way = { seals->me, to, seals->cipher, seals->process, receiver };
    struct gasnetl_keyed *keyed = &sealing->keyed;
    sealing->next = 0;
    return derive(seals, &way, keyed->secret) && gasnetl_aead_seals_by(&keyed->aead, seals->cipher, keyed->secret);
}

static bool open_by(struct gasnetl_seals *seals, uint16_t from, const uint8_t *receiver, struct gasnetl_keyed *keyed) {
    const struct gasnetl_sealed_peer *peer = &seals->peers[from];
    const struct direction way = { from, seals->me, peer->cipher, peer->process, receiver };
    return derive(seals, &way, keyed->secret) && gasnetl_aead_opens_by(&keyed->aead, peer->cipher, keyed->secret);
}

static bool start_peer(struct gasnetl_seals *seals, uint16_t node) {
    struct gasnetl_sealed_peer *peer = &seals->peers[node];
    struct gasnetl_keyed *all[KEYS_OF_PEER] = { &peer->greetings.keyed, &peer->messages.keyed, &peer->greeted,
                                                &peer->told };
    bool starts = true;
    for (int i = 0; i < KEYS_OF_PEER; i++) {
        all[i]->secret = &seals->hidden->secrets[KEYS_OF_PEER * node + i];
        starts = starts && gasnetl_aead_start(&all[i]->aead);
    }
    return starts && seal_by(seals, node, NULL, &peer->greetings);
}

/* Makes the contexts of the thread that ends the process. Their first key is of no use. */
static bool start_last(struct gasnetl_seals *seals) {
    const struct gasnetl_secret none = { { 0 }, { 0 } };
    bool starts =
        gasnetl_aead_start(&seals->last_seals) && gasnetl_aead_seals_by(&seals->last_seals, seals->cipher, &none);
    for (enum gasnetl_cipher cipher = 0; cipher < GASNETL_CIPHERS; cipher++)
        starts = starts && gasnetl_aead_start(&seals->last_opens[cipher]) &&
                 gasnetl_aead_opens_by(&seals->last_opens[cipher], cipher, &none);
    return starts;
}

/* Moves the file's key to memory that has room for those of the peers too. */
static bool hide_key(struct gasnetl_seals *seals) {
    const size_t bytes = sizeof *seals->hidden + (size_t)seals->nodes * KEYS_OF_PEER * sizeof *seals->hidden->secrets;
    void *hidden = mmap(NULL, bytes, PROT_READ | PROT_WRITE, MAP_PRIVATE | MAP_ANONYMOUS, -1, 0);
    seals->hidden = hidden == MAP_FAILED ? NULL : hidden;
    if (seals->hidden) {
        madvise(hidden, bytes, MADV_WIPEONFORK);
        madvise(hidden, bytes, MADV_DONTDUMP);
        seals->hidden->is_first = true;
        memcpy(seals->hidden->key, seals->key, sizeof seals->key);
    }
    explicit_bzero(seals->key, sizeof seals->key);
    return seals->hidden;
}

bool gasnetl_seals_start(struct gasnetl_seals *seals, uint16_t me, uint16_t nodes, uint64_t job) {
    if (!seals->is_set)
        return true;
    seals->me = me;
    seals->nodes = nodes;
    seals->job = job;
    seals->cipher = gasnetl_aead_fastest();
    seals->peers = calloc(nodes, sizeof *seals->peers);
    bool starts = hide_key(seals) && seals->peers && start_last(seals) &&
                  getrandom(seals->process, sizeof seals->process, 0) == sizeof seals->process;
    for (uint16_t node = 0; starts && node < nodes; node++)
        starts = node == me || start_peer(seals, node);
    if (!starts)
        fprintf(stderr, "gasnet: node %u: libcrypto can't make the keys of GASNET_KEY_FILE\n", me);
    return starts;
}

/* Once the keys for all peers are known nothing more is derived from the file's. */
static void forget_key(struct gasnetl_seals *seals) {
    for (uint16_t node = 0; node < seals->nodes; node++)
        if (node != seals->me && !seals->peers[node].is_settled)
            return;
    explicit_bzero(seals->hidden->key, sizeof seals->hidden->key);
}

bool gasnetl_seals_settle(struct gasnetl_seals *seals, uint16_t from) {
    if (!seals->is_set || seals->is_fixed || seals->peers[from].is_settled || !seals->peers[from].is_greeted)
        return true;
    struct gasnetl_sealed_peer *peer = &seals->peers[from];
    peer->is_settled =
        seal_by(seals, from, peer->process, &peer->messages) && open_by(seals, from, seals->process, &peer->told);
    if (peer->is_settled)
        forget_key(seals);
    return peer->is_settled;
}

void gasnetl_seals_confirm(struct gasnetl_seals *seals, uint16_t from) {
    if (seals->is_set)
        seals->peers[from].is_confirmed = seals->peers[from].is_settled;
}

/* ---- The end of the process. */

void gasnetl_seals_part(struct gasnetl_seals *seals) {
    seals->is_fixed = true;
    seals->ender = pthread_self();
    atomic_store(&seals->is_apart, true);
}

static bool is_apart(const struct gasnetl_seals *seals) {
    return atomic_load_explicit(&seals->is_apart, memory_order_acquire);
}

/* Whether this thread may seal and open: where one ends the process it alone. */
static bool may_use(const struct gasnetl_seals *seals) {
    return !is_apart(seals) || pthread_equal(seals->ender, pthread_self());
}

/* The context for a key: its own, or that of the thread that ends the process, with this key; NULL where libcrypto
 * refuses it. */
static struct gasnetl_aead *context_of(const struct gasnetl_seals *seals, struct gasnetl_keyed *keyed,
                                       struct gasnetl_aead *last) {
    if (!is_apart(seals))
        return &keyed->aead;
    return gasnetl_aead_rekey(last, keyed->secret) ? last : NULL;
}

/* ---- What is sealed. */

/* The number is taken before it is used: whoever is interrupted in between takes it no second time, and nor does
 * another thread. */
static size_t seal_as(struct gasnetl_seals *seals, struct gasnetl_sealing *sealing, uint8_t *sealed, size_t front,
                      struct gasnetl_span text) {
    struct gasnetl_aead *aead = context_of(seals, &sealing->keyed, &seals->last_seals);
    const uint64_t number = atomic_fetch_add_explicit(&sealing->next, 1, memory_order_relaxed);
    if (!aead || number >= most_numbers)
        return 0;
    gasnetl_word_write(sealed + 1, number, NUMBER_BYTES);
    return gasnetl_aead_seal(aead, number, sealed, front, text) ? front + text.length + GASNETL_TAG_BYTES : 0;
}

static size_t seal_greeting(struct gasnetl_seals *seals, uint16_t to, uint8_t *sealed, struct gasnetl_span text) {
    if (text.length > GASNETL_GREETING_MOST)
        return 0;
    sealed[0] = (uint8_t)(SEALED + GREETING + (unsigned)seals->cipher);
    memcpy(sealed + GASNETL_SEAL_FRONT, seals->process, GASNETL_PROCESS_BYTES);
    return seal_as(seals, &seals->peers[to].greetings, sealed, GASNETL_GREETING_FRONT, text);
}

size_t gasnetl_seal(struct gasnetl_seals *seals, uint16_t to, uint8_t *sealed, const uint8_t *bytes, size_t length) {
    const struct gasnetl_span text = { bytes, length };
    if (!seals->hidden->is_first || !may_use(seals))
        return 0;
    if (!seals->peers[to].is_confirmed)
        return seal_greeting(seals, to, sealed, text);
    sealed[0] = (uint8_t)(SEALED + (unsigned)seals->cipher);
    return seal_as(seals, &seals->peers[to].messages, sealed, GASNETL_SEAL_FRONT, text);
}

/* ---- What is opened. */

bool gasnetl_is_sealed(const uint8_t *bytes, size_t length) {
    return length > GASNETL_SEAL_BYTES && (bytes[0] & ~KINDS) == SEALED;
}

static bool is_greeting(const uint8_t *sealed) { return sealed[0] & GREETING; }

/* Has greetings of this process opened: false where it isn't the peer's, or no key for it can be made now. */
static bool meet_process(struct gasnetl_seals *seals, uint16_t from, const uint8_t *sealed) {
    struct gasnetl_sealed_peer *peer = &seals->peers[from];
    const enum gasnetl_cipher cipher = sealed[0] & GASNETL_CHACHA20_POLY1305;
    const uint8_t *process = sealed + GASNETL_SEAL_FRONT;
    if (peer->is_greeted && peer->cipher == cipher && !memcmp(peer->process, process, GASNETL_PROCESS_BYTES))
        return true;
    if (peer->is_settled || seals->is_fixed)
        return false;
    memcpy(peer->process, process, GASNETL_PROCESS_BYTES);
    peer->cipher = cipher;
    peer->is_greeted = false;
    return open_by(seals, from, NULL, &peer->greeted);
}

/* Opens a datagram behind its front. */
static bool open_behind(struct gasnetl_seals *seals, struct gasnetl_keyed *keyed, uint8_t *sealed, size_t front,
                        size_t length) {
    struct gasnetl_aead *aead = context_of(seals, keyed, &seals->last_opens[sealed[0] & GASNETL_CHACHA20_POLY1305]);
    return aead && gasnetl_aead_open(aead, gasnetl_word_read(sealed + 1, NUMBER_BYTES), sealed, front, length);
}

static uint8_t *open_greeting(struct gasnetl_seals *seals, uint16_t from, uint8_t *sealed, size_t *length) {
    const size_t more = GASNETL_GREETING_FRONT + GASNETL_TAG_BYTES;
    if (*length <= more || *length > more + GASNETL_GREETING_MOST || !meet_process(seals, from, sealed))
        return NULL;
    *length -= more;
    if (!open_behind(seals, &seals->peers[from].greeted, sealed, GASNETL_GREETING_FRONT, *length))
        return NULL;
    seals->peers[from].is_greeted = true;
    return sealed + GASNETL_GREETING_FRONT;
}

static uint8_t *open_message(struct gasnetl_seals *seals, uint16_t from, uint8_t *sealed, size_t *length) {
    struct gasnetl_sealed_peer *peer = &seals->peers[from];
    if (!peer->is_settled || (sealed[0] & GASNETL_CHACHA20_POLY1305) != peer->cipher)
        return NULL;
    *length -= GASNETL_SEAL_BYTES;
    if (!open_behind(seals, &peer->told, sealed, GASNETL_SEAL_FRONT, *length))
        return NULL;
    return sealed + GASNETL_SEAL_FRONT;
}

uint8_t *gasnetl_open(struct gasnetl_seals *seals, uint16_t from, uint8_t *sealed, size_t *length) {
    if (!gasnetl_is_sealed(sealed, *length) || *length > GASNETL_SEALED_MOST || !may_use(seals))
        return NULL;
    return is_greeting(sealed) ? open_greeting(seals, from, sealed, length) : open_message(seals, from, sealed, length);
}

const uint8_t *gasnetl_uncover(struct gasnetl_seals *seals, uint16_t to, uint8_t *front, size_t *length) {
    struct gasnetl_sealed_peer *peer = &seals->peers[to];
    if (*length <= GASNETL_GREETING_FRONT || !gasnetl_is_sealed(front, *length) ||
        (!is_greeting(front) && !peer->is_settled) || !may_use(seals))
        return NULL;
    struct gasnetl_sealing *sealing = is_greeting(front) ? &peer->greetings : &peer->messages;
    const size_t clear = is_greeting(front) ? GASNETL_GREETING_FRONT : GASNETL_SEAL_FRONT;
    *length -= clear;
    const uint64_t number = gasnetl_word_read(front + 1, NUMBER_BYTES);
    struct gasnetl_aead *aead = context_of(seals, &sealing->keyed, &seals->last_seals);
    return aead && gasnetl_aead_uncover(aead, number, front + clear, *length) ? front + clear : NULL;
}
