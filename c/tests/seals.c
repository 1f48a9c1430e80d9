/* Sealed datagrams: vectors of NIST, RFC 8439 and RFC 5869, what is opened and what isn't, that no number is taken
 * twice, and where keys are in memory. It has no job. */
#include <dlfcn.h>
#include <pthread.h>
#include <stdio.h>
#include <stdlib.h>
#include <string.h>
#include <sys/syscall.h>
#include <sys/wait.h>
#include <time.h>
#include <unistd.h>

#include "../src/seal.h"

enum { ROOM = 600, SECONDS = 30, MANY = 10000000 };

static int failed;

static void expect(bool holds, const char *what) {
    if (!holds && ++failed)
        printf("not so: %s\n", what);
}

/* ---- Vectors, in hexadecimal digits. */

struct vector {
    const char *name;
    enum gasnetl_cipher cipher;
    const char *key, *nonce, *front, *text, *sealed, *tag;
};

static const struct vector vectors[] = {
    /* NIST CAVS, gcmEncryptExtIV256, count 0 of two sections. */
    { "AES-256-GCM of nothing", GASNETL_AES_256_GCM, "b52c505a37d78eda5dd34f20c22540ea1b58963cf8e5bf8ffa85f9f2492505b4",
      "516c33929df5a3284ff463d7", "", "", "", "bdc1ac884d332457a1d2664f168c76f0" },
    { "AES-256-GCM of a block", GASNETL_AES_256_GCM, "31bdadd96698c204aa9ce1448ea94ae1fb4a9a0b3c9d773b51bb1822666b8f22",
      "0d18e06c7c725ac9e362e1ce", "", "2db5168e932556f8089a0622981d017d", "fa4362189661d163fcd6a56d8bf0405a",
      "d636ac1bbedd5cc3ee727dc2ab4a9489" },
    /* Test cases 15 and 16 of the paper that NIST SP 800-38D names for them (McGrew and Viega). */
    { "GCM, case 15", GASNETL_AES_256_GCM, "feffe9928665731c6d6a8f9467308308feffe9928665731c6d6a8f9467308308",
      "cafebabefacedbaddecaf888", "",
      "d9313225f88406e5a55909c5aff5269a86a7a9531534f7da2e4c303d8a318a72"
      "1c3c0c95956809532fcf0e2449a6b525b16aedf5aa0de657ba637b391aafd255",
      "522dc1f099567d07f47f37a32a84427d643a8cdcbfe5c0c97598a2bd2555d1aa"
      "8cb08e48590dbb3da7b08b1056828838c5f61e6393ba7a0abcc9f662898015ad",
      "b094dac5d93471bdec1a502270e3cc6c" },
    { "GCM, case 16", GASNETL_AES_256_GCM, "feffe9928665731c6d6a8f9467308308feffe9928665731c6d6a8f9467308308",
      "cafebabefacedbaddecaf888", "feedfacedeadbeeffeedfacedeadbeefabaddad2",
      "d9313225f88406e5a55909c5aff5269a86a7a9531534f7da2e4c303d8a318a72"
      "1c3c0c95956809532fcf0e2449a6b525b16aedf5aa0de657ba637b39",
      "522dc1f099567d07f47f37a32a84427d643a8cdcbfe5c0c97598a2bd2555d1aa"
      "8cb08e48590dbb3da7b08b1056828838c5f61e6393ba7a0abcc9f662",
      "76fc6ece0f4e1768cddf8853bb2d551b" },
    { "RFC 8439, 2.8.2", GASNETL_CHACHA20_POLY1305, "808182838485868788898a8b8c8d8e8f909192939495969798999a9b9c9d9e9f",
      "070000004041424344454647", "50515253c0c1c2c3c4c5c6c7",
      "4c616469657320616e642047656e746c656d656e206f662074686520636c6173"
      "73206f66202739393a204966204920636f756c64206f6666657220796f75206f"
      "6e6c79206f6e652074697020666f7220746865206675747572652c2073756e73"
      "637265656e20776f756c642062652069742e",
      "d31a8d34648e60db7b86afbc53ef7ec2a4aded51296e08fea9e2b5a736ee62d6"
      "3dbea45e8ca9671282fafb69da92728b1a71de0a9e060b2905d6a5b67ecd3b36"
      "92ddbd7f2d778b8c9803aee328091b58fab324e4fad675945585808b4831d7bc"
      "3ff4def08e4b7a9de576d26586cec64b6116",
      "1ae10b594f09e26a7e902ecbd0600691" },
};

/* A vector of HKDF with SHA-256. */
struct derivation {
    const char *secret, *salt, *info, *derived;
};

/* RFC 5869, A.1 to A.3. */
static const struct derivation derivations[] = {
    { "0b0b0b0b0b0b0b0b0b0b0b0b0b0b0b0b0b0b0b0b0b0b", "000102030405060708090a0b0c", "f0f1f2f3f4f5f6f7f8f9",
      "3cb25f25faacd57a90434f64d0362f2a2d2d0a90cf1a5a4c5db02d56ecc4c5bf34007208d5b887185865" },
    { "000102030405060708090a0b0c0d0e0f101112131415161718191a1b1c1d1e1f202122232425262728292a2b2c2d2e2f"
      "303132333435363738393a3b3c3d3e3f404142434445464748494a4b4c4d4e4f",
      "606162636465666768696a6b6c6d6e6f707172737475767778797a7b7c7d7e7f808182838485868788898a8b8c8d8e8f"
      "909192939495969798999a9b9c9d9e9fa0a1a2a3a4a5a6a7a8a9aaabacadaeaf",
      "b0b1b2b3b4b5b6b7b8b9babbbcbdbebfc0c1c2c3c4c5c6c7c8c9cacbcccdcecfd0d1d2d3d4d5d6d7d8d9dadbdcdddedf"
      "e0e1e2e3e4e5e6e7e8e9eaebecedeeeff0f1f2f3f4f5f6f7f8f9fafbfcfdfeff",
      "b11e398dc80327a1c8e7f78c596a49344f012eda2d4efad8a050cc4c19afa97c59045a99cac7827271cb41c65e590e09"
      "da3275600c2f09b8367793a9aca3db71cc30c58179ec3e87c14c01d5c1f3434f1d87" },
    { "0b0b0b0b0b0b0b0b0b0b0b0b0b0b0b0b0b0b0b0b0b0b", "", "",
      "8da4e775a563c18f715f802a063c5a31b8a11f5c5ee1879ec3454e5f3c738d2d9d201395faa4b61a96c8" },
};

/* Writes the bytes of digits. How many they are. */
static size_t read_hex(const char *digits, uint8_t *bytes) {
    size_t count = strlen(digits) / 2;
    for (size_t i = 0; i < count; i++) {
        unsigned byte;
        sscanf(digits + 2 * i, "%2x", &byte);
        bytes[i] = (uint8_t)byte;
    }
    return count;
}

static void check_vector(const struct vector *vector) {
    struct gasnetl_secret secret;
    static struct gasnetl_aead seals, opens;
    uint8_t at[ROOM], whole[ROOM];
    read_hex(vector->key, secret.key);
    read_hex(vector->nonce, secret.nonce);
    const size_t front = read_hex(vector->front, at), length = read_hex(vector->text, at + front);
    read_hex(vector->front, whole);
    read_hex(vector->sealed, whole + front);
    const size_t all = front + length + read_hex(vector->tag, whole + front + length);
    bool starts = seals.context || (gasnetl_aead_start(&seals) && gasnetl_aead_start(&opens));
    bool holds = starts && gasnetl_aead_seals_by(&seals, vector->cipher, &secret) &&
                 gasnetl_aead_opens_by(&opens, vector->cipher, &secret) &&
                 gasnetl_aead_seal(&seals, 0, at, front, (struct gasnetl_span){ at + front, length }) &&
                 !memcmp(at, whole, all);
    expect(holds, vector->name);
    read_hex(vector->text, whole + front);
    expect(gasnetl_aead_open(&opens, 0, at, front, length) && !memcmp(at, whole, front + length), vector->name);
}

static struct gasnetl_span span_of(const char *digits, uint8_t *bytes) {
    return (struct gasnetl_span){ bytes, read_hex(digits, bytes) };
}

static void check_derivation(const struct derivation *one) {
    uint8_t secret[ROOM], salt[ROOM], info[ROOM], derived[ROOM], got[ROOM];
    const size_t length = read_hex(one->derived, derived);
    expect(
        gasnetl_derive(span_of(one->secret, secret), span_of(one->salt, salt), span_of(one->info, info), got, length) &&
            !memcmp(got, derived, length),
        "a derivation of RFC 5869");
}

/* ---- Two processes of a job, and others. */

static struct gasnetl_seals *process_of(uint16_t rank, uint64_t job) {
    static struct gasnetl_seals all[60];
    static unsigned made;
    struct gasnetl_seals *seals = &all[made++];
    seals->is_set = true;
    memset(seals->key, 0x6b, sizeof seals->key);
    if (!gasnetl_seals_start(seals, rank, 3, job))
        exit(1);
    return seals;
}

/* A datagram as it is on the network. */
struct sent {
    size_t length;
    uint8_t bytes[ROOM];
};

static struct sent sealed_by(struct gasnetl_seals *seals, uint16_t to, size_t length) {
    struct sent sent;
    uint8_t text[ROOM];
    memset(text, 7, sizeof text);
    memset(sent.bytes, 0, sizeof sent.bytes);
    sent.length = gasnetl_seal(seals, to, sent.bytes, text, length);
    return sent;
}

/* How many bytes the process reads in a copy of it that came from a node; 0 where it opens none. */
static size_t opened_by(struct gasnetl_seals *seals, uint16_t from, const struct sent *sent) {
    struct sent copy = *sent;
    size_t length = copy.length;
    const uint8_t *inside = gasnetl_open(seals, from, copy.bytes, &length);
    for (size_t i = 0; inside && i < length; i++)
        if (inside[i] != 7)
            return 0;
    return inside ? length : 0;
}

/* Each greets the other, and finds itself named. */
static void let_meet(struct gasnetl_seals *one, struct gasnetl_seals *other) {
    struct sent to_other = sealed_by(one, other->me, 84), to_one = sealed_by(other, one->me, 84);
    expect(opened_by(other, one->me, &to_other) == 84, "a greeting is opened");
    expect(opened_by(one, other->me, &to_one) == 84, "the other greeting is opened");
    gasnetl_seals_settle(one, other->me);
    gasnetl_seals_settle(other, one->me);
    struct sent again = sealed_by(one, other->me, 84);
    expect(again.bytes[0] & 2, "it greets as long as the other may have no other key");
    expect(opened_by(other, one->me, &again) == 84, "a greeting is opened behind the others");
    gasnetl_seals_confirm(one, other->me);
    gasnetl_seals_confirm(other, one->me);
    struct sent message = sealed_by(one, other->me, 100);
    expect(!(message.bytes[0] & 2) && message.length == 124, "a message has 24 bytes more");
    expect(opened_by(other, one->me, &message) == 100, "a message is opened");
}

/* With any bit turned it isn't opened, nor cut, nor with a byte more. */
static void check_flips(struct gasnetl_seals *seals, uint16_t from, const struct sent *sent) {
    struct sent other = *sent;
    expect(opened_by(seals, from, sent), "it is opened before");
    for (size_t bit = 0; bit < 8 * sent->length; bit++) {
        other.bytes[bit / 8] ^= (uint8_t)(1 << bit % 8);
        expect(!opened_by(seals, from, &other), "with a bit turned it isn't opened");
        other.bytes[bit / 8] ^= (uint8_t)(1 << bit % 8);
    }
    expect(opened_by(seals, from, &other), "it is opened behind");
    other.length = sent->length + 1;
    expect(!opened_by(seals, from, &other), "with a byte more it isn't opened");
    for (other.length = sent->length; other.length-- > 0;)
        expect(!opened_by(seals, from, &other), "cut it isn't opened");
}

static void check_all_flips(void) {
    struct gasnetl_seals *one = process_of(0, 5), *other = process_of(1, 5);
    struct sent greeting = sealed_by(one, 1, 84);
    check_flips(other, 0, &greeting);
    let_meet(one, other);
    for (size_t length = 1; length < 300; length += 37) {
        struct sent message = sealed_by(one, 1, length);
        check_flips(other, 0, &message);
    }
}

/* What was sealed for others isn't opened, though all have the file's key. */
static void check_others(void) {
    struct gasnetl_seals *one = process_of(0, 5), *other = process_of(1, 5), *third = process_of(2, 5);
    let_meet(one, other);
    let_meet(one, third);
    let_meet(other, third);
    struct sent message = sealed_by(one, 1, 50), greeting = sealed_by(process_of(0, 5), 1, 84);
    expect(!opened_by(third, 0, &message) && !opened_by(third, 0, &greeting), "what is for another rank isn't opened");
    expect(!opened_by(other, 2, &message) && !opened_by(other, 2, &greeting), "what is of another rank isn't opened");
    expect(!opened_by(one, 1, &message), "what comes back isn't opened");
    expect(!opened_by(other, 0, &greeting), "a greeting of another process of this rank isn't opened");

    struct gasnetl_seals *next = process_of(0, 5), *next_other = process_of(1, 5);
    let_meet(next, next_other);
    expect(!opened_by(next_other, 0, &message), "what is of an earlier process isn't opened");
}

/* What a receiver and a sender are: one of these is another than of the message. */
struct pair {
    uint64_t job;
    uint16_t me, from;
    const uint8_t *process, *sender;
};

/* Whether the message is opened by a process that is so, and knows the sender so. */
static bool opens_as(const struct pair *pair, enum gasnetl_cipher cipher, const struct sent *message) {
    struct gasnetl_seals *seals = process_of(pair->me, pair->job);
    struct gasnetl_sealed_peer *peer = &seals->peers[pair->from];
    memcpy(seals->process, pair->process, sizeof seals->process);
    memcpy(peer->process, pair->sender, sizeof peer->process);
    peer->cipher = cipher;
    peer->is_greeted = true;
    gasnetl_seals_settle(seals, pair->from);
    return peer->is_settled && opened_by(seals, pair->from, message);
}

static void check_pairs(void) {
    struct gasnetl_seals *one = process_of(0, 5), *other = process_of(1, 5);
    const uint8_t *mine = one->process, *theirs = other->process, none[GASNETL_PROCESS_BYTES] = { 0 };
    const struct pair right = { 5, 1, 0, theirs, mine };
    const struct pair wrong[] = { { 6, 1, 0, theirs, mine }, { 5, 2, 0, theirs, mine }, { 5, 1, 2, theirs, mine },
                                  { 5, 1, 0, none, mine },   { 5, 1, 0, theirs, none }, { 5, 1, 0, mine, theirs } };
    let_meet(one, other);
    struct sent message = sealed_by(one, 1, 50);
    expect(opens_as(&right, one->cipher, &message), "it is opened by who has all numbers");
    for (unsigned i = 0; i < sizeof wrong / sizeof *wrong; i++)
        expect(!opens_as(&wrong[i], one->cipher, &message), "with one of them another it isn't opened");
    expect(!opens_as(&right, 1 - one->cipher, &message), "by the other cipher it isn't opened");
}

static void check_limits(void) {
    struct gasnetl_seals *one = process_of(0, 5), *other = process_of(1, 5);
    expect(!sealed_by(one, 1, GASNETL_GREETING_MOST + 1).length, "a long greeting isn't sealed");
    let_meet(one, other);
    struct sent message = sealed_by(one, 1, 50);
    size_t length = message.length;
    const uint8_t *inside = gasnetl_uncover(one, 1, message.bytes, &length);
    expect(inside && inside[0] == 7 && inside[49] == 7, "what came back is read by who sealed it");
    one->peers[1].messages.next = ((uint64_t)1 << 56) - 1;
    message = sealed_by(one, 1, 50);
    expect(opened_by(other, 0, &message), "the last number is taken");
    expect(!sealed_by(one, 1, 50).length, "no number is taken behind it");
    struct gasnetl_seals *fixed = process_of(1, 5);
    fixed->is_fixed = true;
    message = sealed_by(process_of(0, 5), 1, 84);
    expect(!opened_by(fixed, 0, &message), "no key is derived once they are fixed");
}

/* The nonce is the number of seven bytes, added to what stays: it is the next one each time. */
static void check_numbers(void) {
    struct gasnetl_seals *one = process_of(0, 5), *other = process_of(1, 5);
    let_meet(one, other);
    uint64_t number = one->peers[1].messages.next;
    const time_t begun = time(NULL);
    uint64_t count = 0;
    uint8_t bytes[64], text[1] = { 7 };
    bool holds = true;
    for (; holds && count < MANY && (count % 4096 || time(NULL) - begun < SECONDS); count++) {
        uint64_t told = 0;
        holds = gasnetl_seal(one, 1, bytes, text, 1) == 1 + GASNETL_SEAL_BYTES;
        for (int i = 1; i < 8; i++)
            told = told << 8 | bytes[i];
        holds = holds && told == number++;
    }
    expect(holds, "each number is the next one");
    printf("%s: %llu numbers, none twice\n", one->cipher == GASNETL_AES_256_GCM ? "AES-256-GCM" : "ChaCha20-Poly1305",
           (unsigned long long)count);
}

/* A copy of the process that the C library doesn't know of seals nothing: its numbers are those of the process. */
static void check_copies(void) {
    struct gasnetl_seals *one = process_of(0, 5), *other = process_of(1, 5);
    int status = 1;
    let_meet(one, other);
    const pid_t copy = (pid_t)syscall(SYS_fork);
    if (!copy)
        _exit(sealed_by(one, 1, 50).length || sealed_by(process_of(2, 5), 1, 50).length != 50 + 40);
    expect(copy > 0 && waitpid(copy, &status, 0) == copy && !status, "a copy seals nothing, but as another process");
    expect(sealed_by(one, 1, 50).length == 74, "the process seals on");
}

/* ---- The thread that ends the process. */

static size_t allocations;

static void *get_memory(size_t bytes, const char *file, int line) {
    (void)file, (void)line;
    allocations++;
    return malloc(bytes);
}

static void *change_memory(void *at, size_t bytes, const char *file, int line) {
    (void)file, (void)line;
    allocations++;
    return realloc(at, bytes);
}

static void give_memory(void *at, const char *file, int line) {
    (void)file, (void)line;
    free(at);
}

/* Has libcrypto's allocations counted, if it is there. */
static void count_allocations(void) {
    int (*set)(void *(*)(size_t, const char *, int), void *(*)(void *, size_t, const char *, int),
               void (*)(void *, const char *, int));
    *(void **)(void *)&set = dlsym(RTLD_DEFAULT, "CRYPTO_set_mem_functions");
    if (set)
        expect(set(get_memory, change_memory, give_memory), "allocations are counted");
}

/* What another thread seals and opens then. */
static void *use_apart(void *at) {
    struct gasnetl_seals *one = at;
    struct sent none = sealed_by(one, 1, 50);
    return none.length ? at : NULL;
}

/* Whoever is interrupted has these contexts in hand: they are taken away meanwhile, so that a use of one is a fault. */
static void swap_contexts(struct gasnetl_sealed_peer *peer, void *kept[4]) {
    void **all[] = { &peer->greetings.keyed.aead.context, &peer->messages.keyed.aead.context,
                     &peer->greeted.aead.context, &peer->told.aead.context };
    for (unsigned i = 0; i < 4; i++) {
        void *context = *all[i];
        *all[i] = kept[i];
        kept[i] = context;
    }
}

/* It seals and opens with contexts of its own, without an allocation, and takes the next number. */
static void check_last(void) {
    struct gasnetl_seals *one = process_of(0, 5), *other = process_of(1, 5);
    void *used = one;
    let_meet(one, other);
    struct sent before = sealed_by(one, 1, 50), theirs = sealed_by(other, 0, 60), greeting = sealed_by(one, 2, 84);
    void *kept[2][4] = { { NULL } };
    swap_contexts(&one->peers[1], kept[0]);
    swap_contexts(&one->peers[2], kept[1]);
    const size_t allocated = allocations;
    gasnetl_seals_part(one);
    struct sent after = sealed_by(one, 1, 50), again = sealed_by(one, 2, 84);
    expect(opened_by(one, 1, &theirs) == 60, "it opens what comes");
    expect(allocations == allocated, "it allocates nothing");
    expect(opened_by(other, 0, &before) == 50 && opened_by(other, 0, &after) == 50, "what it seals is opened");
    expect(after.bytes[7] == before.bytes[7] + 1 && again.bytes[7] == greeting.bytes[7] + 1, "the numbers go on");
    pthread_t thread;
    expect(!pthread_create(&thread, NULL, use_apart, one) && !pthread_join(thread, &used) && !used,
           "another thread seals nothing then");
    swap_contexts(&one->peers[1], kept[0]);
    swap_contexts(&one->peers[2], kept[1]);
}

/* ---- Keys in memory. */

/* Whether the mapping that begins there has a flag (proc(5), smaps). */
static bool has_flag(const void *at, const char *flag) {
    char line[256], begin[32];
    bool is_it = false, has = false;
    FILE *file = fopen("/proc/self/smaps", "r");
    snprintf(begin, sizeof begin, "%lx-", (unsigned long)(uintptr_t)at);
    while (file && fgets(line, sizeof line, file)) {
        const bool is_head = strspn(line, "0123456789abcdef") == strcspn(line, "-");
        is_it = is_head ? !strncmp(line, begin, strlen(begin)) : is_it;
        has = has || (is_it && !strncmp(line, "VmFlags", 7) && strstr(line, flag));
    }
    if (file)
        fclose(file);
    return has;
}

static bool is_zero(const uint8_t *bytes, size_t length) {
    for (size_t i = 0; i < length; i++)
        if (bytes[i])
            return false;
    return true;
}

/* No core file and no copy has them, and the file's key is gone once all peers are known. */
static void check_memory(void) {
    struct gasnetl_seals *one = process_of(0, 5);
    uint8_t key[GASNETL_KEY_BYTES];
    memset(key, 0x6b, sizeof key);
    expect(is_zero(one->key, sizeof one->key), "the key that was read is overwritten");
    expect(has_flag(one->hidden, " dd") && has_flag(one->hidden, " wf"), "keys are in no core file and in no copy");
    let_meet(one, process_of(1, 5));
    expect(!memcmp(one->hidden->key, key, sizeof key), "the file's key is there while a peer is missing");
    let_meet(one, process_of(2, 5));
    expect(is_zero(one->hidden->key, sizeof one->hidden->key), "it is gone once all are known");
}

int main(void) {
    count_allocations();
    if (!gasnetl_aead_is_there()) {
        printf("built without libcrypto\n");
        return 77;
    }
    for (size_t i = 0; i < sizeof vectors / sizeof *vectors; i++)
        check_vector(&vectors[i]);
    for (size_t i = 0; i < sizeof derivations / sizeof *derivations; i++)
        check_derivation(&derivations[i]);
    check_all_flips();
    check_others();
    check_pairs();
    check_limits();
    check_copies();
    check_last();
    check_memory();
    check_numbers();
    return failed != 0;
}
