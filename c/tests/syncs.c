/* What C's syncs wait for: that the endpoint's own sync answers GASNET_C_OK for each transfer of the endpoint that the
 * client's became. The test stands between the two. It answers NOT_READY at random in place of the endpoint, and notes
 * of which bytes the endpoint answered OK: no call of C's may go on before. "hints" has the layer told of some chunks
 * twice, and of others never: that may cost time, and changes nothing else. "bad" has the endpoint answer neither OK
 * nor NOT_READY once: that ends the job. */
#define GASNET_SEQ 1
#include <gasnet_c.h>

#include "../src/transfers.h"
#include "check.h"

enum { SEGMENT = 4 << 20, NEAR = 2 << 20, MOST = 100000, SHORT = 8, MANY = 600, LEAST_REFUSED = 100 };

static unsigned char near[MOST], back[MOST];
static const size_t sizes[] = { 1, 8192, 8193, 16384, 16385, MOST };

/* ---- Between the layer and the endpoint. */

static struct record {
    uint64_t handle, remote, len;
} records[GASNET_C_OPERATIONS]; /* of the endpoint's transfers that it didn't answer OK */

static unsigned char is_answered[SEGMENT]; /* the bytes of the far segment of which it did */
static unsigned refused;                   /* how often the test answered in its place */
static bool spoils_hints, answers_bad;
static uint64_t state;

static unsigned draw(unsigned below) {
    state = state * 6364136223846793005u + 1442695040888963407u;
    return (unsigned)(state >> 33) % below;
}

static struct record *record_of(uint64_t handle) {
    for (int i = 0; i < GASNET_C_OPERATIONS; i++)
        if (records[i].handle == handle)
            return &records[i];
    fprintf(stderr, "the endpoint knows no handle %llu\n", (unsigned long long)handle);
    abort();
}

gasnet_c_told __real_gasnet_c_begin(gasnet_c_node *node, uint64_t now, const gasnet_c_move *what);
gasnet_c_told __wrap_gasnet_c_begin(gasnet_c_node *node, uint64_t now, const gasnet_c_move *what) {
    gasnet_c_told told = __real_gasnet_c_begin(node, now, what);
    if (told.code == GASNET_C_HANDLE)
        *record_of(0) = (struct record){ told.value, what->remote, what->len };
    return told;
}

gasnet_c_told __real_gasnet_c_sync(gasnet_c_node *node, uint64_t now, uint64_t handle);
gasnet_c_told __wrap_gasnet_c_sync(gasnet_c_node *node, uint64_t now, uint64_t handle) {
    if (answers_bad)
        return (gasnet_c_told){ .code = GASNET_C_BAD };
    if (draw(3)) {
        refused++;
        return (gasnet_c_told){ .code = GASNET_C_NOT_READY };
    }
    gasnet_c_told told = __real_gasnet_c_sync(node, now, handle);
    if (told.code == GASNET_C_OK) {
        struct record *record = record_of(handle);
        memset(is_answered + record->remote, 1, record->len);
        record->handle = 0;
    }
    return told;
}

void __real_gasnetl_chunk_back(struct gasnetl_job *job, uint16_t to, uint16_t slot);
void __wrap_gasnetl_chunk_back(struct gasnetl_job *job, uint16_t to, uint16_t slot) {
    if (spoils_hints && !draw(8))
        __real_gasnetl_chunk_back(job, to, (uint16_t)draw(GASNET_C_MAX_CREDITS));
    if (!spoils_hints || draw(8))
        __real_gasnetl_chunk_back(job, to, slot);
}

/* ---- Blocking calls, and those with one handle. */

static bool are_answered(size_t place, size_t nbytes) { return is_all(is_answered + place, nbytes, 1); }

static void forget(void) { memset(is_answered, 0, sizeof is_answered); }

#define CHECK_ANSWERED(place, nbytes)                                                                                  \
    do {                                                                                                               \
        CHECK(are_answered(place, nbytes));                                                                            \
        forget();                                                                                                      \
    } while (0)

static void wait_by_try(gasnet_handle_t handle) {
    while (gasnet_try_syncnb(handle) == GASNET_ERR_NOT_READY)
        continue;
}

static void test_one(size_t nbytes, bool inside, int when) {
    unsigned char *from = inside ? at(me, NEAR) : near, *to = inside ? at(me, NEAR + MOST) : back;
    fill(from, nbytes, me, when);
    gasnet_put(next(), at(next(), 0), from, nbytes);
    CHECK_ANSWERED(0, nbytes);
    gasnet_get(to, next(), at(next(), 0), nbytes);
    CHECK_ANSWERED(0, nbytes);
    CHECK(is_filled(to, nbytes, me, when));
    gasnet_memset(next(), at(next(), 0), when, nbytes);
    CHECK_ANSWERED(0, nbytes);
    gasnet_wait_syncnb(gasnet_put_nb(next(), at(next(), 0), from, nbytes));
    CHECK_ANSWERED(0, nbytes);
    wait_by_try(gasnet_put_nb_bulk(next(), at(next(), 0), from, nbytes));
    CHECK_ANSWERED(0, nbytes);
    memset(to, 0, nbytes);
    wait_by_try(gasnet_get_nb_bulk(to, next(), at(next(), 0), nbytes));
    CHECK_ANSWERED(0, nbytes);
    CHECK(is_filled(to, nbytes, me, when));
    gasnet_wait_syncnb(gasnet_memset_nb(next(), at(next(), 0), when, nbytes));
    CHECK_ANSWERED(0, nbytes);
}

static void test_values(void) {
    gasnet_put_val(next(), at(next(), 0), 0x1234, 2);
    CHECK_ANSWERED(0, 2);
    CHECK(gasnet_get_val(next(), at(next(), 0), 2) == 0x1234);
    CHECK_ANSWERED(0, 2);
    gasnet_wait_syncnb(gasnet_put_nb_val(next(), at(next(), 0), 0x5678, 2));
    CHECK_ANSWERED(0, 2);
    CHECK(gasnet_wait_syncnb_valget(gasnet_get_nb_val(next(), at(next(), 0), 2)) == 0x5678);
    CHECK_ANSWERED(0, 2);
}

/* ---- Implicit ones, and regions. */

static void test_implicit(size_t nbytes) {
    gasnet_put_nbi(next(), at(next(), 0), near, nbytes);
    gasnet_put_nbi_bulk(next(), at(next(), nbytes), near, nbytes);
    gasnet_memset_nbi(next(), at(next(), 2 * nbytes), 7, nbytes);
    gasnet_wait_syncnbi_puts();
    CHECK_ANSWERED(0, 3 * nbytes);
    gasnet_get_nbi(back, next(), at(next(), 0), nbytes);
    while (gasnet_try_syncnbi_gets() == GASNET_ERR_NOT_READY)
        continue;
    CHECK_ANSWERED(0, nbytes);
    gasnet_put_nbi_val(next(), at(next(), 0), 1, SHORT);
    gasnet_get_nbi_bulk(back, next(), at(next(), SHORT), nbytes);
    gasnet_wait_syncnbi_all();
    CHECK_ANSWERED(0, SHORT + nbytes);
}

static void test_region(size_t nbytes) {
    gasnet_begin_nbi_accessregion();
    gasnet_put_nbi_bulk(next(), at(next(), 0), near, nbytes);
    gasnet_get_nbi_bulk(back, next(), at(next(), nbytes), nbytes);
    gasnet_memset_nbi(next(), at(next(), 2 * nbytes), 7, nbytes);
    gasnet_handle_t region = gasnet_end_nbi_accessregion();
    gasnet_put_nbi(next(), at(next(), 3 * nbytes), near, nbytes);
    gasnet_wait_syncnbi_all();
    CHECK(are_answered(3 * nbytes, nbytes));
    gasnet_wait_syncnb(region);
    CHECK_ANSWERED(0, 4 * nbytes);
}

static void test_pieces(void) {
    void *far[2] = { at(next(), 0), at(next(), MOST) }, *own[2] = { near, near + MOST / 2 };
    gasnet_puti_bulk(next(), 2, far, MOST / 2, 2, own, MOST / 2);
    CHECK(are_answered(0, MOST / 2));
    CHECK_ANSWERED(MOST, MOST / 2);
    gasnet_wait_syncnb(gasnet_geti_nb_bulk(2, own, MOST / 2, next(), 2, far, MOST / 2));
    CHECK(are_answered(0, MOST / 2));
    CHECK_ANSWERED(MOST, MOST / 2);
}

/* ---- More than the endpoint keeps, by their handles. */

static gasnet_handle_t handles[MANY];

static void begin_many(void) {
    for (size_t i = 0; i < MANY; i++)
        handles[i] = i % 2 ? gasnet_put_nb(next(), at(next(), SHORT * i), near, SHORT)
                           : gasnet_get_nb(back + SHORT * i, next(), at(next(), SHORT * i), SHORT);
}

static void test_all(void) {
    begin_many();
    gasnet_wait_syncnb_all(handles, MANY);
    CHECK_ANSWERED(0, SHORT * MANY);
    begin_many();
    while (gasnet_try_syncnb_all(handles, MANY) == GASNET_ERR_NOT_READY)
        continue;
    CHECK_ANSWERED(0, SHORT * MANY);
}

/* Those that became invalid were answered. How many they are. */
static int count_some(void) {
    int complete = 0;
    for (size_t i = 0; i < MANY; i++)
        if (handles[i] == GASNET_INVALID_HANDLE) {
            CHECK(are_answered(SHORT * i, SHORT));
            complete++;
        }
    return complete;
}

static void test_some(void) {
    begin_many();
    for (int complete = 0, before = 0; complete < MANY; before = complete) {
        if (before % 2)
            gasnet_wait_syncnb_some(handles, MANY);
        else if (gasnet_try_syncnb_some(handles, MANY) != GASNET_OK)
            continue;
        complete = count_some();
        CHECK(complete > before);
    }
    CHECK_ANSWERED(0, SHORT * MANY);
}

int main(int argc, char **argv) {
    int when = 0;
    spoils_hints = argc > 1 && !strcmp(argv[1], "hints");
    answers_bad = argc > 1 && !strcmp(argv[1], "bad");
    start(NULL, NULL, NULL, 0, SEGMENT);
    state = (uint64_t)me + 1;
    for (int i = 0; i < COUNT(sizes); i++) {
        test_one(sizes[i], false, ++when);
        test_one(sizes[i], true, ++when);
        test_implicit(sizes[i]);
        test_region(sizes[i]);
    }
    test_values();
    test_pieces();
    test_all();
    test_some();
    CHECK(nodes == 1 || refused >= LEAST_REFUSED);
    barrier();
    gasnet_exit(0);
}
