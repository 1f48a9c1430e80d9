/* ComEx's calls among two to eight processes, each against what comex.h says of it. Status 0 where all hold. With the
 * word `error` process 1 calls comex_error with code 3, which ends all; with `putv` or `accv` it hands on a list of
 * places with a negative length, with `extent` a shape that no memory can have, and with `unlock` it unlocks what it
 * doesn't hold, which end all too. */
#include <comex.h>
#include <limits.h>
#include <mpi.h>
#include <pthread.h>
#include <stdbool.h>
#include <stdio.h>
#include <stdlib.h>
#include <string.h>
#include <sys/mman.h>
#include <time.h>
#include <unistd.h>

enum { WORLD = COMEX_GROUP_WORLD, NUMBERS = 4096, TURNS = 100, GOT = 4 << 20 };

static int me, size, next;
static void *far[64];

#define CHECK(condition)                                                                                               \
    do {                                                                                                               \
        if (!(condition)) {                                                                                            \
            fprintf(stderr, "process %d: %s:%d: %s doesn't hold\n", me, __FILE__, __LINE__, #condition);               \
            MPI_Abort(MPI_COMM_WORLD, 9);                                                                              \
        }                                                                                                              \
    } while (0)

static void compute(double seconds) {
    struct timespec begun, now;
    clock_gettime(CLOCK_MONOTONIC, &begun);
    do
        clock_gettime(CLOCK_MONOTONIC, &now);
    while ((double)(now.tv_sec - begun.tv_sec) + (double)(now.tv_nsec - begun.tv_nsec) * 1e-9 < seconds);
}

static void clear(void) {
    comex_barrier(WORLD);
    memset(far[me], 0, NUMBERS * sizeof(double));
    comex_barrier(WORLD);
}

/* ---- Puts and gets, and their order. */

/* A put is seen by what the same process does behind it at the same place, whatever it waited for. */
static void puts_in_order(void) {
    long numbers[3] = { 5, 7, 0 }, one = 1;
    clear();
    for (long i = 0; i < TURNS; i++) {
        numbers[0] = i;
        comex_put(numbers, far[next], sizeof(long), next, WORLD);
        comex_acc(COMEX_ACC_LNG, &one, &one, far[next], sizeof(long), next, WORLD);
        comex_get(far[next], &numbers[2], sizeof(long), next, WORLD);
        CHECK(numbers[2] == i + 1);
    }
}

/* What the process does behind a get that is under way, at the last number of what is got. */
static void *got[64];
static long value;
static long *last(void) { return (long *)((char *)got[next] + GOT) - 1; }

static void change_by_put(void) { comex_put(&value, last(), sizeof value, next, WORLD); }
static void change_by_puts(void) {
    int bytes[] = { 1, sizeof value }, apart[] = { 1 };
    comex_puts(&value, apart, last(), apart, bytes, 1, next, WORLD);
}
static void change_by_putv(void) {
    void *from = &value, *to = last();
    comex_putv(&(comex_giov_t){ &from, &to, 1, sizeof value }, 1, next, WORLD);
}
static void change_by_word(void) {
    long word = value;
    comex_rmw(COMEX_SWAP_LONG, &word, last(), 0, next, WORLD);
}
static void change_by_acc(void) {
    long one = 1;
    comex_acc(COMEX_ACC_LNG, &one, &one, last(), sizeof one, next, WORLD);
}
static void change_by_accv(void) {
    long one = 1;
    void *from = &one, *to = last();
    comex_accv(COMEX_ACC_LNG, &one, &(comex_giov_t){ &from, &to, 1, sizeof one }, 1, next, WORLD);
}

static void begin_get(int way, char *back) {
    int bytes[] = { GOT / 2, 2 }, apart[] = { GOT / 2 };
    void *from = got[next], *to = back;
    comex_request_t request;
    if (way < 2)
        comex_nbget(from, to, GOT, next, WORLD, way ? &request : NULL);
    else if (way == 2)
        comex_nbgets(from, apart, to, apart, bytes, 1, next, WORLD, &request);
    else
        comex_nbgetv(&(comex_giov_t){ &from, &to, 1, GOT }, 1, next, WORLD, &request);
}

/* A get that isn't waited for reads what was there before what comes behind it. */
static void gets_in_order(void) {
    static char back[GOT];
    void (*const changes[])(void) = { change_by_put,  change_by_puts, change_by_putv,
                                      change_by_word, change_by_acc,  change_by_accv };
    CHECK(comex_malloc(got, GOT, WORLD) == COMEX_SUCCESS);
    memset(got[me], 0, GOT);
    comex_barrier(WORLD);
    for (int i = 0; i < 24; i++) {
        long is;
        begin_get(i % 4, back);
        value++;
        changes[i / 4]();
        comex_wait_all(WORLD);
        memcpy(&is, back + GOT - sizeof is, sizeof is);
        CHECK(is == value - 1);
    }
    comex_barrier(WORLD);
    comex_free(got[me], WORLD);
}

static void long_ones(void) {
    static char sent[300000], back[sizeof sent];
    void *places[64];
    CHECK(comex_malloc(places, sizeof sent, WORLD) == COMEX_SUCCESS);
    for (size_t i = 0; i < sizeof sent; i++)
        sent[i] = (char)(i % 251 + (size_t)me);
    comex_put(sent, places[next], sizeof sent, next, WORLD);
    comex_get(places[next], back, sizeof sent, next, WORLD);
    CHECK(!memcmp(sent, back, sizeof sent));
    comex_free(places[me], WORLD);
}

static void requests(void) {
    enum { MANY = 600 }; /* more than may be open */
    comex_request_t request[MANY];
    static int sent[MANY], back[MANY];
    int status = 1, *to = far[next];
    clear();
    for (int i = 0; i < MANY; i++) {
        sent[i] = 3 * i + me;
        comex_nbput(&sent[i], &to[i], sizeof *sent, next, WORLD, &request[i]);
    }
    for (int i = 0; i < MANY; i++)
        comex_wait(&request[i]);
    for (int i = 0; i < MANY; i++)
        comex_nbget(&to[i], &back[i], sizeof *sent, next, WORLD, i % 2 ? &request[i] : NULL);
    comex_wait_all(WORLD);
    CHECK(!memcmp(sent, back, sizeof sent));
    comex_nbget(to, back, sizeof *sent, next, WORLD, request);
    while (status)
        comex_test(request, &status);
    CHECK(back[0] == sent[0]);
}

/* ---- Shapes. */

/* A block of 3 x 4 x 5 doubles of a cube of 8 x 8 x 8, which begins at the cube's number 9. */
enum { SIDE = 8, BEGINS = SIDE + 1, CUBE = SIDE * SIDE * SIDE };
static int count[] = { 3 * sizeof(double), 4, 5 };
static int stride[] = { SIDE * sizeof(double), SIDE *SIDE * sizeof(double) };

static bool is_in_block(int i) {
    const int x = i % SIDE - 1, y = i / SIDE % SIDE - 1, z = i / (SIDE * SIDE);
    return x >= 0 && x < 3 && y >= 0 && y < 4 && z < 5;
}

static void shapes(void) {
    static double sent[CUBE], back[CUBE], scale = 2;
    double *to = far[next];
    clear();
    for (int i = 0; i < CUBE; i++)
        sent[i] = i + me;
    comex_puts(sent + BEGINS, stride, to + BEGINS, stride, count, 2, next, WORLD);
    comex_accs(COMEX_ACC_DBL, &scale, sent + BEGINS, stride, to + BEGINS, stride, count, 2, next, WORLD);
    comex_gets(to + BEGINS, stride, back + BEGINS, stride, count, 2, next, WORLD);
    comex_get(to, back, 0, next, WORLD);
    for (int i = 0; i < CUBE; i++)
        CHECK(back[i] == (is_in_block(i) ? 3 * sent[i] : 0));
    comex_get(to, back, sizeof back, next, WORLD);
    for (int i = 0; i < CUBE; i++)
        CHECK(back[i] == (is_in_block(i) ? 3 * sent[i] : 0));
}

/* Rows that lie together have more bytes than an int counts. They are put where they are: that moves nothing. */
static void long_shape(void) {
    enum { ROWS = 1 << 16, ROW = 1 << 15 };
    int rows[] = { ROW, ROWS }, apart[] = { ROW };
    const size_t bytes = (size_t)ROWS * ROW;
    char *at = mmap(NULL, bytes, PROT_READ | PROT_WRITE, MAP_PRIVATE | MAP_ANONYMOUS | MAP_NORESERVE, -1, 0);
    CHECK(at != MAP_FAILED);
    CHECK(comex_puts(at, apart, at, apart, rows, 1, me, WORLD) == COMEX_SUCCESS);
    munmap(at, bytes);
}

/* Each third number, listed backwards. */
static void lists(void) {
    enum { LISTED = 500 };
    static double sent[LISTED], back[LISTED], scale = 0.5;
    void *near[LISTED], *there[LISTED], *again[LISTED];
    comex_giov_t put = { near, there, LISTED, sizeof(double) }, get = { there, again, LISTED, sizeof(double) };
    clear();
    for (int i = 0; i < LISTED; i++) {
        sent[i] = i + me;
        near[i] = &sent[i];
        there[i] = (double *)far[next] + 3 * (LISTED - i);
        again[i] = &back[i];
    }
    comex_putv(&put, 1, next, WORLD);
    comex_accv(COMEX_ACC_DBL, &scale, &put, 1, next, WORLD);
    comex_getv(&get, 1, next, WORLD);
    for (int i = 0; i < LISTED; i++)
        CHECK(back[i] == 1.5 * sent[i]);
}

/* ---- Accumulates of all processes to process 0, of each type; 1 + 2 + .. + size is `all`. */

#define OF_TYPE(name, type, op)                                                                                        \
    static void name(void) {                                                                                           \
        static type numbers[NUMBERS / 2];                                                                              \
        type scale = 3, *sums = far[0];                                                                                \
        clear();                                                                                                       \
        for (int i = 0; i < NUMBERS / 2; i++)                                                                          \
            numbers[i] = (type)(me + 1);                                                                               \
        comex_acc(op, &scale, numbers, sums, sizeof numbers, 0, WORLD);                                                \
        comex_barrier(WORLD);                                                                                          \
        for (int i = 0; me == 0 && i < NUMBERS / 2; i++)                                                               \
            CHECK(sums[i] == (type)(3 * size * (size + 1) / 2));                                                       \
    }
OF_TYPE(of_int, int, COMEX_ACC_INT)
OF_TYPE(of_long, long, COMEX_ACC_LNG)
OF_TYPE(of_float, float, COMEX_ACC_FLT)
OF_TYPE(of_double, double, COMEX_ACC_DBL)

/* (1 + 2i) (me + 1 - i) is (me + 3) + (2 me + 1) i. */
#define OF_COMPLEX(name, type, op)                                                                                     \
    static void name(void) {                                                                                           \
        type scale[2] = { 1, 2 }, number[2] = { (type)(me + 1), -1 }, *sum = far[0];                                   \
        clear();                                                                                                       \
        comex_acc(op, scale, number, sum, sizeof number, 0, WORLD);                                                    \
        comex_barrier(WORLD);                                                                                          \
        CHECK(me || sum[0] == (type)(size * (size - 1) / 2 + 3 * size));                                               \
        CHECK(me || sum[1] == (type)(size * size));                                                                    \
    }
OF_COMPLEX(of_single_complex, float, COMEX_ACC_CPL)
OF_COMPLEX(of_double_complex, double, COMEX_ACC_DCP)

/* Of more numbers than messages take: 210,000 that lie together, and those of each second row of 700. */
static void long_sums(void) {
    enum { MANY = 210000, ROW = 700, EACH = 2 * ROW * sizeof(int) };
    static int numbers[MANY], scale = 2;
    int rows[] = { ROW * sizeof(int), MANY / (2 * ROW) }, stride = EACH, *sums;
    void *places[64];
    CHECK(comex_malloc(places, sizeof numbers, WORLD) == COMEX_SUCCESS);
    sums = places[0];
    memset(places[me], 0, sizeof numbers);
    for (int i = 0; i < MANY; i++)
        numbers[i] = i + me;
    comex_barrier(WORLD);
    comex_acc(COMEX_ACC_INT, &scale, numbers, sums, sizeof numbers, 0, WORLD);
    comex_accs(COMEX_ACC_INT, &scale, numbers, &stride, sums, &stride, rows, 1, 0, WORLD);
    comex_barrier(WORLD);
    for (int i = 0; me == 0 && i < MANY; i++)
        CHECK(sums[i] == (i / ROW % 2 ? 2 : 4) * (size * i + size * (size - 1) / 2));
    comex_free(places[me], WORLD);
}

/* ---- Words, mutexes, and a target that makes no call. */

static void words(void) {
    long old, seen = -1, *number = far[0];
    int small, *of_int = (int *)far[0] + 10;
    clear();
    for (int i = 0; i < TURNS; i++) {
        comex_rmw(COMEX_FETCH_AND_ADD_LONG, &old, number, 2, 0, WORLD);
        CHECK(old > seen && old % 2 == 0);
        seen = old;
        comex_rmw(COMEX_FETCH_AND_ADD, &small, of_int, -1, 0, WORLD);
    }
    comex_barrier(WORLD);
    CHECK(me || (*number == 2L * TURNS * size && *of_int == -TURNS * size && of_int[1] == 0));
    comex_barrier(WORLD);
    old = me;
    comex_rmw(COMEX_SWAP_LONG, &old, (long *)far[next] + 3, 0, next, WORLD);
    CHECK(old == 0);
    small = me;
    comex_rmw(COMEX_SWAP, &small, of_int + 2 * (me + 1), 0, 0, WORLD);
    CHECK(small == 0);
}

/* A counter under a mutex of the last process, by gets and puts. */
static void mutexes(void) {
    long number, *counter = far[0];
    clear();
    CHECK(comex_create_mutexes(2) == COMEX_SUCCESS);
    for (int i = 0; i < TURNS; i++) {
        comex_lock(1, size - 1);
        comex_get(counter, &number, sizeof number, 0, WORLD);
        number++;
        comex_put(&number, counter, sizeof number, 0, WORLD);
        comex_unlock(1, size - 1);
    }
    comex_barrier(WORLD);
    CHECK(me || *counter == (long)TURNS * size);
    CHECK(comex_destroy_mutexes() == COMEX_SUCCESS);
}

/* Process 0 computes; the others' calls come back long before it ends. */
static void while_it_computes(void) {
    double one = 1, begun;
    long old;
    clear();
    begun = MPI_Wtime();
    if (me == 0)
        compute(1.5);
    for (int i = 0; me && i < TURNS; i++) {
        comex_acc(COMEX_ACC_DBL, &one, &one, far[0], sizeof one, 0, WORLD);
        comex_rmw(COMEX_FETCH_AND_ADD_LONG, &old, (long *)far[0] + 1, 1, 0, WORLD);
    }
    comex_fence_all(WORLD);
    CHECK(me == 0 || MPI_Wtime() - begun < 1.4);
    comex_barrier(WORLD);
    CHECK(me || *(double *)far[0] == (double)TURNS * (size - 1));
}

/* ---- Groups and memory. */

static void groups(void) {
    comex_group_t even;
    int members[64], of = (size + 1) / 2, rank, count_of, world, out = size;
    void *places[64];
    for (int i = 0; i < of; i++)
        members[i] = 2 * (of - 1 - i);
    CHECK(comex_group_create(1, &out, WORLD, &even) == COMEX_FAILURE);
    CHECK(comex_group_create(of, members, WORLD, &even) == COMEX_SUCCESS);
    comex_group_size(even, &count_of);
    comex_group_translate_world(even, 0, &world);
    CHECK(count_of == of && world == 2 * (of - 1));
    comex_group_rank(even, &rank);
    CHECK(me % 2 ? rank == MPI_UNDEFINED : rank == of - 1 - me / 2);
    if (me % 2 == 0) {
        CHECK(comex_malloc(places, sizeof rank, even) == COMEX_SUCCESS);
        comex_put(&rank, places[(rank + 1) % of], sizeof rank, (rank + 1) % of, even);
        comex_barrier(even);
        CHECK(*(int *)places[rank] == (rank + of - 1) % of);
        comex_free(places[rank], even);
    }
    comex_group_free(even);
}

/* One process asks for more than there is, and all are told. */
static void too_much(void) {
    void *places[64];
    CHECK(comex_malloc(places, me == size - 1 ? (size_t)1 << 46 : 64, WORLD) == COMEX_FAILURE);
    CHECK(comex_malloc(places, me ? 64 : 0, WORLD) == COMEX_SUCCESS);
    CHECK(!places[0] && places[size - 1]);
    comex_free(places[me], WORLD);
}

static void (*const tests[])(void) = { puts_in_order,
                                       gets_in_order,
                                       long_ones,
                                       requests,
                                       shapes,
                                       long_shape,
                                       lists,
                                       of_int,
                                       of_long,
                                       of_float,
                                       of_double,
                                       of_single_complex,
                                       of_double_complex,
                                       words,
                                       mutexes,
                                       while_it_computes,
                                       groups,
                                       too_much,
                                       long_sums };

/* What the library under test calls is this: MPI is for the first thread alone. */
static pthread_t first;
int MPI_Abort(MPI_Comm comm, int code) {
    if (!pthread_equal(first, pthread_self()))
        _exit(99);
    return PMPI_Abort(comm, code);
}

/* The process that has the mutex is in a call of MPI meanwhile. */
static void unlock_wrongly(void) {
    comex_create_mutexes(1);
    comex_barrier(WORLD);
    if (me == 1)
        comex_unlock(0, next);
    MPI_Barrier(MPI_COMM_WORLD);
}

/* Five levels of 2,147,483,647 places that are as many bytes apart: more than 2 to the power of 64 bytes. */
static void put_everywhere(void) {
    int strides[5], count[6] = { sizeof(int) }, number = 1;
    for (int i = 0; i < 5; i++) {
        strides[i] = INT_MAX;
        count[i + 1] = INT_MAX;
    }
    comex_puts(&number, strides, &number, strides, count, 5, next, WORLD);
}

static void be_wrong(const char *how) {
    int number = 1;
    void *from = &number, *to = &number;
    comex_giov_t list = { &from, &to, 1, -(int)sizeof number };
    if (!strcmp(how, "error"))
        comex_error("this is tried", 3);
    else if (!strcmp(how, "putv"))
        comex_putv(&list, 1, next, WORLD);
    else if (!strcmp(how, "extent"))
        put_everywhere();
    else
        comex_accv(COMEX_ACC_INT, &number, &list, 1, next, WORLD);
}

int main(int argc, char **argv) {
    first = pthread_self();
    MPI_Init(&argc, &argv);
    CHECK(!comex_initialized());
    CHECK(comex_init_args(&argc, &argv) == COMEX_SUCCESS && comex_initialized());
    comex_group_rank(WORLD, &me);
    comex_group_size(WORLD, &size);
    next = (me + 1) % size;
    if (argc > 1 && !strcmp(argv[1], "unlock"))
        unlock_wrongly();
    if (argc > 1 && me == 1)
        be_wrong(argv[1]);
    CHECK(comex_malloc(far, NUMBERS * sizeof(double), WORLD) == COMEX_SUCCESS);
    for (size_t i = 0; i < sizeof tests / sizeof *tests; i++)
        tests[i]();
    comex_free(far[me], WORLD);
    CHECK(comex_finalize() == COMEX_SUCCESS && comex_finalize() == COMEX_SUCCESS);
    MPI_Finalize();
    return 0;
}
