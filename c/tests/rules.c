/* Breaks the rule of the specification that its argument names. Each ends the job with status 70 and a line. */
#define GASNET_SEQ 1
#include <pthread.h>
#include <setjmp.h>
#include <signal.h>
#include <sys/time.h>
#include <unistd.h>

#include "check.h"

enum { RUN = 128, RUN_REPLY = 129, NOBODY = 222 };

static const char *rule;
static gex_AD_t domain;
static gasnet_hsl_t first = GASNET_HSL_INITIALIZER, second = GASNET_HSL_INITIALIZER;

static sigjmp_buf out;

static bool is(const char *name) { return !strcmp(rule, name); }

static void run(gasnet_token_t token) {
    char byte;
    if (is("collective-in-handler"))
        gex_Coll_BarrierNB(NULL, 0);
    if (is("atomic-in-handler"))
        gex_AD_OpNB_U64(domain, NULL, 0, at(0, 0), GEX_OP_INC, 0, 0, 0);
    if (is("request-in-handler"))
        gasnet_AMRequestShort0(0, RUN);
    if (is("put-in-handler"))
        gasnet_put_val(0, at(0, 0), 1, 1);
    if (is("get-in-handler"))
        gasnet_get(&byte, 0, at(0, 0), 1);
    if (is("poll-in-handler"))
        gasnet_AMPoll();
    if (is("barrier-in-handler"))
        gasnet_barrier_notify(0, 0);
    if (is("sync-in-handler"))
        gasnet_wait_syncnbi_all();
    if (is("reply-under-lock") || is("handler-keeps-lock"))
        gasnet_hsl_lock(&first);
    if (!is("handler-keeps-lock"))
        gasnet_AMReplyShort0(token, RUN_REPLY);
    if (is("second-reply"))
        gasnet_AMReplyShort0(token, RUN_REPLY);
}

static void run_reply(gasnet_token_t token) {
    if (is("reply-in-reply"))
        gasnet_AMReplyShort0(token, RUN_REPLY);
}

static void break_lock(void) {
    if (is("lock-twice")) {
        gasnet_hsl_lock(&first);
        gasnet_hsl_lock(&first);
    }
    if (is("trylock-twice")) {
        gasnet_hsl_lock(&first);
        gasnet_hsl_trylock(&first);
    }
    if (is("unlock-free"))
        gasnet_hsl_unlock(&first);
    if (is("unlock-out-of-order")) {
        gasnet_hsl_lock(&first);
        gasnet_hsl_lock(&second);
        gasnet_hsl_unlock(&first);
    }
    if (is("poll-under-lock")) {
        gasnet_hsl_lock(&first);
        gasnet_AMPoll();
    }
    if (is("destroy-held")) {
        gasnet_hsl_lock(&first);
        gasnet_hsl_destroy(&first);
    }
    if (is("hold-twice")) {
        gasnet_hold_interrupts();
        gasnet_hold_interrupts();
    }
    if (is("resume-alone"))
        gasnet_resume_interrupts();
    if (is("poll-in-section")) {
        gasnet_hold_interrupts();
        gasnet_AMPoll();
    }
}

static void break_transfer(void) {
    char byte = 0;
    if (is("put-outside"))
        gasnet_put(0, at(0, GASNET_PAGESIZE), &byte, 1);
    if (is("get-before"))
        gasnet_get(&byte, 0, at(0, 0) - 1, 1);
    if (is("put-to-nobody"))
        gasnet_put((gasnet_node_t)nodes, at(0, 0), &byte, 1);
    if (is("get-to-null"))
        gasnet_get(NULL, (gasnet_node_t)(nodes - 1), at(nodes - 1, 0), 1);
    if (is("get-half-inside"))
        gasnet_get(at(me, GASNET_PAGESIZE - 8), (gasnet_node_t)(nodes - 1), at(nodes - 1, 0), 16);
    if (is("handle-twice")) {
        gasnet_handle_t handle =
            gasnet_put_nb_bulk((gasnet_node_t)(nodes - 1), at(nodes - 1, 0), at(me, 0), GASNET_PAGESIZE);
        gasnet_wait_syncnb(handle);
        gasnet_wait_syncnb(handle);
    }
    if (is("strides-overflow")) {
        const size_t strides[] = { 1, 1 }, counts[] = { 1, (size_t)1 << 32, (size_t)1 << 32 };
        gasnet_puts_bulk((gasnet_node_t)(nodes - 1), at(nodes - 1, 0), strides, at(me, 0), strides, counts, 2);
    }
    if (is("value-of-9"))
        gasnet_put_val(0, at(0, 0), 1, 9);
    if (is("region-twice")) {
        gasnet_begin_nbi_accessregion();
        gasnet_begin_nbi_accessregion();
    }
    if (is("region-none"))
        gasnet_end_nbi_accessregion();
    if (is("sync-in-region")) {
        gasnet_begin_nbi_accessregion();
        gasnet_wait_syncnbi_all();
    }
}

static void break_atomic(void) {
    if (strncmp(rule, "atomic-", 7))
        return;
    if (is("atomic-half-unaligned")) {
        gex_AD_Create(&domain, NULL, GEX_DT_U32, GEX_OP_INC, 0);
        gex_AD_OpNB_U32(domain, NULL, 0, at(0, 2), GEX_OP_INC, 0, 0, 0);
    }
    gex_AD_Create(&domain, NULL,
                  is("atomic-of-no-type")        ? 3
                  : is("atomic-of-another-type") ? GEX_DT_I64
                                                 : GEX_DT_U64,
                  is("atomic-of-no-operation") ? (gex_OP_t)1 << 30 : GEX_OP_INC, 0);
    gex_AD_OpNB_U64(domain, NULL, is("atomic-to-nobody") ? (gex_Rank_t)nodes : 0,
                    at(0, is("atomic-outside")     ? GASNET_PAGESIZE
                          : is("atomic-unaligned") ? 4
                                                   : 0),
                    is("atomic-not-in-domain") ? GEX_OP_DEC : GEX_OP_INC, 0, 0, 0);
}

static void break_collective(void) {
    uint64_t word = 0, words[2];
    const bool other = me == 0;
    if (strncmp(rule, "collective-", 11) || is("collective-in-handler"))
        return;
    if (is("collective-of-32-bits"))
        gex_Coll_ReduceToAllNB(NULL, words, &word, 1, 4, 1, GEX_OP_ADD, NULL, NULL, 0);
    if (is("collective-by-xor"))
        gex_Coll_ReduceToAllNB(NULL, words, &word, GEX_DT_U64, 8, 1, GEX_OP_XOR, NULL, NULL, 0);
    if (is("collective-other-kind"))
        gasnet_coll_reduce_all(NULL, words, &word, GEX_DT_U64, 1, other ? GEX_OP_MIN : GEX_OP_MAX, 0);
    gasnet_coll_gather_all(NULL, is("collective-from-nowhere") ? NULL : words, &word,
                           is("collective-other-length") && other ? 0 : 8, 0);
    gasnet_coll_broadcast(NULL, is("collective-to-nobody") ? (gex_Rank_t)nodes : is("collective-other-root") && other,
                          words, &word, 8, 0);
}

static void break_barrier(void) {
    if (is("notify-twice")) {
        gasnet_barrier_notify(1, 0);
        gasnet_barrier_notify(1, 0);
    }
    if (is("wait-alone"))
        gasnet_barrier_wait(1, 0);
    if (is("flags-unknown"))
        gasnet_barrier_notify(1, 8);
}

static void *poll_here(void *nothing) {
    gasnet_AMPoll();
    return nothing;
}

static void break_threads(void) {
    pthread_t other;
    if (!is("another-thread"))
        return;
    CHECK(!pthread_create(&other, NULL, poll_here, NULL) && !pthread_join(other, NULL));
    gasnet_exit(0);
}

/* ---- Calls in a signal's handler, and behind a longjmp out of a call; a client that closes what it didn't open. */

static void alarmed(int signal) {
    (void)signal;
    if (is("poll-in-signal"))
        gasnet_AMPoll();
    else
        siglongjmp(out, 1);
}

static void alarm_often(int microseconds) {
    const struct itimerval often = { { 0, microseconds }, { 0, microseconds } };
    signal(SIGALRM, alarmed);
    setitimer(ITIMER_REAL, &often, NULL);
}

static void break_calls(void) {
    enum { OFTEN = 500, SETTLED = 200000, DESCRIPTORS = 1024 };
    if (is("poll-in-signal"))
        alarm_often(OFTEN);
    if (is("wait-behind-jump") && !me) {
        gasnet_barrier_notify(0, 0);
        if (!sigsetjmp(out, 1))
            alarm_often(SETTLED);
        for (;;) /* the others don't notify */
            gasnet_barrier_wait(0, 0);
    }
    for (int i = 3; is("close-all") && !me && i < DESCRIPTORS; i++)
        close(i);
}

static void put_at_end(void) {
    if (is("put-behind-exit"))
        gasnet_put_val(0, at(0, 0), 1, 1);
}

/* How many entries the table has. Of those without an index, 126 with the two that have one, the last one gets 254. */
static int entries(gasnet_handlerentry_t *table) {
    for (int i = 2; i < 128 && is("collective-given-254"); i++)
        table[i] = (gasnet_handlerentry_t){ 0, run_reply };
    return is("collective-given-254") ? 126 : is("collective-own-254") ? 4 : is("atomic-own-252") ? 3 : 2;
}

int main(int argc, char **argv) {
    gasnet_handlerentry_t table[128] = {
        { RUN, run }, { RUN_REPLY, run_reply }, { 252, run_reply }, { 254, run_reply }
    };
    if (argc != 2)
        return 2;
    rule = argv[1];
    if (is("put-before-attach"))
        gasnet_put_val(0, table, 1, 1);
    if (is("put-behind-exit"))
        CHECK(!atexit(put_at_end));
    start(&argc, &argv, table, entries(table), GASNET_PAGESIZE);
    if (is("put-behind-exit"))
        gasnet_exit(0);
    break_calls();
    break_lock();
    break_transfer();
    break_atomic();
    break_collective();
    break_barrier();
    break_threads();
    gasnet_AMRequestShort0((gasnet_node_t)(nodes - 1), is("handler-of-nobody") ? NOBODY : RUN);
    for (;;)
        gasnet_AMPoll();
}
