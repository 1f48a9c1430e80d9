/* GASNet 1.8.1 for C: active messages, puts, gets, and barriers between the nodes of a job.
 *
 * The names and their meaning are those of the GASNet Specification 1.8.1. docs/GASNET.md has all of them,
 * name by name, and says what this implementation does where the specification leaves it open.
 *
 * Names that begin with gasnetl_ or GASNETL_ are this implementation's own, and no client's to use. */
#ifndef GASNET_H
#define GASNET_H

#include <pthread.h>
#include <stddef.h>
#include <stdint.h>

#ifdef __cplusplus
extern "C" {
#endif

/* ---- The client's threads: one of these is defined by the client; if none is, it is GASNET_SEQ. */

#if defined(GASNET_SEQ) + defined(GASNET_PARSYNC) + defined(GASNET_PAR) > 1
#error "define one of GASNET_SEQ, GASNET_PARSYNC and GASNET_PAR before gasnet.h"
#endif
#if !defined(GASNET_SEQ) && !defined(GASNET_PARSYNC) && !defined(GASNET_PAR)
#define GASNET_SEQ 1
#endif
#ifdef GASNET_SEQ
#define GASNETL_THREADED 0
#define GASNETL_MODE_NAME "SEQ"
#elif defined(GASNET_PARSYNC)
#define GASNETL_THREADED 1
#define GASNETL_MODE_NAME "PARSYNC"
#else
#define GASNETL_THREADED 1
#define GASNETL_MODE_NAME "PAR"
#endif

/* ---- What is implemented. */

#define GASNET_VERSION 1
#define GASNET_SPEC_VERSION_MAJOR 1
#define GASNET_SPEC_VERSION_MINOR 8
#define GASNET_RELEASE_VERSION_MAJOR 0
#define GASNET_RELEASE_VERSION_MINOR 0
#define GASNET_RELEASE_VERSION_PATCH 0
#define GASNET_CONDUIT_YUSPELGNA 1
#define GASNET_CONDUIT_NAME YUSPELGNA
#define GASNET_CONDUIT_NAME_STR "YUSPELGNA"
#define GASNET_CORE_NAME YUSPELGNA
#define GASNET_CORE_NAME_STR "YUSPELGNA"
#define GASNET_EXTENDED_NAME YUSPELGNA
#define GASNET_EXTENDED_NAME_STR "YUSPELGNA"
#define GASNETL_CONFIG(mode) "YUSPELGNA,SPEC=1.8," mode ",SEGMENT=LARGE,PTR=64bit,nodebug,notrace,nostats"
#define GASNET_CONFIG_STRING GASNETL_CONFIG(GASNETL_MODE_NAME)

#define GASNET_SEGMENT_LARGE 1
#define GASNET_ALIGNED_SEGMENTS 0
#define GASNET_PAGESIZE 4096
#define GASNET_MAXNODES 256

/* ---- Types of the core API. */

typedef uint16_t gasnet_node_t;
typedef uint8_t gasnet_handler_t;
typedef int32_t gasnet_handlerarg_t;
typedef struct gasnetl_token *gasnet_token_t;

typedef struct {
    gasnet_handler_t index; /* 128 to 255, or 0 for any: gasnet_attach writes the one that it chose */
    void (*fnptr)();
} gasnet_handlerentry_t;

typedef struct {
    void *addr;
    uintptr_t size;
} gasnet_seginfo_t;

/* ---- Return codes. */

#define GASNET_OK 0
#define GASNET_ERR_NOT_INIT 10001
#define GASNET_ERR_RESOURCE 10002
#define GASNET_ERR_BAD_ARG 10003
#define GASNET_ERR_NOT_READY 10004
#define GASNET_ERR_BARRIER_MISMATCH 10005

const char *gasnet_ErrorName(int code);
const char *gasnet_ErrorDesc(int code);

/* Not in the specification, for programs without a macro like it: if the call's answer isn't GASNET_OK, says so on
 * standard error and ends the job. */
#ifndef GASNET_SAFE
#define GASNET_SAFE(call)                                                                                              \
    do {                                                                                                               \
        int gasnetl_code_ = (call);                                                                                    \
        if (gasnetl_code_ != GASNET_OK)                                                                                \
            gasnetl_unsafe(gasnetl_code_, #call, __FILE__, __LINE__);                                                  \
    } while (0)
#endif

void gasnetl_unsafe(int code, const char *call, const char *file, int line);

/* ---- Job control and queries. */

int gasnetl_init(int *argc, char ***argv, int threaded);
static inline int gasnet_init(int *argc, char ***argv) { return gasnetl_init(argc, argv, GASNETL_THREADED); }
int gasnet_attach(gasnet_handlerentry_t *table, int numentries, uintptr_t segsize, uintptr_t minheapoffset);
void gasnet_exit(int exitcode);

gasnet_node_t gasnet_mynode(void);
gasnet_node_t gasnet_nodes(void);
uintptr_t gasnet_getMaxLocalSegmentSize(void);
uintptr_t gasnet_getMaxGlobalSegmentSize(void);
int gasnet_getSegmentInfo(gasnet_seginfo_t *seginfo_table, int numentries);
char *gasnet_getenv(const char *s);

#define GASNET_WAIT_SPIN 0
#define GASNET_WAIT_BLOCK 1
#define GASNET_WAIT_SPINBLOCK 2
int gasnet_set_waitmode(int wait_mode);

/* ---- Threads of the client: these declare and hold nothing. */

typedef void *gasnet_threadinfo_t;
#define GASNET_BEGIN_FUNCTION() ((void)0)
#define GASNET_POST_THREADINFO(info) ((void)(info))
#define GASNET_GET_THREADINFO() ((gasnet_threadinfo_t)0)

/* ---- Handler-safe locks and sections without interrupts. */

typedef struct gasnetl_hsl {
    pthread_mutex_t mutex;
    void *owner;               /* the thread that holds it */
    struct gasnetl_hsl *below; /* what that thread took before it, and still holds */
} gasnet_hsl_t;
#define GASNET_HSL_INITIALIZER                                                                                         \
    { PTHREAD_MUTEX_INITIALIZER, NULL, NULL }

void gasnet_hsl_init(gasnet_hsl_t *hsl);
void gasnet_hsl_destroy(gasnet_hsl_t *hsl);
void gasnet_hsl_lock(gasnet_hsl_t *hsl);
void gasnet_hsl_unlock(gasnet_hsl_t *hsl);
int gasnet_hsl_trylock(gasnet_hsl_t *hsl);
void gasnet_hold_interrupts(void);
void gasnet_resume_interrupts(void);

/* ---- Active messages: the requests and replies themselves are in gasnet_messages.h. */

size_t gasnet_AMMaxArgs(void);
size_t gasnet_AMMaxMedium(void);
size_t gasnet_AMMaxLongRequest(void);
size_t gasnet_AMMaxLongReply(void);
int gasnet_AMPoll(void);
int gasnet_AMGetMsgSource(gasnet_token_t token, gasnet_node_t *srcindex);

/* Waits until the condition holds, and polls meanwhile. What was written before it came to hold is read after it. */
#define GASNET_BLOCKUNTIL(condition)                                                                                   \
    do {                                                                                                               \
        if (!(condition)) {                                                                                            \
            unsigned gasnetl_turn_ = 0;                                                                                \
            do                                                                                                         \
                gasnetl_block(&gasnetl_turn_);                                                                         \
            while (!(condition));                                                                                      \
        }                                                                                                              \
        __atomic_thread_fence(__ATOMIC_ACQUIRE);                                                                       \
    } while (0)
void gasnetl_block(unsigned *turn);

/* ---- Transfers. The far side lies in the node's segment, the near side anywhere. */

typedef struct gasnetl_op *gasnet_handle_t;
#define GASNET_INVALID_HANDLE ((gasnet_handle_t)0)

void gasnet_get(void *dest, gasnet_node_t node, void *src, size_t nbytes);
void gasnet_get_bulk(void *dest, gasnet_node_t node, void *src, size_t nbytes);
void gasnet_put(gasnet_node_t node, void *dest, void *src, size_t nbytes);
void gasnet_put_bulk(gasnet_node_t node, void *dest, void *src, size_t nbytes);
void gasnet_memset(gasnet_node_t node, void *dest, int val, size_t nbytes);

gasnet_handle_t gasnet_get_nb(void *dest, gasnet_node_t node, void *src, size_t nbytes);
gasnet_handle_t gasnet_get_nb_bulk(void *dest, gasnet_node_t node, void *src, size_t nbytes);
gasnet_handle_t gasnet_put_nb(gasnet_node_t node, void *dest, void *src, size_t nbytes);
gasnet_handle_t gasnet_put_nb_bulk(gasnet_node_t node, void *dest, void *src, size_t nbytes);
gasnet_handle_t gasnet_memset_nb(gasnet_node_t node, void *dest, int val, size_t nbytes);

int gasnet_try_syncnb(gasnet_handle_t handle);
void gasnet_wait_syncnb(gasnet_handle_t handle);
int gasnet_try_syncnb_all(gasnet_handle_t *handles, size_t numhandles);
void gasnet_wait_syncnb_all(gasnet_handle_t *handles, size_t numhandles);
int gasnet_try_syncnb_some(gasnet_handle_t *handles, size_t numhandles);
void gasnet_wait_syncnb_some(gasnet_handle_t *handles, size_t numhandles);

void gasnet_get_nbi(void *dest, gasnet_node_t node, void *src, size_t nbytes);
void gasnet_get_nbi_bulk(void *dest, gasnet_node_t node, void *src, size_t nbytes);
void gasnet_put_nbi(gasnet_node_t node, void *dest, void *src, size_t nbytes);
void gasnet_put_nbi_bulk(gasnet_node_t node, void *dest, void *src, size_t nbytes);
void gasnet_memset_nbi(gasnet_node_t node, void *dest, int val, size_t nbytes);

int gasnet_try_syncnbi_gets(void);
int gasnet_try_syncnbi_puts(void);
int gasnet_try_syncnbi_all(void);
void gasnet_wait_syncnbi_gets(void);
void gasnet_wait_syncnbi_puts(void);
void gasnet_wait_syncnbi_all(void);

void gasnet_begin_nbi_accessregion(void);
gasnet_handle_t gasnet_end_nbi_accessregion(void);

/* ---- Transfers of a value, of 1 to SIZEOF_GASNET_REGISTER_VALUE_T bytes. */

typedef uint64_t gasnet_register_value_t;
#define SIZEOF_GASNET_REGISTER_VALUE_T 8
typedef struct gasnetl_op *gasnet_valget_handle_t;

void gasnet_put_val(gasnet_node_t node, void *dest, gasnet_register_value_t value, size_t nbytes);
gasnet_handle_t gasnet_put_nb_val(gasnet_node_t node, void *dest, gasnet_register_value_t value, size_t nbytes);
void gasnet_put_nbi_val(gasnet_node_t node, void *dest, gasnet_register_value_t value, size_t nbytes);
gasnet_register_value_t gasnet_get_val(gasnet_node_t node, void *src, size_t nbytes);
gasnet_valget_handle_t gasnet_get_nb_val(gasnet_node_t node, void *src, size_t nbytes);
gasnet_register_value_t gasnet_wait_syncnb_valget(gasnet_valget_handle_t handle);

/* ---- The barrier. */

#define GASNET_BARRIERFLAG_ANONYMOUS 1
#define GASNET_BARRIERFLAG_MISMATCH 2

void gasnet_barrier_notify(int id, int flags);
int gasnet_barrier_wait(int id, int flags);
int gasnet_barrier_try(int id, int flags);

#include "gasnet_messages.h"
#include "gasnet_vis.h"
#include "gasnet_atomics.h"
#include "gasnet_coll.h"

#ifdef __cplusplus
}
#endif

#endif
