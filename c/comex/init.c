/* The start, the end, and errors. */
#include <stdarg.h>
#include <stdio.h>
#include <stdlib.h>

#include "barrier.h"
#include "groups.h"
#include "handlers.h"
#include "order.h"
#include "stage.h"
#include "watch.h"

struct comexg_state comexg_state = { .lock = GASNET_HSL_INITIALIZER };

int comexg_sender(gasnet_token_t token) {
    gasnet_node_t node = 0;
    GASNET_SAFE(gasnet_AMGetMsgSource(token, &node));
    return node;
}

/* ---- Errors. */

void comex_error(const char *msg, int code) {
    fprintf(stderr, "comex: process %d: %s (code %d)\n", comexg_state.me, msg, code);
    fflush(NULL);
    MPI_Abort(MPI_COMM_WORLD, code ? code : 1);
    exit(code ? code : 1);
}

void comexg_die(const char *format, ...) {
    char text[256];
    va_list arguments;
    va_start(arguments, format);
    vsnprintf(text, sizeof text, format, arguments);
    va_end(arguments);
    if (!comexg_state.is_attached)
        comex_error(text, 1);
    fprintf(stderr, "comex: process %d: %s\n", comexg_state.me, text);
    gasnet_exit(1);
    abort();
}

/* ---- The start. */

static gasnet_handlerentry_t handlers[] = {
    { COMEXG_ADD_ROWS, comexg_add_rows_handler },     { COMEXG_ADD_PLACES, comexg_add_places_handler },
    { COMEXG_ADDED, comexg_added_handler },           { COMEXG_ADD_ROOM, comexg_add_room_handler },
    { COMEXG_ROOM_ADDED, comexg_room_added_handler }, { COMEXG_WORD, comexg_word_handler },
    { COMEXG_WORD_DONE, comexg_word_done_handler },   { COMEXG_LOCK, comexg_lock_handler },
    { COMEXG_UNLOCK, comexg_unlock_handler },         { COMEXG_GRANTED, comexg_granted_handler },
    { COMEXG_UNLOCKED, comexg_unlocked_handler },
};

/* The nodes of GASNet are the ranks of MPI: both come by PMIx. */
static void attach(void) {
    gasnet_seginfo_t *segments = comexg_state.segments;
    if (gasnet_init(NULL, NULL) != GASNET_OK)
        comexg_die("gasnet_init failed");
    if (gasnet_nodes() != comexg_state.size || gasnet_mynode() != comexg_state.me)
        comexg_die("this is node %d of %d of GASNet, and rank %d of %d of MPI: start the program by mpirun",
                   gasnet_mynode(), gasnet_nodes(), comexg_state.me, comexg_state.size);
    if (gasnet_attach(handlers, sizeof handlers / sizeof *handlers, gasnet_getMaxLocalSegmentSize(), 0) != GASNET_OK)
        comexg_die("gasnet_attach failed");
    GASNET_SAFE(gasnet_getSegmentInfo(segments, comexg_state.size));
    caf_heap_start(&comexg_state.heap, segments[comexg_state.me].addr, segments[comexg_state.me].size);
    comexg_stage_start();
    comexg_state.is_attached = true;
}

int comex_init_comm(MPI_Comm comm) {
    int has_begun = 0, same = MPI_UNEQUAL;
    if (comexg_state.is_started)
        return COMEX_SUCCESS;
    MPI_Initialized(&has_begun);
    if (!has_begun)
        return COMEX_FAILURE;
    MPI_Comm_compare(comm, MPI_COMM_WORLD, &same);
    if (same != MPI_IDENT && same != MPI_CONGRUENT)
        comexg_die("comex_init_comm: the communicator has to have the processes of MPI_COMM_WORLD, in their order");
    MPI_Comm_dup(comm, &comexg_state.world);
    MPI_Comm_rank(comexg_state.world, &comexg_state.me);
    MPI_Comm_size(comexg_state.world, &comexg_state.size);
    if (!comexg_state.is_attached)
        attach();
    comexg_groups_start();
    comexg_watch_start();
    comexg_state.is_started = true;
    return comex_barrier(COMEX_GROUP_WORLD);
}

int comex_init(void) { return comex_init_comm(MPI_COMM_WORLD); }

int comex_init_args(int *argc, char ***argv) {
    int has_begun = 0;
    MPI_Initialized(&has_begun);
    if (!has_begun)
        MPI_Init(argc, argv);
    return comex_init();
}

/* The header says COMEX_SUCCESS, which is 0; what uses it, and the other ports, take 1 for yes. */
int comex_initialized(void) { return comexg_state.is_started; }

/* ---- The end. GASNet's own comes with the process's: it waits for the other processes'. */

int comex_finalize(void) {
    if (!comexg_state.is_started)
        return COMEX_SUCCESS;
    comex_barrier(COMEX_GROUP_WORLD);
    comexg_watch_end();
    comexg_groups_end();
    MPI_Comm_free(&comexg_state.world);
    comexg_state.is_started = false;
    return COMEX_SUCCESS;
}
