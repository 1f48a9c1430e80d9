#include "stage.h"

#include <stdatomic.h>
#include <string.h>

#include "handlers.h"

enum { ROOMS = 8 }; /* of each process at each */

/* What is in a room of a target, and its copy here. */
struct room {
    gasnet_handle_t put;
    bool is_begun;       /* its target isn't told yet */
    atomic_bool is_full; /* the target hasn't added it yet */
    int node;
    struct comexg_scaled scaled;
    struct comexg_rows rows;
};

static struct room rooms[ROOMS];
static int next;   /* the room that is taken next: of those that are begun the oldest, or a free one */
static char *here; /* the rooms for the others, and behind them what goes to theirs */
static char *there[GASNET_MAXNODES];

/* ---- Where rooms are. */

static size_t all_rooms(int processes) { return (size_t)processes * ROOMS * COMEXG_ROOM; }

static char *room_at(char *first, int process, int room) {
    return first + ((size_t)process * ROOMS + (size_t)room) * COMEXG_ROOM;
}

void comexg_stage_start(void) {
    here = caf_heap_take(&comexg_state.heap, all_rooms(comexg_state.size + 1));
    MPI_Allgather(&here, sizeof here, MPI_BYTE, there, sizeof here, MPI_BYTE, comexg_state.world);
}

bool comexg_stage_is_at(int node) { return here && there[node]; }

/* ---- Sending. */

/* Tells the target of a room that its numbers are there. */
static void announce(int number) {
    struct room *room = &rooms[number];
    const struct comexg_rows *rows = &room->rows;
    const int32_t *scale = room->scaled.scale;
    const uint64_t place = comexg_address(rows->dst);
    gasnet_wait_syncnb(room->put);
    room->is_begun = false;
    GASNET_SAFE(gasnet_AMRequestShort11((gasnet_node_t)room->node, COMEXG_ADD_ROOM, room->scaled.op, scale[0], scale[1],
                                        scale[2], scale[3], comexg_low(place), comexg_high(place), (int32_t)rows->bytes,
                                        (int32_t)rows->dst_stride, (int32_t)rows->count, number));
}

/* Tells of those that are there already, in their order. */
static void announce_some(void) {
    for (int i = 0; i < ROOMS; i++) {
        const int number = (next + i) % ROOMS;
        if (!rooms[number].is_begun)
            continue;
        if (gasnet_try_syncnb(rooms[number].put) != GASNET_OK)
            return;
        rooms[number].put = GASNET_INVALID_HANDLE;
        announce(number);
    }
}

void comexg_stage_end(void) {
    for (int i = 0; i < ROOMS; i++)
        if (rooms[(next + i) % ROOMS].is_begun)
            announce((next + i) % ROOMS);
}

/* A room that the target has emptied. */
static int take_room(void) {
    const int number = next;
    struct room *room = &rooms[number];
    if (room->is_begun)
        announce(number);
    GASNET_BLOCKUNTIL(!atomic_load_explicit(&room->is_full, memory_order_acquire));
    next = (next + 1) % ROOMS;
    return number;
}

/* Puts rows together in a room's copy, where they don't lie so; answers where their bytes are. */
static void *packed(const struct comexg_rows *rows, int number) {
    char *own = room_at(here, comexg_state.size, number);
    if (rows->count == 1 || rows->src_stride == rows->bytes)
        return (void *)(uintptr_t)rows->src;
    for (size_t i = 0; i < rows->count; i++)
        memcpy(own + i * rows->bytes, rows->src + i * rows->src_stride, rows->bytes);
    return own;
}

void comexg_stage_rows(const struct comexg_scaled *scaled, int node, const struct comexg_rows *rows) {
    const int number = take_room();
    struct room *room = &rooms[number];
    room->node = node;
    room->scaled = *scaled;
    room->rows = *rows;
    room->is_begun = true;
    atomic_store_explicit(&room->is_full, true, memory_order_relaxed);
    comexg_add_begins(node, comexg_range(rows->dst, (rows->count - 1) * rows->dst_stride + rows->bytes));
    room->put = gasnet_put_nb_bulk((gasnet_node_t)node, room_at(there[node], comexg_state.me, number),
                                   packed(rows, number), rows->count * rows->bytes);
    announce_some();
}

/* ---- Handlers. */

void comexg_add_room_handler(gasnet_token_t from, int32_t op, int32_t scale0, int32_t scale1, int32_t scale2,
                             int32_t scale3, int32_t low, int32_t high, int32_t row, int32_t stride, int32_t count,
                             int32_t number) {
    const struct comexg_scaled scaled = { op, { scale0, scale1, scale2, scale3 } };
    const char *src = room_at(here, comexg_sender(from), number);
    char *dst = (char *)(uintptr_t)comexg_join(low, high);
    gasnet_hsl_lock(&comexg_state.lock);
    for (int32_t i = 0; i < count; i++, src += row, dst += stride)
        comexg_add(&scaled, dst, src, (size_t)row);
    gasnet_hsl_unlock(&comexg_state.lock);
    GASNET_SAFE(gasnet_AMReplyShort1(from, COMEXG_ROOM_ADDED, number));
}

void comexg_room_added_handler(gasnet_token_t from, int32_t number) {
    atomic_store_explicit(&rooms[number].is_full, false, memory_order_release);
    comexg_added_handler(from);
}
