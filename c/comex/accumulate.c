#include "accumulate.h"

#include <string.h>

#include "handlers.h"
#include "stage.h"

enum { UNIT = 16, LARGEST = 8192 }; /* numbers aren't cut: the largest one has 16 bytes */
enum { LONG = 131072 };             /* rows of so many bytes go by rooms */

/* What is packed: one thread sends. */
static _Alignas(UNIT) char packet[LARGEST];

/* The bytes that a message takes. */
static size_t most(void) {
    const size_t medium = gasnet_AMMaxMedium();
    return (medium < LARGEST ? medium : LARGEST) / UNIT * UNIT;
}

static size_t at_most(size_t a, size_t b) { return a < b ? a : b; }

/* ---- Rows that are a stride apart. */

/* Puts the rows together where they don't lie so; answers where their bytes are. */
static const void *packed(const struct comexg_rows *rows) {
    if (rows->count == 1 || rows->src_stride == rows->bytes)
        return rows->src;
    for (size_t i = 0; i < rows->count; i++)
        memcpy(packet + i * rows->bytes, rows->src + i * rows->src_stride, rows->bytes);
    return packet;
}

static void send_some(const struct comexg_scaled *scaled, int node, const struct comexg_rows *rows) {
    const int32_t *scale = scaled->scale;
    const uint64_t place = comexg_address(rows->dst);
    comexg_add_begins(node, comexg_range(rows->dst, (rows->count - 1) * rows->dst_stride + rows->bytes));
    GASNET_SAFE(gasnet_AMRequestMedium9((gasnet_node_t)node, COMEXG_ADD_ROWS, packed(rows), rows->count * rows->bytes,
                                        scaled->op, scale[0], scale[1], scale[2], scale[3], comexg_low(place),
                                        comexg_high(place), (int32_t)rows->bytes, (int32_t)rows->dst_stride));
}

/* How rows go: by Mediums, or where they are many by rooms. */
struct way {
    size_t most;
    void (*send)(const struct comexg_scaled *scaled, int node, const struct comexg_rows *rows);
};

static struct way way_of(int node, const struct comexg_rows *rows) {
    const bool is_long = rows->bytes * rows->count >= LONG && comexg_stage_is_at(node);
    return is_long ? (struct way){ COMEXG_ROOM, comexg_stage_rows } : (struct way){ most(), send_some };
}

/* Sends a row that is longer than a message. */
static void send_long(const struct way *way, const struct comexg_scaled *scaled, int node,
                      const struct comexg_rows *row) {
    for (size_t done = 0; done < row->bytes;) {
        const size_t part = at_most(row->bytes - done, way->most);
        way->send(scaled, node, &(struct comexg_rows){ row->src + done, row->dst + done, part, 1, part, part });
        done += part;
    }
}

void comexg_send_rows(const struct comexg_scaled *scaled, int node, const struct comexg_rows *rows) {
    const struct way way = way_of(node, rows);
    const size_t fit = way.most / rows->bytes, each = fit ? fit : 1;
    for (size_t done = 0; done < rows->count; done += each) {
        struct comexg_rows part = *rows;
        part.src += done * rows->src_stride;
        part.dst += done * rows->dst_stride;
        part.count = at_most(each, rows->count - done);
        if (fit)
            way.send(scaled, node, &part);
        else
            send_long(&way, scaled, node, &part);
    }
    comexg_stage_end();
}

void comexg_add_rows_handler(gasnet_token_t from, void *bytes, size_t length, int32_t op, int32_t scale0,
                             int32_t scale1, int32_t scale2, int32_t scale3, int32_t low, int32_t high, int32_t row,
                             int32_t stride) {
    const struct comexg_scaled scaled = { op, { scale0, scale1, scale2, scale3 } };
    char *dst = (char *)(uintptr_t)comexg_join(low, high);
    gasnet_hsl_lock(&comexg_state.lock);
    for (size_t at = 0; at < length; at += (size_t)row, dst += stride)
        comexg_add(&scaled, dst, (const char *)bytes + at, (size_t)row);
    gasnet_hsl_unlock(&comexg_state.lock);
    GASNET_SAFE(gasnet_AMReplyShort0(from, COMEXG_ADDED));
}

/* ---- Rows with a place each: 8 bytes of an address, and the row's, filled up to a multiple of 8. */

enum { PLACE = 8 };

static size_t entry(size_t row) { return PLACE + (row + PLACE - 1) / PLACE * PLACE; }

size_t comexg_gather_most(void) { return most() / 4; }

void comexg_gather_end(struct comexg_gather *gather) {
    const struct comexg_scaled *scaled = gather->scaled;
    const int32_t *scale = scaled->scale;
    if (!gather->length)
        return;
    comexg_add_begins(gather->node, gather->range);
    GASNET_SAFE(gasnet_AMRequestMedium6((gasnet_node_t)gather->node, COMEXG_ADD_PLACES, packet, gather->length,
                                        scaled->op, scale[0], scale[1], scale[2], scale[3], (int32_t)gather->row));
    gather->length = 0;
    gather->range = (struct comexg_range){ 0, 0 };
}

void comexg_gather_row(struct comexg_gather *gather, const void *src, void *dst) {
    const uint64_t place = comexg_address(dst);
    if (gather->length + entry(gather->row) > most())
        comexg_gather_end(gather);
    memcpy(packet + gather->length, &place, PLACE);
    memcpy(packet + gather->length + PLACE, src, gather->row);
    gather->length += entry(gather->row);
    gather->range = comexg_hull(gather->range, comexg_range(dst, gather->row));
}

void comexg_add_places_handler(gasnet_token_t from, void *bytes, size_t length, int32_t op, int32_t scale0,
                               int32_t scale1, int32_t scale2, int32_t scale3, int32_t row) {
    const struct comexg_scaled scaled = { op, { scale0, scale1, scale2, scale3 } };
    const char *at = bytes;
    uint64_t place;
    gasnet_hsl_lock(&comexg_state.lock);
    for (; at < (const char *)bytes + length; at += entry((size_t)row)) {
        memcpy(&place, at, PLACE);
        comexg_add(&scaled, (void *)(uintptr_t)place, at + PLACE, (size_t)row);
    }
    gasnet_hsl_unlock(&comexg_state.lock);
    GASNET_SAFE(gasnet_AMReplyShort0(from, COMEXG_ADDED));
}
