#include "far.h"

#include <stdlib.h>
#include <string.h>

#include "errors.h"
#include "pieces.h"
#include "state.h"

enum { ROOM = 8192, LONG_RUN = 4096 };

/* How a message tells a section: its dimensions, or the addresses of its runs. The packed bytes of a put follow. */
struct head {
    uint64_t base, run;
    uint64_t first, length; /* which bytes of the section the message has or asks for */
    uint32_t rank, listed;  /* one of them is 0 */
};

struct stretch {
    uint64_t count;
    int64_t stride;
};

_Static_assert(sizeof(struct head) + CAF_RANKS * sizeof(struct stretch) < ROOM / 2, "a message has room for bytes");

enum { LEAST_ROOM = 256 }; /* for bytes behind a head */

/* The bytes that a message may have which needs so many: those of a packet, if they are enough. */
static size_t room_for(size_t least) {
    const size_t packet = gasnet_AMMaxMedium();
    return least <= packet ? packet : ROOM;
}

/* A message as it is made. */
struct letter {
    _Alignas(16) unsigned char bytes[ROOM];
    size_t head; /* the bytes of the head and what belongs to it */
    size_t length;
};

/* ---- The order of puts and gets. */

static bool has_open(const struct caf_window *puts) { return puts->open || puts->has_puts; }

void caf_settle(int node) {
    struct caf_window *puts = &caf_state.peers[node].puts;
    if (puts->has_puts)
        gasnet_wait_syncnbi_puts();
    puts->has_puts = false;
    GASNET_BLOCKUNTIL(!puts->open);
}

void caf_settle_all(void) {
    for (int node = 0; node < caf_state.images; node++)
        if (has_open(&caf_state.peers[node].puts))
            caf_settle(node);
}

/* Waits for the puts that share bytes with this section. */
static void keep_order(int node, const struct caf_section *section, bool is_put) {
    struct caf_window *puts = &caf_state.peers[node].puts;
    uintptr_t low, high;
    if (!is_put && !has_open(puts))
        return;
    caf_section_hull(section, &low, &high);
    if (has_open(puts) && low < puts->high && puts->low < high)
        caf_settle(node);
    if (!is_put)
        return;
    bool is_first = !has_open(puts);
    puts->low = is_first || low < puts->low ? low : puts->low;
    puts->high = is_first || high > puts->high ? high : puts->high;
}

static bool is_in_segment(int node, uintptr_t at, size_t length) {
    uintptr_t base = (uintptr_t)caf_state.segments[node].addr, size = caf_state.segments[node].size;
    return at >= base && at - base <= size && length <= size - (at - base);
}

/* ---- Messages: a part of a section by its dimensions, where none has a table; else by a list of its runs. */

static bool has_table(const struct caf_section *section) {
    for (int k = 0; k < section->rank; k++)
        if (section->dim[k].places)
            return true;
    return false;
}

static void write_strided(struct letter *letter, const struct caf_section *section, size_t first, size_t length) {
    struct head head = { section->base, section->run, first, length, (uint32_t)section->rank, 0 };
    struct stretch *stretches = (struct stretch *)(letter->bytes + sizeof head);
    for (int k = 0; k < section->rank; k++)
        stretches[k] = (struct stretch){ section->dim[k].count, section->dim[k].stride };
    letter->head = sizeof head + (size_t)section->rank * sizeof *stretches;
    letter->length = letter->head;
    memcpy(letter->bytes, &head, sizeof head);
}

static void write_listed(struct letter *letter, struct caf_walk *walk, size_t runs) {
    size_t run = walk->section->run, length;
    struct head head = { 0, run, 0, runs * run, 0, (uint32_t)runs };
    uint64_t *addresses = (uint64_t *)(letter->bytes + sizeof head);
    for (size_t i = 0; i < runs; i++)
        addresses[i] = caf_walk_next(walk, run, &length);
    letter->head = sizeof head + runs * sizeof *addresses;
    letter->length = letter->head;
    memcpy(letter->bytes, &head, sizeof head);
}

/* The section that a message tells; its list, where it has one, is written as a table of places. */
static struct caf_section read_letter(const unsigned char *bytes, struct head *head, size_t *length,
                                      ptrdiff_t *places) {
    memcpy(head, bytes, sizeof *head);
    struct caf_section section = caf_section_bytes((uintptr_t)head->base, (size_t)head->run);
    const struct stretch *stretches = (const struct stretch *)(bytes + sizeof *head);
    const uint64_t *addresses = (const uint64_t *)(bytes + sizeof *head);
    for (uint32_t k = 0; k < head->rank; k++)
        caf_section_add(&section, stretches[k].count, (ptrdiff_t)stretches[k].stride, NULL);
    for (uint32_t i = 0; i < head->listed; i++)
        places[i] = (ptrdiff_t)addresses[i];
    if (head->listed)
        caf_section_add(&section, head->listed, 0, places);
    *length = sizeof *head + head->rank * sizeof *stretches + head->listed * sizeof *addresses;
    return section;
}

enum { LISTED = ROOM / sizeof(ptrdiff_t) };

/* ---- Sections of the segment: GASNet's transfers of many pieces pack them. */

static bool is_section_in_segment(int node, const struct caf_section *section) {
    uintptr_t low, high;
    caf_section_hull(section, &low, &high);
    return is_in_segment(node, low, high - low);
}

/* A section without tables as GASNet's strided transfers have it, beside the same bytes that lie together here. */
struct strided {
    size_t counts[CAF_RANKS + 1], there[CAF_RANKS], here[CAF_RANKS];
};

static struct strided strided_of(const struct caf_section *section) {
    struct strided all = { .counts = { section->run } };
    size_t length = section->run;
    for (int k = 0; k < section->rank; k++) {
        all.counts[k + 1] = section->dim[k].count;
        all.there[k] = (size_t)section->dim[k].stride;
        all.here[k] = length;
        length *= section->dim[k].count;
    }
    return all;
}

/* The places of a section's runs, as its indexed ones have them; freed by the caller. */
static void **places_of(const struct caf_section *section, size_t count) {
    void **places = caf_memory(count * sizeof *places);
    struct caf_walk walk = caf_walk_from(section, 0);
    size_t length;
    for (size_t i = 0; i < count; i++)
        places[i] = (void *)caf_walk_next(&walk, section->run, &length);
    return places;
}

static void put_in_segment(int node, const struct caf_section *to, const void *bytes) {
    void *from = (void *)(uintptr_t)bytes;
    if (has_table(to)) {
        const size_t count = caf_section_count(to);
        void **places = places_of(to, count);
        gasnetl_puti_nbi((gasnet_node_t)node, count, places, to->run, 1, &from, count * to->run);
        free(places);
    } else {
        const struct strided all = strided_of(to);
        gasnetl_puts_nbi((gasnet_node_t)node, (void *)to->base, all.there, from, all.here, all.counts,
                         (size_t)to->rank);
    }
    caf_state.peers[node].puts.has_puts = true;
}

static void get_from_segment(int node, const struct caf_section *from, void *bytes) {
    if (has_table(from)) {
        const size_t count = caf_section_count(from);
        void **places = places_of(from, count);
        gasnet_geti_bulk(1, &bytes, count * from->run, (gasnet_node_t)node, count, places, from->run);
        free(places);
    } else {
        const struct strided all = strided_of(from);
        gasnet_gets_bulk(bytes, all.here, (gasnet_node_t)node, (void *)from->base, all.there, all.counts,
                         (size_t)from->rank);
    }
}

/* ---- Puts into other memory. */

void caf_put_handler(gasnet_token_t from, void *bytes, size_t length) {
    struct head head;
    ptrdiff_t places[LISTED];
    size_t behind;
    (void)length;
    const struct caf_section section = read_letter(bytes, &head, &behind, places);
    caf_unpack(&section, head.first, (unsigned char *)bytes + behind, head.length);
    gasnet_AMReplyShort0(from, CAF_PUT_DONE);
}

void caf_put_done_handler(gasnet_token_t from) { caf_state.peers[caf_sender(from)].puts.open--; }

static void send_put(int node, struct letter *letter, const unsigned char *bytes, size_t length) {
    memcpy(letter->bytes + letter->length, bytes, length);
    caf_state.peers[node].puts.open++;
    gasnet_AMRequestMedium0((gasnet_node_t)node, CAF_PUT, letter->bytes, letter->length + length);
}

static void put_strided(int node, const struct caf_section *to, const unsigned char *bytes) {
    struct letter letter;
    size_t whole = caf_section_length(to), piece;
    for (size_t done = 0; done < whole; done += piece) {
        size_t front = sizeof(struct head) + (size_t)to->rank * sizeof(struct stretch),
               room = room_for(front + LEAST_ROOM) - front;
        piece = whole - done < room ? whole - done : room;
        write_strided(&letter, to, done, piece);
        send_put(node, &letter, bytes + done, piece);
    }
}

static void put_listed(int node, const struct caf_section *to, const unsigned char *bytes) {
    struct letter letter;
    const size_t each = to->run + sizeof(uint64_t), room = room_for(sizeof(struct head) + each);
    size_t left = caf_section_count(to), most = (room - sizeof(struct head)) / each, runs;
    struct caf_walk walk = caf_walk_from(to, 0);
    for (; left; left -= runs, bytes += runs * to->run) {
        runs = left < most ? left : most;
        write_listed(&letter, &walk, runs);
        send_put(node, &letter, bytes, runs * to->run);
    }
}

static void put_run(int node, uintptr_t at, const unsigned char *bytes, size_t length) {
    const struct caf_section run = caf_section_bytes(at, length);
    if (!is_in_segment(node, at, length)) {
        put_strided(node, &run, bytes);
        return;
    }
    gasnet_put_nbi((gasnet_node_t)node, (void *)at, (void *)(uintptr_t)bytes, length);
    caf_state.peers[node].puts.has_puts = true;
}

void caf_store(int node, const struct caf_section *to, const void *bytes) {
    size_t whole = caf_section_length(to);
    if (!whole)
        return;
    if (node == caf_state.me) {
        caf_unpack(to, 0, bytes, whole);
        return;
    }
    keep_order(node, to, true);
    if (is_section_in_segment(node, to)) {
        put_in_segment(node, to, bytes);
        return;
    }
    if (to->rank && to->run < LONG_RUN) {
        (has_table(to) ? put_listed : put_strided)(node, to, bytes);
        return;
    }
    struct caf_walk walk = caf_walk_from(to, 0);
    for (size_t done = 0, piece; done < whole; done += piece) {
        uintptr_t at = caf_walk_next(&walk, to->run, &piece);
        put_run(node, at, (const unsigned char *)bytes + done, piece);
    }
}

/* ---- Gets from other memory. */

/* Where the answers to the requests of one get go. */
struct getting {
    unsigned char *bytes;
    size_t left;
};

void caf_get_handler(gasnet_token_t from, void *bytes, size_t length, int32_t low, int32_t high, int32_t place_low,
                     int32_t place_high) {
    _Alignas(16) unsigned char packed[ROOM];
    struct head head;
    ptrdiff_t places[LISTED];
    size_t behind;
    (void)length;
    const struct caf_section section = read_letter(bytes, &head, &behind, places);
    caf_pack(&section, head.first, packed, head.length);
    gasnet_AMReplyMedium4(from, CAF_GET_DONE, packed, head.length, low, high, place_low, place_high);
}

void caf_get_done_handler(gasnet_token_t from, void *bytes, size_t length, int32_t low, int32_t high, int32_t place_low,
                          int32_t place_high) {
    struct getting *getting = (struct getting *)(uintptr_t)caf_join(low, high);
    (void)from;
    memcpy(getting->bytes + caf_join(place_low, place_high), bytes, length);
    getting->left -= length;
}

static void send_get(int node, const struct letter *letter, const struct getting *getting, size_t place) {
    uint64_t at = caf_address(getting);
    gasnet_AMRequestMedium4((gasnet_node_t)node, CAF_GET, letter->bytes, letter->length, caf_low(at), caf_high(at),
                            caf_low(place), caf_high(place));
}

static void get_strided(int node, const struct caf_section *from, struct getting *getting, size_t place) {
    struct letter letter;
    const size_t room = room_for(LEAST_ROOM);
    size_t whole = caf_section_length(from), piece;
    for (size_t done = 0; done < whole; done += piece) {
        piece = whole - done < room ? whole - done : room;
        write_strided(&letter, from, done, piece);
        send_get(node, &letter, getting, place + done);
    }
}

static void get_listed(int node, const struct caf_section *from, struct getting *getting) {
    struct letter letter;
    const size_t room = room_for(from->run > LEAST_ROOM ? from->run : LEAST_ROOM);
    size_t left = caf_section_count(from), runs, place = 0, most = (room - sizeof(struct head)) / sizeof(uint64_t);
    if (most > room / from->run)
        most = room / from->run;
    struct caf_walk walk = caf_walk_from(from, 0);
    for (; left; left -= runs, place += runs * from->run) {
        runs = left < most ? left : most;
        write_listed(&letter, &walk, runs);
        send_get(node, &letter, getting, place);
    }
}

/* Gets long runs one by one. */
static void get_runs(int node, const struct caf_section *from, struct getting *getting) {
    size_t whole = getting->left;
    struct caf_walk walk = caf_walk_from(from, 0);
    for (size_t done = 0, piece; done < whole; done += piece) {
        uintptr_t at = caf_walk_next(&walk, from->run, &piece);
        const struct caf_section run = caf_section_bytes(at, piece);
        if (is_in_segment(node, at, piece)) {
            gasnet_get_nbi_bulk(getting->bytes + done, (gasnet_node_t)node, (void *)at, piece);
            getting->left -= piece;
        } else
            get_strided(node, &run, getting, done);
    }
    gasnet_wait_syncnbi_gets();
}

void caf_fetch(int node, const struct caf_section *from, void *bytes) {
    struct getting getting = { bytes, caf_section_length(from) };
    volatile size_t *left = &getting.left;
    if (!getting.left)
        return;
    if (node == caf_state.me) {
        caf_pack(from, 0, bytes, getting.left);
        return;
    }
    keep_order(node, from, false);
    if (is_section_in_segment(node, from)) {
        get_from_segment(node, from, bytes);
        return;
    }
    if (from->rank == 0 || from->run >= LONG_RUN)
        get_runs(node, from, &getting);
    else if (has_table(from))
        get_listed(node, from, &getting);
    else
        get_strided(node, from, &getting, 0);
    GASNET_BLOCKUNTIL(!*left);
}
