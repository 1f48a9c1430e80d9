/* Pieces of a segment as a message names them: runs of pieces of one length that are equally far apart.
 *
 * A run is two to four numbers: how far its first piece is from the end of the piece before it, or from the beginning
 * of the segment; twice the length of a piece, plus one where it has several; and of such a one how many these are, and
 * how far their beginnings are apart. The two distances may be negative: they are numbered 0, -1, 1, -2 and so on. A
 * number has seven bits in a byte, the low ones first, and each byte but the last has its high bit set. */
#ifndef GASNETL_RUNS_H
#define GASNETL_RUNS_H

#include <stdbool.h>
#include <stddef.h>
#include <stdint.h>

#include "gasnet_c.h"

struct gasnetl_run_of_pieces {
    uint64_t offset; /* of the first one in the segment */
    uint64_t nbytes; /* of each one */
    uint64_t count;
    int64_t stride; /* between the beginnings of two */
};

enum { GASNETL_RUN_MOST = 20 }; /* the bytes of a run at most: an offset has 41 bits, a length and a count 14 */

/* Runs as they are written. */
struct gasnetl_runs {
    struct gasnetl_run_of_pieces
        last;      /* which isn't written yet: more may belong to it. None where it has a count of 0 */
    uint64_t end;  /* where the last piece of those before it ends */
    size_t length; /* the bytes of those */
    uint8_t bytes[GASNET_C_PAYLOAD + GASNETL_RUN_MOST];
};

/* Begins with none. */
void gasnetl_runs_start(struct gasnetl_runs *runs);

/* Adds pieces of a run. At most one run is written by that. */
void gasnetl_runs_add(struct gasnetl_runs *runs, const struct gasnetl_run_of_pieces *run);

/* Writes the last one. How many bytes all of them have. */
size_t gasnetl_runs_end(struct gasnetl_runs *runs);

/* How many bytes the pieces have that these runs name, at most GASNET_C_PAYLOAD: none is empty, and each lies in the
 * first `size` bytes of the segment. 0 where that isn't so, or these bytes aren't runs. */
size_t gasnetl_runs_judge(const uint8_t *bytes, size_t length, uint64_t size);

/* Copies of pieces, from places that are equally far apart to others. */
struct gasnetl_copies {
    uint8_t *to;
    const uint8_t *from;
    int64_t to_step, from_step;
    size_t nbytes; /* of a piece */
    uint64_t count;
};

void gasnetl_copy_pieces(const struct gasnetl_copies *all);

/* Copies the bytes of the pieces to the data or from it, where they stand in order. The runs are judged. */
void gasnetl_runs_gather(const uint8_t *bytes, size_t length, const uint8_t *segment, uint8_t *data);
void gasnetl_runs_spread(const uint8_t *bytes, size_t length, uint8_t *segment, const uint8_t *data);

#endif
