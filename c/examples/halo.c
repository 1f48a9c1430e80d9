/* Heat on a ring of cells, of which each node has an equal part. A step needs the cell beyond each end of the part, so
 * each node puts its outermost cells to its two neighbours: a halo exchange. The heat begins as one wave around the
 * ring, whose height after any number of steps has a formula, so each node knows what its cells have to be. */
#define GASNET_SEQ 1
#include <gasnet.h>
#include <math.h>
#include <stdio.h>
#include <stdlib.h>

enum { RING = 240 };

/* What each node's segment holds: the cells beyond its ends, those of even steps and those of odd ones. */
struct halo {
    double left[2], right[2];
};

static gasnet_seginfo_t segments[GASNET_MAXNODES];

/* The cell at this place of the ring, after so many steps. */
static double wave(int place, int steps) {
    const double pi = acos(-1.0);
    return cos(2 * pi * place / RING) * pow(cos(pi / RING), 2 * steps);
}

/* Puts the outermost cells to the neighbours. After the barrier the neighbours' cells are here too. */
static void exchange(double *cells, int count, int step) {
    const int me = gasnet_mynode(), nodes = gasnet_nodes(), before = (me + nodes - 1) % nodes, after = (me + 1) % nodes;
    struct halo *left = segments[before].addr, *right = segments[after].addr;
    gasnet_put_nbi(before, &left->right[step % 2], &cells[0], sizeof *cells);
    gasnet_put_nbi(after, &right->left[step % 2], &cells[count - 1], sizeof *cells);
    gasnet_wait_syncnbi_puts();
    gasnet_barrier_notify(0, GASNET_BARRIERFLAG_ANONYMOUS);
    GASNET_SAFE(gasnet_barrier_wait(0, GASNET_BARRIERFLAG_ANONYMOUS));
}

static void advance(double *cells, int count, double left, double right) {
    for (int i = 0; i < count; i++) {
        const double own = cells[i], next = i + 1 < count ? cells[i + 1] : right;
        cells[i] = (left + 2 * own + next) / 4;
        left = own;
    }
}

static void fill(double *cells, int count) {
    for (int i = 0; i < count; i++)
        cells[i] = wave(gasnet_mynode() * count + i, 0);
}

static void run(double *cells, int count, int steps) {
    const struct halo *halo = segments[gasnet_mynode()].addr;
    for (int step = 0; step < steps; step++) {
        exchange(cells, count, step);
        advance(cells, count, halo->left[step % 2], halo->right[step % 2]);
    }
}

static void check(const double *cells, int count, int steps) {
    for (int i = 0; i < count; i++)
        if (fabs(cells[i] - wave(gasnet_mynode() * count + i, steps)) > 1e-12) {
            fprintf(stderr, "halo: node %d: cell %d is %f\n", gasnet_mynode(), i, cells[i]);
            gasnet_exit(1);
        }
}

int main(int argc, char **argv) {
    double cells[RING];
    GASNET_SAFE(gasnet_init(&argc, &argv));
    GASNET_SAFE(gasnet_attach(NULL, 0, GASNET_PAGESIZE, 0));
    GASNET_SAFE(gasnet_getSegmentInfo(segments, gasnet_nodes()));
    const int steps = argc > 1 ? atoi(argv[1]) : 1000, count = RING / gasnet_nodes();
    if (RING % gasnet_nodes())
        gasnet_exit(2); /* the parts have to be equal */
    fill(cells, count);
    run(cells, count, steps);
    check(cells, count, steps);
    if (gasnet_mynode() == 0)
        printf("halo of %d nodes: after %d steps the height is %.4f\n", gasnet_nodes(), steps, cells[0]);
    gasnet_exit(0);
}
