#include "window.h"

void gasnetl_window_start(struct gasnetl_window *window, unsigned most) {
    unsigned size = most < GASNETL_WINDOW_FIRST ? most : GASNETL_WINDOW_FIRST;
    *window = (struct gasnetl_window){ .size = size, .threshold = most, .most = most };
}

void gasnetl_window_answered(struct gasnetl_window *window, unsigned in_flight) {
    if (in_flight < window->size || window->size >= window->most)
        return;
    if (window->size < window->threshold) {
        window->size++;
    } else if (++window->answered >= window->size) {
        window->size++;
        window->answered = 0;
    }
}

static void reduce(struct gasnetl_window *window, unsigned size, uint64_t last) {
    unsigned least = window->most < GASNETL_WINDOW_LEAST ? window->most : GASNETL_WINDOW_LEAST;
    window->size = size > least ? size : least;
    window->answered = 0;
    window->reduced = last;
}

void gasnetl_window_lost(struct gasnetl_window *window, uint64_t order, uint64_t last, unsigned waiting) {
    unsigned fifth = window->size * 4 / 5,
             most = window->size < GASNETL_WINDOW_FIRST ? window->size : GASNETL_WINDOW_FIRST;
    if (order <= window->reduced)
        return;
    if (waiting >= GASNETL_WINDOW_QUEUE)
        reduce(window, window->size / 2, last);
    else
        reduce(window, fifth > most ? fifth : most, last);
    window->threshold = window->size;
}

void gasnetl_window_collapsed(struct gasnetl_window *window, uint64_t last) {
    unsigned first = window->most < GASNETL_WINDOW_FIRST ? window->most : GASNETL_WINDOW_FIRST;
    window->threshold = window->size / 2 > first ? window->size / 2 : first;
    reduce(window, 0, last);
}
