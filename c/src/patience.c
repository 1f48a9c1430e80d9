#include "patience.h"

#include <sys/resource.h>

/* Whether the system took the processor from the thread for others since that was last asked. */
static bool was_switched(struct gasnetl_patience *patience) {
    struct rusage usage;
    if (getrusage(RUSAGE_THREAD, &usage))
        return false;
    bool is_more = usage.ru_nivcsw > patience->switches;
    patience->switches = usage.ru_nivcsw;
    return is_more;
}

/* Whether the processor was taken between the last look of a spin and this one: then no spin is made for a while. */
static bool was_taken(struct gasnetl_patience *patience, uint64_t now) {
    if (now - patience->looked < GASNETL_PATIENCE_TAKEN || !was_switched(patience))
        return false;
    bool is_soon = patience->pause && now - patience->until < patience->pause;
    patience->pause = is_soon ? 2 * patience->pause : GASNETL_PATIENCE_PAUSE;
    if (patience->pause > GASNETL_PATIENCE_MOST_PAUSE)
        patience->pause = GASNETL_PATIENCE_MOST_PAUSE;
    patience->until = now + patience->pause;
    return true;
}

static bool may_spin(const struct gasnetl_patience *patience, uint64_t now) {
    return now >= patience->until &&
           (patience->failed < GASNETL_PATIENCE_FAILED || patience->quick >= patience->wanted);
}

static void spin_failed(struct gasnetl_patience *patience) {
    if (++patience->failed <= GASNETL_PATIENCE_FAILED)
        patience->wanted = 1;
    else if (patience->wanted < GASNETL_PATIENCE_MOST_WANTED)
        patience->wanted *= 2;
    patience->quick = 0;
}

bool gasnetl_patience_is_over(struct gasnetl_patience *patience, unsigned turn, unsigned most, uint64_t now) {
    if (turn == 1) {
        patience->begun = patience->looked = now;
        patience->spins = may_spin(patience, now);
        patience->has_slept = false;
    }
    if (patience->has_slept)
        return true;
    bool is_taken = was_taken(patience, now);
    patience->looked = now;
    if (patience->spins && !is_taken && turn < most)
        return false;
    if (patience->spins && !is_taken)
        spin_failed(patience);
    patience->has_slept = true;
    return true;
}

void gasnetl_patience_came(struct gasnetl_patience *patience, unsigned turn, uint64_t now) {
    if (!turn)
        return;
    if (!patience->has_slept && !was_taken(patience, now))
        patience->failed = 0;
    else if (patience->has_slept && !patience->spins && now - patience->begun < GASNETL_PATIENCE_SHORT)
        patience->quick++;
}
