#include "absent.h"

#include <stdio.h>
#include <string.h>

#include "errors.h"
#include "job.h"

enum { REFUSED = GASNETL_CAME_FRESH + 1, UNSEALED, REASONS, SECOND = 1000000, ADDRESS = 80, LINE = GASNETL_LINE - 200 };

/* How a reason is told, behind the nodes of which it holds. */
static const char *const reasons[REASONS] = {
    [GASNETL_CAME_NOTHING] = "nothing came",
    [GASNETL_CAME_OTHER_JOB] = "what came has another GASNET_JOB",
    [GASNETL_CAME_OTHER_VERSION] = "what came is of another version of this library",
    [GASNETL_CAME_SEALED] = "what came is sealed, and this node has no key",
    [GASNETL_CAME_STALE] = "what came is of an earlier run, or it doesn't hear this node",
    [GASNETL_CAME_FRESH] = "it hears this node, and waits too",
    [REFUSED] = "its host says that nobody has the port (ICMP)",
    [UNSEALED] = "what came has no right tag: another key, or a key on one side",
};

void gasnetl_absent_came(struct gasnetl_control *control, uint16_t from, enum gasnetl_came came) {
    if (came > control->came[from])
        control->came[from] = came;
}

/* A refusal says less than what another process at that address sent, and more than that a peer was heard before. */
static int reason_of(const struct gasnetl_job *job, uint16_t node) {
    enum gasnetl_came came = job->control.came[node];
    if (came == GASNETL_CAME_NOTHING && job->network.is_unsealed[node])
        return UNSEALED;
    bool may_be_refused = came == GASNETL_CAME_NOTHING || came == GASNETL_CAME_FRESH;
    return may_be_refused && job->peers.of[node].is_refused ? REFUSED : (int)came;
}

/* Writes behind what a text has, as far as there is room. */
static void add_text(char *text, const char *more) {
    size_t length = strlen(text);
    snprintf(text + length, LINE - length, "%s", more);
}

/* Adds the missing nodes of which a reason holds, and the reason. */
static void add_reason(const struct gasnetl_job *job, const bool *known, int reason, char *text) {
    bool is_first = true;
    for (uint16_t node = 0; node < job->nodes; node++) {
        char address[ADDRESS], name[ADDRESS + 30];
        if (known[node] || reason_of(job, node) != reason)
            continue;
        gasnetl_place_write(&job->network.places.of[node].address, address, sizeof address);
        const char *between = is_first ? *text ? "; " : "" : ", ";
        snprintf(name, sizeof name, "%snode %u (%s)", between, node, address);
        add_text(text, name);
        is_first = false;
    }
    if (is_first)
        return;
    add_text(text, ": ");
    add_text(text, reasons[reason]);
}

static void write_all(const struct gasnetl_job *job, const bool *known, char *text) {
    *text = 0;
    for (int reason = 0; reason < REASONS; reason++)
        add_reason(job, known, reason, text);
}

bool gasnetl_absent_tell(struct gasnetl_job *job, const bool *known, uint64_t time) {
    char text[LINE];
    write_all(job, known, text);
    gasnetl_refuse(0, "waits in gasnet_attach for %.1f s: %s", (double)time / SECOND, text);
    return true;
}

void gasnetl_absent_end(struct gasnetl_job *job, const bool *known, uint64_t time) {
    char text[LINE];
    write_all(job, known, text);
    gasnetl_stop(GASNETL_PEER_GONE,
                 "%s; these didn't come to gasnet_attach for %.1f s, so the job ends (GASNET_PEER_TIMEOUT is how "
                 "long a node waits)",
                 text, (double)time / SECOND);
}
