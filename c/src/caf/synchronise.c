#include "synchronise.h"

#include <string.h>

#include "errors.h"
#include "far.h"
#include "state.h"
#include "token.h"

/* gfortran 12 hands on the address of the address of errmsg= of the synchronisations; bin/caf refuses other
 * versions. */
static struct caf_report report_of(int *stat, char *errmsg, size_t length) {
    char *text = NULL;
    if (errmsg)
        memcpy(&text, errmsg, sizeof text);
    return (struct caf_report){ stat, text, length };
}

int caf_sync_team(struct caf_team *team) {
    caf_settle_all();
    caf_tokens_settle();
    gasnet_AMPoll();
    return caf_barrier(team);
}

void _gfortran_caf_sync_all(CAF_ERRORS) {
    const struct caf_report report = report_of(stat, errmsg, errmsg_len);
    caf_start();
    int code = caf_sync_team(caf_state.team);
    bool is_last_part = caf_state.is_allocating && !stat;
    caf_state.is_allocating = false;
    caf_report_code(&report, is_last_part ? 0 : code,
                    "sync all"); /* gfortran 12 leaves out the stat= of the allocate */
}

void _gfortran_caf_sync_memory(CAF_ERRORS) {
    const struct caf_report report = report_of(stat, errmsg, errmsg_len);
    caf_start();
    caf_settle_all();
    gasnet_AMPoll();
    caf_report_success(&report);
}

/* ---- sync images: each statement sends a tick to each image of its set, and uses one of each. */

void caf_tick_handler(gasnet_token_t from) { caf_state.peers[caf_sender_counted(from)].ticks++; }

static void tell(const int *images, int count) {
    for (int i = 0; i < count; i++) {
        int node = caf_node(images ? images[i] : i + 1);
        if (node != caf_state.me && caf_state.peers[node].condition == CAF_RUNNING)
            gasnet_AMRequestShort0(caf_counted(node), CAF_TICK);
    }
}

/* Waits for an image's tick; what it did where none comes any more. */
static int wait_for(int node) {
    struct caf_peer *peer = &caf_state.peers[node];
    GASNET_BLOCKUNTIL(peer->ticks != peer->used || peer->condition != CAF_RUNNING);
    if (peer->ticks != peer->used) {
        peer->used++;
        return 0;
    }
    return peer->condition == CAF_STOPPED ? CAF_STAT_STOPPED_IMAGE : CAF_STAT_FAILED_IMAGE;
}

static int wait_for_all(const int *images, int count) {
    int code = 0;
    for (int i = 0; i < count; i++) {
        int node = caf_node(images ? images[i] : i + 1);
        int other = node == caf_state.me ? 0 : wait_for(node);
        if (other && code != CAF_STAT_STOPPED_IMAGE)
            code = other;
    }
    return code;
}

/* Whether the set is one: each image is there once. Otherwise the error is reported. */
static bool is_set(const struct caf_report *report, const int *images, int count) {
    bool has[GASNET_MAXNODES] = { false };
    for (int i = 0; i < count; i++) {
        int image = images[i];
        if (image < 1 || image > caf_state.team->size) {
            caf_report_error(report, 1, "sync images: image %d: the images are 1 to %d", image, caf_state.team->size);
            return false;
        }
        if (has[image - 1]) {
            caf_report_error(report, CAF_STAT_DUPLICATE, "sync images: image %d is there twice", image);
            return false;
        }
        has[image - 1] = true;
    }
    return true;
}

void _gfortran_caf_sync_images(int count, int *images, CAF_ERRORS) {
    const struct caf_report report = report_of(stat, errmsg, errmsg_len);
    const int *set = count < 0 ? NULL : images;
    caf_start();
    caf_settle_all();
    gasnet_AMPoll();
    if (count < 0)
        count = caf_state.team->size;
    else if (!is_set(&report, images, count))
        return;
    tell(set, count);
    caf_report_code(&report, wait_for_all(set, count), "sync images");
}
