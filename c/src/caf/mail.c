#include "mail.h"

#include <stdlib.h>
#include <string.h>

#include "errors.h"
#include "state.h"

/* ---- What came. */

static struct caf_mail **find(struct caf_team *team, uint32_t sequence, uint32_t step) {
    struct caf_mail **at = &team->mail;
    while (*at && ((*at)->sequence != sequence || (*at)->step != step))
        at = &(*at)->next;
    return at;
}

static bool is_before(uint32_t sequence, uint32_t other) { return (int32_t)(sequence - other) < 0; }

/* What a message says of itself. */
struct header {
    uint64_t team, length; /* length: of the sender's array */
    uint32_t sequence, step, total;
    int node;
};

/* Notes a mail for the collective that is under way, where its sender's array has another length than this image's. */
static void note_length(struct caf_team *team, const struct caf_mail *mail) {
    if (mail->sequence == team->collective && mail->length != team->length)
        team->odd = mail;
}

static struct caf_mail *make_mail(const struct header *header) {
    struct caf_mail *mail = caf_zeros(sizeof *mail);
    mail->sequence = header->sequence;
    mail->step = header->step;
    mail->total = header->total;
    mail->length = header->length;
    mail->node = header->node;
    mail->bytes = header->total ? caf_memory(header->total) : NULL;
    return mail;
}

static bool is_of(const struct caf_mail *mail, const struct header *header) {
    return mail->length == header->length && mail->total == header->total;
}

/* The mail of a step, which is made where nothing of it came before. Null where its operation is over here, or where
 * the mail is another one, of another member: then it is noted alone. */
static struct caf_mail *mail_of(const struct header *header) {
    struct caf_team *team = caf_team_find(header->team);
    struct caf_mail **at = find(team, header->sequence, header->step);
    bool is_another = *at && !is_of(*at, header);
    if (*at && !is_another)
        return *at;
    if (is_before(header->sequence, team->collective) || (is_another && team->odd))
        return NULL;
    while (*at)
        at = &(*at)->next;
    *at = make_mail(header);
    note_length(team, *at);
    return is_another ? NULL : *at;
}

void caf_mail_handler(gasnet_token_t from, void *bytes, size_t nbytes, int32_t low, int32_t high, int32_t sequence,
                      int32_t step, int32_t length_low, int32_t length_high, int32_t place, int32_t total) {
    const struct header header = { caf_join(low, high), caf_join(length_low, length_high),
                                   (uint32_t)sequence,  (uint32_t)step,
                                   (uint32_t)total,     caf_sender_counted(from) };
    struct caf_mail *mail = mail_of(&header);
    if (!mail || !nbytes)
        return;
    memcpy(mail->bytes + place, bytes, nbytes);
    mail->came += (uint32_t)nbytes;
}

void caf_place_handler(gasnet_token_t from, int32_t low, int32_t high, int32_t sequence, int32_t step,
                       int32_t length_low, int32_t length_high, int32_t place_low, int32_t place_high) {
    const struct header header = {
        caf_join(low, high),     caf_join(length_low, length_high), (uint32_t)sequence, (uint32_t)step, 0,
        caf_sender_counted(from)
    };
    struct caf_mail *mail = mail_of(&header);
    if (mail)
        mail->place = (uintptr_t)caf_join(place_low, place_high);
}

void caf_mail_free(struct caf_mail *mail) {
    free(mail->bytes);
    free(mail);
}

struct caf_operation caf_operation_begin(const char *call, uint64_t length) {
    struct caf_team *team = caf_state.team;
    struct caf_operation operation = { .call = call, .team = team, .length = length, .sequence = caf_team_begin(team) };
    struct caf_mail **at = &team->mail;
    caf_state.call = call;
    team->collective = operation.sequence;
    team->length = length;
    team->odd = NULL;
    while (*at) {
        struct caf_mail *mail = *at;
        if (!is_before(mail->sequence, operation.sequence)) {
            note_length(team, mail);
            at = &mail->next;
            continue;
        }
        *at = mail->next;
        caf_mail_free(mail);
    }
    return operation;
}

void caf_operation_check(const struct caf_operation *operation) {
    const struct caf_team *team = operation->team;
    int image = 0;
    if (!team->odd)
        return;
    while (team->members[image] != team->odd->node)
        image++;
    caf_die("%s: image %d brings %zu bytes, and this image %zu: all images bring as many", operation->call, image + 1,
            (size_t)team->odd->length, (size_t)operation->length);
}

static uint32_t number_of(const struct caf_operation *operation, uint32_t step) {
    return operation->block * CAF_STEPS + step;
}

static bool has_come(const struct caf_mail *mail) { return mail && mail->came == mail->total; }

struct caf_mail *caf_mail_take(struct caf_operation *operation, uint32_t step) {
    struct caf_team *team = operation->team;
    uint32_t sequence = operation->sequence, wanted = number_of(operation, step);
    if (operation->code)
        return NULL;
    GASNET_BLOCKUNTIL(has_come(*find(team, sequence, wanted)) || caf_team_absence(team, sequence) ||
                      caf_operation_is_odd(operation));
    caf_operation_check(operation);
    struct caf_mail **at = find(team, sequence, wanted), *mail = *at;
    if (!has_come(mail)) {
        operation->code = caf_team_absence(team, sequence);
        return NULL;
    }
    *at = mail->next;
    return mail;
}

gasnet_handle_t caf_mail_begin(const struct caf_operation *operation, const struct caf_mail *mail, int member,
                               void *room, size_t length) {
    return gasnet_get_nb_bulk(room, operation->team->members[member], (void *)mail->place, length);
}

const void *caf_mail_here(const struct caf_operation *operation, const struct caf_mail *mail, size_t length) {
    if (mail->total != length)
        caf_die("%s: an image brings elements of another type than this image", operation->call);
    return mail->bytes;
}

const void *caf_mail_bytes(const struct caf_operation *operation, const struct caf_mail *mail, int member, void *room,
                           size_t length) {
    if (!mail->place)
        return caf_mail_here(operation, mail, length);
    gasnet_wait_syncnb(caf_mail_begin(operation, mail, member, room, length));
    return room;
}

/* ---- What is sent. */

static bool is_there(const struct caf_operation *operation, int member) {
    return !operation->code && caf_state.peers[operation->team->members[member]].condition == CAF_RUNNING;
}

void caf_mail_send(const struct caf_operation *operation, uint32_t step, int member, const void *bytes, size_t length) {
    const struct caf_team *team = operation->team;
    int node = team->members[member];
    if (!is_there(operation, member))
        return;
    size_t done = 0, piece, most = gasnet_AMMaxMedium();
    do {
        piece = length - done < most ? length - done : most;
        gasnet_AMRequestMedium8(caf_counted(node), CAF_MAIL, (void *)((uintptr_t)bytes + done), piece,
                                caf_low(team->id), caf_high(team->id), (int32_t)operation->sequence,
                                (int32_t)number_of(operation, step), caf_low(operation->length),
                                caf_high(operation->length), (int32_t)done, (int32_t)length);
        done += piece;
    } while (done < length);
}

void caf_mail_show(const struct caf_operation *operation, uint32_t step, int member, const void *place) {
    const struct caf_team *team = operation->team;
    if (is_there(operation, member))
        gasnet_AMRequestShort8(caf_counted(team->members[member]), CAF_PLACE, caf_low(team->id), caf_high(team->id),
                               (int32_t)operation->sequence, (int32_t)number_of(operation, step),
                               caf_low(operation->length), caf_high(operation->length), caf_low(caf_address(place)),
                               caf_high(caf_address(place)));
}
