/* Collectives of the current team. Some of all images are the endpoint's (all_images.h). Else what is combined goes by
 * messages between pairs, log2 of the members times. Each result is the same at all members, bit by bit: the lower
 * member's part always comes first. */
#include <stdlib.h>
#include <string.h>

#include "all_images.h"
#include "combine.h"
#include "errors.h"
#include "far.h"
#include "mail.h"
#include "section.h"
#include "state.h"

enum { BLOCK = 1 << 20, AHEAD = 16 };

/* ---- Reductions to all. */

/* Of more members than a power of two, the first ones go by pairs: the even one hands its part to the odd one. */
struct pairs {
    int power, rest; /* the greatest power of two, and the members beyond it */
};

static struct pairs pairs_of(int size) {
    int power = 1;
    while (power * 2 <= size)
        power *= 2;
    return (struct pairs){ power, size - power };
}

static int member_of(const struct pairs *pairs, int place) {
    return place < pairs->rest ? 2 * place + 1 : place + pairs->rest;
}

static int place_of(const struct pairs *pairs, int index) {
    return index < 2 * pairs->rest ? index / 2 : index - pairs->rest;
}

/* Elements of a part. */
struct range {
    size_t first, count;
};

/* The half of a range that a partner combines, where it is the upper one. */
static struct range half_of(struct range range, bool is_upper) {
    size_t lower = range.count / 2;
    return is_upper ? (struct range){ range.first + lower, range.count - lower } : (struct range){ range.first, lower };
}

/* The steps of a reduction, by number: a pair's first one, those of halves as they are combined and as they are handed
 * back, a pair's last one, and answers to the last two. Then those where each member hands something to each: by
 * sender, what it doesn't combine, what it combined, and answers to that; and one that nobody takes, which tells the
 * length alone. */
enum { JOIN = 0, COMBINE = 1, GIVE = COMBINE + CAF_ROUNDS, RESULT = GIVE + CAF_ROUNDS, ANSWER = CAF_ROUNDS + 1 };
enum { SHARES = 32, SUMS = SHARES + GASNET_MAXNODES, ANSWERS = SUMS + GASNET_MAXNODES };
enum { LENGTH = (int)ANSWERS + GASNET_MAXNODES };
_Static_assert(ANSWER + GIVE > RESULT && ANSWER + RESULT < SHARES && LENGTH + 1 <= CAF_STEPS, "each step has a number");

/* From so many bytes on a part goes by halves; from so many on the members get them from one another's segments; and
 * where each member's share has so many, from all of them at once. */
enum { LONG = 1 << 15, SHARED = 1 << 16, SHARE = 1 << 13 };

/* A part of an array that the members combine. */
struct exchange {
    struct caf_operation *operation;
    const struct caf_combiner *combiner;
    struct pairs pairs;
    size_t count;
    char *mine;       /* this image's numbers */
    char *part;       /* where they were, and where the result is to be */
    char *shared;     /* where what becomes of them is: apart, if they are long */
    char *room;       /* as long, for what comes, if they are long; else null */
    bool is_shown;    /* both are in the local segment, so others get what they need from there */
    struct range due; /* what of the result isn't there yet */
    uint32_t answers; /* the steps whose answers are due, as bits */
};

static bool is_long(const struct exchange *exchange) {
    size_t members = (size_t)exchange->pairs.power;
    return members > 1 && exchange->count >= members && exchange->count * exchange->combiner->type.size >= LONG;
}

/* Takes memory for a long part, of the local segment where that has some. */
static void share(struct exchange *exchange) {
    size_t length = exchange->count * exchange->combiner->type.size;
    if (!is_long(exchange) || length < SHARED)
        return;
    exchange->room = caf_heap_take(&caf_state.heap, 2 * length);
    exchange->is_shown = exchange->room != NULL;
    if (!exchange->is_shown)
        exchange->room = caf_memory(2 * length);
    exchange->shared = exchange->room + length;
}

/* Hands elements to a member: the bytes themselves, or where they lie. */
static void hand_over(struct exchange *exchange, uint32_t step, int member, struct range range) {
    size_t size = exchange->combiner->type.size, first = range.first * size, length = range.count * size;
    if (exchange->shared != exchange->mine)
        memcpy(exchange->shared + first, exchange->mine + first, length);
    if (!exchange->is_shown)
        caf_mail_send(exchange->operation, step, member, exchange->shared + first, length);
    else
        caf_mail_show(exchange->operation, step, member, exchange->shared + first);
}

/* The same, where the member answers when it has got them. */
static void hand_back(struct exchange *exchange, uint32_t step, int member, struct range range) {
    hand_over(exchange, step, member, range);
    exchange->answers |= exchange->is_shown ? (uint32_t)1 << step : 0;
}

/* Combines elements with those that a member hands over. */
static void combine_with(struct exchange *exchange, uint32_t step, int member, struct range range) {
    size_t size = exchange->combiner->type.size, first = range.first * size, length = range.count * size;
    struct caf_mail *mail = caf_mail_take(exchange->operation, step);
    if (!mail)
        return;
    const void *mine = exchange->mine + first,
               *other = caf_mail_bytes(exchange->operation, mail, member, exchange->room, length);
    bool is_first = member < exchange->operation->team->index;
    caf_combine(exchange->combiner, exchange->shared + first, is_first ? other : mine, is_first ? mine : other,
                range.count);
    caf_mail_free(mail);
}

/* Brings what is due of the result to its place; then another part of it is due. */
static void bring(struct exchange *exchange, struct range next) {
    size_t size = exchange->combiner->type.size, first = exchange->due.first * size;
    if (exchange->shared != exchange->part)
        memcpy(exchange->part + first, exchange->shared + first, exchange->due.count * size);
    exchange->due = next;
}

/* Takes elements of the result that a member hands over. While they are on the way, what came before is brought to its
 * place. */
static void take_over(struct exchange *exchange, uint32_t step, int member, struct range range) {
    size_t size = exchange->combiner->type.size, length = range.count * size;
    char *to = exchange->shared + range.first * size;
    struct caf_mail *mail = caf_mail_take(exchange->operation, step);
    if (!mail)
        return;
    if (mail->place) {
        gasnet_handle_t coming = caf_mail_begin(exchange->operation, mail, member, to, length);
        bring(exchange, range);
        gasnet_wait_syncnb(coming);
        caf_mail_send(exchange->operation, ANSWER + step, member, "", 1);
    } else {
        if (length)
            memcpy(to, caf_mail_here(exchange->operation, mail, length), length);
        bring(exchange, range);
    }
    caf_mail_free(mail);
}

/* All elements go to a partner in each step. */
static void exchange_whole(struct exchange *exchange) {
    int index = exchange->operation->team->index, place = place_of(&exchange->pairs, index);
    const struct range all = { 0, exchange->count };
    uint32_t step = COMBINE;
    for (int bit = 1; bit < exchange->pairs.power; bit *= 2, step++) {
        int partner = member_of(&exchange->pairs, place ^ bit);
        hand_over(exchange, step, partner, all);
        combine_with(exchange, step, partner, all);
    }
}

/* The partners of a step combine a half each, and its halves in the next one; then they hand one another what they
 * combined. */
static void exchange_halves(struct exchange *exchange) {
    const struct pairs *pairs = &exchange->pairs;
    int place = place_of(pairs, exchange->operation->team->index);
    uint32_t steps = 0;
    struct range ranges[CAF_ROUNDS + 1] = { { 0, exchange->count } };
    for (int bit = pairs->power / 2; bit; bit /= 2, steps++) {
        int partner = member_of(pairs, place ^ bit);
        hand_over(exchange, COMBINE + steps, partner, half_of(ranges[steps], !(place & bit)));
        ranges[steps + 1] = half_of(ranges[steps], place & bit);
        combine_with(exchange, COMBINE + steps, partner, ranges[steps + 1]);
        exchange->mine = exchange->shared;
    }
    exchange->due = ranges[steps];
    for (int bit = 1; bit < pairs->power; bit *= 2, steps--) {
        int partner = member_of(pairs, place ^ bit);
        hand_back(exchange, GIVE + steps - 1, partner, ranges[steps]);
        take_over(exchange, GIVE + steps - 1, partner, half_of(ranges[steps - 1], !(place & bit)));
    }
}

/* ---- The same by shares: each member combines one, of all members, and hands it to all. */

static struct range share_of(const struct exchange *exchange, int member) {
    size_t members = (size_t)exchange->operation->team->size, first = exchange->count * (size_t)member / members;
    return (struct range){ first, exchange->count * ((size_t)member + 1) / members - first };
}

/* What a member handed over, and its bytes, which may be on the way. */
struct arrival {
    struct caf_mail *mail;
    gasnet_handle_t coming;
    const char *bytes;
};

/* Waits until each other member handed something over, and begins to get what isn't here. False where a member is
 * absent. */
static bool gather(struct exchange *exchange, uint32_t steps, struct arrival *arrivals, char *const *rooms) {
    struct caf_operation *operation = exchange->operation;
    int size = operation->team->size, index = operation->team->index;
    for (int k = 1; k < size; k++) {
        int member = (index + size - k) % size;
        struct arrival *arrival = &arrivals[member];
        struct caf_mail *mail = caf_mail_take(operation, steps + (uint32_t)member);
        size_t length = share_of(exchange, steps == SHARES ? index : member).count * exchange->combiner->type.size;
        if (!mail)
            return false;
        arrival->mail = mail;
        arrival->bytes = mail->place ? rooms[member] : caf_mail_here(operation, mail, length);
        if (mail->place)
            arrival->coming = caf_mail_begin(operation, mail, member, rooms[member], length);
    }
    return true;
}

static void let_go(struct arrival *arrivals, int size) {
    for (int member = 0; member < size; member++) {
        gasnet_wait_syncnb(arrivals[member].coming);
        if (arrivals[member].mail)
            caf_mail_free(arrivals[member].mail);
    }
}

/* Combines this member's share of all members, in their order. */
static void combine_share(struct exchange *exchange, struct arrival *arrivals) {
    int size = exchange->operation->team->size, index = exchange->operation->team->index;
    const struct range share = share_of(exchange, index);
    size_t first = share.first * exchange->combiner->type.size;
    char *sum = exchange->shared + first;
    arrivals[index].bytes = exchange->mine + first;
    for (int member = 0; member < size; member++) {
        gasnet_wait_syncnb(arrivals[member].coming);
        arrivals[member].coming = GASNET_INVALID_HANDLE;
        if (member)
            caf_combine(exchange->combiner, sum, member == 1 ? arrivals[0].bytes : sum, arrivals[member].bytes,
                        share.count);
    }
}

/* Each member hands its parts of the others' shares to them; they lie in its room one after the other. */
static bool reduce_shares(struct exchange *exchange) {
    struct caf_operation *operation = exchange->operation;
    int size = operation->team->size, index = operation->team->index;
    size_t length = share_of(exchange, index).count * exchange->combiner->type.size;
    struct arrival arrivals[GASNET_MAXNODES] = { { NULL, GASNET_INVALID_HANDLE, NULL } };
    char *rooms[GASNET_MAXNODES] = { NULL };
    for (int k = 1; k < size; k++) {
        int member = (index + k) % size;
        rooms[member] = exchange->room + (size_t)(k - 1) * length;
        hand_over(exchange, SHARES + (uint32_t)index, member, share_of(exchange, member));
    }
    bool is_whole = gather(exchange, SHARES, arrivals, rooms);
    if (is_whole)
        combine_share(exchange, arrivals);
    let_go(arrivals, size);
    return is_whole;
}

/* Each member hands its share of the result to all. */
static void spread_shares(struct exchange *exchange) {
    struct caf_operation *operation = exchange->operation;
    int size = operation->team->size, index = operation->team->index;
    struct arrival arrivals[GASNET_MAXNODES] = { { NULL, GASNET_INVALID_HANDLE, NULL } };
    char *rooms[GASNET_MAXNODES] = { NULL };
    exchange->mine = exchange->shared;
    exchange->due = share_of(exchange, index);
    for (int k = 1; k < size; k++) {
        int member = (index + k) % size;
        rooms[member] = exchange->shared + share_of(exchange, member).first * exchange->combiner->type.size;
        hand_over(exchange, SUMS + (uint32_t)index, member, exchange->due);
    }
    bool is_whole = gather(exchange, SUMS, arrivals, rooms);
    for (int k = 1; is_whole && k < size; k++) {
        int member = (index + size - k) % size;
        const struct range share = share_of(exchange, member);
        bring(exchange, share);
        gasnet_wait_syncnb(arrivals[member].coming);
        arrivals[member].coming = GASNET_INVALID_HANDLE;
        if (arrivals[member].bytes == rooms[member])
            caf_mail_send(operation, ANSWERS + (uint32_t)index, member, "", 1);
        else
            memcpy(rooms[member], arrivals[member].bytes, share.count * exchange->combiner->type.size);
    }
    let_go(arrivals, size);
}

/* Waits until the others have got this member's share. */
static void wait_for_answers(struct exchange *exchange) {
    const struct caf_team *team = exchange->operation->team;
    for (int member = 0; exchange->is_shown && member < team->size; member++) {
        struct caf_mail *answer =
            member == team->index ? NULL : caf_mail_take(exchange->operation, ANSWERS + (uint32_t)member);
        if (answer)
            caf_mail_free(answer);
    }
}

static void exchange_shares(struct exchange *exchange) {
    if (!reduce_shares(exchange))
        return;
    spread_shares(exchange);
    wait_for_answers(exchange);
}

/* Brings the rest of the result to its place. Others may get what is shared until they answered; where one is absent
 * the memory is left to them: it is left once, as the next collective knows of that one. */
static void end_exchange(struct exchange *exchange) {
    struct caf_operation *operation = exchange->operation;
    if (!exchange->room)
        return;
    bring(exchange, (struct range){ 0, 0 });
    for (uint32_t step = 0; exchange->answers; step++, exchange->answers >>= 1) {
        struct caf_mail *answer = exchange->answers & 1 ? caf_mail_take(operation, ANSWER + step) : NULL;
        if (answer)
            caf_mail_free(answer);
    }
    if (!exchange->is_shown)
        free(exchange->room);
    else if (!operation->code)
        caf_heap_give(&caf_state.heap, exchange->room);
}

/* Pairs would send all once more; where there are none, halves take fewer messages. The room has as many elements as
 * the part. A member's share of all others fits there, where each share has as many elements as there are members. */
static bool goes_by_shares(const struct exchange *exchange) {
    size_t members = (size_t)exchange->operation->team->size;
    return exchange->pairs.rest && exchange->room && exchange->count / members >= members &&
           exchange->count * exchange->combiner->type.size / members >= SHARE;
}

/* Where a member with fewer elements would go by a collective of the endpoint, and so send no mail, it hears of this
 * one's length before that waits for it. */
static void tell_length(const struct caf_operation *operation, int member) {
    if (caf_all_images_reduces(operation->team, 1))
        caf_mail_send(operation, LENGTH, member, "", 0);
}

/* Of more members than a power of two, those of a pair come first. */
static void exchange_by_pairs(struct exchange *exchange) {
    const struct range all = { 0, exchange->count };
    int index = exchange->operation->team->index;
    bool is_paired = index < 2 * exchange->pairs.rest;
    if (is_paired && index % 2 == 0) {
        hand_over(exchange, JOIN, index + 1, all);
        take_over(exchange, RESULT, index + 1, all);
        return;
    }
    if (is_paired) {
        tell_length(exchange->operation, index - 1);
        combine_with(exchange, JOIN, index - 1, all);
        exchange->mine = exchange->shared;
    }
    (is_long(exchange) ? exchange_halves : exchange_whole)(exchange);
    if (is_paired)
        hand_back(exchange, RESULT, index - 1, all);
}

static void reduce_block(struct caf_operation *operation, const struct caf_combiner *combiner, void *part,
                         size_t count) {
    struct exchange exchange = { .operation = operation,
                                 .combiner = combiner,
                                 .pairs = pairs_of(operation->team->size),
                                 .count = count,
                                 .mine = part,
                                 .part = part,
                                 .shared = part };
    share(&exchange);
    (goes_by_shares(&exchange) ? exchange_shares : exchange_by_pairs)(&exchange);
    end_exchange(&exchange);
}

/* ---- The broadcast: a tree whose root is the source. */

/* Copies the mail of the tree, where it comes. */
static void receive(struct caf_operation *operation, void *bytes, size_t length) {
    struct caf_mail *mail = caf_mail_take(operation, 0);
    if (!mail)
        return;
    if (length)
        memcpy(bytes, caf_mail_here(operation, mail, length), length);
    caf_mail_free(mail);
}

static void broadcast_block(struct caf_operation *operation, int source, void *bytes, size_t length) {
    int size = operation->team->size, place = (operation->team->index - source + size) % size, bit = 1;
    while (bit < size && !(place & bit))
        bit *= 2;
    if (place)
        receive(operation, bytes, length);
    for (bit /= 2; bit; bit /= 2)
        if (place + bit < size)
            caf_mail_send(operation, 0, (place + bit + source) % size, bytes, length);
}

/* ---- What the calls have in common. */

/* An array here as bytes that lie together: its own, or copies. */
struct part {
    struct caf_section section;
    size_t count, length;
    unsigned char *bytes;
    bool is_copy;
};

/* The array's own bytes are taken where they lie together and may change. */
static struct part part_of(const struct caf_descriptor *array, bool may_change, const char *call) {
    if (!array->base)
        caf_die("%s: an array or a component isn't allocated here", call);
    struct part part = { .section = caf_section_of(array, (uintptr_t)array->base) };
    part.count = caf_section_count(&part.section);
    part.length = caf_section_length(&part.section);
    caf_section_join(&part.section);
    part.is_copy = part.section.rank || !may_change;
    part.bytes = part.is_copy ? caf_memory(part.length) : (unsigned char *)part.section.base;
    if (part.is_copy)
        caf_pack(&part.section, 0, part.bytes, part.length);
    return part;
}

static void part_end(struct part *part, bool is_result) {
    if (!part->is_copy)
        return;
    if (is_result)
        caf_unpack(&part->section, 0, part->bytes, part->length);
    free(part->bytes);
}

static struct caf_operation begin(const char *call, const struct caf_descriptor *array) {
    const struct caf_section section = caf_section_of(array, 0);
    caf_start();
    caf_settle_all();
    gasnet_AMPoll();
    return caf_operation_begin(call, caf_section_length(&section));
}

static size_t block_of(size_t size) { return size >= BLOCK || !size ? 1 : BLOCK / size; }

/* Whether the image is one of the team, or 0 where that is allowed; otherwise the error is reported. */
static bool is_image(const struct caf_report *report, const char *call, int image, int least) {
    if (image >= least && image <= caf_state.team->size)
        return true;
    caf_report_error(report, 1, "%s: image %d: the images are %d to %d", call, image, 1, caf_state.team->size);
    return false;
}

/* Which kind reals of 16 bytes have, as most elements of all members look. */
static int kind_of(const struct part *part) {
    const struct caf_votes mine = caf_vote(part->bytes, part->length / 16);
    uint64_t votes[GASNET_MAXNODES], extended = 0, quad = 0;
    caf_meet(caf_state.team, (uint64_t)mine.extended << 32 | mine.quad, votes);
    for (int i = 0; i < caf_state.team->size; i++) {
        extended += votes[i] >> 32;
        quad += (uint32_t)votes[i];
    }
    return extended > quad ? 10 : 16;
}

static bool has_two_kinds(const struct caf_type *type) {
    return (type->type == CAF_REAL && type->size == 16) || (type->type == CAF_COMPLEX && type->size == 32);
}

static void reduce_part(struct caf_operation *operation, const struct caf_combiner *combiner, const struct part *part) {
    size_t size = combiner->type.size, most = block_of(size), all = part->length ? part->count : 0;
    bool is_of_all = caf_all_images_reduces(operation->team, part->length);
    if (!all && !operation->code) /* others see that it has no bytes */
        reduce_block(operation, combiner, part->bytes, 0);
    for (size_t done = 0; done < all && !operation->code; done += most, operation->block++) {
        size_t count = all - done < most ? all - done : most;
        (is_of_all ? caf_all_images_reduce : reduce_block)(operation, combiner, part->bytes + done * size, count);
    }
}

static void reduce(struct caf_combiner *combiner, struct caf_descriptor *array, int result_image,
                   const struct caf_report *report, const char *call) {
    if (!is_image(report, call, result_image, 0))
        return;
    struct caf_operation operation = begin(call, array);
    bool has_result = !result_image || result_image == operation.team->index + 1;
    struct part part = part_of(array, has_result, call);
    combiner->type = (struct caf_type){ array->dtype.type, 0, array->dtype.elem_len };
    if (has_two_kinds(&combiner->type))
        combiner->type.kind = kind_of(&part);
    caf_combiner_start(combiner);
    operation.code = caf_team_absence(operation.team, operation.sequence);
    reduce_part(&operation, combiner, &part);
    part_end(&part, !operation.code && has_result);
    caf_report_code(report, operation.code, call);
}

/* ---- The calls.
 *
 * gfortran 12 hands on a copy of errmsg= itself in place of its address, so the arguments behind it move up by one
 * place; then the text can't be set, and in place of its address stands the argument that follows it. */

enum { LEAST_ADDRESS = 65536 };

static struct caf_report report_of(int *stat, char *errmsg, size_t length) {
    bool is_address = (uintptr_t)errmsg >= LEAST_ADDRESS;
    return (struct caf_report){ stat, is_address ? errmsg : NULL, length };
}

static size_t letters_of(const char *errmsg, int length) {
    uintptr_t other = (uintptr_t)errmsg;
    return other && other < LEAST_ADDRESS ? (size_t)other : (size_t)length;
}

void _gfortran_caf_co_sum(struct caf_descriptor *array, int result_image, CAF_ERRORS) {
    const struct caf_report report = report_of(stat, errmsg, errmsg_len);
    struct caf_combiner combiner = { .reduction = CAF_SUM };
    reduce(&combiner, array, result_image, &report, "co_sum");
}

void _gfortran_caf_co_min(struct caf_descriptor *array, int result_image, int *stat, char *errmsg, int length,
                          size_t errmsg_len) {
    const struct caf_report report = report_of(stat, errmsg, errmsg_len);
    struct caf_combiner combiner = { .reduction = CAF_MINIMUM, .length = letters_of(errmsg, length) };
    reduce(&combiner, array, result_image, &report, "co_min");
}

void _gfortran_caf_co_max(struct caf_descriptor *array, int result_image, int *stat, char *errmsg, int length,
                          size_t errmsg_len) {
    const struct caf_report report = report_of(stat, errmsg, errmsg_len);
    struct caf_combiner combiner = { .reduction = CAF_MAXIMUM, .length = letters_of(errmsg, length) };
    reduce(&combiner, array, result_image, &report, "co_max");
}

void _gfortran_caf_co_reduce(struct caf_descriptor *array, void *(*operation)(void *, void *), int flags,
                             int result_image, int *stat, char *errmsg, int length, size_t errmsg_len) {
    const struct caf_report report = report_of(stat, errmsg, errmsg_len);
    struct caf_combiner combiner = {
        .reduction = CAF_REDUCE, .operation = operation, .flags = flags, .length = letters_of(errmsg, length)
    };
    reduce(&combiner, array, result_image, &report, "co_reduce");
}

/* A barrier; the collective has its code, unless it had one before. */
static void meet(struct caf_operation *operation) {
    int code = caf_barrier(operation->team);
    if (!operation->code)
        operation->code = code;
}

/* All images make the same barriers, also those that know already that one is absent. */
static void broadcast_by_tree(struct caf_operation *operation, int source, const struct part *part) {
    if (!part->length) /* others see that it has no bytes */
        broadcast_block(operation, source, part->bytes, 0);
    for (size_t done = 0; done < part->length; done += BLOCK) {
        broadcast_block(operation, source, part->bytes + done,
                        part->length - done < BLOCK ? part->length - done : BLOCK);
        if (++operation->block % AHEAD == 0) /* the source doesn't run ahead of the others for long */
            meet(operation);
    }
    if (operation->sequence % AHEAD == 0)
        meet(operation);
    if (!operation->code)
        operation->code = caf_team_absence(operation->team, operation->sequence);
}

static void broadcast_to_all(struct caf_operation *operation, int source, const struct part *part) {
    operation->code = caf_team_absence(operation->team, operation->sequence);
    if (!operation->code)
        caf_all_images_broadcast(operation, source, part->bytes, part->length);
}

/* A component that has no memory has no elements. That changes nothing where the source has none (Fortran 2018,
 * 16.9.46); where the source has some all images end, by the lengths. */
void _gfortran_caf_co_broadcast(struct caf_descriptor *array, int source_image, CAF_ERRORS) {
    const struct caf_report report = report_of(stat, errmsg, errmsg_len);
    if (array->dtype.type == CAF_VOID ||
        !is_image(&report, "co_broadcast", source_image, 1)) /* not the tokens of an object */
        return;
    struct caf_descriptor none = caf_without_elements(array);
    if (!array->base)
        array = &none;
    struct caf_operation operation = begin("co_broadcast", array);
    caf_mend_span(array);
    struct part part = part_of(array, true, "co_broadcast");
    bool is_of_all = caf_all_images_broadcasts(operation.team, part.length);
    (is_of_all ? broadcast_to_all : broadcast_by_tree)(&operation, source_image - 1, &part);
    part_end(&part, !operation.code);
    caf_report_code(&report, operation.code, "co_broadcast");
}
