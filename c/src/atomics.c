#include "atomics.h"

#include <stdlib.h>
#include <string.h>

#include "errors.h"
#include "job.h"
#include "transfer_calls.h"

_Static_assert(__BYTE_ORDER__ == __ORDER_LITTLE_ENDIAN__, "words are little-endian");

enum { WORD = 8 };

/* ---- Blocks. */

void gasnetl_atomics_start(struct gasnetl_atomics *atomics, const struct gasnetl_messages *messages,
                           gasnet_node_t nodes) {
    const unsigned blocks = nodes * (unsigned)GASNET_C_MAX_CREDITS;
    *atomics = (struct gasnetl_atomics){ .blocks = atomics->blocks, .owner = atomics->owner };
    atomics->served = !messages->handlers[GASNET_C_BATCH_HANDLER] && !messages->handlers[GASNET_C_BLOCK_HANDLER];
    for (uint16_t i = 0; i < blocks; i++)
        atomics->blocks[i].next = i + 1u < blocks ? (uint16_t)(i + 1) : GASNETL_NONE;
    atomics->swapping = GASNETL_NONE;
    memset(atomics->owner, 0xff, nodes * sizeof *atomics->owner);
}

/* Where a block stands in the local segment. */
static uint64_t place_of(const struct gasnetl_job *job, uint16_t index) {
    return job->segment.stage + GASNETL_STAGE + (uint64_t)index * GASNETL_BLOCK;
}

/* ---- Steps: what the node is asked for. */

/* The word that an operation makes of a word, with those that go with it. */
static uint64_t made_together(const struct gasnetl_atomics *atomics, const struct gasnetl_block *first, uint64_t word) {
    const struct gasnetl_block *block = first;
    word = gasnetl_word_made(&block->change, word);
    for (unsigned i = 1; i < first->together; i++) {
        block = &atomics->blocks[block->behind];
        word = gasnetl_word_made(&block->change, word);
    }
    return word;
}

static bool is_direct(const struct gasnetl_block *block) {
    gasnet_c_operation what;
    return gasnetl_is_direct(&block->change, &what);
}

/* Asks for the next step of an operation; the reply comes to the block of this index. */
static gasnet_c_told ask_once(struct gasnetl_job *job, struct gasnetl_block *block, uint16_t index) {
    gasnet_c_operation what = { .offset = block->offset, .to = block->to, .local = place_of(job, index) };
    if (!gasnetl_is_direct(&block->change, &what)) {
        what.op = GASNET_C_OP_COMPARE_SWAP;
        what.a = block->expected;
        what.b = made_together(&job->atomics, block, block->expected);
    }
    what.tag = block->tag = ++job->atomics.tag;
    return gasnet_c_atomic(&job->node, job->progress.time, &what, gasnetl_network_room(&job->network), GASNET_C_ROOM);
}

/* ---- Operations on one word, of which the first one's compare-and-swap is out. */

static uint16_t first_on_word(const struct gasnetl_atomics *atomics, const struct gasnetl_block *block) {
    uint16_t index = atomics->swapping;
    while (index != GASNETL_NONE &&
           (atomics->blocks[index].to != block->to || atomics->blocks[index].offset != block->offset))
        index = atomics->blocks[index].next;
    return index;
}

static void begin_swapping(struct gasnetl_atomics *atomics, uint16_t index) {
    atomics->blocks[index].next = atomics->swapping;
    atomics->swapping = index;
}

static void end_swapping(struct gasnetl_atomics *atomics, uint16_t index) {
    uint16_t *at = &atomics->swapping;
    while (*at != index)
        at = &atomics->blocks[*at].next;
    *at = atomics->blocks[index].next;
}

static void wait_behind(struct gasnetl_atomics *atomics, uint16_t first, uint16_t index) {
    struct gasnetl_block *leading = &atomics->blocks[first];
    atomics->blocks[leading->last].behind = index;
    leading->last = index;
}

/* All that wait go with the next compare-and-swap. */
static void gather(const struct gasnetl_atomics *atomics, struct gasnetl_block *first, uint64_t expected) {
    first->expected = expected;
    first->together = 1;
    for (uint16_t i = first->behind; i != GASNETL_NONE; i = atomics->blocks[i].behind)
        first->together++;
}

/* ---- Replies. */

/* The operation acted when the word was this one: the client is told what the number was, and the block is free again.
 * Answers what the operation made of the word. */
static uint64_t complete(struct gasnetl_atomics *atomics, uint16_t index, uint64_t word) {
    struct gasnetl_block *block = &atomics->blocks[index];
    const uint64_t number = gasnetl_number_in(&block->change, word);
    if (block->result)
        memcpy(block->result, &number, block->change.bits / 8);
    gasnetl_part_take_out(&block->part);
    block->next = atomics->free;
    atomics->free = index;
    return gasnetl_word_made(&block->change, word);
}

/* All that went with a compare-and-swap acted when the word was this one. Answers the first one of the others, which
 * expects what they made of it; or GASNETL_NONE. */
static uint16_t complete_together(struct gasnetl_atomics *atomics, uint16_t index, uint64_t word) {
    const uint16_t last = atomics->blocks[index].last;
    const unsigned together = atomics->blocks[index].together;
    atomics->known = (struct gasnetl_known){ .offset = atomics->blocks[index].offset, .to = atomics->blocks[index].to };
    for (unsigned i = 0; i < together; i++) {
        uint16_t behind = atomics->blocks[index].behind;
        word = complete(atomics, index, word);
        index = behind;
    }
    atomics->known.word = word;
    if (index == GASNETL_NONE)
        return GASNETL_NONE;
    atomics->blocks[index].last = last;
    gather(atomics, &atomics->blocks[index], word);
    return index;
}

/* The reply stands in the block, with what the word was. Answers the block whose next step is to be asked for, or
 * GASNETL_NONE. */
static uint16_t bring(struct gasnetl_job *job, uint16_t index, uint16_t from) {
    struct gasnetl_atomics *atomics = &job->atomics;
    struct gasnetl_block *block = &atomics->blocks[index];
    uint64_t came[2];
    memcpy(came, job->segment.base + place_of(job, index), sizeof came);
    if (came[1] != block->tag)
        gasnetl_stop(GASNETL_MISUSE, "node %u doesn't serve operations on words: its handler %d or %d is the client's",
                     from, GASNET_C_BATCH_HANDLER, GASNET_C_BLOCK_HANDLER);
    if (is_direct(block)) {
        complete(atomics, index, came[0]);
        return GASNETL_NONE;
    }
    end_swapping(atomics, index);
    if (came[0] == block->expected || made_together(atomics, block, came[0]) == came[0])
        return complete_together(atomics, index, came[0]);
    gather(atomics, block, came[0]);
    return index;
}

/* The request of a block is out. */
static void went_out(struct gasnetl_job *job, uint16_t index, const gasnet_c_told *told) {
    struct gasnetl_atomics *atomics = &job->atomics;
    if (told->code != GASNET_C_ACCEPTED)
        gasnetl_stop(GASNETL_BROKEN, "an operation of node %u was answered %u", atomics->blocks[index].to, told->code);
    atomics->owner[told->to][told->slot] = index;
    if (!is_direct(&atomics->blocks[index]))
        begin_swapping(atomics, index);
    gasnetl_told(job, told);
}

void gasnetl_atomic_back(struct gasnetl_job *job, uint16_t to, uint16_t slot) {
    uint16_t *owner = &job->atomics.owner[to][slot], index = *owner;
    if (index == GASNETL_NONE)
        return;
    *owner = GASNETL_NONE;
    index = bring(job, index, to);
    if (index == GASNETL_NONE)
        return;
    gasnet_c_told told = ask_once(job, &job->atomics.blocks[index], index); /* by the credit that came back */
    went_out(job, index, &told);
}

/* ---- Domains. */

struct gasnetl_domain {
    gex_DT_t type;
    gex_OP_t ops;
};

/* The one of the two indexes that a handler of the client's has. */
static int own_index(const struct gasnetl_messages *messages) {
    return messages->handlers[GASNET_C_BLOCK_HANDLER] ? GASNET_C_BLOCK_HANDLER : GASNET_C_BATCH_HANDLER;
}

void gex_AD_Create(gex_AD_t *ad_p, gex_TM_t tm, gex_DT_t dt, gex_OP_t ops, gex_Flags_t flags) {
    struct gasnetl_job *job = gasnetl_enter("gex_AD_Create");
    (void)tm;
    (void)flags;
    if (!job->atomics.served)
        gasnetl_stop(GASNETL_MISUSE, "gex_AD_Create: handler %d, which operations on words need, is the client's: %s",
                     own_index(&job->messages), gasnetl_who_chose(&job->messages, own_index(&job->messages)));
    if (!gasnetl_size_of(dt))
        gasnetl_stop(GASNETL_MISUSE, "gex_AD_Create: a number is of GEX_DT_I32, GEX_DT_U32, GEX_DT_I64 or GEX_DT_U64");
    if (ops & ~gasnetl_all_operations())
        gasnetl_stop(GASNETL_MISUSE, "gex_AD_Create: no operation has a bit of %#x", ops & ~gasnetl_all_operations());
    if (!(*ad_p = malloc(sizeof **ad_p)))
        gasnetl_stop(GASNETL_BROKEN, "there is no memory for another atomic domain");
    **ad_p = (struct gasnetl_domain){ dt, ops };
    gasnetl_leave(job);
}

void gex_AD_Destroy(gex_AD_t ad) { free(ad); }

/* ---- Operations. */

/* What a client asks for. */
struct asked {
    const char *call;
    gex_AD_t domain;
    gex_DT_t type;
    gex_Rank_t node;
    void *at, *result;
    gex_OP_t op;
    uint64_t a, b;
};

/* An operation as it begins; where it breaks a rule the job ends. */
static struct gasnetl_block judge(const struct gasnetl_job *job, const struct asked *asked) {
    struct gasnetl_block block = { .to = (uint16_t)asked->node, .behind = GASNETL_NONE, .together = 1 };
    const size_t size = gasnetl_size_of(asked->type);
    if (asked->node >= job->nodes)
        gasnetl_stop(GASNETL_MISUSE, "%s to node %u: there are %u nodes", asked->call, asked->node, job->nodes);
    if (!gasnetl_far(job, (gasnet_node_t)asked->node, asked->at, size, &block.offset) || block.offset % size)
        gasnetl_stop(GASNETL_MISUSE, "%s at %p: that is no number in the segment of node %u", asked->call, asked->at,
                     asked->node);
    const unsigned byte = block.offset % WORD;
    block.offset -= byte;
    if (!asked->domain || asked->domain->type != asked->type || !(asked->domain->ops & asked->op) ||
        !gasnetl_change_of(&block.change, asked->type, asked->op, asked->a, asked->b, byte))
        gasnetl_stop(GASNETL_MISUSE, "%s of operation %#x: its domain hasn't it, or is of another type", asked->call,
                     asked->op);
    if (block.change.brings && !asked->result)
        gasnetl_stop(GASNETL_MISUSE, "%s of operation %#x: there is no place for what the number was", asked->call,
                     asked->op);
    block.result = block.change.brings ? asked->result : NULL;
    return block;
}

/* The first free block becomes this one, a part of one of the layer's operations. */
static uint16_t take_block(struct gasnetl_atomics *atomics, struct gasnetl_op *op, const struct gasnetl_block *block) {
    const uint16_t index = atomics->free;
    atomics->free = atomics->blocks[index].next;
    atomics->blocks[index] = *block;
    atomics->blocks[index].last = index;
    gasnetl_part_add(op, &atomics->blocks[index].part);
    return index;
}

/* Asks with the first free block, where there is one, and the window of the word's node has room. */
static gasnet_c_told ask_if_free(struct gasnetl_job *job, struct gasnetl_block *block) {
    const uint16_t index = job->atomics.free;
    bool may_send = block->to == job->me || gasnetl_recovery_may_send(job, block->to, GASNETL_BY_LIBRARY, 0);
    return index == GASNETL_NONE || !may_send ? (gasnet_c_told){ .code = GASNET_C_NOT_YET }
                                              : ask_once(job, block, index);
}

/* The same, and waits for a block and a credit where it has to. */
static gasnet_c_told ask(struct gasnetl_job *job, struct gasnetl_block *block) {
    unsigned turn = 0;
    gasnet_c_told told = ask_if_free(job, block);
    if (told.code != GASNET_C_NOT_YET)
        return told;
    job->peers.of[block->to].asking++;
    gasnetl_thread.stack.to = (uint16_t)(block->to + 1);
    do {
        gasnetl_wait(job, &turn);
        told = ask_if_free(job, block);
    } while (told.code == GASNET_C_NOT_YET);
    job->peers.of[block->to].asking--;
    return told;
}

/* Does an operation on a word of the local node, which has been asked for. */
static void do_here(struct gasnetl_job *job, uint16_t index, gasnet_c_told told) {
    do {
        if (told.code != GASNET_C_RAN_HERE)
            gasnetl_stop(GASNETL_BROKEN, "an operation of the local node was answered %u", told.code);
        if (!is_direct(&job->atomics.blocks[index]))
            begin_swapping(&job->atomics, index);
        index = bring(job, index, job->me);
        if (index != GASNETL_NONE)
            told = ask_once(job, &job->atomics.blocks[index], index);
    } while (index != GASNETL_NONE);
}

/* Begins an operation for one of the layer's, of which it is a part until it is complete. */
static void begin(struct gasnetl_job *job, struct gasnetl_op *op, const struct asked *asked) {
    struct gasnetl_atomics *atomics = &job->atomics;
    struct gasnetl_block block = judge(job, asked);
    const bool swaps = !is_direct(&block);
    gasnetl_request_begins(job);
    const uint16_t first = swaps ? first_on_word(atomics, &block) : GASNETL_NONE;
    if (first != GASNETL_NONE && atomics->free != GASNETL_NONE) {
        wait_behind(atomics, first, take_block(atomics, op, &block));
        return;
    }
    if (swaps && atomics->known.to == block.to && atomics->known.offset == block.offset)
        block.expected = atomics->known.word;
    gasnet_c_told told = ask(job, &block);
    const uint16_t index = take_block(atomics, op, &block);
    if (told.code == GASNET_C_RAN_HERE)
        do_here(job, index, told);
    else
        went_out(job, index, &told);
}

static gex_Event_t explicit(const struct asked *asked) {
    struct gasnetl_job *job = gasnetl_enter(asked->call);
    struct gasnetl_op *op = gasnetl_op_new(&job->transfers.ops);
    begin(job, op, asked);
    op = gasnetl_settled(job, op);
    gasnetl_leave(job);
    return op;
}

static int implicit(const struct asked *asked) {
    struct gasnetl_job *job = gasnetl_enter(asked->call);
    begin(job, gasnetl_implicit_op(job, GASNETL_PUT), asked);
    gasnetl_leave(job);
    return 0;
}

#define ASKED(call, type)                                                                                              \
    ((void)flags,                                                                                                      \
     &(struct asked){ call, ad, type, tgt_rank, tgt_addr, result_p, op, (uint64_t)operand1, (uint64_t)operand2 })
#define CALLS(name, type)                                                                                              \
    gex_Event_t gex_AD_OpNB_##name(GASNETL_OF(type)) { return explicit(ASKED("gex_AD_OpNB_" #name, GEX_DT_##name)); }  \
    int gex_AD_OpNBI_##name(GASNETL_OF(type)) { return implicit(ASKED("gex_AD_OpNBI_" #name, GEX_DT_##name)); }

CALLS(I32, int32_t)
CALLS(U32, uint32_t)
CALLS(I64, int64_t)
CALLS(U64, uint64_t)
