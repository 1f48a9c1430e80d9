/* What atomic operations make of numbers of 32 and 64 bits, in the words of 64 bits that hold them.
 *
 * A node does a few operations on its words, each at one moment. The others are done by compare-and-swaps of the word:
 * each is told what the word was, and the next one expects that. So all of them act at one moment of the word. */
#ifndef GASNETL_ATOMIC_OPERATIONS_H
#define GASNETL_ATOMIC_OPERATIONS_H

#include <stdbool.h>
#include <stddef.h>
#include <stdint.h>

#include "gasnet.h"
#include "gasnet_c.h"

/* An operation on a number: its kind, its operands, and where the number is in its word. */
struct gasnetl_change {
    uint32_t kind;  /* as the node's operations are numbered, or GASNETL_MULTIPLY */
    uint64_t a, b;  /* the operands' bits */
    unsigned bits;  /* of the number: 32 or 64 */
    unsigned shift; /* the bits of the word below it: 0 or 32 */
    bool is_signed;
    bool brings; /* whether the client is told what the number was */
};

enum { GASNETL_MULTIPLY = GASNET_C_OP_MAX + 1 };

/* How many bytes a number of this type has; 0 where there is no such type. */
size_t gasnetl_size_of(gex_DT_t type);

/* All operations that there are. */
gex_OP_t gasnetl_all_operations(void);

/* An operation on a number of this type, whose first byte is this one of its word. False where there is no such
 * operation. */
bool gasnetl_change_of(struct gasnetl_change *change, gex_DT_t type, gex_OP_t op, uint64_t a, uint64_t b,
                       unsigned byte);

/* The number that is in a word, and the word that the operation makes of one. */
uint64_t gasnetl_number_in(const struct gasnetl_change *change, uint64_t word);
uint64_t gasnetl_word_made(const struct gasnetl_change *change, uint64_t word);

/* Whether one operation of the node does all of it: then its number and its operands are written. */
bool gasnetl_is_direct(const struct gasnetl_change *change, gasnet_c_operation *what);

#endif
