/* Remote atomics: operations on integers of 32 and 64 bits in a node's segment. gasnet.h includes it.
 *
 * The names are GASNet-EX's, of which this is the part for integers. Each operation acts at one moment of the number's
 * node, and may bring what the number was then. A number is aligned to its size in the segment. Nothing else may touch
 * the word of 8 bytes that holds it: no plain load or store, not even of its own node, and no put, get or Long. The two
 * halves of a word may each be a number, and numbers of several domains.
 *
 * No client registers the handlers 252 and 253; if one did, its gex_AD_Create ends the job. */
#ifndef GASNET_ATOMICS_H
#define GASNET_ATOMICS_H

typedef gasnet_handle_t gex_Event_t;
#define GEX_EVENT_INVALID GASNET_INVALID_HANDLE
typedef uint32_t gex_Rank_t;
typedef uint32_t gex_Flags_t;

/* The team of an atomic domain: all nodes of the job, whatever it is. */
typedef const void *gex_TM_t;

/* ---- Types of numbers. */

typedef uint32_t gex_DT_t;
#define GEX_DT_I32 ((gex_DT_t)1)
#define GEX_DT_U32 ((gex_DT_t)2)
#define GEX_DT_I64 ((gex_DT_t)4)
#define GEX_DT_U64 ((gex_DT_t)8)

/* ---- Operations: what the number becomes, modulo its size. Those with an F, and GET and SWAP, bring what it was. */

typedef uint32_t gex_OP_t;
#define GEX_OP_AND ((gex_OP_t)1 << 0)
#define GEX_OP_OR ((gex_OP_t)1 << 1)
#define GEX_OP_XOR ((gex_OP_t)1 << 2)
#define GEX_OP_ADD ((gex_OP_t)1 << 3)
#define GEX_OP_SUB ((gex_OP_t)1 << 4)
#define GEX_OP_MIN ((gex_OP_t)1 << 5)
#define GEX_OP_MAX ((gex_OP_t)1 << 6)
#define GEX_OP_INC ((gex_OP_t)1 << 7)
#define GEX_OP_DEC ((gex_OP_t)1 << 8)
#define GEX_OP_FAND ((gex_OP_t)1 << 9)
#define GEX_OP_FOR ((gex_OP_t)1 << 10)
#define GEX_OP_FXOR ((gex_OP_t)1 << 11)
#define GEX_OP_FADD ((gex_OP_t)1 << 12)
#define GEX_OP_FSUB ((gex_OP_t)1 << 13)
#define GEX_OP_FMIN ((gex_OP_t)1 << 14)
#define GEX_OP_FMAX ((gex_OP_t)1 << 15)
#define GEX_OP_FINC ((gex_OP_t)1 << 16)
#define GEX_OP_FDEC ((gex_OP_t)1 << 17)
#define GEX_OP_SET ((gex_OP_t)1 << 18)
#define GEX_OP_GET ((gex_OP_t)1 << 19)
#define GEX_OP_SWAP ((gex_OP_t)1 << 20)
#define GEX_OP_CAS ((gex_OP_t)1 << 21) /* operand2 if it was operand1 */
#define GEX_OP_FCAS ((gex_OP_t)1 << 22)
#define GEX_OP_MULT ((gex_OP_t)1 << 23)
#define GEX_OP_FMULT ((gex_OP_t)1 << 24)

/* ---- Flags. All may be given, and none changes what a call does. */

#define GEX_FLAG_IMMEDIATE ((gex_Flags_t)1 << 0)
#define GEX_FLAG_AD_MY_RANK ((gex_Flags_t)1 << 1)
#define GEX_FLAG_AD_MY_NBRHD ((gex_Flags_t)1 << 2)
#define GEX_FLAG_AD_ACQ ((gex_Flags_t)1 << 3)
#define GEX_FLAG_AD_REL ((gex_Flags_t)1 << 4)

/* ---- Atomic domains: a type, and the operations that are asked of its numbers. */

typedef struct gasnetl_domain *gex_AD_t;

void gex_AD_Create(gex_AD_t *ad_p, gex_TM_t tm, gex_DT_t dt, gex_OP_t ops, gex_Flags_t flags);
void gex_AD_Destroy(gex_AD_t ad);

/* ---- Operations with a handle. What the number was stands at result_p when the handle is synchronised; of operations
 * that don't bring it result_p isn't read. */

/* The parameters of all of them. */
#define GASNETL_OF(type)                                                                                               \
    gex_AD_t ad, type *result_p, gex_Rank_t tgt_rank, void *tgt_addr, gex_OP_t op, type operand1, type operand2,       \
        gex_Flags_t flags

gex_Event_t gex_AD_OpNB_I32(GASNETL_OF(int32_t));
gex_Event_t gex_AD_OpNB_U32(GASNETL_OF(uint32_t));
gex_Event_t gex_AD_OpNB_I64(GASNETL_OF(int64_t));
gex_Event_t gex_AD_OpNB_U64(GASNETL_OF(uint64_t));

static inline void gex_Event_Wait(gex_Event_t event) { gasnet_wait_syncnb(event); }
static inline int gex_Event_Test(gex_Event_t event) { return gasnet_try_syncnb(event); }

/* ---- Implicit ones, which are synchronised as the thread's puts, or by its access region. They answer 0. */

int gex_AD_OpNBI_I32(GASNETL_OF(int32_t));
int gex_AD_OpNBI_U32(GASNETL_OF(uint32_t));
int gex_AD_OpNBI_I64(GASNETL_OF(int64_t));
int gex_AD_OpNBI_U64(GASNETL_OF(uint64_t));

#endif
