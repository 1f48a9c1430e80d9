/* The layouts of the records of gasnet_c.h, as the proved library has them. Each number follows from the rules of
 * #[repr(C)] for the fields of crates/gasnet_c/src, where a slice is an address and a count, and what is ghost takes
 * no bytes. */
#include "gasnet_c.h"

#define SIZE(type, bytes) _Static_assert(sizeof(type) == (bytes), "the size of " #type)
#define AT(type, field, byte) _Static_assert(offsetof(type, field) == (byte), "the place of " #field " in " #type)

_Static_assert(sizeof(void *) == 8 && sizeof(size_t) == 8 && sizeof(bool) == 1, "an address has 8 bytes, a bool 1");
_Static_assert(_Alignof(uint64_t) == 8 && _Alignof(uint32_t) == 4 && _Alignof(uint16_t) == 2, "alignments are sizes");

/* handle.rt, collectives_handle.rt: Handle and CollectivesHandle; slot.rt: Slot; memory.rt: Memory. */
SIZE(gasnet_c_node, 16);
AT(gasnet_c_node, live, 0);
AT(gasnet_c_node, slot, 8);
SIZE(gasnet_c_collectives, 16);
AT(gasnet_c_collectives, live, 0);
AT(gasnet_c_collectives, slot, 8);
SIZE(gasnet_c_memory, 8);
AT(gasnet_c_memory, at, 0);

/* &[u8] and &[i32]. */
SIZE(gasnet_c_bytes, 16);
AT(gasnet_c_bytes, at, 0);
AT(gasnet_c_bytes, len, 8);
SIZE(gasnet_c_args, 16);
AT(gasnet_c_args, at, 0);
AT(gasnet_c_args, len, 8);

/* opening.rt: Setup. */
SIZE(gasnet_c_setup, 32);
AT(gasnet_c_setup, job, 0);
AT(gasnet_c_setup, segment, 8);
AT(gasnet_c_setup, resend, 16);
AT(gasnet_c_setup, nodes, 24);
AT(gasnet_c_setup, me, 26);
AT(gasnet_c_setup, credits, 28);

/* told.rt: Told. */
SIZE(gasnet_c_told, 24);
AT(gasnet_c_told, code, 0);
AT(gasnet_c_told, to, 4);
AT(gasnet_c_told, slot, 6);
AT(gasnet_c_told, len, 8);
AT(gasnet_c_told, value, 16);

/* coming.rt: Coming. */
SIZE(gasnet_c_coming, 56);
AT(gasnet_c_coming, runs, 0);
AT(gasnet_c_coming, from, 4);
AT(gasnet_c_coming, handler, 8);
AT(gasnet_c_coming, category, 12);
AT(gasnet_c_coming, count, 16);
AT(gasnet_c_coming, args_at, 24);
AT(gasnet_c_coming, payload_at, 32);
AT(gasnet_c_coming, payload_len, 40);
AT(gasnet_c_coming, place, 48);

/* messages.rt: Ask. */
SIZE(gasnet_c_ask, 64);
AT(gasnet_c_ask, args, 0);
AT(gasnet_c_ask, payload, 16);
AT(gasnet_c_ask, offset, 32);
AT(gasnet_c_ask, source, 40);
AT(gasnet_c_ask, source_len, 48);
AT(gasnet_c_ask, category, 56);
AT(gasnet_c_ask, to, 60);
AT(gasnet_c_ask, handler, 62);
AT(gasnet_c_ask, own, 63);

/* replay.rt: Reply and Run. */
SIZE(gasnet_c_reply, 48);
AT(gasnet_c_reply, args, 0);
AT(gasnet_c_reply, payload, 16);
AT(gasnet_c_reply, offset, 32);
AT(gasnet_c_reply, category, 40);
AT(gasnet_c_reply, handler, 44);
SIZE(gasnet_c_run, 64);
AT(gasnet_c_run, reply, 0);
AT(gasnet_c_run, left, 48);

/* transfers.rt: Move. */
SIZE(gasnet_c_move, 32);
AT(gasnet_c_move, remote, 0);
AT(gasnet_c_move, local, 8);
AT(gasnet_c_move, len, 16);
AT(gasnet_c_move, kind, 24);
AT(gasnet_c_move, to, 28);
AT(gasnet_c_move, byte, 30);

/* atomics.rt: Operation. */
SIZE(gasnet_c_operation, 48);
AT(gasnet_c_operation, offset, 0);
AT(gasnet_c_operation, a, 8);
AT(gasnet_c_operation, b, 16);
AT(gasnet_c_operation, local, 24);
AT(gasnet_c_operation, tag, 32);
AT(gasnet_c_operation, op, 40);
AT(gasnet_c_operation, to, 44);

/* collective_node.rt: Collective. */
SIZE(gasnet_c_collective, 24);
AT(gasnet_c_collective, from, 0);
AT(gasnet_c_collective, len, 8);
AT(gasnet_c_collective, kind, 16);
AT(gasnet_c_collective, root, 20);
