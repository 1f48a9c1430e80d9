/* The handlers of the messages between processes (state.h has their indexes). */
#ifndef COMEXG_HANDLERS_H
#define COMEXG_HANDLERS_H

#include "state.h"

/* accumulate.c: adds what a message has, and replies COMEXG_ADDED. */
void comexg_add_rows_handler(gasnet_token_t from, void *bytes, size_t length, int32_t op, int32_t scale0,
                             int32_t scale1, int32_t scale2, int32_t scale3, int32_t low, int32_t high, int32_t row,
                             int32_t stride);
void comexg_add_places_handler(gasnet_token_t from, void *bytes, size_t length, int32_t op, int32_t scale0,
                               int32_t scale1, int32_t scale2, int32_t scale3, int32_t row);

/* stage.c: adds what is in a room of the sender's, and replies COMEXG_ROOM_ADDED. */
void comexg_add_room_handler(gasnet_token_t from, int32_t op, int32_t scale0, int32_t scale1, int32_t scale2,
                             int32_t scale3, int32_t low, int32_t high, int32_t row, int32_t stride, int32_t count,
                             int32_t number);
void comexg_room_added_handler(gasnet_token_t from, int32_t number);

/* words.c: does a read-modify-write, and replies what the number was. */
void comexg_word_handler(gasnet_token_t from, int32_t op, int32_t low, int32_t high, int32_t operand_low,
                         int32_t operand_high, int32_t answer_low, int32_t answer_high);
void comexg_word_done_handler(gasnet_token_t from, int32_t answer_low, int32_t answer_high, int32_t old_low,
                              int32_t old_high);

/* mutexes.c: whoever asks for a mutex is told COMEXG_GRANTED, at once or by the process that unlocks it. */
void comexg_lock_handler(gasnet_token_t from, int32_t mutex, int32_t low, int32_t high);
void comexg_unlock_handler(gasnet_token_t from, int32_t mutex, int32_t low, int32_t high);
void comexg_granted_handler(gasnet_token_t from, int32_t low, int32_t high);
void comexg_unlocked_handler(gasnet_token_t from, int32_t low, int32_t high, int32_t next, int32_t next_low,
                             int32_t next_high);

#endif
