/* Numbers as the network has them: the most significant byte first. */
#ifndef GASNETL_WORDS_H
#define GASNETL_WORDS_H

#include <stdint.h>

/* Writes a number in so many bytes. Where the next one goes. */
static inline uint8_t *gasnetl_word_write(uint8_t *at, uint64_t number, unsigned bytes) {
    for (unsigned i = 0; i < bytes; i++)
        at[i] = (uint8_t)(number >> 8 * (bytes - 1 - i));
    return at + bytes;
}

/* Reads the number of so many bytes. */
static inline uint64_t gasnetl_word_read(const uint8_t *at, unsigned bytes) {
    uint64_t number = 0;
    for (unsigned i = 0; i < bytes; i++)
        number = number << 8 | at[i];
    return number;
}

#endif
