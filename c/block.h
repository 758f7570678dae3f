/* Blocks as the format says, made in plain C for the test and the benchmark. */
#ifndef BLOCK_H
#define BLOCK_H

#include <stdint.h>
#include <string.h>

enum { BLOCK_LENGTH = 512, CHECKED_LENGTH = 510, MOST_DATA = 502 };

static inline void put_number(uint8_t *block, int place, unsigned number)
{
    block[place] = (uint8_t)(number >> 8);
    block[place + 1] = (uint8_t)number;
}

/* The sum of (place + 1) x byte, modulo 65,521. */
static inline uint32_t check_of(const uint8_t *block)
{
    uint32_t sum = 0;
    for (uint32_t place = 0; place < CHECKED_LENGTH; place++)
        sum += (place + 1) * block[place];
    return sum % 65521;
}

/* A block with so many data bytes, which are 1, 2, 3 and so on; the data length that it says may be another. */
static inline void make_block(uint8_t *block, unsigned version, unsigned number, unsigned count, unsigned says, unsigned used)
{
    memset(block, 0, BLOCK_LENGTH);
    put_number(block, 0, version);
    put_number(block, 2, number);
    put_number(block, 4, count);
    put_number(block, 6, says);
    for (unsigned place = 0; place < used; place++)
        block[8 + place] = (uint8_t)(place + 1);
    put_number(block, CHECKED_LENGTH, check_of(block));
}

#endif
