/* The block test of Lampgrouse. Link with libblocks_for_c.a, which c/try builds; it needs nothing else. */
#ifndef LAMPGROUSE_BLOCKS_H
#define LAMPGROUSE_BLOCKS_H

#include <stddef.h>
#include <stdint.h>

#ifdef __cplusplus
extern "C" {
#endif

/* What the test answers: that the block passes, or the first fault in this order. docs/FORMATS.md has the block. */
enum {
    LAMPGROUSE_BLOCK_PASSES = 0,
    /* It has not 512 bytes. */
    LAMPGROUSE_WRONG_LENGTH = 14,
    /* The check is wrong. */
    LAMPGROUSE_WRONG_CHECK = 15,
    /* The number is not the one expected, or the count is not above it, is over 15 or, past block 0, is not the one expected. */
    LAMPGROUSE_WRONG_NUMBER = 16,
    /* Past block 0, the version is not the one expected. */
    LAMPGROUSE_WRONG_VERSION = 17,
    /* The data length is 0, over 502, or under 502 in a block that is not the last, or a byte behind the data is not zero. */
    LAMPGROUSE_WRONG_DATA = 18
};

/* Tests a block of so many bytes, which it only reads. The number is the one expected; count and version are those of block 0,
   and are not looked at where the number is 0. The pointer must not be null, and must have all the bytes behind it. */
uint32_t lampgrouse_test_block(const uint8_t *block, size_t length, uint16_t number, uint16_t count, uint16_t version);

#ifdef __cplusplus
}
#endif

#endif
