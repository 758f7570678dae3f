/* Calls the block test on a good block and on broken ones, and fails where an answer is another than the one wanted. */
#include <stdio.h>

#include "block.h"
#include "lampgrouse_blocks.h"

static int wrong;

static void see(const char *what, uint32_t answer, uint32_t wanted)
{
    printf("%-66s %2u%s\n", what, (unsigned)answer, answer == wanted ? "" : "  WRONG");
    if (answer != wanted) {
        printf("    wanted %u\n", (unsigned)wanted);
        wrong = 1;
    }
}

/* The answer to a block of version 7, where it is expected as number 1 of 3. */
static uint32_t second(const uint8_t *block)
{
    return lampgrouse_test_block(block, BLOCK_LENGTH, 1, 3, 7);
}

int main(void)
{
    uint8_t block[BLOCK_LENGTH + 1] = {0};

    make_block(block, 7, 0, 1, 17, 17);
    see("the only block, with 17 data bytes", lampgrouse_test_block(block, BLOCK_LENGTH, 0, 0, 0), LAMPGROUSE_BLOCK_PASSES);
    see("the same, with a byte less", lampgrouse_test_block(block, BLOCK_LENGTH - 1, 0, 0, 0), LAMPGROUSE_WRONG_LENGTH);
    see("the same, with a byte more", lampgrouse_test_block(block, BLOCK_LENGTH + 1, 0, 0, 0), LAMPGROUSE_WRONG_LENGTH);
    see("no bytes", lampgrouse_test_block(block, 0, 0, 0, 0), LAMPGROUSE_WRONG_LENGTH);
    for (int place = 0; place < BLOCK_LENGTH; place++) {
        uint8_t byte = block[place];
        for (int change = 1; change < 256; change++) {
            block[place] = (uint8_t)(byte + change);
            uint32_t answer = lampgrouse_test_block(block, BLOCK_LENGTH, 0, 0, 0);
            if (answer != LAMPGROUSE_WRONG_CHECK)
                see("the same, with one byte changed", answer, LAMPGROUSE_WRONG_CHECK);
        }
        block[place] = byte;
    }
    block[100] = 1;
    see("the same, with one byte changed (each was, to each value)", lampgrouse_test_block(block, BLOCK_LENGTH, 0, 0, 0), LAMPGROUSE_WRONG_CHECK);

    make_block(block, 7, 1, 3, MOST_DATA, MOST_DATA);
    see("block 1 of 3, full", second(block), LAMPGROUSE_BLOCK_PASSES);
    see("the same, where block 2 is expected", lampgrouse_test_block(block, BLOCK_LENGTH, 2, 3, 7), LAMPGROUSE_WRONG_NUMBER);
    see("the same, where block 0 is expected", lampgrouse_test_block(block, BLOCK_LENGTH, 0, 3, 7), LAMPGROUSE_WRONG_NUMBER);
    see("the same, of 4", lampgrouse_test_block(block, BLOCK_LENGTH, 1, 4, 7), LAMPGROUSE_WRONG_NUMBER);
    see("the same, of another version", lampgrouse_test_block(block, BLOCK_LENGTH, 1, 3, 8), LAMPGROUSE_WRONG_VERSION);
    see("the same, of another count and another version", lampgrouse_test_block(block, BLOCK_LENGTH, 1, 4, 8), LAMPGROUSE_WRONG_NUMBER);
    make_block(block, 7, 0, 0, MOST_DATA, MOST_DATA);
    see("block 0 of 0", lampgrouse_test_block(block, BLOCK_LENGTH, 0, 0, 7), LAMPGROUSE_WRONG_NUMBER);
    make_block(block, 7, 0, 15, MOST_DATA, MOST_DATA);
    see("block 0 of 15", lampgrouse_test_block(block, BLOCK_LENGTH, 0, 0, 0), LAMPGROUSE_BLOCK_PASSES);
    make_block(block, 7, 0, 16, MOST_DATA, MOST_DATA);
    see("block 0 of 16", lampgrouse_test_block(block, BLOCK_LENGTH, 0, 0, 0), LAMPGROUSE_WRONG_NUMBER);

    make_block(block, 7, 1, 3, 501, 501);
    see("block 1 of 3, with 501 data bytes", second(block), LAMPGROUSE_WRONG_DATA);
    make_block(block, 7, 2, 3, 501, 501);
    see("block 2 of 3, with 501 data bytes", lampgrouse_test_block(block, BLOCK_LENGTH, 2, 3, 7), LAMPGROUSE_BLOCK_PASSES);
    make_block(block, 7, 0, 1, 0, 0);
    see("the only block, with no data", lampgrouse_test_block(block, BLOCK_LENGTH, 0, 0, 0), LAMPGROUSE_WRONG_DATA);
    make_block(block, 7, 0, 1, MOST_DATA + 1, MOST_DATA);
    see("the only block, with a data length of 503", lampgrouse_test_block(block, BLOCK_LENGTH, 0, 0, 0), LAMPGROUSE_WRONG_DATA);
    make_block(block, 7, 0, 1, 17, 18);
    see("the only block, with a byte behind its data that is not zero", lampgrouse_test_block(block, BLOCK_LENGTH, 0, 0, 0), LAMPGROUSE_WRONG_DATA);

    puts(wrong ? "an answer is wrong" : "all answers are as wanted");
    return wrong;
}
