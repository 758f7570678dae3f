/* Times the block test on good full blocks, and a plain loop for the check over the same bytes. */
#define _POSIX_C_SOURCE 200809L
#include <stdio.h>
#include <time.h>

#include "block.h"
#include "lampgrouse_blocks.h"

enum { BLOCKS = 15, ROUNDS = 100000, RUNS = 7 };

static uint8_t blocks[BLOCKS][BLOCK_LENGTH];

/* The block in hand. Volatile, so that the compiler takes no two calls for one. */
static const uint8_t *volatile block;

/* Not inlined, as the test in the library is not. */
__attribute__((noinline)) static uint32_t plain_check(const uint8_t *bytes)
{
    return check_of(bytes);
}

static double nanoseconds(void)
{
    struct timespec time;
    clock_gettime(CLOCK_MONOTONIC, &time);
    return (double)time.tv_sec * 1e9 + (double)time.tv_nsec;
}

int main(void)
{
    double best_test = 1e300, best_plain = 1e300;
    uint32_t sum = 0, faults = 0;
    for (unsigned number = 0; number < BLOCKS; number++)
        make_block(blocks[number], 7, number, BLOCKS, MOST_DATA, MOST_DATA);
    for (int run = 0; run < RUNS; run++) {
        double start = nanoseconds();
        for (int round = 0; round < ROUNDS; round++)
            for (unsigned number = 0; number < BLOCKS; number++) {
                block = blocks[number];
                sum += plain_check(block);
            }
        double middle = nanoseconds();
        for (int round = 0; round < ROUNDS; round++)
            for (unsigned number = 0; number < BLOCKS; number++) {
                block = blocks[number];
                faults += lampgrouse_test_block(block, BLOCK_LENGTH, (uint16_t)number, BLOCKS, 7);
            }
        double end = nanoseconds();
        double plain = (middle - start) / ROUNDS / BLOCKS, test = (end - middle) / ROUNDS / BLOCKS;
        if (plain < best_plain)
            best_plain = plain;
        if (test < best_test)
            best_test = test;
    }
    if (faults != 0) {
        puts("a good block was refused");
        return 1;
    }
    printf("the block test %.0f ns a block, the plain loop %.0f ns (best of %d runs): %.2f times as long [%u]\n",
           best_test, best_plain, RUNS, best_test / best_plain, (unsigned)(sum & 1));
    return 0;
}
