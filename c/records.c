/* Hands over records of all lengths up to 40 bytes: only one of 17 is filled, and no byte around it is written. */
#include <stdio.h>
#include <string.h>

#include "koelstool.h"

#define MOST 40
#define BEFORE 0xA5

/* A plan of one handler, on core 1, that works 1 to 3 of every 2 units: missed, at 2, number 1. */
static const uint8_t plan[] = {
    1, 0, 2, 0, 0, 0, 1, 0, 3, 1,
    3, 1, 1, 3, 2, 1, 3, 3, 1, 3, 4, 1, 3, 5, 1, 3, 6, 1, 3, 7, 1, 3, 8, 1,
    4,
};

static const uint8_t wanted[KOELSTOOL_RECORD] = {KOELSTOOL_MISSED, 0, 0, 0, 0, 0, 0, 0, 2, 0, 0, 0, 0, 0, 0, 0, 1};

static int holds(size_t length)
{
    uint8_t memory[1 + MOST + 1];
    uint8_t should[sizeof memory];
    uint8_t answer;

    memset(memory, BEFORE, sizeof memory);
    memset(should, BEFORE, sizeof should);
    answer = koelstool_check(plan, sizeof plan, memory + 1, length);
    if (length == KOELSTOOL_RECORD) {
        memcpy(should + 1, wanted, sizeof wanted);
    }
    return answer == (length == KOELSTOOL_RECORD) && memcmp(memory, should, sizeof memory) == 0;
}

int main(void)
{
    for (size_t length = 0; length <= MOST; length++) {
        if (!holds(length)) {
            fprintf(stderr, "a record of %zu bytes is not left or filled as it should be\n", length);
            return 1;
        }
    }
    puts("records of all lengths up to 40: as they should be");
    return 0;
}
