/* The shortest host: document 01's sheet K1 from fresh tables. example.c says what the words mean. */
#include "cordbasin.h"
#include <stdio.h>
static int32_t environment[128], heap[1601], constraints[98], answer[4];
static const int32_t program[33] = {3, 2, 0, 2, 0, 23, 64, 1, 23, 16, 3, 1, 3, 25, 6, 24, 0, 1, 0, 25, 3, 23, 4, 24, 0, 1, 1, 1, 0, 1, 1, 23, 32};
static const int32_t proposals[5] = {0, 0, 1, 64, 128};
int main(void)
{
    size_t unread = cordbasin_run(program, 33, environment, 128, heap, 1601, constraints, 98, proposals, 5, 100, answer);
    printf("outcome %d, place %d, steps %d, accepted %d, unread %d\n", answer[0], answer[1], answer[2], answer[3], (int)unread);
}
