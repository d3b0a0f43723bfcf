/*
 * Lets the library find no memory, at each of its allocations in turn. The answer has to be that there was none, with nothing
 * written and nothing kept. Link it with -Wl,--wrap=malloc,--wrap=free.
 */
#include "setpoint_rack.h"

#include <stdio.h>
#include <stdlib.h>
#include <string.h>

void *__real_malloc(size_t size);
void __real_free(void *block);
void *__wrap_malloc(size_t size);
void __wrap_free(void *block);

/* How many blocks may still be allocated, and how many have not been freed. */
static size_t allowed;
static size_t held;

void *__wrap_malloc(size_t size)
{
    if (allowed == 0) {
        return NULL;
    }
    allowed--;
    held++;
    return __real_malloc(size);
}

void __wrap_free(void *block)
{
    if (block != NULL) {
        held--;
    }
    __real_free(block);
}

static const char sheet[] = "F  2  200000\nT  1      33\nS  1       0\nS  1       0\nS  1       0\nS  1       0\nS  1       0\nS  1       0\n";
static const char output[] = "F  2       0\nT  1       0\nS  1      10\nS  1      10\nS  1      10\nS  1      10\nS  1      11\nS  1      12\n"
                             "P  0  200000\nD  0       0\nW  0       0\n";

/* Whether the outcome without memory left everything as it says. */
static int nothing_left(const uint8_t *buffer, size_t length, size_t told)
{
    for (size_t i = 0; i < length; i++) {
        if (buffer[i] != 0xA5) {
            return 0;
        }
    }
    return told == 0 && held == 0;
}

int main(void)
{
    for (size_t blocks = 0; blocks < 1000; blocks++) {
        uint8_t buffer[sizeof output];
        size_t told = 1;
        memset(buffer, 0xA5, sizeof buffer);
        allowed = blocks;
        uint32_t outcome = setpoint_answer((const uint8_t *)sheet, sizeof sheet - 1, buffer, sizeof buffer, &told);
        if (outcome == SETPOINT_WRITTEN) {
            int good = told == sizeof output - 1 && memcmp(buffer, output, told) == 0 && held == 0 && blocks > 0;
            printf("%zu allocations, each of which may fail\n", blocks);
            return good ? EXIT_SUCCESS : EXIT_FAILURE;
        }
        if (outcome != SETPOINT_NO_MEMORY || !nothing_left(buffer, sizeof buffer, told)) {
            fprintf(stderr, "with %zu allocations: outcome %u, length %zu, %zu blocks kept\n", blocks, (unsigned)outcome, told, held);
            return EXIT_FAILURE;
        }
    }
    fprintf(stderr, "no number of allocations suffices\n");
    return EXIT_FAILURE;
}
