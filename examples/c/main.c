/*
 * Reads a sheet from standard input and writes its output to standard output, as the program setpoint_rack does, through the
 * library for C. Before that it offers buffers that are too small, and sees that the library leaves them alone.
 */
#include "setpoint_rack.h"

#include <stdio.h>
#include <stdlib.h>
#include <string.h>

/* A byte that no output has. */
enum { UNTOUCHED = 0xA5 };

/* The bytes after each buffer that the library is not told of. */
enum { GUARDS = 64 };

struct bytes {
    uint8_t *at;
    size_t length;
};

/* Reads standard input to its end, or to one byte more than a sheet may have. */
static int read_sheet(struct bytes *sheet)
{
    size_t enough = setpoint_longest_sheet() + 1;
    sheet->at = malloc(enough);
    if (sheet->at == NULL) {
        fprintf(stderr, "no memory for the sheet\n");
        return 0;
    }
    sheet->length = fread(sheet->at, 1, enough, stdin);
    if (ferror(stdin)) {
        fprintf(stderr, "standard input cannot be read\n");
        return 0;
    }
    return 1;
}

/* A buffer of that length with guards after it, all of it filled. */
static uint8_t *filled_buffer(size_t length)
{
    uint8_t *buffer = malloc(length + GUARDS);
    if (buffer == NULL) {
        fprintf(stderr, "no memory for the buffer\n");
        return NULL;
    }
    memset(buffer, UNTOUCHED, length + GUARDS);
    return buffer;
}

/* Whether the bytes from `from` up to `to` are as they were filled. */
static int untouched(const uint8_t *buffer, size_t from, size_t to)
{
    for (size_t i = from; i < to; i++) {
        if (buffer[i] != UNTOUCHED) {
            fprintf(stderr, "byte %zu was written\n", i);
            return 0;
        }
    }
    return 1;
}

/* Offers a buffer of that length, which is too small; finds out how much is needed. */
static int offer_too_little(struct bytes sheet, size_t length, size_t *needed)
{
    uint8_t *buffer = filled_buffer(length);
    if (buffer == NULL) {
        return 0;
    }
    uint32_t outcome = setpoint_answer(sheet.at, sheet.length, buffer, length, needed);
    int good = 1;
    if (outcome != SETPOINT_TOO_SMALL || *needed <= length) {
        fprintf(stderr, "a buffer of %zu bytes: outcome %u, %zu bytes needed\n", length, (unsigned)outcome, *needed);
        good = 0;
    }
    good = untouched(buffer, 0, length + GUARDS) && good;
    free(buffer);
    return good;
}

/* Answers into a buffer of that length, which has room for the needed bytes. */
static int answer_into(struct bytes sheet, uint8_t *buffer, size_t length, size_t needed)
{
    size_t output_length = 0;
    uint32_t outcome = setpoint_answer(sheet.at, sheet.length, buffer, length, &output_length);
    if (outcome == SETPOINT_NO_MEMORY) {
        fprintf(stderr, "no memory for the answers\n");
        return 0;
    }
    if (outcome != SETPOINT_WRITTEN || output_length != needed) {
        fprintf(stderr, "a buffer of %zu bytes: outcome %u, %zu bytes of %zu\n", length, (unsigned)outcome, output_length, needed);
        return 0;
    }
    return untouched(buffer, output_length, length + GUARDS);
}

/* A buffer of exactly the needed bytes, and one of the bound's size; the output is that of the second. */
static int answer_with_room(struct bytes sheet, size_t needed)
{
    size_t bound = setpoint_output_bound(sheet.length);
    uint8_t *exact = filled_buffer(needed);
    uint8_t *ample = filled_buffer(bound);
    int good = exact != NULL && ample != NULL;
    good = good && needed <= bound;
    good = good && answer_into(sheet, exact, needed, needed);
    good = good && answer_into(sheet, ample, bound, needed);
    good = good && memcmp(exact, ample, needed) == 0;
    good = good && fwrite(ample, 1, needed, stdout) == needed && fflush(stdout) == 0;
    free(exact);
    free(ample);
    return good;
}

static int run(struct bytes *sheet)
{
    size_t needed = 0;
    size_t again = 0;
    /* Every output has a byte, so none fits an empty buffer. */
    return read_sheet(sheet) && offer_too_little(*sheet, 0, &needed) && offer_too_little(*sheet, needed - 1, &again)
        && again == needed && answer_with_room(*sheet, needed);
}

int main(void)
{
    struct bytes sheet = { NULL, 0 };
    int good = run(&sheet);
    free(sheet.at);
    if (!good) {
        fprintf(stderr, "the library did not answer as its header says\n");
        return EXIT_FAILURE;
    }
    return EXIT_SUCCESS;
}
