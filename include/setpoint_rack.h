/*
 * The setpoint rack for firmware in C.
 *
 * A sheet is a text of calls on a rack, one call to a line of 13 bytes; its output is a text of answers in the same columns
 * (docs/SHEET.md, docs/RULES.md). The functions below go from the one to the other, and keep nothing in between: each call with a
 * sheet sets its rack up, makes all the calls of the sheet, and gives the rack up again.
 *
 * Slices. A slice of bytes crosses as two arguments, a pointer to its first byte and then its length in bytes. It needs no 0 byte
 * at its end, and none is written.
 *
 * State. There is none: no function has variables that outlive a call. So a call may be made while another is on its way, from
 * another thread too, as far as the program's malloc and free allow it, if the two share no memory that one of them writes.
 *
 * Memory. setpoint_answer takes its working memory from the program's malloc, and has given all of it back with free when it
 * returns, whatever it answers. The others take none. No function calls itself, so the stack that they use is bounded. Measured,
 * and not proved: 15 KB of stack; of malloc's memory 968 bytes for a sheet of 7 lines and 808,104 bytes for one of 5,000.
 *
 * What the caller owes. Nothing checks it, and the proofs rest on it:
 *
 *   - Every pointer is valid, and not null, for a length of 0 too. `sheet` has `sheet_length` bytes that may be read, `buffer` has
 *     `buffer_length` bytes that may be read and written, all of them with some value (for example from calloc or memset), and
 *     `output_length` is a size_t that is aligned and has some value.
 *   - The three do not overlap, and nobody else writes any of them, or reads what is written, during the call.
 *   - No length is above PTRDIFF_MAX.
 *   - malloc aligns a block to every power of two up to 16 that divides its size, gives null if there is no memory, and is not
 *     itself interrupted: setpoint_answer is not called from a signal or interrupt handler, nor in the child of a fork of a process
 *     with more threads than one.
 *   - The program is one for x86-64, with the calling convention of Linux: the library is compiled for that.
 *
 * To link: 'rt lib' in crates/setpoint_c proves the library and writes out/libsetpoint_c.a. The toolchain's archive of C code,
 * liblibc_c.a in its folder c/, has to be linked beside it. examples/run does all of that.
 */
#ifndef SETPOINT_RACK_H
#define SETPOINT_RACK_H

#include <stddef.h>
#include <stdint.h>

#ifdef __cplusplus
extern "C" {
#endif

/* The answers of setpoint_answer. There are no others. */
enum setpoint_outcome {
    /* The output stands in the first *output_length bytes of the buffer. */
    SETPOINT_WRITTEN = 0,
    /* The buffer is too small: *output_length bytes are needed. */
    SETPOINT_TOO_SMALL = 1,
    /* There was no memory for the call, and *output_length is 0. */
    SETPOINT_NO_MEMORY = 2
};

/*
 * Answers a sheet: its output goes to the front of the buffer, and the output's length to *output_length.
 *
 *   SETPOINT_WRITTEN     the first *output_length bytes of the buffer are the output, and the rest of it is as it was
 *   SETPOINT_TOO_SMALL   the output has *output_length bytes, which is more than the buffer; the buffer is as it was
 *   SETPOINT_NO_MEMORY   *output_length is 0, and the buffer is as it was
 *
 * Any bytes may be passed for a sheet. One that is damaged, too long or empty has an output too, which says where it is wrong.
 * With a buffer of setpoint_output_bound(sheet_length) bytes the answer is not SETPOINT_TOO_SMALL.
 */
uint32_t setpoint_answer(const uint8_t *sheet, size_t sheet_length, uint8_t *buffer, size_t buffer_length, size_t *output_length);

/*
 * The size of a buffer that has room for the output of every sheet of that length: 39 bytes more than the sheet, and for a sheet
 * that is too long to be read as much as for the longest. So a buffer of 65,039 bytes has room for every output.
 */
size_t setpoint_output_bound(size_t sheet_length);

/*
 * What a trim by that many permille would add to that setpoint in kg/h, the fraction dropped towards zero; for a display. It is exact for a
 * setpoint of 0 to 400,000 and a trim of -200 to 200. Outside of that the product stops at the bounds of 32 bits.
 */
int32_t setpoint_trim_difference(int32_t setpoint, int32_t permille);

/* The most bytes of a sheet that is read, 65,000. A longer sheet is refused whole, by the one line X 0 0. */
size_t setpoint_longest_sheet(void);

#ifdef __cplusplus
}
#endif

#endif
