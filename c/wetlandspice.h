/* A day of one option series, run inside a program of your own.
 *
 * Link crates/boundary/out/libboundary.a and the kit's liblibc_c.a beside it; tools/check-boundary shows how.
 */
#ifndef WETLANDSPICE_H
#define WETLANDSPICE_H

#include <stddef.h>
#include <stdint.h>

#ifdef __cplusplus
extern "C" {
#endif

enum {
    WETLANDSPICE_DONE = 0,             /* the first *written bytes of the buffer are the answer; the rest is as it was */
    WETLANDSPICE_INPUT_TOO_LONG = 1,   /* over 65,536 bytes; *written is 0, and the buffer is as it was */
    WETLANDSPICE_BUFFER_TOO_SMALL = 2, /* *written is how long the answer is; the buffer is as it was */
    WETLANDSPICE_OUT_OF_MEMORY = 3     /* no memory to work in; *written is 0, and the buffer is as it was */
};

/* Runs a day's text, lines as docs/FORMATS.md has them, and writes what runseries writes.
 *
 * The caller owes: no pointer is NULL; input points to input_len bytes that can be read, buffer to buffer_len bytes
 * that can be written, written to one size_t; the three do not overlap, and nothing else writes to them meanwhile.
 * It keeps nothing between calls, and takes and gives back its memory by malloc and free. */
uint32_t wetlandspice_run_day(const uint8_t *input, size_t input_len,
                              uint8_t *buffer, size_t buffer_len,
                              size_t *written);

#ifdef __cplusplus
}
#endif

#endif
