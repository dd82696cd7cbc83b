/* Runs the day on standard input through the model and prints its answer. A first try with a buffer that is too small
 * shows that this is told and that nothing is written. */
#include "wetlandspice.h"

#include <stdio.h>
#include <stdlib.h>
#include <string.h>

static uint8_t input[65537];

int main(void)
{
    size_t length = fread(input, 1, sizeof input, stdin);
    uint8_t small[2] = {7, 7};
    size_t needed = 0;
    uint32_t status = wetlandspice_run_day(input, length, small, sizeof small, &needed);
    if (status != WETLANDSPICE_DONE && (small[0] != 7 || small[1] != 7)) {
        fputs("the buffer was written to\n", stderr);
        return 1;
    }
    if (status == WETLANDSPICE_INPUT_TOO_LONG) {
        puts("the input is too long");
        return 0;
    }
    uint8_t *buffer = malloc(needed + 1);
    if (buffer == NULL) {
        fputs("out of memory\n", stderr);
        return 1;
    }
    buffer[needed] = 7;
    size_t written = 0;
    status = wetlandspice_run_day(input, length, buffer, needed, &written);
    if (status != WETLANDSPICE_DONE || written != needed || buffer[needed] != 7) {
        fprintf(stderr, "status %u, %zu bytes of %zu\n", (unsigned)status, written, needed);
        return 1;
    }
    fwrite(buffer, 1, written, stdout);
    free(buffer);
    return 0;
}
