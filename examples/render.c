/* Renders the tape in a file and prints each sample's bits on a line of its own.
 * Usage: render TAPE [BYTES], where BYTES is the room lent to the samples (65,536 if not given). */
#include "../include/render.h"
#include "read_file.h"
#include <stdio.h>
#include <stdlib.h>

int main(int argc, char **argv) {
    if (argc < 2) {
        fprintf(stderr, "usage: %s TAPE [BYTES]\n", argv[0]);
        return 2;
    }
    size_t length = 0;
    uint8_t *tape = read_file(argv[1], &length);
    size_t room = argc > 2 ? strtoull(argv[2], NULL, 10) : 65536;
    uint8_t *out = malloc(room ? room : 1);
    if (!tape || !out) {
        fprintf(stderr, "%s: not read\n", argv[1]);
        return 1;
    }
    size_t count = render(tape, length, out, room);
    for (size_t at = 0; at + 4 <= count; at += 4) {
        printf("%02X%02X%02X%02X\n", out[at + 3], out[at + 2], out[at + 1], out[at]);
    }
    free(out);
    free(tape);
    return 0;
}
