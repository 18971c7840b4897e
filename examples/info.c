/* Says what the tape in a file comes to, in a line: its bytes, frames and channels, the rate, 1 where all samples are at one rate
 * and 0 where not, and what ended it. Usage: info TAPE */
#include "../include/render.h"
#include "read_file.h"
#include <inttypes.h>
#include <stdio.h>
#include <stdlib.h>

int main(int argc, char **argv) {
    if (argc != 2) {
        fprintf(stderr, "usage: %s TAPE\n", argv[0]);
        return 2;
    }
    size_t length = 0;
    uint8_t *tape = read_file(argv[1], &length);
    if (!tape) {
        fprintf(stderr, "%s: not read\n", argv[1]);
        return 1;
    }
    uint64_t bytes, frames, channels, ended;
    double rate;
    bool one_rate;
    tape_info(tape, length, &bytes, &frames, &channels, &rate, &one_rate, &ended);
    printf("%" PRIu64 " %" PRIu64 " %" PRIu64 " %.17g %d %" PRIu64 "\n", bytes, frames, channels, rate, one_rate, ended);
    free(tape);
    return 0;
}
