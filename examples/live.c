/* The live engine in memory of our own: document 01's proof sheet, case 5, then two refused calls, a tick and an edit.
 * Prints the block's samples, the numbers that the calls answer, and the counts. */
#include "../include/chakaqel.h"

#include <stdio.h>

static chakaqel_engine engine; /* 63,584 bytes: not on a small stack */

int main(void) {
    uint64_t told[2], places[3], counts[4];
    float out[64], sample[1];
    const float pool[1] = {0}; /* no clip reads it */
    size_t i;

    if (chakaqel_create(CHAKAQEL_LENT(&engine), 1, CHAKAQEL_ALL, 1) != 0) return 1;
    if (chakaqel_set_sample_rate(CHAKAQEL_LENT(&engine), 8.0) != 0) return 1;
    /* a level of 1.0 from 0 to 1 second, with a smooth fade-out of half a second */
    if (chakaqel_push(CHAKAQEL_LENT(&engine), told, 0.0, 1.0, CHAKAQEL_SMOOTH, 0.0, 0.5, CHAKAQEL_HELD, 1.0f, 0.0f, 0, 0, 1.0f) != 0) return 1;
    if (chakaqel_process(CHAKAQEL_LENT(&engine), places, 0, 16, pool, 0, out, 64) != 0) return 1;
    for (i = 0; i < 16; i++) printf("%g ", (double)out[i]);

    /* refused: no source has number 9; a fade is longer than its event */
    printf("%llu ", (unsigned long long)chakaqel_push(CHAKAQEL_LENT(&engine), told, 2.0, 3.0, CHAKAQEL_POWER, 0.0, 0.0, 9, 0.0f, 0.0f, 0, 0, 1.0f));
    printf("%llu ", (unsigned long long)chakaqel_push(CHAKAQEL_LENT(&engine), told, 2.0, 3.0, CHAKAQEL_POWER, 1.01, 0.0, CHAKAQEL_HELD, 0.0f, 0.0f, 0, 0, 1.0f));
    /* an edit of the event that will get number 2 is stored; of the first, which is in the sounding list up to the next step, it is applied */
    printf("%llu ", (unsigned long long)chakaqel_edit(CHAKAQEL_LENT(&engine), 2, 4.0, 0.0));
    printf("%llu ", (unsigned long long)chakaqel_edit(CHAKAQEL_LENT(&engine), 1, 1.0, 0.0));
    if (chakaqel_tick(CHAKAQEL_LENT(&engine), 0, pool, 0, sample, 1) != 0) return 1;
    chakaqel_counts(CHAKAQEL_LENT(&engine), counts);
    printf("%g %g %llu%llu%llu%llu %llu\n", (double)sample[0], chakaqel_time(CHAKAQEL_LENT(&engine)), (unsigned long long)counts[0],
           (unsigned long long)counts[1], (unsigned long long)counts[2], (unsigned long long)counts[3],
           (unsigned long long)chakaqel_place(CHAKAQEL_LENT(&engine), told[0]));
    return 0;
}
