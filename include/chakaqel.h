/* The live engine of Chakaqel: link target/staticlib/libchakaqel.a (`.ci/built` makes it of crate chakaqel, by `rt lib`).
 *
 * The engine is memory that you lend: four arrays of numbers, 63,584 bytes, which every call changes in place. Put a
 * `chakaqel_engine` anywhere, copy it as you like (a copy is a snapshot), free it when you like. Nothing is allocated,
 * nothing is kept elsewhere, there are no globals and no locks, and no call copies the engine: an audio callback may make
 * every call. One thread at a time may call with one engine. Every bit pattern is an engine, so that no call is undefined
 * by what the memory holds; make an empty one with `chakaqel_create`.
 *
 * Each entry takes the four arrays, which CHAKAQEL_LENT names: chakaqel_tick(CHAKAQEL_LENT(&engine), 0, ..). A pointer must
 * be valid, aligned as its type is, and not null even where its length is 0. What is written must not overlap anything else
 * that is lent. No length is above PTRDIFF_MAX bytes. The stack needs less than 4 KB.
 *
 * Times are in seconds on the engine's clock. An entry answers 0, or a number of document 01's list of refusals: the call
 * then has left the arrays and all else that was lent as they were (but for refusal 1 of a creation). A number for a mode,
 * curve, source or mark that names none is refused with 14, as on a tape, before anything else is looked at.
 *
 *    1  channels are not 1 to 8, or the first number is 0        8  an edit's end or fade breaks the limits of 3
 *    2  a rate is not from 1 to 1,000,000                        9  256 edits are stored
 *    3  a time or fade is NaN or beyond 1,000,000,000           10  the output's length is not that of the call
 *    4  a fade is longer than the event                         11  the block's size is above 64
 *    5  a level, ramp value or step is not finite               12  the clock would pass 1,000,000,000
 *    6  256 events are held                                     14  a mode, curve, source or mark of no such number
 *    7  the last event number has been given                    18  a gain is not finite
 */
#ifndef CHAKAQEL_H
#define CHAKAQEL_H

#include <stddef.h>
#include <stdint.h>

#ifdef __cplusplus
extern "C" {
#endif

/* An engine. What lies where is said in crates/memory/src/lib.rt; the entries read and write it. */
typedef struct chakaqel_engine {
    double times[3588];
    float levels[3072];
    uint32_t marks[3072];
    uint64_t numbers[1288];
} chakaqel_engine;

/* The four arrays of an engine, as each entry takes them. */
#define CHAKAQEL_LENT(engine) (engine)->times, (engine)->levels, (engine)->marks, (engine)->numbers

enum { CHAKAQEL_ALL = 0, CHAKAQEL_NONE = 1 };                       /* modes */
enum { CHAKAQEL_POWER = 0, CHAKAQEL_SMOOTH = 1 };                   /* curves */
enum { CHAKAQEL_HELD = 0, CHAKAQEL_RAMP = 1, CHAKAQEL_CLIP = 2 };   /* sources */
enum { CHAKAQEL_APPLIED = 0, CHAKAQEL_PAST = 256, CHAKAQEL_STORED = 257 }; /* what an edit answers beside refusals */
enum { CHAKAQEL_NO_PLACE = 256 };                                   /* what chakaqel_place answers of an event that does not sound */

/* Makes an empty engine of the arrays, whatever they held, at 44,100 samples a second: 1 to 8 channels; the mode says whether a
 * reset sends every event back to wait (All) or lets it go (None); `first` is the first event's number, not 0.
 * Answers 0, 14, or 1: then the arrays hold an empty engine of one channel, mode All, first number 1. */
uint64_t chakaqel_create(double *times, float *levels, uint32_t *marks, uint64_t *numbers, size_t channels, uint32_t mode,
                         uint64_t first);

/* Schedules an event from `start` to `end` (which may be +infinity), with a fade-in and a fade-out of that many seconds.
 * Its source: held (level `a`), ramp (first value `a`, and `b` added after each sample), or clip (`length` samples of the
 * pool from `offset` on); what a source does not use is not looked at. `gain` multiplies its samples: 1.0 leaves them.
 * Answers 0, with the event's number in told[0], and in told[1] how many levels it rose in the heap of waiting events
 * (0 if it sounds at once); or 14, 3, 4, 5, 18, 6 or 7, the first that applies. */
uint64_t chakaqel_push(double *times, float *levels, uint32_t *marks, uint64_t *numbers, uint64_t *told, double start,
                       double end, uint32_t curve, double fade_in, double fade_out, uint32_t source, float a, float b,
                       uint32_t offset, uint32_t length, float gain);

/* The same; start and end are relative to the clock. */
uint64_t chakaqel_push_relative(double *times, float *levels, uint32_t *marks, uint64_t *numbers, uint64_t *told,
                                double start, double end, uint32_t curve, double fade_in, double fade_out, uint32_t source,
                                float a, float b, uint32_t offset, uint32_t length, float gain);

/* The same; the event ends at start + duration. */
uint64_t chakaqel_push_duration(double *times, float *levels, uint32_t *marks, uint64_t *numbers, uint64_t *told,
                                double start, double duration, uint32_t curve, double fade_in, double fade_out,
                                uint32_t source, float a, float b, uint32_t offset, uint32_t length, float gain);

/* Gives the event with that number another end and fade-out. Answers 0 if it sounds (applied), 256 if that end is past, 257 if
 * the edit is stored for when the event starts; or 8 or 9. */
uint64_t chakaqel_edit(double *times, const float *levels, const uint32_t *marks, uint64_t *numbers, uint64_t number,
                       double end, double fade_out);

/* The same; the end is relative to the clock. */
uint64_t chakaqel_edit_relative(double *times, const float *levels, const uint32_t *marks, uint64_t *numbers,
                                uint64_t number, double end, double fade_out);

/* Moves the clock by one sample: `out` has one place a channel, and each gets the sum of what sounds. Clips read from `pool`,
 * which may be of any length; 0.0 past its end. `mark` is 0, or 1 to add the events from the list's end.
 * Answers 0, or 14, 10 or 12. */
uint64_t chakaqel_tick(double *times, float *levels, uint32_t *marks, uint64_t *numbers, uint32_t mark, const float *pool,
                       size_t pool_length, float *out, size_t out_length);

/* Moves the clock by a block of 0 to 64 samples: `out` has 64 places a channel, channel after channel (out_length is
 * 64 * channels), of which the first 8 * ceil(size / 8) of each are written; all channels get the same samples.
 * Answers 0, with how the block's places were computed in `places`: how many were kept as rounded, forced, and set at an
 * edge; or 14, 10, 11 or 12. */
uint64_t chakaqel_process(double *times, float *levels, uint32_t *marks, uint64_t *numbers, uint64_t *places, uint32_t mark,
                          size_t size, const float *pool, size_t pool_length, float *out, size_t out_length);

/* Sets the clock to 0. Mode All: every event waits again, its source at its beginning, and stored edits remain. Mode None:
 * every event is let go, and no edit remains. */
void chakaqel_reset(double *times, float *levels, uint32_t *marks, uint64_t *numbers);

/* Sets the rate, in samples a second. Where it differs every event waits again, its source where it was. Answers 0, or 2. */
uint64_t chakaqel_set_sample_rate(double *times, float *levels, uint32_t *marks, uint64_t *numbers, double rate);

/* The clock, in seconds. */
double chakaqel_time(const double *times, const float *levels, const uint32_t *marks, const uint64_t *numbers);

/* Puts into the four places of `counts` how many events wait, sound, are finished, and were let go. */
void chakaqel_counts(const double *times, const float *levels, const uint32_t *marks, const uint64_t *numbers,
                     uint64_t *counts);

/* The place in the sounding list, from 0 on, of the event with that number; 256 where it does not sound. */
uint64_t chakaqel_place(const double *times, const float *levels, const uint32_t *marks, const uint64_t *numbers,
                        uint64_t number);

#ifdef __cplusplus
}
#endif

#endif
