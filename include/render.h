/* The C entries of Chakaqel: link target/staticlib/librender.a (`.ci/built` makes it of crate render_c, by `rt lib`).
 *
 * All of them: nothing is kept between calls, nothing is allocated, there are no globals and no locks, so any thread may
 * call at any time, with memory of its own. Everything lent is read or written by its length alone. A pointer must be
 * valid, and not null even where its length is 0 (it may then point anywhere); what is written must not overlap anything
 * else that is lent. No length is above PTRDIFF_MAX bytes. A tape may be any bytes: there is no call that is undefined
 * by what stands on it. The stack that each needs is said below (docs/HANDBOOK.md has the measurements). */
#ifndef CHAKAQEL_RENDER_H
#define CHAKAQEL_RENDER_H

#include <stdbool.h>
#include <stddef.h>
#include <stdint.h>

#ifdef __cplusplus
extern "C" {
#endif

/* Renders a tape: writes the samples of its accepted ticks and blocks to the front of `out`, channel after channel, four
 * little-endian bytes a sample (the bits of an IEEE 754 single, any NaN as 7FC00000), and returns how many bytes it wrote.
 * It stops at the tape's end, at the refusals 1, 14 and 15, and before the first tick or block whose samples do not fit;
 * the bytes behind those written stay as they were. Clips read from the pool of document 01.
 *
 * Layout: the ticks and blocks stand one behind the other. Of each, first all samples of the first channel, then all of
 * the second, and so on: frames are not interleaved, and a block of n frames of c channels takes 4 * n * c bytes
 * (examples/player.c interleaves them). `out` needs no alignment. The stack needs 512 KB. */
size_t render(const uint8_t *tape, size_t tape_length, uint8_t *out, size_t out_length);

/* The same with clips that read from the pool lent: `pool_length` samples, of any number, aligned as a float is. A clip's
 * places behind the pool's end are 0.0, as those behind the clip's end are. The stack needs 512 KB. */
size_t render_with_pool(const uint8_t *tape, size_t tape_length, const float *pool, size_t pool_length, uint8_t *out,
                        size_t out_length);

/* What a tape comes to, without rendering it, whatever pool its clips read from:
 *   bytes     what `render` writes where there is room for all of it, which is the least room that leaves nothing out;
 *   frames    the samples of each channel among them;
 *             both are UINT64_MAX where there are more than that;
 *   channels  1 to 8 (1 where the tape creates no engine);
 *   rate      of the last samples, in Hz: 44,100 where there are none;
 *   one_rate  whether all samples are at that rate;
 *   ended     what ends the tape: refusal 1, 14 or 15, or 0 at its end.
 * Each pointer is to one place of its own, aligned as its type is. The stack needs less than 4 KB. */
void tape_info(const uint8_t *tape, size_t tape_length, uint64_t *bytes, uint64_t *frames, uint64_t *channels,
               double *rate, bool *one_rate, uint64_t *ended);

#ifdef __cplusplus
}
#endif

#endif
