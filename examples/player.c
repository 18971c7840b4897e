/* Plays the tape in a file into a WAV of 32-bit float samples, channels interleaved: the skeleton of a player in C.
 * Usage: player TAPE OUT.wav [POOL], where POOL has 32-bit float samples, little-endian; without it, document 01's pool.
 * It ends with 0 where the whole tape was written, with 3 where a refusal ended the tape and what came before it was
 * written, with 2 on wrong usage, and with 1 where nothing is written; all but 0 are said on standard error.
 * It asks `tape_info` how much there is, lends that much room, and needs no engine of its own. A little-endian machine. */
#include "../include/render.h"
#include "read_file.h"
#include <inttypes.h>
#include <stdio.h>
#include <stdlib.h>
#include <string.h>

enum { HEADER = 58 };

static int failed(const char *what, const char *why) {
    fprintf(stderr, "player: %s: %s\n", what, why);
    return 1;
}

/* ---- the sizes of ticks and blocks */

/* A record's length, by its kind (document 01, "The tape"; document 02, Paper 5). */
static const uint8_t record_sizes[13] = {11, 43, 43, 43, 25, 25, 1, 2, 1, 9, 47, 47, 47};

/* What says whether a tick or block is accepted (document 01, "Turned down": 2, 11 and 12). */
struct clock {
    double time, rate, duration;
};

/* How many frames the record gives; the clock goes on. */
static unsigned frames_of(const uint8_t *record, struct clock *clock) {
    double rate, end;
    unsigned size = 0;
    switch (record[0]) {
    case 6:
    case 7:
        size = record[0] == 6 ? 1 : record[1];
        end = clock->time + clock->duration * size;
        if (size > 64 || !(end <= 1000000000.0)) {
            return 0;
        }
        clock->time = end;
        break;
    case 8:
        clock->time = 0.0;
        break;
    case 9:
        memcpy(&rate, record + 1, sizeof rate);
        if (rate >= 1.0 && rate <= 1000000.0 && rate != clock->rate) {
            clock->rate = rate;
            clock->duration = 1.0 / rate;
        }
        break;
    }
    return size;
}

/* Puts the samples of each tick and block, which stand channel after channel, frame after frame. Answers whether the tape has as
 * many frames as `tape_info` says. */
static int interleave(const uint8_t *tape, size_t length, const uint8_t *samples, uint8_t *data, uint64_t frames, size_t channels) {
    struct clock clock = {0.0, 44100.0, 1.0 / 44100.0};
    uint64_t done = 0;
    for (size_t at = 0; done < frames; at += record_sizes[tape[at]]) {
        if (at >= length || tape[at] >= 13 || length - at < record_sizes[tape[at]]) {
            return 0;
        }
        unsigned size = frames_of(tape + at, &clock);
        if (size > frames - done) {
            return 0;
        }
        const uint8_t *from = samples + 4 * channels * done;
        uint8_t *to = data + 4 * channels * done;
        for (size_t frame = 0; frame < size; frame++) {
            for (size_t channel = 0; channel < channels; channel++) {
                memcpy(to + 4 * (frame * channels + channel), from + 4 * (channel * size + frame), 4);
            }
        }
        done += size;
    }
    return 1;
}

/* ---- the WAV */

static uint8_t *put(uint8_t *to, uint32_t number, int width) {
    for (; width > 0; width--, number >>= 8) {
        *to++ = number & 0xFF;
    }
    return to;
}

static uint8_t *put_name(uint8_t *to, const char *name) {
    memcpy(to, name, 4);
    return to + 4;
}

/* RIFF, the format (3: IEEE float), the count of frames, and the data's size. */
static void put_header(uint8_t *to, uint32_t channels, uint32_t rate, uint32_t frames) {
    uint32_t align = 4 * channels, size = align * frames;
    to = put(put_name(to, "RIFF"), size + HEADER - 8, 4);
    to = put(put_name(put_name(to, "WAVE"), "fmt "), 18, 4);
    to = put(put(put(put(to, 3, 2), channels, 2), rate, 4), rate * align, 4);
    to = put(put(put(to, align, 2), 32, 2), 0, 2);
    to = put(put(put_name(to, "fact"), 4, 4), frames, 4);
    put(put_name(to, "data"), size, 4);
}

static int write_file(const char *path, const uint8_t *bytes, size_t length) {
    FILE *file = fopen(path, "wb");
    if (!file) {
        return 0;
    }
    size_t written = fwrite(bytes, 1, length, file);
    return !fclose(file) && written == length;
}

/* ---- the tape */

/* The tape's samples, with the pool where there is one; NULL where there is no memory, or they are not as many as expected. */
static uint8_t *samples_of(const uint8_t *tape, size_t length, const float *pool, size_t pool_length, size_t bytes) {
    uint8_t *samples = malloc(bytes ? bytes : 1);
    if (!samples) {
        return NULL;
    }
    size_t count = pool ? render_with_pool(tape, length, pool, pool_length, samples, bytes) : render(tape, length, samples, bytes);
    if (count != bytes) {
        free(samples);
        return NULL;
    }
    return samples;
}

static int play(const char *path, const uint8_t *tape, size_t length, const float *pool, size_t pool_length, const char *out) {
    uint64_t bytes, frames, channels, ended;
    double rate;
    bool one_rate;
    tape_info(tape, length, &bytes, &frames, &channels, &rate, &one_rate, &ended);
    if (!one_rate) {
        return failed(path, "samples at more than one rate, and a WAV has one");
    }
    if (rate != (double)(uint32_t)rate) {
        return failed(path, "a rate that is no whole number, and a WAV's is");
    }
    if (bytes > UINT32_MAX - HEADER) {
        return failed(path, "4 GB or more of samples, and this WAV has sizes of 32 bits");
    }
    uint8_t *wav = malloc(HEADER + (size_t)bytes);
    uint8_t *samples = samples_of(tape, length, pool, pool_length, (size_t)bytes);
    int status = 0;
    if (!wav || !samples) {
        status = failed(path, "not rendered: no memory, or fewer samples than expected");
    } else if (!interleave(tape, length, samples, wav + HEADER, frames, (size_t)channels)) {
        status = failed(path, "not interleaved: the ticks and blocks have other sizes than expected");
    } else {
        put_header(wav, (uint32_t)channels, (uint32_t)rate, (uint32_t)frames);
        if (!write_file(out, wav, HEADER + (size_t)bytes)) {
            status = failed(out, "not written");
        }
    }
    free(samples);
    free(wav);
    if (!status && ended) {
        fprintf(stderr, "player: %s: refusal %" PRIu64 " ends the tape behind %" PRIu64 " frames\n", path, ended, frames);
        status = 3;
    }
    return status;
}

int main(int argc, char **argv) {
    if (argc < 3 || argc > 4) {
        fprintf(stderr, "usage: %s TAPE OUT.wav [POOL]\n", argv[0]);
        return 2;
    }
    size_t length = 0, pool_bytes = 0;
    uint8_t *tape = read_file(argv[1], &length);
    /* malloc aligns for any type, so the bytes serve as floats. */
    float *pool = argc == 4 ? (float *)read_file(argv[3], &pool_bytes) : NULL;
    int status;
    if (!tape) {
        status = failed(argv[1], "not read");
    } else if (argc == 4 && !pool) {
        status = failed(argv[3], "not read");
    } else if (pool_bytes % sizeof(float)) {
        status = failed(argv[3], "no whole number of samples");
    } else {
        status = play(argv[1], tape, length, pool, pool_bytes / sizeof(float), argv[2]);
    }
    free(pool);
    free(tape);
    return status;
}
