/*
 * The sub-fingerprints of sound: a plain program for `hkreplay print` to be measured against.
 *
 *     cc -O3 -o print_reference print_reference.c
 *     ./print_reference CHANNELS FACTOR FLIPS [parts] < sound.raw
 *
 * Written from docs/METHOD.md alone, as one would write it for speed and without tricks: whole tables, blocks of
 * samples, butterflies in place, one buffer of output. It prints a line for each print, and with `parts` on standard
 * error the seconds that each part took. With -DPART=int32_t the parts of the transform are kept in 32 bits: each is at
 * most the sum of the 2048 samples' sizes, 2^26, and a little for the roundings.
 */
#include <stdint.h>
#include <stdio.h>
#include <stdlib.h>
#include <string.h>
#include <time.h>

#ifndef PART
#define PART int64_t
#endif

enum {
    FRAME = 2048,           /* decimated samples of a frame */
    HOP = 64,               /* from one frame to the next */
    STAGES = 11,
    BANDS = 33,
    BITS = 32,
    MOST_CHANNELS = 2,
    MOST_FACTOR = 8,
    BLOCK = 16384,          /* groups of samples read at a time: a whole number of decimated samples */
    LINE = 48,              /* more characters than a line has */
    OUT = 1 << 16,
};

static const int edges[BANDS + 1] = {
    111, 118, 125, 132, 140, 149, 157, 167, 177, 187, 198, 210, 222, 235, 249, 264, 280,
    296, 314, 332, 352, 373, 395, 418, 443, 469, 497, 526, 557, 590, 625, 662, 702, 743,
};

/* ---- timers ---- */

enum part { READING, SAMPLES, DECIMATION, FRAMES, TRANSFORM, ENERGIES, PRINTS, LINES, PARTS };

static const char *part_names[PARTS] = {
    "reading", "samples", "decimation", "frames", "transform", "energies", "prints", "lines",
};

static int with_timers;
static double spent[PARTS];
static double last;

static double now(void)
{
    struct timespec t;
    clock_gettime(CLOCK_MONOTONIC, &t);
    return t.tv_sec + t.tv_nsec / 1e9;
}

/* All time since the last call goes to this part. */
static void spent_on(enum part part)
{
    if (with_timers) {
        double t = now();
        spent[part] += t - last;
        last = t;
    }
}

/* ---- tables ---- */

static int32_t cosines[FRAME], sines[FRAME];
static int32_t hann[FRAME];
static int reversed[FRAME];                      /* the eleven binary digits of a place turned round */
static int32_t turn_cos[FRAME], turn_sin[FRAME]; /* those of the stage of length N stand from N / 2 on */

static uint64_t root(uint64_t n)
{
    uint64_t found = 0;
    for (uint64_t bit = (uint64_t)1 << 31; bit; bit >>= 1)
        if ((found + bit) * (found + bit) <= n)
            found += bit;
    return found;
}

static int64_t on_circle(int64_t part, int64_t length)
{
    return ((part << 30) + length / 2) / length;
}

static void make_circle(void)
{
    static int64_t x[FRAME / 4 + 1], y[FRAME / 4 + 1];
    x[0] = y[FRAME / 4] = (int64_t)1 << 30;
    for (int step = FRAME / 4; step > 1; step /= 2)
        for (int k = 0; k < FRAME / 4; k += step) {
            int64_t sum_x = x[k] + x[k + step], sum_y = y[k] + y[k + step];
            int64_t length = root(sum_x * sum_x + sum_y * sum_y);
            x[k + step / 2] = on_circle(sum_x, length);
            y[k + step / 2] = on_circle(sum_y, length);
        }
    for (int k = 0; k < FRAME / 4; k++) {
        cosines[k] = (x[k] + (1 << 14)) >> 15;
        sines[k] = (y[k] + (1 << 14)) >> 15;
    }
    for (int k = FRAME / 4; k < FRAME; k++) {
        cosines[k] = -sines[k - FRAME / 4];
        sines[k] = cosines[k - FRAME / 4];
    }
}

static void make_tables(void)
{
    make_circle();
    for (int n = 0; n < FRAME; n++) {
        hann[n] = (32768 - cosines[n]) >> 1;
        for (int digit = 0; digit < STAGES; digit++)
            reversed[n] |= (n >> digit & 1) << (STAGES - 1 - digit);
    }
    for (int half = 1; half < FRAME; half *= 2)
        for (int k = 0; k < half; k++) {
            turn_cos[half + k] = cosines[k * (FRAME / 2 / half)];
            turn_sin[half + k] = sines[k * (FRAME / 2 / half)];
        }
}

/* ---- from bytes to decimated samples ---- */

static void mono_samples(const uint8_t *bytes, size_t groups, int channels, int32_t *into)
{
    for (size_t i = 0; i < groups; i++) {
        const uint8_t *group = bytes + 2 * channels * i;
        int32_t left = (int16_t)(group[0] | group[1] << 8);
        into[i] = channels == 1 ? left : (left + (int16_t)(group[2] | group[3] << 8)) >> 1;
    }
}

/* The decimated samples of `count` samples; answers how many there are. */
static size_t decimated(const int32_t *x, size_t count, int factor, int32_t *into)
{
    int width = 2 * factor - 1, shift = 0;
    while (1 << shift < factor * factor)
        shift++;
    int32_t weights[2 * MOST_FACTOR - 1], half = factor * factor / 2;
    for (int j = 0; j < width; j++)
        weights[j] = j < factor ? j + 1 : width - j;
    size_t done = 0;
    for (; done * factor + width <= count; done++) {
        int32_t sum = half;
        for (int j = 0; j < width; j++)
            sum += weights[j] * x[done * factor + j];
        into[done] = sum >> shift;
    }
    return done;
}

/* ---- from a frame to its energies ---- */

static PART re[FRAME], im[FRAME];

static void load(const int32_t *frame)
{
    for (int n = 0; n < FRAME; n++)
        re[reversed[n]] = (frame[n] * hann[n] + (1 << 14)) >> 15;
}

/* The stages of two and four items at once: their turns are a sign, or one of the parts for the other. */
static void first_stages(void)
{
    for (int base = 0; base < FRAME; base += 4) {
        PART a = re[base] + re[base + 1], b = re[base] - re[base + 1];
        PART c = re[base + 2] + re[base + 3], d = re[base + 2] - re[base + 3];
        re[base] = a + c;
        re[base + 1] = b;
        re[base + 2] = a - c;
        re[base + 3] = b;
        im[base] = 0;
        im[base + 1] = -d;
        im[base + 2] = 0;
        im[base + 3] = d;
    }
}

static PART rounded(int64_t product)
{
    return (product + (1 << 14)) >> 15;
}

/* Joins two halves for the items from `first` up to, but not with, `end`; `upper` items are wanted or not. */
static inline void join(int base, int half, int first, int end, int upper)
{
    PART *restrict even_re = re + base, *restrict even_im = im + base;
    PART *restrict odd_re = re + base + half, *restrict odd_im = im + base + half;
    const int32_t *c = turn_cos + half, *s = turn_sin + half;
    for (int k = first; k < end; k++) {
        int64_t a = odd_re[k], b = odd_im[k];
        PART turned_re = rounded(a * c[k] + b * s[k]), turned_im = rounded(b * c[k] - a * s[k]);
        if (upper) {
            odd_re[k] = even_re[k] - turned_re;
            odd_im[k] = even_im[k] - turned_im;
        }
        even_re[k] += turned_re;
        even_im[k] += turned_im;
    }
}

/* The bins of all bands; the last stage makes no others. */
static void transform(void)
{
    first_stages();
    for (int half = 4; half < FRAME / 2; half *= 2)
        for (int base = 0; base < FRAME; base += 2 * half)
            join(base, half, 0, half, 1);
    join(0, FRAME / 2, edges[0], edges[BANDS], 0);
}

static void energies(int64_t *into)
{
    for (int band = 0; band < BANDS; band++) {
        int64_t sum = 0;
        for (int bin = edges[band]; bin < edges[band + 1]; bin++)
            sum += (int64_t)re[bin] * re[bin] + (int64_t)im[bin] * im[bin];
        into[band] = sum;
    }
}

/* ---- from energies to lines ---- */

struct print {
    uint32_t word, mask;
};

static struct print print_of(const int64_t *before, const int64_t *after, int flips)
{
    struct print print = {0, 0};
    int64_t size[BITS];
    for (int m = 0; m < BITS; m++) {
        int64_t d = after[m] - after[m + 1] - (before[m] - before[m + 1]);
        print.word |= (uint32_t)(d > 0) << m;
        size[m] = llabs(d);
    }
    for (int flip = 0; flip < flips; flip++) {
        int weakest = 0;
        for (int m = 1; m < BITS; m++)
            if (size[m] < size[weakest])
                weakest = m;
        print.mask |= (uint32_t)1 << weakest;
        size[weakest] = INT64_MAX;
    }
    return print;
}

static char out[OUT];
static size_t filled;

static void flush(void)
{
    if (fwrite(out, 1, filled, stdout) != filled)
        exit(6);
    filled = 0;
}

static void put_hex(uint32_t word)
{
    out[filled++] = ' ';
    for (int shift = 28; shift >= 0; shift -= 4)
        out[filled++] = "0123456789abcdef"[word >> shift & 15];
}

static void put_line(uint64_t n, struct print print)
{
    char digits[20];
    int count = 0;
    if (filled > OUT - LINE)
        flush();
    do
        digits[count++] = '0' + n % 10;
    while (n /= 10);
    while (count)
        out[filled++] = digits[--count];
    put_hex(print.word);
    put_hex(print.mask);
    out[filled++] = '\n';
}

/* ---- all of it ---- */

/* The prints of the frames that stand whole in `count` decimated samples; answers how many frames there are. */
static size_t print_frames(const int32_t *y, size_t count, int flips)
{
    static uint64_t frames_before;
    static int64_t energy[2][BANDS];
    size_t frames = 0;
    for (; HOP * frames + FRAME <= count; frames++, frames_before++) {
        int64_t *after = energy[frames_before % 2], *before = energy[1 - frames_before % 2];
        load(y + HOP * frames);
        spent_on(FRAMES);
        transform();
        spent_on(TRANSFORM);
        energies(after);
        spent_on(ENERGIES);
        if (frames_before) {
            struct print print = print_of(before, after, flips);
            spent_on(PRINTS);
            put_line(frames_before - 1, print);
            spent_on(LINES);
        }
    }
    return frames;
}

/* Keeps what stands behind the first `done` of `count` samples, and answers how many these are. */
static size_t keep(int32_t *samples, size_t done, size_t count)
{
    memmove(samples, samples + done, (count - done) * sizeof *samples);
    return count - done;
}

static void print_all(int channels, int factor, int flips)
{
    static uint8_t bytes[2 * MOST_CHANNELS * BLOCK];
    static int32_t x[BLOCK + 2 * MOST_FACTOR], y[BLOCK + 2 * MOST_FACTOR + FRAME + HOP];
    size_t group = 2 * channels, groups, xs = 0, ys = 0;
    do {
        groups = fread(bytes, group, BLOCK, stdin);
        spent_on(READING);
        mono_samples(bytes, groups, channels, x + xs);
        xs += groups;
        spent_on(SAMPLES);
        size_t done = decimated(x, xs, factor, y + ys);
        xs = keep(x, done * factor, xs);
        ys += done;
        spent_on(DECIMATION);
        ys = keep(y, HOP * print_frames(y, ys, flips), ys);
        spent_on(FRAMES);
    } while (groups == BLOCK);
    flush();
    spent_on(LINES);
}

static int number(const char *word, int most)
{
    char *end;
    long n = strtol(word, &end, 10);
    if (end == word || *end || n < 0 || n > most)
        exit(2);
    return n;
}

int main(int argc, char **argv)
{
    if (argc < 4 || argc > 5 || (argc == 5 && strcmp(argv[4], "parts")))
        return 2;
    int channels = number(argv[1], MOST_CHANNELS), factor = number(argv[2], MOST_FACTOR);
    int flips = number(argv[3], BITS);
    if (channels < 1 || factor < 1 || factor & (factor - 1))
        return 2;
    with_timers = argc == 5;
    last = now();
    make_tables();
    last = now();
    print_all(channels, factor, flips);
    for (int part = 0; with_timers && part < PARTS; part++)
        fprintf(stderr, "%s %.6f\n", part_names[part], spent[part]);
    return fflush(stdout) ? 6 : 0;
}
