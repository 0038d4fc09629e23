/* Station and offset of a point on a crest file, straight from document 01 with 128-bit numbers: the file is checked, the walk visits the same
   stations, and the answer is that of the station judged.
   usage: walk (crate|plain) FILE COUNT -- answers each point of FILE (bench/walk_crests.py) COUNT times, with the library or with this file, and prints a sum
          walk times FILE COUNT -- nanoseconds a call with the library, with this file, and their quotient */
#include <stdint.h>
#include <stdio.h>
#include <stdlib.h>
#include <string.h>
#include <time.h>

#include "plain.h"
#include "probes.h"

typedef struct {
    int64_t x, y, tx, ty;
} placement;

static placement place(const element *e, int64_t s)
{
    placement at;
    whole t = 0, u, v, along = ONE, aside = 0;
    position(e, s, &at.x, &at.y);
    if (e->kind != LINE) {
        series(e, s, &t, &u, &v);
        whole p = near(t * t, ONE);
        along = factor(p, 2, 1, 12);
        aside = near(t * factor(p, 6, 1, 20), ONE);
        if (e->kind == EXIT_SPIRAL)
            aside = -aside;
    }
    at.tx = (int64_t)near(e->c * along - e->s * aside, ONE);
    at.ty = (int64_t)near(e->s * along + e->c * aside, ONE);
    return at;
}

/* ---- the file */

static int zeros(const uint8_t *b, size_t n)
{
    while (n > 0)
        if (b[--n] != 0)
            return 0;
    return 1;
}

static int64_t magnitude(int64_t n)
{
    return n < 0 ? -n : n;
}

static int radius_fits(const element *e)
{
    int64_t r = magnitude(e->radius);
    if (e->kind == LINE)
        return r == 0;
    return (e->kind == ARC ? 2 * e->length : e->length) <= r && r <= WIDEST;
}

static int apart(int64_t a, int64_t b, int64_t limit)
{
    return magnitude(a - b) > limit;
}

/* the refusal number of the file's own bytes, 0 for an accepted one */
static int accepted(const uint8_t *file, size_t length, alignment *a)
{
    if (length == 0 || length % BLOCK_SIZE != 0 || length > MOST_BLOCKS * BLOCK_SIZE)
        return 1;
    int blocks = length / BLOCK_SIZE;
    for (int b = 0; b < blocks; b++) {
        const uint8_t *block = file + BLOCK_SIZE * b;
        uint32_t sum = 0, weighted = 0;
        for (int i = 0; i < SUMS_AT; i++) {
            sum += block[i];
            weighted += (SUMS_AT - i) * block[i];
        }
        if (u16_at(block + SUMS_AT) != sum % SUM_MODULUS || u16_at(block + SUM_B_AT) != weighted % SUM_MODULUS)
            return 2;
    }
    a->count = 0;
    a->total = 0;
    for (int b = 0; b < blocks; b++) {
        const uint8_t *block = file + BLOCK_SIZE * b;
        int used = u16_at(block + USED_AT);
        if ((int)u16_at(block + FIELDS_AT) != b || used < (b + 1 < blocks ? PER_BLOCK : 1) || used > PER_BLOCK
            || u32_at(block + EDITION_AT) != EDITION || !zeros(block + ZEROS_AT, ZERO_COUNT)
            || !zeros(block + RECORD_SIZE * used, RECORDS_END - RECORD_SIZE * used))
            return 3;
    }
    for (int b = 0; b < blocks; b++) {
        const uint8_t *block = file + BLOCK_SIZE * b;
        for (int r = 0; r < (int)u16_at(block + USED_AT); r++) {
            const uint8_t *record = block + RECORD_SIZE * r;
            element *e = &a->elements[a->count++];
            read_element(record, e);
            if (e->kind == 0 || e->kind > 15)
                return 4;
            if (e->kind > EXIT_SPIRAL)
                return 5;
            if (!zeros(record + FIRST_ZEROS_AT, FIRST_ZERO_COUNT) || !zeros(record + LAST_ZEROS_AT, LAST_ZERO_COUNT))
                return 4;
            if (e->length < 1 || e->length > LONGEST_ELEMENT || !radius_fits(e) || magnitude(e->x) > FRAME || magnitude(e->y) > FRAME)
                return 6;
            whole unit = (whole)e->c * e->c + (whole)e->s * e->s - UNIT_SQUARE;
            if (unit > UNIT_SLACK || -unit > UNIT_SLACK)
                return 7;
            a->total += e->length;
        }
    }
    for (int r = 0; r + 1 < a->count; r++) {
        placement end = place(&a->elements[r], a->elements[r].length), start = place(&a->elements[r + 1], 0);
        if (apart(end.x, start.x, WIDEST_GAP) || apart(end.y, start.y, WIDEST_GAP))
            return 8;
        if (apart(end.tx, start.tx, WIDEST_KINK) || apart(end.ty, start.ty, WIDEST_KINK))
            return 9;
    }
    return 0;
}

/* ---- the walk */

static uint32_t plain_locate(const uint8_t *file, size_t length, int32_t x, int32_t y, uint8_t *out, size_t out_length)
{
    alignment a;
    int number = accepted(file, length, &a);
    if (out_length != PROBE_LOCATE_BYTES)
        return 18;
    if (number != 0)
        return number;
    if (magnitude(x) > FRAME || magnitude(y) > FRAME)
        return 11;
    uint64_t best = UINT64_MAX;
    int64_t judged = 0;
    uint32_t visits = 0;
    int r = 0;
    int64_t start = 0;
    for (int64_t s = 0; s <= a.total; s = s == a.total ? s + 1 : s + FIRST_STEP > a.total ? a.total : s + FIRST_STEP) {
        uint64_t d = distance(&a, s, &r, &start, x, y);
        visits++;
        if (d < best) {
            best = d;
            judged = s;
        }
    }
    r = 0;
    start = 0;
    for (int64_t s = 0; s <= a.total;) {
        uint64_t d = distance(&a, s, &r, &start, x, y);
        visits++;
        if (d < best || (d == best && s < judged)) {
            best = d;
            judged = s;
        }
        int64_t over = (int64_t)root(d) - (int64_t)root(best);
        int64_t next = s + 1 + (over < ROOT_SLACK ? 0 : (over - ROOT_SLACK) / STEP_DIVISOR);
        int64_t after = start + a.elements[r].length;
        s = r + 1 < a.count && next > after ? after : next;
    }
    if (best > FARTHEST)
        return 12;
    r = 0;
    start = 0;
    seek(&a, judged, &r, &start);
    placement at = place(&a.elements[r], judged - start);
    int64_t dx = x - at.x, dy = y - at.y;
    int32_t values[4] = {judged, near((whole)at.tx * dy - (whole)at.ty * dx, ONE), near((whole)at.tx * dx + (whole)at.ty * dy, ONE), visits};
    if (judged == 0 && values[2] < -PAST_END)
        return 13;
    if (judged == a.total && values[2] > PAST_END)
        return 14;
    memcpy(out, values, PROBE_LOCATE_BYTES);
    return 0;
}

/* ---- the measurement */

typedef uint32_t locate(const uint8_t *, size_t, int32_t, int32_t, uint8_t *, size_t);

typedef struct {
    uint8_t *crest;
    uint32_t crest_length, points;
    int32_t *xy;
} work;

static work loaded(const char *name)
{
    work w = {0};
    FILE *f = fopen(name, "rb");
    if (!f || fread(&w.crest_length, 4, 1, f) != 1 || !(w.crest = malloc(w.crest_length)) || fread(w.crest, w.crest_length, 1, f) != 1
        || fread(&w.points, 4, 1, f) != 1 || !(w.xy = malloc(8 * w.points)) || fread(w.xy, 8, w.points, f) != w.points)
        exit(2);
    fclose(f);
    return w;
}

static uint64_t answered(const work *w, locate *by, long count)
{
    uint64_t sum = 0;
    for (long i = 0; i < count; i++)
        for (uint32_t p = 0; p < w->points; p++) {
            uint32_t out[4] = {0};
            sum = sum * 31 + by(w->crest, w->crest_length, w->xy[2 * p], w->xy[2 * p + 1], (uint8_t *)out, sizeof out);
            for (int k = 0; k < 4; k++)
                sum = sum * 31 + out[k];
        }
    return sum;
}

static double nanoseconds(const work *w, locate *by, long count)
{
    struct timespec from, to;
    clock_gettime(CLOCK_MONOTONIC, &from);
    answered(w, by, count);
    clock_gettime(CLOCK_MONOTONIC, &to);
    return ((to.tv_sec - from.tv_sec) * 1e9 + (to.tv_nsec - from.tv_nsec)) / ((double)count * w->points);
}

int main(int argc, char **argv)
{
    if (argc != 4)
        return 2;
    work w = loaded(argv[2]);
    long count = strtol(argv[3], 0, 10);
    if (strcmp(argv[1], "times") == 0) {
        double with = nanoseconds(&w, probe_locate, count), without = nanoseconds(&w, plain_locate, count);
        printf("%.0f %.0f %.3f\n", with, without, with / without);
        return 0;
    }
    printf("%llu\n", (unsigned long long)answered(&w, strcmp(argv[1], "crate") == 0 ? probe_locate : plain_locate, count));
    return 0;
}
