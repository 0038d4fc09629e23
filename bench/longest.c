/* The longest calls: what a reading returns, how many stations its walk visits, and its time.
   The visits are counted by a walk written here from the rules over the distances of plain.h, since a refused call tells no count. What
   the call returns, and the library's own count where it answers, have to be those of this walk.
   usage: longest FILE TIMES -- on the crest and the first point of FILE (bench/longest_crests.py), the call timed TIMES times */
#include <stdio.h>
#include <stdlib.h>
#include <time.h>

#include "crest.h"
#include "plain.h"
#include "probes.h"

enum { TOO_FAR = 12 };

static uint8_t crest[CREST_FILE_BYTES_MAX];
static uint32_t length;
static int32_t point[2];

static alignment line;

static int load(const char *path)
{
    FILE *file = fopen(path, "rb");
    uint32_t points;
    int whole = file != 0 && fread(&length, 4, 1, file) == 1 && length <= sizeof crest && fread(crest, 1, length, file) == length
                && fread(&points, 4, 1, file) == 1 && fread(point, 4, 2, file) == 2;
    if (file != 0)
        fclose(file);
    return whole;
}

/* the elements of a crest that the library accepts */
static void take_elements(void)
{
    for (uint32_t block = 0; block < length; block += BLOCK_SIZE)
        for (uint32_t r = 0; r < u16_at(crest + block + USED_AT); r++) {
            element *e = &line.elements[line.count++];
            read_element(crest + block + RECORD_SIZE * r, e);
            line.total += e->length;
        }
}

/* how many stations the walk visits, both passes together, and the least D */
static uint32_t walked(uint64_t *best)
{
    uint32_t visits = 0;
    int r = 0;
    int64_t start = 0;
    *best = UINT64_MAX;
    for (int64_t s = 0; s <= line.total; s = s < line.total && s + FIRST_STEP > line.total ? line.total : s + FIRST_STEP) {
        uint64_t d = distance(&line, s, &r, &start, point[0], point[1]);
        *best = d < *best ? d : *best;
        visits++;
    }
    r = 0;
    start = 0;
    for (int64_t s = 0; s <= line.total;) {
        uint64_t d = distance(&line, s, &r, &start, point[0], point[1]);
        *best = d < *best ? d : *best;
        visits++;
        int64_t surplus = (int64_t)root(d) - (int64_t)root(*best);
        int64_t next = s + 1 + (surplus < ROOT_SLACK ? 0 : (surplus - ROOT_SLACK) / STEP_DIVISOR);
        int64_t after = start + line.elements[r].length;
        s = r + 1 < line.count && next > after ? after : next;
    }
    return visits;
}

static double milliseconds(uint32_t *returned)
{
    uint8_t run[CREST_RUN_BYTES] = {0};
    struct timespec from, to;
    clock_gettime(CLOCK_MONOTONIC, &from);
    *returned = crest_plane_reading(crest, length, point[0], point[1], run, sizeof run);
    clock_gettime(CLOCK_MONOTONIC, &to);
    return (to.tv_sec - from.tv_sec) * 1e3 + (to.tv_nsec - from.tv_nsec) / 1e6;
}

static int by_size(const void *a, const void *b)
{
    double x = *(const double *)a, y = *(const double *)b;
    return (x > y) - (x < y);
}

static int agrees(uint32_t returned, uint32_t visits, uint64_t best)
{
    uint8_t located[PROBE_LOCATE_BYTES] = {0};
    if (returned != (best > FARTHEST ? TOO_FAR : 0) || probe_locate(crest, length, point[0], point[1], located, sizeof located) != returned)
        return 0;
    return returned != 0 || u32_at(located + 12) == visits;
}

int main(int argc, char **argv)
{
    int times = argc == 3 ? atoi(argv[2]) : 0;
    double *taken = malloc(sizeof *taken * (size_t)(times > 0 ? times : 1));
    uint32_t returned = 0, visits;
    uint64_t best;
    if (times < 1 || taken == 0 || !load(argv[1]) || crest_check(crest, length) != 0)
        return 2;
    take_elements();
    visits = walked(&best);
    for (int i = 0; i < times; i++)
        taken[i] = milliseconds(&returned);
    if (!agrees(returned, visits, best)) {
        printf("answers differ\n");
        return 1;
    }
    qsort(taken, (size_t)times, sizeof *taken, by_size);
    printf("%u %lld %u, %.1f %.1f %.1f, %.1f\n", (unsigned)returned, (long long)line.total, (unsigned)visits, taken[0], taken[times / 2],
           taken[times - 1], taken[0] * 1e6 / visits);
    free(taken);
    return 0;
}
