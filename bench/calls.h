/* Every call of the two static libraries on one crest and one point, for stack.c and calls.c. */
#include <stdint.h>
#include <stdio.h>
#include <string.h>

#include "crest.h"
#include "limits.h"
#include "probes.h"

static uint8_t crest[CREST_FILE_BYTES_MAX], records[MOST_RECORDS * CREST_RECORD_BYTES], room[CREST_FILE_BYTES_MAX];
static uint8_t run[CREST_RUN_BYTES], out[PROBE_RECORD_BYTES];
static uint32_t length, count;
static int32_t point[2];

/* a sighting: the instrument stands 3 m before the prism, and turns a quarter to the right from a backsight along y */
enum { SIGHT = 300000 };

static uint32_t check(void) { return crest_check(crest, length); }
static uint32_t written(void) { return crest_write(records, count * CREST_RECORD_BYTES, room, sizeof room); }
static uint32_t plane_reading(void) { return crest_plane_reading(crest, length, point[0], point[1], run, sizeof run); }
static uint32_t line_reading(void) { return crest_line_reading(crest, length, 1, 0, run, sizeof run); }
static uint32_t sighting_reading(void)
{
    return crest_sighting_reading(crest, length, point[0] - SIGHT, point[1], 0, ONE, 0, -ONE, SIGHT, run, sizeof run);
}
static uint32_t stake_out(void) { return crest_stake_out(0, 0, 100, 200, 0, ONE, out, CREST_MOVE_BYTES); }
static uint32_t sighting_stake_out(void)
{
    return crest_sighting_stake_out(-SIGHT, 0, 0, ONE, 0, -ONE, SIGHT, 100, 200, out, CREST_MOVE_BYTES);
}
static uint32_t acknowledge(void) { return crest_acknowledge(run, sizeof run); }
static uint32_t position(void) { return probe_position(crest, length, 1, out, PROBE_POSITION_BYTES); }
static uint32_t locate(void) { return probe_locate(crest, length, point[0], point[1], out, PROBE_LOCATE_BYTES); }
static uint32_t inverse(void) { return probe_inverse(crest, length, 1, 0, out, PROBE_INVERSE_BYTES); }
static uint32_t record(void) { return probe_record(crest, length, 0, out, PROBE_RECORD_BYTES); }

static const struct {
    const char *name;
    uint32_t (*call)(void);
} calls[] = {
    {"crest_check", check},
    {"crest_write", written},
    {"crest_plane_reading", plane_reading},
    {"crest_line_reading", line_reading},
    {"crest_sighting_reading", sighting_reading},
    {"crest_stake_out", stake_out},
    {"crest_sighting_stake_out", sighting_stake_out},
    {"crest_acknowledge", acknowledge},
    {"probe_position", position},
    {"probe_locate", locate},
    {"probe_inverse", inverse},
    {"probe_record", record},
};

enum { CALLS = sizeof calls / sizeof *calls };

/* the crest's records one after the other, as the writer takes them */
static void gather(void)
{
    for (uint32_t block = 0; block < length / CREST_BLOCK_BYTES; block++) {
        uint8_t used = crest[CREST_BLOCK_BYTES * block + USED_AT];
        memcpy(records + CREST_RECORD_BYTES * count, crest + CREST_BLOCK_BYTES * block, CREST_RECORD_BYTES * used);
        count += used;
    }
}

/* FILE of bench/walk_crests.py: its crest, and its first point */
static int take(const char *path)
{
    FILE *file = fopen(path, "rb");
    uint32_t points;
    if (file == 0 || fread(&length, 4, 1, file) != 1 || length > sizeof crest || fread(crest, 1, length, file) != length
        || fread(&points, 4, 1, file) != 1 || fread(point, 4, 2, file) != 2)
        return 0;
    fclose(file);
    gather();
    return 1;
}
