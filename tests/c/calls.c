/* Every call of crest.h from C, with ordinary, refused, empty and odd-length arguments. Every room stands between two
 * stretches of known bytes, which have to stay as they are; cards and records lie in memory of exactly their size, so that
 * a memory checker sees a read beyond them. Prints the number of calls; exits with 1 on any surprise. Compiles as C11 and
 * as C++. */
#include "crest.h"

#include <math.h>
#include <stdio.h>
#include <stdlib.h>
#include <string.h>
#include <xmmintrin.h>

/* The numbers of the rules that crest.h has no name for, as far as they are used here; tests/limits compares them. */
#define ONE (1 << 30)
#define GRAINS 100
#define FRAME 200000000
#define WIDEST_GAP 100
#define WIDEST_OFFSET 20000000
#define LONGEST_SIGHT 50000000
#define SUMS_AT 508
#define KIND_AT 0
#define RECORD_LENGTH_AT 4
#define X_AT 8
#define Y_AT 12
#define C_AT 16
#define S_AT 20
#define RADIUS_AT 24
#define ANSWERED_AT 0
#define REFUSED_AT 2
#define LATEST_AT 4
#define FIRST_AT 6
#define FIRST_READING_AT 8
#define SPARE_AT 10
#define ONE_AT 12
#define TWO_AT 16
#define THREE_AT 20
#define FORWARD_AT 0
#define LEFT_AT 4
#define PLACE_UNIT 256

static unsigned calls;
static unsigned surprises;

static void expect(const char *what, uint32_t got, uint32_t expected)
{
    calls++;
    if (got != expected) {
        surprises++;
        printf("%s: %u, expected %u\n", what, (unsigned)got, (unsigned)expected);
    }
}

static void hold(const char *what, int held)
{
    if (!held) {
        surprises++;
        printf("%s does not hold\n", what);
    }
}

/* ---- Rooms */

#define GUARD 32

/* Memory of exactly GUARD + len + GUARD bytes; the len in the middle are 0x5a. */
static uint8_t *room_of(size_t len)
{
    uint8_t *memory = (uint8_t *)malloc(len + 2 * GUARD);
    if (memory == NULL) {
        exit(2);
    }
    memset(memory, 0xc3, len + 2 * GUARD);
    memset(memory + GUARD, 0x5a, len);
    return memory + GUARD;
}

static void end_room(const char *what, uint8_t *room, size_t len)
{
    size_t i;
    for (i = 0; i < GUARD; i++) {
        hold(what, room[-1 - (ptrdiff_t)i] == 0xc3 && room[len + i] == 0xc3);
    }
    free(room - GUARD);
}

static int all(const uint8_t *bytes, size_t len, uint8_t value)
{
    size_t i;
    for (i = 0; i < len; i++) {
        if (bytes[i] != value) {
            return 0;
        }
    }
    return 1;
}

/* A copy in memory of exactly its size. */
static uint8_t *copy_of(const uint8_t *bytes, size_t len)
{
    uint8_t *copy = (uint8_t *)malloc(len);
    if (copy == NULL) {
        exit(2);
    }
    memcpy(copy, bytes, len);
    return copy;
}

/* ---- Little-endian fields */

static void put32(uint8_t *at, int32_t value)
{
    uint32_t bits = (uint32_t)value;
    int i;
    for (i = 0; i < 4; i++) {
        at[i] = (uint8_t)(bits >> (8 * i));
    }
}

static int32_t get32(const uint8_t *at)
{
    int64_t value = (int64_t)at[0] + 256 * (int64_t)at[1] + 65536 * (int64_t)at[2] + 16777216 * (int64_t)at[3];
    return (int32_t)(value < 2147483648LL ? value : value - 4294967296LL);
}

static unsigned get16(const uint8_t *at)
{
    return at[0] + 256u * at[1];
}

static void record(uint8_t *at, uint8_t kind, int32_t length, int32_t x, int32_t y, int32_t c, int32_t s, int32_t radius)
{
    memset(at, 0, CREST_RECORD_BYTES);
    at[KIND_AT] = kind;
    put32(at + RECORD_LENGTH_AT, length);
    put32(at + X_AT, x);
    put32(at + Y_AT, y);
    put32(at + C_AT, c);
    put32(at + S_AT, s);
    put32(at + RADIUS_AT, radius);
}

/* Sixteen lines of 1 m along x, end to end: two blocks. */
#define LINES 16
static void lines(uint8_t *records)
{
    int i;
    for (i = 0; i < LINES; i++) {
        record(records + CREST_RECORD_BYTES * i, 1, 1000, 1000 * GRAINS * i, 0, ONE, 0, 0);
    }
}

/* ---- The calls */

static uint8_t k[CREST_BLOCK_BYTES];       /* one line of 10 m along x, as a file */
static uint8_t two[2 * CREST_BLOCK_BYTES]; /* the sixteen lines, as a file */

static void writes(void)
{
    uint8_t one[CREST_RECORD_BYTES], many[CREST_RECORD_BYTES * LINES];
    uint8_t *records, *room;
    size_t len;
    record(one, 1, 10000, 0, 0, ONE, 0, 0);
    lines(many);

    expect("write nothing to nothing", crest_write(NULL, 0, NULL, 0), 17);
    expect("write to no room", crest_write(one, sizeof one, NULL, 0), 18);
    room = room_of(sizeof k);
    expect("write no records", crest_write(NULL, 0, room, sizeof k), 17);
    hold("refused write leaves the room", all(room, sizeof k, 0x5a));
    records = copy_of(one, sizeof one);
    expect("write one record", crest_write(records, sizeof one, room, sizeof k), 0);
    hold("sum A", get16(room + SUMS_AT) == 1u + 0x10 + 0x27 + 0x40 + 1 + 1);
    memcpy(k, room, sizeof k);
    end_room("write of a block", room, sizeof k);
    for (len = 0; len < sizeof one; len += sizeof one - 1) {
        room = room_of(600);
        expect("write part of a record", crest_write(records, len, room, 600), 17);
        hold("refused write leaves the room", all(room, 600, 0x5a));
        end_room("refused write", room, 600);
    }
    free(records);

    records = copy_of(many, sizeof many);
    for (len = 0; len <= 1100; len += 73) {
        room = room_of(len);
        expect("write sixteen records", crest_write(records, sizeof many, room, len), len < sizeof two ? 18 : 0);
        hold("room beyond the blocks", len < sizeof two ? all(room, len, 0x5a) : all(room + sizeof two, len - sizeof two, 0x5a));
        end_room("write to any room", room, len);
    }
    room = room_of(sizeof two);
    expect("write sixteen records", crest_write(records, sizeof many, room, sizeof two), 0);
    memcpy(two, room, sizeof two);
    end_room("write of two blocks", room, sizeof two);
    put32(records + CREST_RECORD_BYTES * 8 + X_AT, 1000 * GRAINS * 8 + WIDEST_GAP + 1);
    room = room_of(sizeof two);
    expect("write with a gap", crest_write(records, sizeof many, room, sizeof two), 8 + PLACE_UNIT * 7);
    hold("refused write leaves the room", all(room, sizeof two, 0x5a));
    end_room("refused write", room, sizeof two);
    free(records);
}

static void checks(void)
{
    uint8_t *file = copy_of(two, sizeof two);
    size_t len;
    expect("check nothing", crest_check(NULL, 0), 1);
    expect("check nothing at an address", crest_check(file, 0), 1);
    for (len = 1; len < sizeof two; len += 93) {
        uint8_t *part = copy_of(two, len);
        expect("check a part", crest_check(part, len), 1);
        free(part);
    }
    expect("check", crest_check(file, sizeof two), 0);
    expect("check its first block alone", crest_check(file, sizeof k), 0);
    file[700]++;
    expect("check wrong sums", crest_check(file, sizeof two), 2 + PLACE_UNIT * 1);
    memcpy(file + CREST_BLOCK_BYTES, two, CREST_BLOCK_BYTES);
    expect("check a block twice", crest_check(file, sizeof two), 3 + PLACE_UNIT * 1);
    hold("number and place", CREST_NUMBER(3 + PLACE_UNIT * 1) == 3 && CREST_PLACE(3 + PLACE_UNIT * 1) == 1);
    free(file);
}

static void readings(void)
{
    uint8_t *file = copy_of(k, sizeof k);
    uint8_t *run = room_of(CREST_RUN_BYTES);
    uint8_t before[CREST_RUN_BYTES];
    size_t len;

    memset(run, 0, CREST_RUN_BYTES);
    expect("point", crest_plane_reading(file, sizeof k, 512.0, 300.0, run, CREST_RUN_BYTES), 0);
    hold("station, offset, residual", get32(run + ONE_AT) == 5 && get32(run + TWO_AT) == 300 && get32(run + THREE_AT) == 12);
    expect("place", crest_line_reading(file, sizeof k, 5.0, -300.0, run, CREST_RUN_BYTES), 0);
    hold("x, y, 0", get32(run + ONE_AT) == 500 && get32(run + TWO_AT) == -300 && get32(run + THREE_AT) == 0);
    expect("point before the start", crest_plane_reading(file, sizeof k, -101.0, 0.0, run, CREST_RUN_BYTES), 13);
    hold("no stale values", all(run + ONE_AT, CREST_RUN_BYTES - ONE_AT, 0) && get16(run + LATEST_AT) == 13);
    hold("first refusal", get16(run + FIRST_AT) == 13 && get16(run + FIRST_READING_AT) == 3);
    expect("point after the end", crest_plane_reading(file, sizeof k, 1000101.0, 0.0, run, CREST_RUN_BYTES), 14);
    expect("point too far", crest_plane_reading(file, sizeof k, 500000.0, 20000001.0, run, CREST_RUN_BYTES), 12);
    expect("point outside the frame", crest_plane_reading(file, sizeof k, FRAME + 1.0, 0.0, run, CREST_RUN_BYTES), 11);
    expect("huge point", crest_plane_reading(file, sizeof k, 1e300, 0.0, run, CREST_RUN_BYTES), 11);
    expect("no number", crest_plane_reading(file, sizeof k, (double)NAN, 0.0, run, CREST_RUN_BYTES), 10);
    expect("infinite", crest_plane_reading(file, sizeof k, 0.0, -(double)INFINITY, run, CREST_RUN_BYTES), 10);
    expect("half a grain", crest_plane_reading(file, sizeof k, 0.5, 0.0, run, CREST_RUN_BYTES), 10);
    expect("minus zero", crest_plane_reading(file, sizeof k, -0.0, -0.0, run, CREST_RUN_BYTES), 0);
    expect("place beyond the end", crest_line_reading(file, sizeof k, 10001.0, 0.0, run, CREST_RUN_BYTES), 15);
    expect("offset too far", crest_line_reading(file, sizeof k, 1.0, WIDEST_OFFSET + 1.0, run, CREST_RUN_BYTES), 15);
    expect("place with no number", crest_line_reading(file, sizeof k, (double)NAN, 0.0, run, CREST_RUN_BYTES), 10);
    expect("point on no card", crest_plane_reading(NULL, 0, 0.0, 0.0, run, CREST_RUN_BYTES), 1);
    expect("place on no card", crest_line_reading(NULL, 0, 0.0, 0.0, run, CREST_RUN_BYTES), 1);
    expect("point on half a card", crest_plane_reading(file, sizeof k / 2, 0.0, 0.0, run, CREST_RUN_BYTES), 1);
    hold("counts", get16(run + ANSWERED_AT) == 3 && get16(run + REFUSED_AT) == 14);
    hold("first refusal kept", get16(run + FIRST_AT) == 13 && get16(run + FIRST_READING_AT) == 3);
    expect("acknowledge", crest_acknowledge(run, CREST_RUN_BYTES), 0);
    hold("counts as before", get16(run + ANSWERED_AT) == 3 && get16(run + REFUSED_AT) == 14 && get16(run + LATEST_AT) == 1);
    hold("acknowledged", all(run + FIRST_AT, SPARE_AT - FIRST_AT, 0));
    file[100] = 1;
    expect("point on a damaged card", crest_plane_reading(file, sizeof k, 0.0, 0.0, run, CREST_RUN_BYTES), 2);
    hold("first refusal again", get16(run + FIRST_AT) == 2 && get16(run + FIRST_READING_AT) == 18);
    file[100] = 0;
    hold("zero bytes untouched", all(run + SPARE_AT, ONE_AT - SPARE_AT, 0));
    end_room("run", run, CREST_RUN_BYTES);

    /* A full run, and one with something in bytes 10 and 11. */
    run = room_of(CREST_RUN_BYTES);
    memset(run, 0xff, CREST_RUN_BYTES);
    memcpy(before, run, CREST_RUN_BYTES);
    expect("full run", crest_plane_reading(file, sizeof k, 0.0, 0.0, run, CREST_RUN_BYTES), 16);
    expect("full run", crest_line_reading(NULL, 0, (double)NAN, 0.0, run, CREST_RUN_BYTES), 16);
    hold("full run unchanged", memcmp(before, run, CREST_RUN_BYTES) == 0);
    expect("acknowledge a full run", crest_acknowledge(run, CREST_RUN_BYTES), 0);
    hold("only the first goes", all(run, FIRST_AT, 0xff) && all(run + FIRST_AT, SPARE_AT - FIRST_AT, 0)
                                    && all(run + SPARE_AT, CREST_RUN_BYTES - SPARE_AT, 0xff));
    end_room("full run", run, CREST_RUN_BYTES);

    /* Runs that are none. */
    expect("no run", crest_plane_reading(file, sizeof k, 0.0, 0.0, NULL, 0), 18);
    expect("no run", crest_line_reading(file, sizeof k, 0.0, 0.0, NULL, 0), 18);
    expect("no run", crest_acknowledge(NULL, 0), 18);
    for (len = 0; len < 2 * CREST_RUN_BYTES + 12; len++) {
        if (len != CREST_RUN_BYTES) {
            run = room_of(len);
            expect("odd run", crest_plane_reading(file, sizeof k, 0.0, 0.0, run, len), 18);
            expect("odd run", crest_line_reading(NULL, 0, 0.0, 0.0, run, len), 18);
            expect("odd run", crest_sighting_reading(NULL, 0, FRAME + 1, 0, 0, 0, 0, 0, -1, run, len), 18);
            expect("odd run", crest_acknowledge(run, len), 18);
            hold("odd run unchanged", all(run, len, 0x5a));
            end_room("odd run", run, len);
        }
    }
    free(file);
}

static int is_move(const uint8_t *move, int32_t forward, int32_t left)
{
    return get32(move + FORWARD_AT) == forward && get32(move + LEFT_AT) == left;
}

static void stakes(void)
{
    size_t len;
    expect("no move", crest_stake_out(0, 0, 100, 200, 0, ONE, NULL, 0), 18);
    for (len = 0; len < 20; len++) {
        uint8_t *move = room_of(len);
        expect("move", crest_stake_out(0, 0, 100, 200, 0, ONE, move, len), len == CREST_MOVE_BYTES ? 0 : 18);
        hold("move", len == CREST_MOVE_BYTES ? is_move(move, 200, -100) : all(move, len, 0x5a));
        end_room("move", move, len);
    }
    {
        uint8_t *move = room_of(CREST_MOVE_BYTES);
        expect("own point outside", crest_stake_out(FRAME + 1, 0, 0, 0, ONE, 0, move, CREST_MOVE_BYTES), 11);
        expect("target outside", crest_stake_out(0, 0, 0, INT32_MIN, 0, 0, move, CREST_MOVE_BYTES), 11);
        expect("no heading", crest_stake_out(0, 0, 0, 0, 0, 0, move, CREST_MOVE_BYTES), 7);
        expect("heading of the least numbers", crest_stake_out(0, 0, 0, 0, INT32_MIN, INT32_MIN, move, CREST_MOVE_BYTES), 7);
        hold("refused moves leave the room", all(move, CREST_MOVE_BYTES, 0x5a));
        expect("across the frame", crest_stake_out(-FRAME, -FRAME, FRAME, FRAME, ONE, 0, move, CREST_MOVE_BYTES), 0);
        hold("across the frame", is_move(move, 2 * FRAME, 2 * FRAME));
        end_room("move", move, CREST_MOVE_BYTES);
    }
}

/* Four fifths and three fifths of ONE: a direction. */
#define FOUR 858993459
#define THREE 644245094
/* The largest s with which (ONE, s) is a unit. */
#define BESIDE 46340

/* Sightings on one line of 10 m along x. */
static void sightings(void)
{
    uint8_t *file = copy_of(k, sizeof k);
    uint8_t *run = room_of(CREST_RUN_BYTES);
    uint8_t before[CREST_RUN_BYTES];

    /* From (4/5, 3/5) a quarter to the left: (-3/5, 4/5), 1000 grains of it from (1112, -500). */
    memset(run, 0, CREST_RUN_BYTES);
    expect("sighting", crest_sighting_reading(file, sizeof k, 1112, -500, FOUR, THREE, 0, ONE, 1000, run, CREST_RUN_BYTES), 0);
    hold("station, offset, residual", get32(run + ONE_AT) == 5 && get32(run + TWO_AT) == 300 && get32(run + THREE_AT) == 12);
    expect("to the right", crest_sighting_reading(file, sizeof k, -88, 1100, FOUR, THREE, 0, -ONE, 1000, run, CREST_RUN_BYTES), 0);
    hold("station, offset, residual", get32(run + ONE_AT) == 5 && get32(run + TWO_AT) == 300 && get32(run + THREE_AT) == 12);
    expect("backwards", crest_sighting_reading(file, sizeof k, 1312, 900, -ONE, 0, FOUR, THREE, 1000, run, CREST_RUN_BYTES), 0);
    hold("station, offset, residual", get32(run + ONE_AT) == 5 && get32(run + TWO_AT) == 300 && get32(run + THREE_AT) == 12);
    expect("no distance", crest_sighting_reading(file, sizeof k, 700, -40, FOUR, THREE, FOUR, THREE, 0, run, CREST_RUN_BYTES), 0);
    hold("the instrument's place", get32(run + ONE_AT) == 7 && get32(run + TWO_AT) == -40 && get32(run + THREE_AT) == 0);
    expect("the longest", crest_sighting_reading(file, sizeof k, 300 - LONGEST_SIGHT, 9, ONE, 0, ONE, 0, LONGEST_SIGHT, run,
                                                 CREST_RUN_BYTES), 0);
    hold("the longest sighting", get32(run + ONE_AT) == 3 && get32(run + TWO_AT) == 9 && get32(run + THREE_AT) == 0);
    expect("pairs whose turned one is no unit", crest_sighting_reading(file, sizeof k, 300 - LONGEST_SIGHT, 0, ONE, BESIDE, ONE,
                                                                       BESIDE, LONGEST_SIGHT, run, CREST_RUN_BYTES), 0);
    hold("no unit turned", get32(run + ONE_AT) == 3 && get32(run + TWO_AT) == 4316 && get32(run + THREE_AT) == 0);
    /* 2^19 beside the axis, which over 1024 grains is half a grain: up, from -1/2 too. */
    expect("half a grain", crest_sighting_reading(file, sizeof k, 0, 0, ONE, 0, ONE - 128, 1 << 19, 1024, run, CREST_RUN_BYTES), 0);
    hold("half a grain goes up", get32(run + ONE_AT) == 10 && get32(run + TWO_AT) == 1 && get32(run + THREE_AT) == 24);
    expect("half back", crest_sighting_reading(file, sizeof k, 0, 0, ONE, 0, ONE - 128, -(1 << 19), 1024, run, CREST_RUN_BYTES), 0);
    hold("minus half a grain goes to 0", get32(run + ONE_AT) == 10 && get32(run + TWO_AT) == 0 && get32(run + THREE_AT) == 24);
    hold("eight answers", get16(run + ANSWERED_AT) == 8 && get16(run + REFUSED_AT) == 0);

    expect("before the start", crest_sighting_reading(file, sizeof k, -501, 0, ONE, 0, ONE, 0, 400, run, CREST_RUN_BYTES), 13);
    hold("no stale values", all(run + ONE_AT, CREST_RUN_BYTES - ONE_AT, 0) && get16(run + LATEST_AT) == 13);
    hold("first refusal", get16(run + FIRST_AT) == 13 && get16(run + FIRST_READING_AT) == 9);
    expect("past the end", crest_sighting_reading(file, sizeof k, 999701, 0, ONE, 0, ONE, 0, 400, run, CREST_RUN_BYTES), 14);
    expect("too far", crest_sighting_reading(file, sizeof k, 0, 20000001, ONE, 0, ONE, 0, 500, run, CREST_RUN_BYTES), 12);
    expect("point at the edge", crest_sighting_reading(file, sizeof k, FRAME - 1, 0, ONE, 0, ONE, 0, 1, run, CREST_RUN_BYTES), 12);
    expect("point outside", crest_sighting_reading(file, sizeof k, FRAME, 0, ONE, 0, ONE, 0, 1, run, CREST_RUN_BYTES), 11);
    expect("negative", crest_sighting_reading(file, sizeof k, FRAME, 0, ONE, 0, ONE, 0, -1, run, CREST_RUN_BYTES), 15);
    expect("too long", crest_sighting_reading(file, sizeof k, 0, 0, ONE, 0, ONE, 0, LONGEST_SIGHT + 1, run, CREST_RUN_BYTES), 15);
    expect("least", crest_sighting_reading(file, sizeof k, 0, 0, ONE, 0, ONE, 0, INT32_MIN, run, CREST_RUN_BYTES), 15);
    expect("place outside", crest_sighting_reading(file, sizeof k, 0, -FRAME - 1, ONE, 0, ONE, 0, -1, run, CREST_RUN_BYTES), 11);
    expect("place far outside", crest_sighting_reading(file, sizeof k, INT32_MIN, 0, ONE, 0, ONE, 0, 9, run, CREST_RUN_BYTES), 11);
    expect("no backsight", crest_sighting_reading(file, sizeof k, FRAME + 1, 0, 0, 0, ONE, 0, -1, run, CREST_RUN_BYTES), 7);
    expect("no angle", crest_sighting_reading(file, sizeof k, FRAME + 1, 0, ONE, 0, ONE, BESIDE + 1, -1, run, CREST_RUN_BYTES), 7);
    expect("the least numbers", crest_sighting_reading(file, sizeof k, INT32_MIN, INT32_MIN, INT32_MIN, INT32_MIN, INT32_MIN,
                                                       INT32_MIN, INT32_MIN, run, CREST_RUN_BYTES), 7);
    expect("sighting on no card", crest_sighting_reading(NULL, 0, 0, 0, 0, 0, 0, 0, 0, run, CREST_RUN_BYTES), 1);
    file[100] = 1;
    expect("sighting on a damaged card", crest_sighting_reading(file, sizeof k, 0, 0, 0, 0, 0, 0, 0, run, CREST_RUN_BYTES), 2);
    file[100] = 0;
    hold("counts", get16(run + ANSWERED_AT) == 8 && get16(run + REFUSED_AT) == 15);
    hold("first refusal kept", get16(run + FIRST_AT) == 13 && get16(run + FIRST_READING_AT) == 9);
    hold("zero bytes untouched", all(run + SPARE_AT, ONE_AT - SPARE_AT, 0));
    end_room("run of sightings", run, CREST_RUN_BYTES);

    run = room_of(CREST_RUN_BYTES);
    memset(run, 0xff, CREST_RUN_BYTES);
    memcpy(before, run, CREST_RUN_BYTES);
    expect("full run", crest_sighting_reading(file, sizeof k, 0, 0, ONE, 0, ONE, 0, 0, run, CREST_RUN_BYTES), 16);
    expect("full run", crest_sighting_reading(NULL, 0, FRAME + 1, 0, 0, 0, 0, 0, -1, run, CREST_RUN_BYTES), 16);
    hold("full run unchanged", memcmp(before, run, CREST_RUN_BYTES) == 0);
    end_room("full run of sightings", run, CREST_RUN_BYTES);
    expect("no run", crest_sighting_reading(file, sizeof k, 0, 0, ONE, 0, ONE, 0, 0, NULL, 0), 18);
    free(file);
}

static void sighted_stakes(void)
{
    size_t len;
    uint8_t *move;
    expect("no move", crest_sighting_stake_out(1112, -500, FOUR, THREE, 0, ONE, 1000, 612, 500, NULL, 0), 18);
    expect("nothing right", crest_sighting_stake_out(FRAME + 1, 0, 0, 0, 0, 0, -1, 0, FRAME + 1, NULL, 0), 18);
    for (len = 0; len < 20; len++) {
        /* The prism is at (512, 300), the way back to the instrument is (3/5, -4/5), and the target is (100, 200) farther. */
        move = room_of(len);
        expect("move", crest_sighting_stake_out(1112, -500, FOUR, THREE, 0, ONE, 1000, 612, 500, move, len),
               len == CREST_MOVE_BYTES ? 0 : 18);
        hold("move", len == CREST_MOVE_BYTES ? is_move(move, -100, 200) : all(move, len, 0x5a));
        end_room("move", move, len);
    }
    move = room_of(CREST_MOVE_BYTES);
    expect("no backsight", crest_sighting_stake_out(FRAME + 1, 0, 0, 0, ONE, 0, -1, FRAME + 1, 0, move, CREST_MOVE_BYTES), 7);
    expect("no angle", crest_sighting_stake_out(FRAME + 1, 0, ONE, 0, ONE + 1, 0, -1, FRAME + 1, 0, move, CREST_MOVE_BYTES), 7);
    expect("place outside", crest_sighting_stake_out(0, FRAME + 1, ONE, 0, ONE, 0, -1, FRAME + 1, 0, move, CREST_MOVE_BYTES), 11);
    expect("negative", crest_sighting_stake_out(FRAME, 0, ONE, 0, ONE, 0, -1, FRAME + 1, 0, move, CREST_MOVE_BYTES), 15);
    expect("too long", crest_sighting_stake_out(0, 0, ONE, 0, ONE, 0, LONGEST_SIGHT + 1, 0, 0, move, CREST_MOVE_BYTES), 15);
    expect("point outside", crest_sighting_stake_out(FRAME, 0, ONE, 0, ONE, 0, 1, 0, 0, move, CREST_MOVE_BYTES), 11);
    expect("target outside", crest_sighting_stake_out(0, 0, ONE, 0, ONE, 0, 1, 0, -FRAME - 1, move, CREST_MOVE_BYTES), 11);
    expect("target far outside", crest_sighting_stake_out(0, 0, ONE, 0, ONE, 0, 1, INT32_MIN, 0, move, CREST_MOVE_BYTES), 11);
    hold("refused moves leave the room", all(move, CREST_MOVE_BYTES, 0x5a));
    /* The instrument looks along x, so the crew looks against it. */
    expect("across the frame", crest_sighting_stake_out(-FRAME, -FRAME, ONE, 0, ONE, 0, 0, FRAME, FRAME, move, CREST_MOVE_BYTES), 0);
    hold("across the frame", is_move(move, -2 * FRAME, -2 * FRAME));
    expect("the longest", crest_sighting_stake_out(0, 0, 0, ONE, 0, -ONE, LONGEST_SIGHT, 0, 30, move, CREST_MOVE_BYTES), 0);
    hold("back to the instrument", is_move(move, LONGEST_SIGHT, -30));
    expect("a turned pair that is no unit", crest_sighting_stake_out(0, 0, ONE, BESIDE, ONE, BESIDE, 1000, 1100, 200, move,
                                                                    CREST_MOVE_BYTES), 0);
    hold("under no unit", is_move(move, -100, -200));
    end_room("move of a sighting", move, CREST_MOVE_BYTES);
}

/* Both sorts of reading in every floating-point mode, four ways of rounding with subnormals kept, flushed or taken as zero, as in
 * the mode that the program began with: of zeros, subnormals, halves, whole and huge numbers, infinities, and NaNs of both sorts. */
static void modes(void)
{
    static const uint64_t bits[] = {0x0000000000000000u, 0x8000000000000000u, 0x0000000000000001u, 0x800fffffffffffffu,
                                    0x0010000000000000u, 0x3fe0000000000000u, 0x4014000000000000u, 0x4080200000000000u,
                                    0xc059400000000000u, 0x412e8480c0000000u, 0x41b0000000000000u, 0x7fefffffffffffffu,
                                    0x7ff0000000000000u, 0xfff0000000000000u, 0x7ff0000000000001u, 0xfff8000000000000u};
    enum { NUMBERS = sizeof bits / sizeof bits[0] };
    const unsigned flush = 0x8000, zero = 0x0040, rounding = 0x6000, down = 0x2000;
    const unsigned usual = _mm_getcsr() & ~(flush | zero | rounding);
    double numbers[NUMBERS];
    unsigned mode, i, j;
    memcpy(numbers, bits, sizeof numbers);
    for (i = 0; i < NUMBERS; i++) {
        for (j = 0; j < NUMBERS; j++) {
            uint8_t point[CREST_RUN_BYTES] = {0}, place[CREST_RUN_BYTES] = {0};
            const uint32_t of_point = crest_plane_reading(k, sizeof k, numbers[i], numbers[j], point, CREST_RUN_BYTES);
            const uint32_t of_place = crest_line_reading(k, sizeof k, numbers[i], numbers[j], place, CREST_RUN_BYTES);
            for (mode = 1; mode < 16; mode++) {
                uint8_t other_point[CREST_RUN_BYTES] = {0}, other_place[CREST_RUN_BYTES] = {0};
                uint32_t of_other_point, of_other_place;
                _mm_setcsr(usual + mode / 4 * down + (mode & 1 ? flush : 0) + (mode & 2 ? zero : 0));
                of_other_point = crest_plane_reading(k, sizeof k, numbers[i], numbers[j], other_point, CREST_RUN_BYTES);
                of_other_place = crest_line_reading(k, sizeof k, numbers[i], numbers[j], other_place, CREST_RUN_BYTES);
                _mm_setcsr(usual);
                expect("point in another mode", of_other_point, of_point);
                expect("place in another mode", of_other_place, of_place);
                hold("run of a point in another mode", memcmp(point, other_point, sizeof point) == 0);
                hold("run of a place in another mode", memcmp(place, other_place, sizeof place) == 0);
            }
        }
    }
}

int main(void)
{
    writes();
    checks();
    readings();
    stakes();
    sightings();
    sighted_stakes();
    modes();
    printf("calls.c calls %u differences %u\n", calls, surprises);
    return surprises != 0;
}
