/* Three nights of a logger's firmware: the office writes a crest card, the logger at the dam loads it, takes readings unattended,
 * and shows its run on Monday morning. Then the same night with a damaged card, and one in which an instrument sights the
 * markers; there the logger also tells a crew the move of a stake.
 *
 *     cc -std=c11 -Iinclude -o target/logger examples/logger.c target/staticlib/libcrest.a
 *     target/logger target/card        the file is the card, which it writes
 */
#include "crest.h"

#include <math.h>
#include <stdio.h>

/* ---- Fields of lent bytes, little-endian on every machine */

static unsigned get16(const uint8_t *at)
{
    return at[0] + 256u * at[1];
}

static long get32(const uint8_t *at)
{
    int64_t value = get16(at) + 65536 * (int64_t)get16(at + 2);
    return (long)(value < 2147483648LL ? value : value - 4294967296LL);
}

static void put32(uint8_t *at, int32_t value)
{
    for (int i = 0; i < 4; i++) {
        at[i] = (uint8_t)((uint32_t)value >> (8 * i));
    }
}

/* ---- The office: three elements to a card */

/* A straight of 60 m, an entry spiral of 30 m, and an arc of 40 m to the left with a radius of 200 m. */
static const struct {
    uint8_t kind;
    int32_t length, x, y, c, s, radius;
} elements[] = {
    {1, 60000, 1000000, 2000000, 858993459, 644245094, 0},
    {3, 30000, 5800000, 5600000, 858993459, 644245094, 200000},
    {2, 40000, 8153668, 7458964, 808305576, 706798133, 200000},
};
#define ELEMENTS (sizeof elements / sizeof elements[0])

/* The writer checks the records, so that no card leaves the office that the logger would refuse. */
static uint32_t make_card(uint8_t *card, size_t card_len)
{
    uint8_t records[ELEMENTS * CREST_RECORD_BYTES] = {0};
    for (size_t i = 0; i < ELEMENTS; i++) {
        uint8_t *at = records + i * CREST_RECORD_BYTES;
        at[0] = elements[i].kind;
        put32(at + 4, elements[i].length);
        put32(at + 8, elements[i].x);
        put32(at + 12, elements[i].y);
        put32(at + 16, elements[i].c);
        put32(at + 20, elements[i].s);
        put32(at + 24, elements[i].radius);
    }
    return crest_write(records, sizeof records, card, card_len);
}

static int save(const char *path, const uint8_t *bytes, size_t len)
{
    FILE *file = fopen(path, "wb");
    if (file == NULL) {
        return 0;
    }
    size_t written = fwrite(bytes, 1, len, file);
    return fclose(file) == 0 && written == len;
}

/* ---- The logger: all that it keeps */

/* One byte more than the longest card, so that a file that is too long is seen and refused. */
static uint8_t card[CREST_FILE_BYTES_MAX + 1];
static size_t card_len;
static uint8_t run[CREST_RUN_BYTES]; /* zero: a fresh run */

/* A card that cannot be read is an empty card: its readings are refused and counted like those of any bad card. */
static void load(const char *path)
{
    FILE *file = fopen(path, "rb");
    card_len = 0;
    if (file != NULL) {
        card_len = fread(card, 1, sizeof card, file);
        fclose(file);
    }
    uint32_t refusal = crest_check(card, card_len);
    if (refusal == 0) {
        printf("card accepted, %u bytes\n", (unsigned)card_len);
    } else {
        printf("card refused: number %u, place %u\n", (unsigned)CREST_NUMBER(refusal), (unsigned)CREST_PLACE(refusal));
    }
}

/* What the instruments gave, in grains (100 to 1 mm) and mm. A lost satellite leaves NAN. */
enum sort { POINT, PLACE };
static const struct {
    const char *time;
    enum sort sort;
    double first, second;
} night[] = {
    {"22:00", POINT, 1987416, 2740948},   /* beside the straight */
    {"23:00", POINT, 6994613, 6507111},   /* beside the spiral */
    {"00:00", POINT, NAN, 6507111},       /* no fix */
    {"01:00", POINT, 9590077, 8849343},   /* beside the arc */
    {"02:00", PLACE, 75000, -450},        /* where is station 75 m, 4.5 mm to the right? */
    {"03:00", PLACE, 130001, 0},          /* 1 mm beyond the crest's end */
    {"04:00", POINT, 9590077.5, 8849343}, /* half a grain: not a whole number */
    {"05:00", POINT, 10882384, 10374587}, /* the end */
};

/* What a call returned, and where it answered, what it left in the run. */
static void show(const char *name, uint32_t refusal, enum sort sort)
{
    printf("%s ", name);
    if (refusal != 0) {
        printf("refused %u\n", (unsigned)CREST_NUMBER(refusal));
    } else if (sort == POINT) {
        printf("station %ld mm, offset %ld, residual %ld grains\n", get32(run + 12), get32(run + 16), get32(run + 20));
    } else {
        printf("point x %ld, y %ld grains\n", get32(run + 12), get32(run + 16));
    }
}

/* The check of the card is part of every call: nothing has to be remembered from load(). */
static void take_readings(void)
{
    for (size_t i = 0; i < sizeof night / sizeof night[0]; i++) {
        int point = night[i].sort == POINT;
        uint32_t refusal = point ? crest_plane_reading(card, card_len, night[i].first, night[i].second, run, sizeof run)
                                 : crest_line_reading(card, card_len, night[i].first, night[i].second, run, sizeof run);
        show(night[i].time, refusal, night[i].sort);
    }
}

/* ---- An instrument beside the dam: its place in grains, and the direction to its backsight, 3/5 against x and 4/5 along y */

static const int32_t place_x = 4200000, place_y = 8900000, backsight_c = -644245094, backsight_s = 858993459;

/* The angle turned from the backsight to a prism, its cosine and sine with 2^30 for 1, and the distance in grains. */
struct sight {
    const char *name;
    int32_t angle_c, angle_s, distance;
};
static const struct sight markers[] = {
    {"M1", -590597860, 896724970, 6544410},   /* beside the straight */
    {"M2", -1048052747, -233467222, 3679084}, /* beside the spiral */
    {"M3", -652285988, -852903567, -1},       /* beside the arc, but nothing came back: the instrument gives -1 */
    {"M4", -444008992, -977638747, 6843135},  /* the end */
};
static const struct sight stake = {"S1", -1048996059, -229191563, 3674306};

static void take_sightings(void)
{
    for (size_t i = 0; i < sizeof markers / sizeof markers[0]; i++) {
        const struct sight *at = &markers[i];
        uint32_t refusal = crest_sighting_reading(card, card_len, place_x, place_y, backsight_c, backsight_s, at->angle_c,
                                                  at->angle_s, at->distance, run, sizeof run);
        show(at->name, refusal, POINT);
    }
}

/* A stake belongs at station 75 m, 4.5 mm to the right. The card says where that is, on a run that is thrown away, and the
 * instrument sees where the crew holds the prism. The move is for one who looks from there to the instrument. */
static int tell_crew(void)
{
    uint8_t asked[CREST_RUN_BYTES] = {0}, move[CREST_MOVE_BYTES];
    if (crest_line_reading(card, card_len, 75000, -450, asked, sizeof asked) != 0
        || crest_sighting_stake_out(place_x, place_y, backsight_c, backsight_s, stake.angle_c, stake.angle_s, stake.distance,
                                    (int32_t)get32(asked + 12), (int32_t)get32(asked + 16), move, sizeof move) != 0) {
        return 0;
    }
    printf("stake %s, facing the instrument: forward %ld, left %ld grains\n", stake.name, get32(move), get32(move + 4));
    return 1;
}

/* From the run's bytes alone. */
static void monday(void)
{
    printf("Monday: %u answered, %u refused\n", get16(run), get16(run + 2));
    if (get16(run + 4) == 0) {
        printf("latest: answered %ld %ld %ld\n", get32(run + 12), get32(run + 16), get32(run + 20));
    } else {
        /* After a refusal the three numbers are zero: no answer of an earlier reading is left to be mistaken for this one's. */
        printf("latest: refused %u, numbers %ld %ld %ld\n", get16(run + 4), get32(run + 12), get32(run + 16), get32(run + 20));
    }
    if (get16(run + 6) == 0) {
        printf("first refusal: none\n");
    } else {
        printf("first refusal: number %u at reading %u\n", get16(run + 6), get16(run + 8));
    }
}

int main(int argc, char **argv)
{
    if (argc != 2) {
        fprintf(stderr, "usage: logger CARD\n");
        return 2;
    }
    uint8_t made[CREST_BLOCK_BYTES];
    if (make_card(made, sizeof made) != 0 || !save(argv[1], made, sizeof made)) {
        fprintf(stderr, "no card\n");
        return 1;
    }

    printf("-- a night\n");
    load(argv[1]);
    take_readings();
    monday();
    if (crest_acknowledge(run, sizeof run) != 0) {
        return 1;
    }
    printf("acknowledged\n");
    monday();

    /* One bit of the card flips: every reading of the next night is refused and counted, with its first as the first refusal. */
    made[300] ^= 1;
    if (!save(argv[1], made, sizeof made)) {
        return 1;
    }
    printf("-- a night with a damaged card\n");
    load(argv[1]);
    take_readings();
    monday();

    /* The office sends the card again, and the markers are sighted. Sightings are counted on the same run. */
    made[300] ^= 1;
    if (!save(argv[1], made, sizeof made)) {
        return 1;
    }
    printf("-- a night of sightings\n");
    if (crest_acknowledge(run, sizeof run) != 0) {
        return 1;
    }
    printf("acknowledged\n");
    load(argv[1]);
    take_sightings();
    monday();
    return tell_crew() ? 0 : 1;
}
