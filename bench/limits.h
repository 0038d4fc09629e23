/* The numbers of the rules. Each has one name, the same in the definitions, the code, reference/crest.py and tests/src/rules.rs; tests/limits
   compares them. */
#ifndef LIMITS_H
#define LIMITS_H

#include <stdint.h>

static const int64_t ONE = 1 << 30;
static const int64_t GRAINS = 100;

static const int64_t LONGEST_ELEMENT = 500000;
static const int64_t WIDEST = 10000000;
static const int64_t FRAME = 200000000;
static const int64_t UNIT_SQUARE = 1LL << 60;
static const int64_t UNIT_SLACK = 1LL << 31;
static const int64_t WIDEST_GAP = 100;
static const int64_t WIDEST_KINK = 1000000;

/* the walk's numbers, and those of what is decided at the station judged */
static const int64_t FIRST_STEP = 1000;
static const int64_t ROOT_SLACK = 31;
static const int64_t STEP_DIVISOR = 150;
static const uint64_t FARTHEST = 400000000000000;
static const int64_t PAST_END = 100;

/* where things lie: in a file, in a block, in a record */
enum {
    BLOCK_SIZE = 512,
    RECORDS_END = 480,
    PER_BLOCK = 15,
    RECORD_SIZE = 32,
    MOST_RECORDS = 60,
    MOST_BLOCKS = MOST_RECORDS / PER_BLOCK,

    FIELDS_AT = 480,
    USED_AT = 482,
    EDITION_AT = 484,
    EDITION = 1,
    ZEROS_AT = 488,
    ZERO_COUNT = 20,
    SUMS_AT = 508,
    SUM_B_AT = 510,
    SUM_MODULUS = 65536,

    KIND_AT = 0,
    FIRST_ZEROS_AT = 1,
    FIRST_ZERO_COUNT = 3,
    RECORD_LENGTH_AT = 4,
    X_AT = 8,
    Y_AT = 12,
    C_AT = 16,
    S_AT = 20,
    RADIUS_AT = 24,
    LAST_ZEROS_AT = 28,
    LAST_ZERO_COUNT = 4,
};

#endif
