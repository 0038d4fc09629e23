/* The refusals of crest.h in words, for messages and displays. Firmware that shows numbers only can leave this header out. */
#ifndef CREST_TEXT_H
#define CREST_TEXT_H

#include <stdint.h>

/* The sentence of a refusal number, CREST_NUMBER of what a call returned: ASCII, in memory that is never freed. */
static inline const char *crest_refusal_text(uint32_t number)
{
    static const char *const sentences[] = {
        "no refusal",
        "the crest's byte count is not 512, 1024, 1536 or 2048",
        "a block's sum A or B is wrong",
        "a block's number, use count or edition is wrong, or a byte that must be zero outside its used records is not",
        "a record's kind is damaged, or one of its bytes 1 to 3 or 28 to 31 is not zero",
        "a record's kind is 5 to 15, of a later edition",
        "a record's length, radius, x or y is out of range",
        "a direction is not a unit: a record's, the heading's, a sighting's backsight or angle",
        "a gap at a join: more than 100 grains in a coordinate",
        "a kink at a join: more than 1,000,000 in a component of the direction",
        "a reading's number is not finite or not whole",
        "a plane point lies outside the frame of 200,000,000 grains either way, given or resulting",
        "the point lies more than 20,000,000 grains from the nearest station",
        "the point lies before the start: station 0 with a residual below -100 grains",
        "the point lies past the end: the last station with a residual above 100 grains",
        "a station, an offset, a distance or a record number is out of range",
        "the run is full",
        "the writer's record bytes are not 32 times 1 to 60",
        "the room is smaller than the blocks needed, a run's bytes are not 24, or a move's not 8",
    };
    return number < sizeof sentences / sizeof sentences[0] ? sentences[number] : "not in the table";
}

#endif
