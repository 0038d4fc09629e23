/* Crest alignments of embankment dams: the calls of libcrest.a, the static library of crate `crest_c`. For C99 and C++.
 *
 * Lengths and stations are whole millimetres. Plane coordinates and offsets are whole grains, 100 grains to 1 mm.
 * Turning from x towards y is left; left offsets and left radii are positive. A direction is a pair (c, s) with
 * c*c + s*s at most 2^31 from 2^60: its length is close to 2^30.
 *
 * Lent bytes are a pointer and a length. Every length is allowed, and no bytes are looked at outside it; with a length of 0
 * the pointer is not followed and may be NULL, which is tested and not proved. No alignment is asked for. The caller sees to it
 * that the bytes a call changes overlap no others that it is lent, and that nothing else writes lent bytes, or reads those that
 * are changed, while the call runs. A call keeps nothing for the next.
 *
 * Paths below, such as docs/FORMAT.md, are of the repository. tools/install puts docs/RULES.md and docs/FORMAT.md into
 * share/doc/crest.
 *
 * Every call returns 0 where it answers, and else
 *
 *     number + 256 * place
 *
 * of its refusal: the number is CREST_NUMBER(r), the place CREST_PLACE(r). Where several apply, the first in the order
 * given with each call is returned. crest_text.h has these sentences as strings.
 *
 *     no.  given exactly when                                                                       place
 *      1   the crest's byte count is not 512, 1024, 1536 or 2048                                    0
 *      2   a block's sum A or B is wrong                                                            block
 *      3   a block's number, use count or edition is wrong, or a byte that must be zero
 *          outside its used records is not                                                          block
 *      4   a record's kind is damaged, or one of its bytes 1 to 3 or 28 to 31 is not zero           record
 *      5   a record's kind is 5 to 15, of a later edition                                           record
 *      6   a record's length, radius, x or y is out of range                                        record
 *      7   a direction is not a unit: a record's, the heading's, a sighting's backsight or angle    record; 0
 *      8   a gap at a join: more than 100 grains in a coordinate                                    earlier record
 *      9   a kink at a join: more than 1,000,000 in a component of the direction                    earlier record
 *     10   a reading's number is not finite or not whole                                            0
 *     11   a plane point lies outside the frame of 200,000,000 grains either way, given or
 *          resulting                                                                                0
 *     12   the point lies more than 20,000,000 grains from the nearest station                      0
 *     13   the point lies before the start: station 0 with a residual below -100 grains             0
 *     14   the point lies past the end: the last station with a residual above 100 grains           0
 *     15   a station, an offset, a distance or a record number is out of range                      0
 *     16   the run is full                                                                          0
 *     17   the writer's record bytes are not 32 times 1 to 60                                       0
 *     18   the room is smaller than the blocks needed, a run's bytes are not 24, or a move's not 8  0
 *
 * Blocks are counted from 0, and so are records, over all blocks.
 *
 *
 * What a call needs
 *
 * No heap, no variables outside its stack, no locks, no system calls: a call changes the bytes lent to it for that, and nothing
 * else. So calls may be made from several threads at once, or one interrupt another, as long as no two of them share a run or a
 * room; lent bytes that are only read may be shared.
 *
 *     call                      stack, bytes  work
 *     crest_check                        344  its bytes, records and joins, once: some 42,000 instructions for 60 records
 *     crest_write                        456  as crest_check, and writing: some 41,000 in all
 *     crest_plane_reading                824  as crest_check, and the walk below
 *     crest_line_reading                 824  as crest_check, and one position: some 43,000 instructions
 *     crest_sighting_reading             808  as crest_plane_reading
 *     crest_stake_out                     64  some 80 instructions
 *     crest_sighting_stake_out            88  some 140 instructions
 *     crest_acknowledge                   64  some 20 instructions
 *
 * The stack is counted from the caller's frame, return addresses included; no call recurses, and the frames of the compiled
 * functions come to no more for any arguments (bench/stack, tests/install). Instructions are as bench/run counts them; these and
 * the times below were measured with the toolchain before the present one.
 *
 * Only crest_plane_reading and crest_sighting_reading search, and in the same way. The walk visits stations, twice over the
 * crest: on one of T mm at most T + T / 1000 + 3 of them, and never more than 30,030,002, since T is 30,000,000 at the most.
 * There are crests and points where it comes to that many. Most calls visit few: some 750 for points within 3 m of a crest of
 * 300 m. A visit takes some 130 to 140 instructions on average there, and some 200 where it takes a root (bench/README.md), as
 * each does in the first two calls below. Time is measured and not proved. On one x86-64 core of 2.6 GHz with little else to do
 * (bench/longest, with crest_plane_reading):
 *
 *     the longest call known, refused with 12   30,030,002 visits   873 ms at the least, 879 at the most of 15 calls
 *     the longest known that is answered         6,006,002 visits   175 ms at the least, 179 at the most
 *     as the first, where no roots are taken    30,030,002 visits   325 ms at the least, 333 at the most
 *
 * That is 29, 29 and 11 ns a visit, of the least.
 *
 * A watchdog that must not fire during a call has to wait for 30,030,002 visits, or for those of the longest crest in use, with
 * a margin: that no call takes longer is not shown.
 *
 *
 * The target
 *
 * The archive is for x86-64 Linux, System V calling convention, size_t of 64 bits. It is one object of some 12 KB, code and
 * constants; nothing in it is writable, and each function has a section of its own. It is position independent, has no
 * instructions beyond SSE2, and writes no byte below its stack pointer. Of other libraries it may need memset and memcpy, and
 * today needs memset alone, for crest_write: firmware without a C library has to supply it.
 *
 * The toolchain compiles for x86-64 only: another target takes a back end for it, and the check run again with that. The sources
 * read and write lent bytes one by one, so that no byte order is assumed, and compute with whole numbers of at most 64 bits.
 *
 *
 * Floating point
 *
 * Only crest_plane_reading and crest_line_reading take doubles. Each is compared with itself, which tells a NaN, and else read
 * from its bits: nothing is computed, converted or rounded in floating point. The proofs take the mode to be the default one.
 * Rounding mode, flush-to-zero and denormals-are-zero were tried and change nothing (tests/c/calls.c), and the calls leave the
 * mode as it is. The comparison sets the invalid flag for a signalling NaN and the denormal flag for a subnormal: a caller that
 * has unmasked one of these exceptions is interrupted by it.
 */
#ifndef CREST_H
#define CREST_H

#include <stddef.h>
#include <stdint.h>

#ifdef __cplusplus
extern "C" {
#endif

/* The version: 10000 * major + 100 * minor + patch, for #if, and as text. Major rises where the parameters of a call, a layout or
 * an answer change; minor where calls or refusal numbers are added; patch where neither is so. */
#define CREST_VERSION 10100
#define CREST_VERSION_TEXT "1.1.0"

#define CREST_NUMBER(r) ((uint32_t)(r) % 256u)
#define CREST_PLACE(r) ((uint32_t)(r) / 256u)

/* The sizes of what is lent, in bytes. */
#define CREST_BLOCK_BYTES 512u
#define CREST_RECORD_BYTES 32u
#define CREST_FILE_BYTES_MAX 2048u
#define CREST_RUN_BYTES 24u
#define CREST_MOVE_BYTES 8u

/* A record is one element: 32 bytes, little-endian. A crest has 1 to 60 of them, in the order of the stations.
 *
 *     0  kind     uint8_t                1 line, 2 arc, 3 entry spiral, 4 exit spiral
 *     1  zero     3 bytes
 *     4  length   uint32_t  mm           1 to 500,000
 *     8  x        int32_t   grains       -200,000,000 to 200,000,000
 *    12  y        int32_t   grains       -200,000,000 to 200,000,000
 *    16  c        int32_t   2^30 is 1    c*c + s*s at most 2^31 from 2^60
 *    20  s        int32_t   2^30 is 1
 *    24  radius   int32_t   mm           of a line 0; of an arc 2 lengths to 10,000,000, of a spiral 1 length to
 *                                        10,000,000, or the negative of that; to the left is positive
 *    28  zero     uint32_t
 *
 * (x, y) is the anchor, and (c, s) the direction there in which stations rise: cosine and sine of its angle from x towards y.
 * The anchor of a line, an arc and an entry spiral is its start, that of an exit spiral its far end. A spiral is straight at its
 * anchor and has its radius at the other end; an arc has it all along. docs/FORMAT.md has the whole file. */

/* Whether a crest file is accepted. Refusals, in this order: 1; 2 for all blocks; 3 for all; then record by record 4 or 5
 * for its kind, 4 for its reserved bytes, 6, 7; then join by join 8 before 9. */
uint32_t crest_check(const uint8_t *crest, size_t crest_len);

/* Writes the crest file of these records, 32 bytes each, to the front of the room: 512 bytes for every 15 records or fewer.
 * The rest of the room stays as it came. Refusals, in this order: 17; 4 to 9 as above; 18. A refusal changes no byte. */
uint32_t crest_write(const uint8_t *records, size_t records_len, uint8_t *room, size_t room_len);

/* The run: 24 bytes, little-endian. A fresh run is all zero; other bytes are taken as the state they spell.
 *
 *     0  answered        uint16_t   readings answered
 *     2  refused         uint16_t   readings refused
 *     4  latest number   uint16_t   of the latest counted reading: 0 for an answer, else its refusal's number
 *     6  first number    uint16_t   the first counted refusal since the last acknowledgement, 0 for none
 *     8  first reading   uint16_t   the number of its reading, counted from 1
 *    10  zero            uint16_t   neither read nor changed
 *    12  latest values   int32_t    station in mm | x in grains | 0
 *    16                  int32_t    offset        | y           | 0
 *    20                  int32_t    residual      | 0           | 0
 *
 * The latest values are those of a plane point or a sighting | of a line place | of a refusal. Offset and residual are in grains.
 * A sighting is counted as a reading, and what is said of readings holds of it.
 *
 * A reading is refused with 18 where its run is not 24 bytes, and with 16 where answered + refused is 65,535 or more: both
 * before all else, and both change no byte. So after 16 or 18 the run still shows the latest counted reading, an answer perhaps:
 * firmware has to go by the returned value. A full run is begun anew by zeroing its 24 bytes, which crest_acknowledge does not
 * do. Any other reading is counted, its refusal too. */

/* A plane point, x and y in grains: the station nearest to it, its offset, and the residual along the crest.
 * Refusals, in this order: 18, 16, 1 to 9 as above, 10, 11, 12, 13, 14. */
uint32_t crest_plane_reading(const uint8_t *crest, size_t crest_len, double x, double y, uint8_t *run, size_t run_len);

/* A line place, station in mm and offset in grains, at most 20,000,000 either way: the point there.
 * Refusals, in this order: 18, 16, 1 to 9 as above, 10, 15, 11. */
uint32_t crest_line_reading(const uint8_t *crest, size_t crest_len, double station, double offset, uint8_t *run, size_t run_len);

/* A sighting: the point of a prism that an instrument sees, answered as crest_plane_reading answers that point.
 *
 *     station_x, station_y       grains        the instrument's place, in the frame
 *     backsight_c, backsight_s   2^30 is 1     the direction from it to a backsight, a unit
 *     angle_c, angle_s           2^30 is 1     cosine and sine of the angle turned from there to the prism, a unit; turning left
 *                                              is positive: (2^30, 0) is no turn, (0, 2^30) a quarter to the left
 *     distance                   grains        from the instrument to the prism, horizontal: 0 to 50,000,000
 *
 * The turned direction (e, f) is e = backsight_c * angle_c - backsight_s * angle_s and f = backsight_s * angle_c +
 * backsight_c * angle_s, each divided by 2^30; the point is (station_x + distance * e / 2^30, station_y + distance * f / 2^30).
 * Each of the four quotients is rounded to the nearest whole number, a half up. (e, f) is not tested as a unit.
 *
 * A distance of 0 is taken. Of an instrument that counts angles to the right, negate angle_s.
 *
 * Refusals, in this order: 18, 16, 1 to 9 as above, 7 for either pair, 11 for the instrument's place, 15 for the distance, 11 for
 * the point, 12, 13, 14. A 7 with place 0 is of a pair, or of the crest's record 0: crest_check tells. */
uint32_t crest_sighting_reading(const uint8_t *crest, size_t crest_len, int32_t station_x, int32_t station_y,
                                int32_t backsight_c, int32_t backsight_s, int32_t angle_c, int32_t angle_s, int32_t distance,
                                uint8_t *run, size_t run_len);

/* Zeroes the first number and the first reading, and nothing else. Refusal: 18, which changes no byte. */
uint32_t crest_acknowledge(uint8_t *run, size_t run_len);

/* The move from a stake's own point to its target under a heading, (2^30, 0) along x: 8 bytes, little-endian.
 *
 *     0  forward   int32_t   grains along the heading
 *     4  left      int32_t   grains to the left of it
 *
 * Refusals, in this order: 18, 11 for either point, 7. A refusal changes no byte. */
uint32_t crest_stake_out(int32_t own_x, int32_t own_y, int32_t target_x, int32_t target_y, int32_t heading_c, int32_t heading_s,
                         uint8_t *move, size_t move_len);

/* The same move for a sighting, given as to crest_sighting_reading: from its point to the target, facing from the prism to the
 * instrument. The heading is the turned direction with both components negated, (-e, -f), and is not tested as a unit.
 *
 * Refusals, in this order: 18, 7 for either pair, 11 for the instrument's place, 15 for the distance, 11 for the point, 11 for
 * the target. A refusal changes no byte. */
uint32_t crest_sighting_stake_out(int32_t station_x, int32_t station_y, int32_t backsight_c, int32_t backsight_s, int32_t angle_c,
                                  int32_t angle_s, int32_t distance, int32_t target_x, int32_t target_y, uint8_t *move,
                                  size_t move_len);

#ifdef __cplusplus
}
#endif

#endif
