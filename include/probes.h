/* Calls for tests, tools and measurement: the static library of the crate `probes_c`. They are no entries of the product. What is
 * lent, and what a call returns, are as in crest.h; 18 is for room of another size than named here. */
#ifndef PROBES_H
#define PROBES_H

#include <stddef.h>
#include <stdint.h>

#ifdef __cplusplus
extern "C" {
#endif

/* The room that each call writes, in bytes. */
#define PROBE_POSITION_BYTES 16u
#define PROBE_LOCATE_BYTES 16u
#define PROBE_INVERSE_BYTES 8u
#define PROBE_RECORD_BYTES 32u

/* X, Y, Tx, Ty at a station, int32_t each. Refusals, in this order: 18, 1 to 9, 15. */
uint32_t probe_position(const uint8_t *crest, size_t crest_len, uint32_t station, uint8_t *out, size_t out_len);

/* Station, offset and residual of a point, int32_t each, and how many stations were visited, uint32_t.
 * Refusals, in this order: 18, 1 to 9, 11, 12, 13, 14. */
uint32_t probe_locate(const uint8_t *crest, size_t crest_len, int32_t x, int32_t y, uint8_t *out, size_t out_len);

/* X, Y at a station and an offset, int32_t each. Refusals, in this order: 18, 1 to 9, 15, 11. */
uint32_t probe_inverse(const uint8_t *crest, size_t crest_len, uint32_t station, int32_t offset, uint8_t *out, size_t out_len);

/* The bytes of record i, counted from 0 over all blocks. Refusals, in this order: 18, 1 to 9, 15. */
uint32_t probe_record(const uint8_t *crest, size_t crest_len, uint32_t i, uint8_t *out, size_t out_len);

#ifdef __cplusplus
}
#endif

#endif
