/* Position on an element, straight from document 01, "Position on an element", with 128-bit numbers; the whole square root; the element of a
   record; and the distance of a crest's station. */
#include <stdint.h>

#include "limits.h"

typedef __int128 whole;

enum { LINE = 1, ARC, ENTRY_SPIRAL, EXIT_SPIRAL };

typedef struct {
    int kind;
    int64_t length, x, y, c, s, radius;
} element;

/* the whole number nearest n/d, a half going up; d is above 0 */
static whole near(whole n, whole d)
{
    whole a = 2 * n + d, b = 2 * d, q = a / b;
    return a % b < 0 ? q - 1 : q;
}

static whole factor(whole p, int a, int b, int d)
{
    return ONE - near(p * (ONE - near(b * p, d)), (whole)a * ONE);
}

/* t, and u and v */
static void series(const element *e, int64_t s, whole *t, whole *u, whole *v)
{
    whole l = e->kind == EXIT_SPIRAL ? e->length - s : s;
    whole n = e->kind == ARC ? ONE * l : ONE * l * l;
    whole d = e->kind == ARC ? (whole)e->radius : 2 * (whole)e->radius * e->length;
    *t = d < 0 ? near(-n, -d) : near(n, d);
    whole p = near(*t * *t, ONE);
    whole w = near(GRAINS * l * *t, ONE);
    if (e->kind == ARC) {
        *u = near(GRAINS * l * factor(p, 6, 1, 20), ONE);
        *v = near(w * factor(p, 12, 1, 30), 2 * (whole)ONE);
    } else {
        *u = near(GRAINS * l * factor(p, 10, 5, 108), ONE);
        *v = near(w * factor(p, 14, 7, 220), 3 * (whole)ONE);
        if (e->kind == EXIT_SPIRAL)
            *u = -*u;
    }
}

static inline void position(const element *e, int64_t s, int64_t *x, int64_t *y)
{
    whole t, u = GRAINS * s, v = 0;
    if (e->kind != LINE)
        series(e, s, &t, &u, &v);
    *x = e->x + (int64_t)near(e->c * u - e->s * v, ONE);
    *y = e->y + (int64_t)near(e->s * u + e->c * v, ONE);
}

/* the whole square root rounded down, by bisection */
static inline uint64_t root(uint64_t n)
{
    uint64_t low = 0, high = (uint64_t)1 << 32;
    while (high - low > 1) {
        uint64_t middle = (low + high) / 2;
        if (middle * middle <= n)
            low = middle;
        else
            high = middle;
    }
    return low;
}

/* ---- a crest's elements */

typedef struct {
    int count;
    int64_t total;
    element elements[MOST_RECORDS];
} alignment;

static inline uint32_t u16_at(const uint8_t *b)
{
    return b[0] | b[1] << 8;
}

static inline uint32_t u32_at(const uint8_t *b)
{
    return u16_at(b) | u16_at(b + 2) << 16;
}

static inline void read_element(const uint8_t *record, element *e)
{
    e->kind = record[KIND_AT];
    e->length = u32_at(record + RECORD_LENGTH_AT);
    e->x = (int32_t)u32_at(record + X_AT);
    e->y = (int32_t)u32_at(record + Y_AT);
    e->c = (int32_t)u32_at(record + C_AT);
    e->s = (int32_t)u32_at(record + S_AT);
    e->radius = (int32_t)u32_at(record + RADIUS_AT);
}

/* the element of a station that is not before the given one, and the station of its start */
static void seek(const alignment *a, int64_t station, int *r, int64_t *start)
{
    while (*r + 1 < a->count && station - *start >= a->elements[*r].length)
        *start += a->elements[(*r)++].length;
}

/* D of a station, which is not before that of the last call */
static uint64_t distance(const alignment *a, int64_t station, int *r, int64_t *start, int64_t x, int64_t y)
{
    int64_t px, py;
    seek(a, station, r, start);
    position(&a->elements[*r], station - *start, &px, &py);
    return (uint64_t)((px - x) * (px - x) + (py - y) * (py - y));
}
