/* Positions on an element, with the crate and with the plain C of plain.h.
   usage: element (crate|plain) KIND COUNT -- sums COUNT positions on an element of the kind, with the one or the other */
#include <stdint.h>
#include <stdio.h>
#include <stdlib.h>
#include <string.h>

#include "plain.h"

int64_t element_positions(const uint8_t *record, size_t length, uint32_t count);

static int64_t plain_positions(const element *e, uint32_t count)
{
    int64_t sum = 0, s = 0;
    for (; count > 0; count--) {
        int64_t x, y;
        position(e, s, &x, &y);
        sum += x + 2 * y;
        s = s < e->length ? s + 1 : 0;
    }
    return sum;
}

static void put_u32(uint8_t *bytes, uint32_t n)
{
    for (int i = 0; i < 4; i++)
        bytes[i] = n >> 8 * i;
}

/* the element's record of 32 bytes */
static void put_record(uint8_t *record, const element *e)
{
    memset(record, 0, RECORD_SIZE);
    record[KIND_AT] = e->kind;
    put_u32(record + RECORD_LENGTH_AT, e->length);
    put_u32(record + X_AT, e->x);
    put_u32(record + Y_AT, e->y);
    put_u32(record + C_AT, e->c);
    put_u32(record + S_AT, e->s);
    put_u32(record + RADIUS_AT, e->radius);
}

int main(int argc, char **argv)
{
    if (argc != 4)
        return 2;
    int kind = atoi(argv[2]);
    uint32_t count = strtoul(argv[3], 0, 10);
    /* a direction of unit length, and a curve to the right */
    element e = {kind, 200000, 1000, -2000, 858993459, 644245094, kind == LINE ? 0 : -1000000};
    uint8_t record[RECORD_SIZE];
    put_record(record, &e);
    int64_t sum = strcmp(argv[1], "crate") == 0
        ? element_positions(record, sizeof record, count)
        : plain_positions(&e, count);
    printf("%lld\n", (long long)sum);
    return 0;
}
