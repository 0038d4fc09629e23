/* Whole square roots, with the crate and with the plain C of plain.h.
   usage: root (crate|plain) HIGH COUNT -- sums COUNT roots, from that of HIGH * 2^32 on, with the one or the other */
#include <stdint.h>
#include <stdio.h>
#include <stdlib.h>
#include <string.h>

#include "plain.h"

uint64_t root_sum(uint32_t high, uint32_t count);

static uint64_t plain_sum(uint32_t high, uint32_t count)
{
    uint64_t sum = 0;
    for (uint32_t i = 0; i < count; i++)
        sum += root(((uint64_t)high << 32) + i);
    return sum;
}

int main(int argc, char **argv)
{
    if (argc != 4)
        return 2;
    uint32_t high = strtoul(argv[2], 0, 10);
    uint32_t count = strtoul(argv[3], 0, 10);
    uint64_t sum = strcmp(argv[1], "crate") == 0 ? root_sum(high, count) : plain_sum(high, count);
    printf("%llu\n", (unsigned long long)sum);
    return 0;
}
