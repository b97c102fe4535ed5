/* What the tests of the header share: a check that tells its line, and list A of document 01. */
#ifndef CHECK_H
#define CHECK_H

#include <inttypes.h>
#include <stdio.h>
#include <string.h>
#include "ghatumri.h"

static unsigned checks, faults;

#define CHECK(is, should) check(__FILE__, __LINE__, #is, (uint64_t)(is), (uint64_t)(should))

static void check(const char *file, int line, const char *what, uint64_t is, uint64_t should)
{
    checks++;
    if (is != should) {
        faults++;
        printf("%s:%d: %s is %" PRIu64 " (%" PRIx64 " hex) and should be %" PRIu64 "\n", file, line, what, is, is, should);
    }
}

static int checked(const char *name)
{
    printf("%s: %u checks, %u faults\n", name, checks, faults);
    return faults != 0;
}

/* 0.0.0.0/0 to 6; 10.0.0.0/8 to 20; 10.1.0.0/16 to 31; 10.1.2.0/24 to 44; 10.1.2.128/25 to 57 */
static const uint8_t list_a[5 * GH_RECORD_BYTES] = {
    0, 0, 0, 0, 0, 0, 0, 6,
    10, 0, 0, 0, 8, 0, 0, 20,
    10, 1, 0, 0, 16, 0, 0, 31,
    10, 1, 2, 0, 24, 0, 0, 44,
    10, 1, 2, 128, 25, 0, 0, 57,
};

#define IP(a, b, c, d) ((uint32_t)(a) << 24 | (uint32_t)(b) << 16 | (uint32_t)(c) << 8 | (uint32_t)(d))

/* Writes a record as document 01 lays it out. */
static inline void put_record(uint8_t *at, uint32_t addr, unsigned len, unsigned hop)
{
    at[0] = (uint8_t)(addr >> 24);
    at[1] = (uint8_t)(addr >> 16 & 0xff);
    at[2] = (uint8_t)(addr >> 8 & 0xff);
    at[3] = (uint8_t)(addr & 0xff);
    at[4] = (uint8_t)len;
    at[5] = 0;
    at[6] = (uint8_t)(hop >> 8);
    at[7] = (uint8_t)(hop & 0xff);
}

/* n routes 10.x.y.0/24 and on, in order, the k-th to hop k + 1, from 1 again after 32,767. */
static inline void put_rows(uint8_t *input, uint32_t n)
{
    for (uint32_t k = 0; k < n; k++)
        put_record(input + GH_RECORD_BYTES * k, IP(10, 0, 0, 0) + (k << 8), 24, 1 + k % GH_MOST_HOP);
}

#endif
