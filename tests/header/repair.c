/* Damaged tables of list A put right: standard, with room for eight records and one chunk in each pool. What each repair
 * tells is worked out by hand from request l of document 02. */
#include "check.h"

#define ROOM 8

static uint8_t list[ROOM * GH_RECORD_BYTES];
static uint16_t first[GH_FIRST_CELLS(16)];
static uint16_t second[1 * GH_SECOND_CHUNK(16, 24)];
static uint16_t third[1 * GH_THIRD_CHUNK(24)];
static uint32_t own2[1], own3[1];
static uint16_t long1[GH_ELEMENTS(first)], long2[GH_ELEMENTS(second)];
static struct gh_table t = GH_TABLE(16, 24, list, first, second, third, own2, own3, long1, long2);

static void load(void)
{
    t.p1 = 16;
    CHECK(gh_table_load(&t, list_a, sizeof list_a), (uint64_t)5 << 16);
}

/* A repair that is accepted: what it tells, and so many routes then. A second one finds nothing. */
static void put_right(unsigned routes, uint32_t dropped, uint32_t in_first, uint32_t in_second, uint32_t in_third)
{
    uint32_t told[GH_REPAIR_WORDS];
    uint64_t a = gh_table_repair(&t, told);
    CHECK(a, (uint64_t)routes << 16);
    CHECK(GH_COUNT(a), routes);
    CHECK(t.count, routes);
    CHECK(told[GH_DROPPED], dropped);
    CHECK(told[GH_FIRST_OFF], in_first);
    CHECK(told[GH_SECOND_OFF], in_second);
    CHECK(told[GH_THIRD_OFF], in_third);
    a = gh_table_repair(&t, told);
    CHECK(a, (uint64_t)routes << 16);
    for (unsigned k = 0; k < GH_REPAIR_WORDS; k++)
        CHECK(told[k], 0);
    CHECK(GH_NUMBER(gh_table_report(&t)), 0);
}

/* Byte `byte` of record `row`. */
static void damage(unsigned row, unsigned byte, uint8_t value)
{
    load();
    list[row * GH_RECORD_BYTES + byte] = value;
}

static void lists(void)
{
    load();
    put_right(5, 0, 0, 0, 0);
    damage(2, 4, 33);                   /* a length over 32 */
    put_right(4, 1, 0, 255, 0);
    damage(4, 5, 2);                    /* a mark over 1 */
    put_right(4, 1, 0, 1, 256);
    damage(0, 5, GH_ATTACHED);          /* a mark is no fault */
    put_right(5, 0, 0, 0, 0);
    CHECK(GH_ROUTE_MARK(gh_route(list, 40, 0)), GH_ATTACHED);
    damage(3, 7, 0);                    /* no hop */
    put_right(4, 1, 0, 0, 128);
    damage(1, 0, 255);                  /* 255.0.0.0/8 is valid and larger, and shuts out what follows */
    put_right(2, 3, 512, 256, 256);
    damage(2, 0, 9);                    /* 9.1.0.0/16 is not larger than the last one kept */
    put_right(4, 1, 0, 255, 0);
}

static void counts(void)
{
    load();
    t.count = 9;
    put_right(5, 3, 0, 0, 0);
    load();
    t.count = UINT32_MAX;
    put_right(5, 3, 0, 0, 0);
    load();
    t.count = 3;
    put_right(3, 0, 1, 256, 256);
    load();
    t.count = 0;
    put_right(0, 0, 65536, 256, 256);
}

static void cells(void)
{
    load();
    first[2562] = 0x8000;
    put_right(5, 0, 1, 0, 0);
    load();
    first[2561] = 9;
    second[2] = 2;
    third[200] = 2;
    put_right(5, 0, 1, 1, 1);
    /* Owners, counts of routes and the bytes past the count are put right, and no cells. */
    load();
    own2[0] = 7;
    own3[0] = 0;
    long1[2561] = 9;
    long2[2] = 0;
    list[63] = 1;
    put_right(5, 0, 0, 0, 0);
    CHECK(own2[0], 2562);
    CHECK(own3[0], 3);
    CHECK(long1[2561], 2);
    CHECK(long2[2], 1);
    CHECK(list[63], 0);
}

/* Sound, but numbered by a run that closed a chunk: 10.2.2.0/25 has chunk 2 of each pool, and a load gives it chunk 1. No
 * record is dropped. One first cell names another chunk, and two chunks of each pool differ in all their cells. */
static void closed_chunk(void)
{
    static uint16_t second2[2 * GH_SECOND_CHUNK(16, 24)], third2[2 * GH_THIRD_CHUNK(24)], counts2[GH_ELEMENTS(second2)];
    static uint32_t owners2[2], owners3[2];
    struct gh_table run = GH_TABLE(16, 24, list, first, second2, third2, owners2, owners3, long1, counts2);
    uint32_t told[GH_REPAIR_WORDS];
    CHECK(gh_table_make(&run), 0);
    CHECK(GH_NUMBER(gh_table_announce(&run, IP(10, 1, 2, 0), 25, 1, GH_BEHIND)), 0);
    CHECK(GH_NUMBER(gh_table_announce(&run, IP(10, 2, 2, 0), 25, 2, GH_BEHIND)), 0);
    CHECK(GH_NUMBER(gh_table_withdraw(&run, IP(10, 1, 2, 0), 25)), 0);
    CHECK(GH_NUMBER(gh_table_report(&run)), 0);
    CHECK(first[2562], 2);
    CHECK(gh_table_repair(&run, told), (uint64_t)1 << 16);
    CHECK(told[GH_DROPPED], 0);
    CHECK(told[GH_FIRST_OFF], 1);
    CHECK(told[GH_SECOND_OFF], 512);
    CHECK(told[GH_THIRD_OFF], 512);
    CHECK(first[2562], 1);
    CHECK(GH_HOP(gh_table_lookup(&run, IP(10, 2, 2, 5))), 2);
    CHECK(GH_NUMBER(gh_table_report(&run)), 0);
}

/* A refusal: all is as it was, the words too. */
static void refused(unsigned number, size_t words)
{
    static uint8_t list0[sizeof list];
    static uint16_t first0[GH_ELEMENTS(first)], second0[GH_ELEMENTS(second)], third0[GH_ELEMENTS(third)];
    static uint16_t long10[GH_ELEMENTS(long1)], long20[GH_ELEMENTS(long2)];
    uint32_t owner2 = own2[0], owner3 = own3[0];
    memcpy(list0, list, sizeof list);
    memcpy(first0, first, sizeof first);
    memcpy(second0, second, sizeof second);
    memcpy(third0, third, sizeof third);
    memcpy(long10, long1, sizeof long1);
    memcpy(long20, long2, sizeof long2);
    uint32_t told[5] = { 1, 2, 3, 4, 5 };
    uint32_t count = t.count;
    CHECK(gh_repair(t.p1, t.p2, t.count, GH_LENT(&t), told, words), number);
    if (words == GH_REPAIR_WORDS)
        CHECK(gh_table_repair(&t, told), number);
    CHECK(t.count, count);
    for (uint32_t k = 0; k < 5; k++)
        CHECK(told[k], k + 1);
    CHECK(memcmp(list0, list, sizeof list) || memcmp(first0, first, sizeof first), 0);
    CHECK(memcmp(second0, second, sizeof second) || memcmp(third0, third, sizeof third), 0);
    CHECK(memcmp(long10, long1, sizeof long1) || memcmp(long20, long2, sizeof long2), 0);
    CHECK(own2[0], owner2);
    CHECK(own3[0], owner3);
}

static void refusals(void)
{
    load();
    t.p1 = 11;
    refused(GH_REFUSED_GEOMETRY, GH_REPAIR_WORDS);
    refused(GH_REFUSED_GEOMETRY, 3);
    t.p1 = 15;
    refused(GH_REFUSED_SIZE, GH_REPAIR_WORDS);
    load();
    refused(GH_REFUSED_SIZE, 3);
    refused(GH_REFUSED_SIZE, 5);
    damage(4, 1, 2);                    /* 10.2.2.128/25: two second chunks are needed */
    refused(GH_REFUSED_SECOND, GH_REPAIR_WORDS);
    damage(3, 2, 1);                    /* 10.1.1.0/25: two third chunks are */
    list[3 * GH_RECORD_BYTES + 4] = 25;
    refused(GH_REFUSED_THIRD, GH_REPAIR_WORDS);
    list[4 * GH_RECORD_BYTES + 6] = 128; /* but not where one of them is dropped */
    put_right(4, 1, 0, 2, 128);
}

int main(void)
{
    lists();
    counts();
    cells();
    closed_chunk();
    refusals();
    return checked("repair");
}
