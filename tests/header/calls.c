/* Every call of the header by its prototype, and every field of an answer by its macro. What list A gives is document
 * 01's. What the rows of /24 give follows from its definitions, and is said where it is used. */
#include "check.h"

#define ROOM 8
#define ROWS 900

static uint8_t list[ROOM * GH_RECORD_BYTES];
static uint16_t first[GH_FIRST_CELLS(16)];
static uint16_t second[2 * GH_SECOND_CHUNK(16, 24)];
static uint16_t third[3 * GH_THIRD_CHUNK(24)];
static uint32_t own2[2], own3[3];
static uint16_t long1[GH_ELEMENTS(first)], long2[GH_ELEMENTS(second)];
#define LENT list, sizeof list, first, GH_ELEMENTS(first), second, GH_ELEMENTS(second), third, GH_ELEMENTS(third), \
             own2, GH_ELEMENTS(own2), own3, GH_ELEMENTS(own3), long1, GH_ELEMENTS(long1), long2, GH_ELEMENTS(long2)

static void sizes(void)
{
    CHECK(GH_FIRST_CELLS(16), 65536);
    CHECK(GH_SECOND_CHUNK(16, 24), 256);
    CHECK(GH_SECOND_CHUNK(GH_SMALL_P1, GH_SMALL_P2), 1024);
    CHECK(GH_THIRD_CHUNK(GH_STANDARD_P2), 256);
    CHECK(GH_THIRD_CHUNK(26), 64);
    CHECK(GH_STANDARD_P1, 16);
    CHECK(GH_MOST_RECORDS, 4096);
    CHECK(GH_MOST_CHUNKS, 4096);
    CHECK(GH_MOST_LENGTH, 32);
    CHECK(GH_MOST_HOP, 32767);
    CHECK(GH_NODES_FOR(GH_MOST_RECORDS), 32769);
    CHECK(GH_WORDS_FOR(GH_MOST_RECORDS), 98307);
    char text[16];
    snprintf(text, sizeof text, "%d.%d.%d", GH_VERSION / 10000, GH_VERSION / 100 % 100, GH_VERSION % 100);
    CHECK(strcmp(text, GH_VERSION_TEXT), 0);
}

static void tables(void)
{
    uint64_t a = gh_load(16, 24, list_a, sizeof list_a, LENT);
    CHECK(GH_NUMBER(a), 0);
    CHECK(GH_COUNT(a), 5);
    CHECK(a, (uint64_t)5 << 16);
    a = gh_report(16, 24, 5, LENT);
    CHECK(GH_COUNT(a), 5);
    CHECK(GH_NEED_SECOND(a), 1);
    CHECK(GH_NEED_THIRD(a), 1);
    CHECK(first[2561], 1);
    CHECK(own2[0], 2562);
    CHECK(second[2], 1);
    CHECK(own3[0], 3);
    CHECK(second[3], 0x801F);
    CHECK(long1[2561], 2);
    CHECK(long1[2560], 0);
    CHECK(long2[2], 1);
    CHECK(long2[3], 0);

    static const struct { uint32_t addr; unsigned hop, reads; } asked[] = {
        { IP(10, 1, 2, 200), 57, 3 }, { IP(10, 1, 2, 5), 44, 3 }, { IP(10, 1, 3, 1), 31, 2 },
        { IP(10, 2, 0, 1), 20, 1 }, { IP(192, 0, 2, 1), 6, 1 },
    };
    uint32_t addrs[5], out[5];
    for (unsigned k = 0; k < 5; k++) {
        a = gh_lookup(16, 24, 5, LENT, asked[k].addr);
        CHECK(GH_NUMBER(a), 0);
        CHECK(GH_HOP(a), asked[k].hop);
        CHECK(GH_READS(a), asked[k].reads);
        addrs[k] = asked[k].addr;
    }
    CHECK(gh_lookup_many(16, 24, 5, LENT, addrs, 5, out, 5), 0);
    for (unsigned k = 0; k < 5; k++) {
        CHECK(GH_HOP(out[k]), asked[k].hop);
        CHECK(GH_READS(out[k]), asked[k].reads);
    }

    /* 10.2.3.0/24 makes the need for second chunks 2, and that for third chunks stays 1. */
    a = gh_announce(16, 24, 5, LENT, IP(10, 2, 3, 0), 24, 300, GH_ATTACHED);
    CHECK(GH_NUMBER(a), 0);
    CHECK(GH_REPLACED(a), 0);
    CHECK(GH_COUNT(a), 6);
    a = gh_route(list, 6 * GH_RECORD_BYTES, 5);
    CHECK(GH_ROUTE_ADDR(a), IP(10, 2, 3, 0));
    CHECK(GH_ROUTE_LEN(a), 24);
    CHECK(GH_ROUTE_MARK(a), GH_ATTACHED);
    CHECK(GH_HOP(a), 300);
    a = gh_announce(16, 24, 6, LENT, IP(10, 2, 3, 0), 24, 32767, GH_BEHIND);
    CHECK(GH_REPLACED(a), 1);
    CHECK(GH_CLEARED(a), 0);
    CHECK(GH_COUNT(a), 6);
    CHECK(GH_ROUTE_MARK(gh_route(list, 6 * GH_RECORD_BYTES, 5)), GH_BEHIND);
    CHECK(GH_HOP(gh_lookup(16, 24, 6, LENT, IP(10, 2, 3, 9))), 32767);
    a = gh_report(16, 24, 6, LENT);
    CHECK(GH_COUNT(a), 6);
    CHECK(GH_NEED_SECOND(a), 2);
    CHECK(GH_NEED_THIRD(a), 1);
    /* Bits after the length are cleared, and that is told. */
    a = gh_announce(16, 24, 6, LENT, IP(10, 2, 3, 7), 24, 301, GH_ATTACHED);
    CHECK(a, (uint64_t)6 << 16 | 1 << 9 | 1 << 8);
    CHECK(GH_CLEARED(a), 1);
    CHECK(GH_REPLACED(a), 1);
    CHECK(GH_ROUTE_ADDR(gh_route(list, 6 * GH_RECORD_BYTES, 5)), IP(10, 2, 3, 0));
    a = gh_withdraw(16, 24, 6, LENT, IP(10, 1, 2, 200), 25);
    CHECK(a, (uint64_t)5 << 16 | 1 << 9);
    CHECK(GH_CLEARED(a), 1);
    a = gh_announce(16, 24, 5, LENT, IP(10, 1, 2, 129), 25, 57, GH_BEHIND);
    CHECK(a, (uint64_t)6 << 16 | 1 << 9);
    a = gh_withdraw(16, 24, 6, LENT, IP(10, 1, 2, 128), 25);
    CHECK(GH_NUMBER(a), 0);
    CHECK(GH_CLEARED(a), 0);
    CHECK(GH_COUNT(a), 5);
    a = gh_lookup(16, 24, 5, LENT, IP(10, 1, 2, 200));
    CHECK(GH_HOP(a), 44);
    CHECK(GH_READS(a), 2);
    a = gh_withdraw(16, 24, 5, LENT, 0, 0);
    CHECK(GH_COUNT(a), 4);
    a = gh_lookup(16, 24, 4, LENT, IP(192, 0, 2, 1));
    CHECK(GH_NUMBER(a), 0);
    CHECK(GH_HOP(a), 0);
    CHECK(GH_READS(a), 1);
    CHECK(gh_make(16, 24, LENT), 0);
    CHECK(first[2561], 0x8000);
    CHECK(gh_report(16, 24, 0, LENT), 0);
}

/* Every field over 8 bits: a /32 under each of 300 first cells, but the last has a /22, which wants no third chunk. */
static void large_table(void)
{
    enum { N = 300 };
    static uint8_t input[N * GH_RECORD_BYTES], list2[N * GH_RECORD_BYTES];
    static uint16_t first2[GH_FIRST_CELLS(12)], second2[N * GH_SECOND_CHUNK(12, 22)], third2[N * GH_THIRD_CHUNK(22)];
    static uint32_t own22[N], own32[N];
    static uint16_t long12[GH_ELEMENTS(first2)], long22[GH_ELEMENTS(second2)];
    struct gh_table t = GH_TABLE(12, 22, list2, first2, second2, third2, own22, own32, long12, long22);
    for (uint32_t k = 0; k < N; k++)
        put_record(input + GH_RECORD_BYTES * k, k << 20, k + 1 < N ? 32 : 22, 1000 + k);
    CHECK(GH_COUNT(gh_load(12, 22, input, sizeof input, GH_LENT(&t))), 300);
    uint64_t a = gh_report(12, 22, 300, GH_LENT(&t));
    CHECK(GH_COUNT(a), 300);
    CHECK(GH_NEED_SECOND(a), 300);
    CHECK(GH_NEED_THIRD(a), 299);
    a = gh_lookup(12, 22, 300, GH_LENT(&t), (uint32_t)270 << 20);
    CHECK(GH_HOP(a), 1270);
    CHECK(GH_READS(a), 3);
    CHECK(GH_COUNT(gh_withdraw(12, 22, 300, GH_LENT(&t), 0, 32)), 299);
    CHECK(GH_COUNT(gh_announce(12, 22, 299, GH_LENT(&t), 0, 0, 1, GH_BEHIND)), 300);
}

static uint8_t rows[ROWS * GH_RECORD_BYTES];
static uint32_t words[GH_WORDS_FOR(ROWS)];
static uint16_t hops[ROWS];

static void images(void)
{
    uint64_t a = gh_build(list_a, sizeof list_a, words, GH_WORDS_FOR(5), hops, 5);
    CHECK(GH_NUMBER(a), 0);
    CHECK(GH_NODES(a), 7);
    CHECK(GH_HOPS(a), 5);
    CHECK(words[18], 5);
    CHECK(words[19], 7);
    CHECK(words[20], 3);
    CHECK(hops[0] == 6 && hops[1] == 20 && hops[2] == 31 && hops[3] == 44 && hops[4] == 57, 1);
    a = gh_tree_lookup(words, 21, hops, 5, IP(10, 1, 2, 200));
    CHECK(GH_HOP(a), 57);
    CHECK(GH_READS(a), 8);
    a = gh_tree_lookup(words, 21, hops, 5, IP(192, 0, 2, 1));
    CHECK(GH_HOP(a), 6);
    CHECK(GH_READS(a), 2);

    /* The rows have 1 + 1 + 1 + 1 + 4 + 57 + 900 different paths of 0, 4, 8, 12, 16, 20 and 24 bits. */
    a = gh_build(rows, sizeof rows, words, GH_ELEMENTS(words), hops, ROWS);
    CHECK(GH_NUMBER(a), 0);
    CHECK(GH_NODES(a), 965);
    CHECK(GH_HOPS(a), 900);
    a = gh_tree_lookup(words, GH_ELEMENTS(words), hops, ROWS, IP(10, 3, 4, 255));
    CHECK(GH_HOP(a), 773);
    CHECK(GH_READS(a), 8);
}

static void inputs(void)
{
    uint64_t a = gh_run(list_a, sizeof list_a, IP(10, 1, 0, 0), 16);
    CHECK(GH_RUN_FIRST(a), 2);
    CHECK(GH_RUN_RECORDS(a), 3);
    a = gh_run(list_a, sizeof list_a, IP(11, 0, 0, 0), 8);
    CHECK(GH_NUMBER(a), 0);
    CHECK(GH_RUN_FIRST(a), 5);
    CHECK(GH_RUN_RECORDS(a), 0);
    /* 10.2.0.0/15 has the rows from 2 * 256 on. */
    a = gh_run(rows, sizeof rows, IP(10, 2, 0, 0), 15);
    CHECK(GH_NUMBER(a), 0);
    CHECK(GH_RUN_FIRST(a), 512);
    CHECK(GH_RUN_RECORDS(a), 388);

    a = gh_route(list_a, sizeof list_a, 4);
    CHECK(GH_NUMBER(a), 0);
    CHECK(GH_ROUTE_ADDR(a), IP(10, 1, 2, 128));
    CHECK(GH_ROUTE_LEN(a), 25);
    CHECK(GH_HOP(a), 57);
    a = gh_route(rows, sizeof rows, 899);
    CHECK(GH_ROUTE_ADDR(a), IP(10, 3, 131, 0));
    CHECK(GH_ROUTE_LEN(a), 24);
    CHECK(GH_HOP(a), 900);
    CHECK(gh_route(list_a, sizeof list_a, 5), 0);
    CHECK(gh_route(rows, sizeof rows, 65536 + 4), 0);

    a = gh_longest(list_a, sizeof list_a, IP(10, 1, 2, 200));
    CHECK(GH_NUMBER(a), 0);
    CHECK(GH_ROUTE_ADDR(a), IP(10, 1, 2, 128));
    CHECK(GH_ROUTE_LEN(a), 25);
    CHECK(GH_HOP(a), 57);
    a = gh_longest(list_a, sizeof list_a, IP(10, 1, 2, 127));
    CHECK(GH_ROUTE_ADDR(a), IP(10, 1, 2, 0));
    CHECK(GH_ROUTE_LEN(a), 24);
    CHECK(GH_HOP(a), 44);
    CHECK(GH_HOP(gh_longest(list_a, sizeof list_a, IP(192, 0, 2, 1))), 6);
    CHECK(gh_longest(rows, sizeof rows, IP(192, 0, 2, 1)), 0);

    uint32_t counts[GH_TALLY_WORDS];
    CHECK(gh_tally(list_a, sizeof list_a, counts, GH_TALLY_WORDS), 0);
    for (unsigned len = 0; len <= GH_MOST_LENGTH; len++)
        CHECK(counts[len], len == 0 || len == 8 || len == 16 || len == 24 || len == 25);
    CHECK(gh_tally(rows, sizeof rows, counts, GH_TALLY_WORDS), 0);
    CHECK(counts[24], 900);
    CHECK(counts[8], 0);
}

int main(void)
{
    put_rows(rows, ROWS);
    sizes();
    tables();
    large_table();
    images();
    inputs();
    return checked("calls");
}
