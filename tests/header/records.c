/* Hop records: packets forwarded and counted, with list A. The expected values are document 02's and RFC 2578's: the port
 * of hop h is 100 + h, and after 4,294,967,295 a count is 0. */
#include "check.h"

#define N 57

static uint8_t list[8 * GH_RECORD_BYTES];
static uint16_t first[GH_FIRST_CELLS(16)], second[GH_SECOND_CHUNK(16, 24)], third[GH_THIRD_CHUNK(24)];
static uint32_t own2[1], own3[1];
static uint16_t long1[GH_ELEMENTS(first)], long2[GH_ELEMENTS(second)];
static struct gh_table t = GH_TABLE(16, 24, list, first, second, third, own2, own3, long1, long2);
static struct gh_hop_record records[GH_MOST_HOP + 1], was[GH_MOST_HOP + 1];

static void set(unsigned hop, uint8_t up, uint32_t packets, uint32_t octets)
{
    records[hop - 1].up = up;
    records[hop - 1].packets = packets;
    records[hop - 1].octets = octets;
}

static void fresh(void)
{
    memset(records, 0, sizeof records);
    for (unsigned hop = 1; hop <= GH_MOST_HOP + 1; hop++) {
        records[hop - 1].port = (uint16_t)(100 + hop);
        set(hop, GH_UP, 0, 0);
    }
}

static void keep(void)
{
    memcpy(was, records, sizeof records);
}

/* All records as they were, the one of this hop aside; hop 0: all of them. */
static int others_as_they_were(unsigned hop)
{
    for (unsigned k = 0; k <= GH_MOST_HOP; k++)
        if (k + 1 != hop && memcmp(&records[k], &was[k], sizeof *records) != 0)
            return 0;
    return hop == 0 || (records[hop - 1].port == was[hop - 1].port && records[hop - 1].up == was[hop - 1].up);
}

/* An answer that leaves every record, to the byte. */
#define LEAVES(call, answer) do { keep(); CHECK(call, answer); CHECK(memcmp(was, records, sizeof was) == 0, 1); } while (0)
/* One that counts in the record of this hop alone. */
#define COUNTS(call, answer, hop, p, o) do { \
        keep(); \
        CHECK(call, answer); \
        CHECK(records[(hop) - 1].packets, p); \
        CHECK(records[(hop) - 1].octets, o); \
        CHECK(others_as_they_were(hop), 1); \
    } while (0)

#define FORWARD(n, addr, octets) gh_table_forward(&t, records, n, addr, octets)

/* The struct as the library has it. */
static void layout(void)
{
    CHECK(sizeof(struct gh_hop_record), 12);
    CHECK(offsetof(struct gh_hop_record, port), 0);
    CHECK(offsetof(struct gh_hop_record, up), 2);
    CHECK(offsetof(struct gh_hop_record, packets), 4);
    CHECK(offsetof(struct gh_hop_record, octets), 8);
    CHECK(GH_UP, 1);
    CHECK(GH_DOWN, 0);
    CHECK(GH_PORT(0x0000ABCD00000000u), 0xABCD);
    CHECK(GH_PORT(0xFFFF0000FFFFFFFFu), 0);
    CHECK(GH_PORT((uint32_t)0xFFFFFFFF), 0);
}

static void forwarded(void)
{
    fresh();
    CHECK(GH_COUNT(gh_table_load(&t, list_a, sizeof list_a)), 5);
    set(57, GH_UP, 4294967295u, 4294967000u);
    COUNTS(FORWARD(N, IP(10, 1, 2, 200), 1500), 0x0000009D00390300u, 57, 0, 1204);
    COUNTS(FORWARD(N, IP(10, 1, 2, 200), 0), 0x0000009D00390300u, 57, 1, 1204);
    COUNTS(FORWARD(N, IP(10, 1, 2, 5), 40), 0x00000090002C0300u, 44, 1, 40);
    COUNTS(FORWARD(N, IP(10, 1, 3, 1), 60), 0x00000083001F0200u, 31, 1, 60);
    COUNTS(FORWARD(N, IP(10, 2, 0, 1), 4294967295u), 0x0000007800140100u, 20, 1, 4294967295u);
    COUNTS(FORWARD(N, IP(10, 2, 0, 1), 1), 0x0000007800140100u, 20, 2, 0);
    uint64_t a = FORWARD(N, IP(192, 0, 2, 1), 9);
    CHECK(GH_NUMBER(a), GH_ACCEPTED);
    CHECK(GH_READS(a), 1);
    CHECK(GH_HOP(a), 6);
    CHECK(GH_PORT(a), 106);
    /* The largest port, and the port alone. */
    records[56].port = 0xFFFF;
    COUNTS(FORWARD(N, IP(10, 1, 2, 200), 1), 0x0000FFFF00390300u, 57, 2, 1205);
    records[56].port = 0;
    COUNTS(FORWARD(N, IP(10, 1, 2, 200), 1), 0x0000000000390300u, 57, 3, 1206);
    /* The call under it, and a count of routes that no lookup reads. */
    COUNTS(gh_forward(16, 24, 77, GH_LENT(&t), records, N, IP(10, 1, 2, 200), 1), 0x0000000000390300u, 57, 4, 1207);
    /* Ten packets from 4,294,967,290 on. */
    set(57, GH_UP, 4294967290u, 0);
    for (unsigned k = 0; k < 10; k++)
        CHECK(GH_NUMBER(FORWARD(N, IP(10, 1, 2, 200), 1500)), 0);
    CHECK(records[56].packets, 4);
    CHECK(records[56].octets, 15000);
}

/* 14 and 15, after lookup's own, and no route: nothing changes. */
static void not_forwarded(void)
{
    fresh();
    LEAVES(FORWARD(56, IP(10, 1, 2, 200), 1500), GH_REFUSED_RECORD);
    LEAVES(FORWARD(0, IP(10, 1, 2, 200), 1500), GH_REFUSED_RECORD);
    static const uint8_t marks[] = { GH_DOWN, 2, 3, 128, 255 };
    for (size_t k = 0; k < GH_ELEMENTS(marks); k++) {
        set(57, marks[k], 7, 8);
        LEAVES(FORWARD(N, IP(10, 1, 2, 200), 1500), GH_REFUSED_DOWN);
        LEAVES(FORWARD(56, IP(10, 1, 2, 200), 1500), GH_REFUSED_RECORD);
    }
    /* A damaged cell on the way comes first, with no record and with one that is down. */
    uint16_t cell = second[2];
    second[2] = 0;
    LEAVES(FORWARD(56, IP(10, 1, 2, 200), 1500), GH_REFUSED_UNSOUND);
    LEAVES(FORWARD(N, IP(10, 1, 2, 200), 1500), GH_REFUSED_UNSOUND);
    second[2] = cell;
    t.p1 = 11;
    LEAVES(FORWARD(0, IP(10, 1, 2, 200), 1500), GH_REFUSED_GEOMETRY);
    t.p1 = 16;
    t.first_len--;
    LEAVES(FORWARD(0, IP(10, 1, 2, 200), 1500), GH_REFUSED_SIZE);
    t.first_len++;
    CHECK(GH_COUNT(gh_table_withdraw(&t, 0, 0)), 4);
    LEAVES(FORWARD(N, IP(192, 0, 2, 1), 1500), 0x00000100);
    LEAVES(FORWARD(0, IP(192, 0, 2, 1), 1500), 0x00000100);
    LEAVES(gh_table_forward(&t, (struct gh_hop_record *)gh_empty(), 0, IP(192, 0, 2, 1), 1500), 0x00000100);
}

/* By what a lookup answered, of a table and of an image; and by any other number. */
static void counted(void)
{
    fresh();
    CHECK(GH_COUNT(gh_table_load(&t, list_a, sizeof list_a)), 5);
    set(57, GH_UP, 4294967295u, 4294967000u);
    COUNTS(gh_count(gh_table_lookup(&t, IP(10, 1, 2, 200)), records, N, 1500), 0x0000009D00390300u, 57, 0, 1204);
    uint32_t addrs[2] = { IP(10, 1, 2, 5), IP(10, 1, 2, 200) }, out[2];
    CHECK(gh_table_lookup_many(&t, addrs, out, 2), 0);
    COUNTS(gh_count(out[0], records, N, 40), 0x00000090002C0300u, 44, 1, 40);
    static uint32_t words[GH_WORDS_FOR(5)];
    static uint16_t hops[5];
    CHECK(GH_HOPS(gh_build(list_a, sizeof list_a, words, GH_ELEMENTS(words), hops, 5)), 5);
    uint64_t found = gh_tree_lookup(words, GH_ELEMENTS(words), hops, 5, IP(10, 1, 2, 200));
    COUNTS(gh_count(found, records, N, 1), 0x0000009D00390800u, 57, 1, 1205);
    LEAVES(gh_count(found, records, 56, 1), GH_REFUSED_RECORD);
    set(57, GH_DOWN, 7, 8);
    LEAVES(gh_count(found, records, N, 1), GH_REFUSED_DOWN);
    /* No hop: answered as it is. */
    static const uint64_t plain[] = {
        0, 0x100, 0xFF00, 5, 13, 0x00390305, 0x000000030000010A, 0xFFFFFFFF00000001, UINT64_MAX,
    };
    for (size_t k = 0; k < GH_ELEMENTS(plain); k++)
        LEAVES(gh_count(plain[k], records, N, 1), plain[k]);
    /* The first and the last hop, and over it, whatever the list has. */
    COUNTS(gh_count(0x00010000, records, GH_MOST_HOP + 1, 3), 0x0000006500010000u, 1, 1, 3);
    COUNTS(gh_count(0x7FFF0300, records, GH_MOST_HOP + 1, 3), 0x000080637FFF0300u, 32767, 1, 3);
    static const uint64_t beyond[] = {
        0x80000300, 0xFFFF0300, 0x0000000100010000, 0x0000009D00390300, 0x0000000100000000, 0xFFFFFFFFFFFFFF00,
    };
    for (size_t k = 0; k < GH_ELEMENTS(beyond); k++)
        LEAVES(gh_count(beyond[k], records, GH_MOST_HOP + 1, 3), GH_REFUSED_RECORD);
}

int main(void)
{
    layout();
    forwarded();
    not_forwarded();
    counted();
    return checked("records");
}
