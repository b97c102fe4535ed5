/* struct gh_table and the functions over it: the same answers, and a count that a refusal and a lookup leave. */
#include "check.h"

static uint8_t list[6 * GH_RECORD_BYTES];
static uint16_t first[GH_FIRST_CELLS(16)];
static uint16_t second[2 * GH_SECOND_CHUNK(16, 24)];
static uint16_t third[1 * GH_THIRD_CHUNK(24)];
static uint32_t own2[2], own3[1];
static uint16_t long1[GH_ELEMENTS(first)], long2[GH_ELEMENTS(second)];
static struct gh_table t = GH_TABLE(16, 24, list, first, second, third, own2, own3, long1, long2);

static void set_up(void)
{
    CHECK(t.p1, 16);
    CHECK(t.p2, 24);
    CHECK(t.count, 0);
    CHECK(t.list_len, 48);
    CHECK(t.first_len, 65536);
    CHECK(t.second_len, 512);
    CHECK(t.third_len, 256);
    CHECK(t.own2_len, 2);
    CHECK(t.own3_len, 1);
    CHECK(t.list == list && t.first == first && t.second == second && t.third == third, 1);
    CHECK(t.own2 == own2 && t.own3 == own3, 1);
    CHECK(t.long1_len, 65536);
    CHECK(t.long2_len, 512);
    CHECK(t.long1 == long1 && t.long2 == long2, 1);
    CHECK(GH_ELEMENTS(first), 65536);
}

/* Refusals among changes and lookups: the count stands, and the next call is answered. */
static void runs(void)
{
    /* Zeroed arrays are no table. */
    CHECK(GH_NUMBER(gh_table_report(&t)), GH_REFUSED_UNSOUND);
    CHECK(gh_table_make(&t), 0);
    CHECK(gh_table_load(&t, list_a, sizeof list_a), (uint64_t)5 << 16);
    CHECK(t.count, 5);
    CHECK(GH_NUMBER(gh_table_withdraw(&t, IP(10, 1, 3, 0), 24)), GH_REFUSED_ABSENT);
    CHECK(t.count, 5);
    uint64_t a = gh_table_lookup(&t, IP(10, 1, 2, 200));
    CHECK(GH_HOP(a), 57);
    CHECK(t.count, 5);
    a = gh_table_announce(&t, IP(10, 2, 3, 0), 24, 300, GH_BEHIND);
    CHECK(GH_NUMBER(a), 0);
    CHECK(GH_REPLACED(a), 0);
    CHECK(t.count, 6);
    CHECK(GH_NUMBER(gh_table_announce(&t, IP(11, 0, 0, 0), 8, 1, GH_BEHIND)), GH_REFUSED_ROOM);
    CHECK(GH_NUMBER(gh_table_load(&t, list_a, 39)), GH_REFUSED_INPUT);
    CHECK(t.count, 6);
    a = gh_table_announce(&t, IP(10, 2, 3, 0), 24, 301, GH_BEHIND);
    CHECK(GH_REPLACED(a), 1);
    CHECK(t.count, 6);
    a = gh_table_report(&t);
    CHECK(GH_COUNT(a), 6);
    CHECK(GH_NEED_SECOND(a), 2);
    CHECK(GH_NEED_THIRD(a), 1);
    CHECK(a, gh_report(t.p1, t.p2, t.count, GH_LENT(&t)));
    CHECK(GH_COUNT(gh_table_withdraw(&t, 0, 0)), 5);
    CHECK(t.count, 5);

    uint32_t addrs[3] = { IP(10, 2, 3, 7), IP(192, 0, 2, 1), IP(10, 1, 2, 5) }, out[3];
    CHECK(gh_table_lookup_many(&t, addrs, out, 3), 0);
    CHECK(GH_HOP(out[0]), 301);
    CHECK(GH_READS(out[0]), 2);
    CHECK(GH_HOP(out[1]), 0);
    CHECK(GH_READS(out[1]), 1);
    CHECK(GH_HOP(out[2]), 44);
    CHECK(GH_READS(out[2]), 3);
    CHECK(t.count, 5);
    t.p1 = 11;
    CHECK(GH_NUMBER(gh_table_make(&t)), GH_REFUSED_GEOMETRY);
    CHECK(t.count, 5);
    t.p1 = 16;
    CHECK(gh_table_make(&t), 0);
    CHECK(t.count, 0);
    CHECK(gh_table_keep(&t, (uint64_t)7 << 16), (uint64_t)7 << 16);
    CHECK(t.count, 7);
    CHECK(gh_table_keep(&t, GH_REFUSED_THIRD), 8);
    CHECK(t.count, 7);
}

/* A table without pools: their pointers are not null. */
static void without_pools(void)
{
    struct gh_table s = t;
    s.second = s.third = s.long2 = (uint16_t *)gh_empty();
    s.own2 = s.own3 = (uint32_t *)gh_empty();
    s.second_len = s.third_len = s.own2_len = s.own3_len = s.long2_len = 0;
    CHECK(gh_table_make(&s), 0);
    CHECK(GH_COUNT(gh_table_announce(&s, IP(10, 1, 0, 0), 16, 31, GH_BEHIND)), 1);
    CHECK(GH_NUMBER(gh_table_announce(&s, IP(10, 1, 0, 0), 17, 32, GH_BEHIND)), GH_REFUSED_SECOND);
    CHECK(GH_HOP(gh_table_lookup(&s, IP(10, 1, 200, 9))), 31);
    CHECK(s.count, 1);
}

/* Two tables change in turn while the other answers: a copy of the arrays with the count is the same table. */
static void copied(void)
{
    static uint8_t list2[sizeof list];
    static uint16_t first2[GH_ELEMENTS(first)], second2[GH_ELEMENTS(second)], third2[GH_ELEMENTS(third)];
    static uint32_t own22[2], own32[1];
    static uint16_t long12[GH_ELEMENTS(long1)], long22[GH_ELEMENTS(long2)];
    struct gh_table u = GH_TABLE(16, 24, list2, first2, second2, third2, own22, own32, long12, long22);
    CHECK(GH_COUNT(gh_table_load(&t, list_a, sizeof list_a)), 5);
    u.count = t.count;
    memcpy(u.list, t.list, sizeof list);
    memcpy(u.first, t.first, sizeof first);
    memcpy(u.second, t.second, sizeof second);
    memcpy(u.third, t.third, sizeof third);
    memcpy(u.own2, t.own2, sizeof own2);
    memcpy(u.own3, t.own3, sizeof own3);
    memcpy(u.long1, t.long1, sizeof long1);
    memcpy(u.long2, t.long2, sizeof long2);
    CHECK(gh_table_report(&u), gh_table_report(&t));
    CHECK(GH_COUNT(gh_table_withdraw(&u, IP(10, 1, 2, 128), 25)), 4);
    CHECK(GH_HOP(gh_table_lookup(&u, IP(10, 1, 2, 200))), 44);
    CHECK(GH_HOP(gh_table_lookup(&t, IP(10, 1, 2, 200))), 57);
}

int main(void)
{
    set_up();
    runs();
    without_pools();
    copied();
    return checked("table");
}
