/* Two parties in one box: each call by its prototype, struct gh_pair and the functions over it. Small geometry, four chunks
 * in either pool, of which the first party may use one and the second three. */
#include "check.h"

#define CHUNKS 4
static uint8_t lists[2][8 * GH_RECORD_BYTES];
static uint16_t firsts[2][GH_FIRST_CELLS(12)], longs[2][GH_FIRST_CELLS(12)];
static uint16_t second[CHUNKS * GH_SECOND_CHUNK(12, 22)], third[CHUNKS * GH_THIRD_CHUNK(22)];
static uint32_t own2[CHUNKS], own3[CHUNKS];
static uint16_t long2[GH_ELEMENTS(second)];

static struct gh_pair box(uint32_t one2, uint32_t one3, uint32_t two2, uint32_t two3)
{
    struct gh_pair b;
    memset(&b, 0, sizeof b);
    b.p1 = GH_SMALL_P1;
    b.p2 = GH_SMALL_P2;
    b.most2[GH_PARTY_ONE] = one2;
    b.most3[GH_PARTY_ONE] = one3;
    b.most2[GH_PARTY_TWO] = two2;
    b.most3[GH_PARTY_TWO] = two3;
    for (unsigned w = 0; w < 2; w++) {
        b.list[w] = lists[w];
        b.list_len[w] = sizeof lists[w];
        b.first[w] = firsts[w];
        b.first_len[w] = GH_ELEMENTS(firsts[w]);
        b.long1[w] = longs[w];
        b.long1_len[w] = GH_ELEMENTS(longs[w]);
    }
    b.second = second;
    b.second_len = GH_ELEMENTS(second);
    b.third = third;
    b.third_len = GH_ELEMENTS(third);
    b.own2 = own2;
    b.own2_len = CHUNKS;
    b.own3 = own3;
    b.own3_len = CHUNKS;
    b.long2 = long2;
    b.long2_len = GH_ELEMENTS(long2);
    return b;
}

/* 24 on both sides of the limit, in either pool, and after 2. */
static void limits(void)
{
    struct gh_pair b = box(1, 2, 3, 2);
    CHECK(gh_box_make(&b), 0);
    b = box(2, 2, 3, 2);
    CHECK(gh_box_make(&b), GH_REFUSED_LIMITS);
    b = box(1, 2, 3, 3);
    CHECK(gh_box_make(&b), GH_REFUSED_LIMITS);
    b = box(UINT32_MAX, 0, 5, 0);
    CHECK(gh_box_make(&b), GH_REFUSED_LIMITS);
    b.list_len[1] -= 1;
    CHECK(gh_box_make(&b), GH_REFUSED_SIZE);
    b.p1 = 11;
    CHECK(gh_box_make(&b), GH_REFUSED_GEOMETRY);
}

/* A party by its own limit; owners with the party's bit; each its own routes. */
static void changes(void)
{
    struct gh_pair b = box(1, 1, 3, 3);
    CHECK(gh_box_make(&b), 0);
    uint64_t a = gh_box_announce(&b, GH_PARTY_ONE, IP(10, 1, 2, 0), 24, 44, GH_BEHIND);
    CHECK(a, (uint64_t)1 << 16);
    CHECK(own2[0], 161);
    CHECK(own3[0], 65);
    CHECK(gh_box_announce(&b, GH_PARTY_ONE, IP(10, 32, 0, 0), 24, 5, GH_BEHIND), GH_REFUSED_SECOND);
    CHECK(GH_NUMBER(gh_box_announce(&b, GH_PARTY_TWO, IP(10, 1, 2, 0), 24, 9, GH_BEHIND)), 0);
    CHECK(own2[1], 0x800000A1u);
    CHECK(own3[1], 0x80000441u);
    CHECK(b.count[0], 1);
    CHECK(b.count[1], 1);
    for (uint32_t party = GH_PARTY_ONE; party <= GH_PARTY_TWO; party++) {
        a = gh_box_lookup(&b, party, IP(10, 1, 2, 5));
        CHECK(GH_HOP(a), party == GH_PARTY_ONE ? 44 : 9);
        CHECK(GH_READS(a), 3);
        a = gh_box_report(&b, party);
        CHECK(GH_COUNT(a), 1);
        CHECK(GH_NEED_SECOND(a), 1);
        CHECK(GH_NEED_THIRD(a), 1);
    }
    /* Any number but 0 is the second party. */
    CHECK(gh_party(GH_PARTY_ONE), 0);
    CHECK(gh_party(7), 1);
    CHECK(gh_box_lookup(&b, 7, IP(10, 1, 2, 5)), gh_pair_lookup(GH_PAIR_STATE(&b), GH_PAIR_LENT(&b), GH_PARTY_TWO, IP(10, 1, 2, 5)));
    /* A header of TTL 2 to 10.1.2.5: the second party's hop, TTL 1 and the checksum that goes with it; then 22. */
    uint8_t packet[GH_HEADER_BYTES] = { 0x45, 0, 0, 0x28, 0, 1, 0x40, 0, 2, 6, 0xaa, 0xc8, 192, 0, 2, 1, 10, 1, 2, 5 };
    CHECK(gh_pair_step(GH_PAIR_STATE(&b), GH_PAIR_LENT(&b), GH_PARTY_TWO, packet, sizeof packet - 1), GH_REFUSED_SHORT);
    CHECK(packet[8], 2);
    CHECK(gh_box_step(&b, GH_PARTY_TWO, packet, sizeof packet), gh_box_lookup(&b, GH_PARTY_TWO, IP(10, 1, 2, 5)));
    CHECK(packet[8], 1);
    CHECK(packet[10], 0xab);
    CHECK(packet[11], 0xc8);
    CHECK(gh_box_step(&b, GH_PARTY_TWO, packet, sizeof packet), GH_REFUSED_LIFE);
    /* A bit after the length is cleared, and a mark carried; a replacement. */
    a = gh_box_announce(&b, GH_PARTY_TWO, IP(10, 1, 2, 3), 24, 8, GH_ATTACHED);
    CHECK(GH_CLEARED(a), 1);
    CHECK(GH_REPLACED(a), 1);
    CHECK(GH_COUNT(a), 1);
    CHECK(lists[1][5], GH_ATTACHED);
    /* What the first party gives back the second may take. */
    CHECK(gh_box_withdraw(&b, GH_PARTY_ONE, IP(10, 1, 2, 0), 24), 0);
    CHECK(gh_box_withdraw(&b, GH_PARTY_ONE, IP(10, 1, 2, 0), 24), GH_REFUSED_ABSENT);
    CHECK(GH_COUNT(gh_box_announce(&b, GH_PARTY_TWO, IP(10, 32, 0, 0), 24, 5, GH_BEHIND)), 2);
    CHECK(own2[0], 0x800000A3u);
    CHECK(own3[0], 0x80000001u);
    CHECK(b.count[0], 0);
    CHECK(b.count[1], 2);
    /* The other refusals, by the party. */
    CHECK(gh_box_announce(&b, GH_PARTY_ONE, 0, 33, 1, GH_BEHIND), GH_REFUSED_PREFIX);
    CHECK(gh_box_announce(&b, GH_PARTY_ONE, 0, 280, 0, GH_BEHIND), GH_REFUSED_PREFIX);
    CHECK(gh_box_announce(&b, GH_PARTY_ONE, 0, 0, 65537, GH_BEHIND), GH_REFUSED_HOP);
    CHECK(gh_box_announce(&b, GH_PARTY_ONE, 0, 0, 1, 257), GH_REFUSED_INPUT);
    CHECK(gh_box_withdraw(&b, GH_PARTY_ONE, 0, 289), GH_REFUSED_PREFIX);
    /* Room is each party's own: the first has 8 records. */
    for (uint32_t k = 0; k < 8; k++)
        CHECK(GH_COUNT(gh_box_announce(&b, GH_PARTY_ONE, k << 24, 8, 1 + k, GH_BEHIND)), k + 1);
    CHECK(gh_box_announce(&b, GH_PARTY_ONE, IP(9, 0, 0, 0), 8, 9, GH_BEHIND), GH_REFUSED_ROOM);
    CHECK(GH_NUMBER(gh_box_announce(&b, GH_PARTY_TWO, IP(9, 0, 0, 0), 8, 9, GH_BEHIND)), 0);
}

/* Damage of one party's cell: 5 for both parties' changes and reports, and the other's lookups go on. */
static void damage(void)
{
    struct gh_pair b = box(1, 1, 3, 3);
    CHECK(gh_box_make(&b), 0);
    CHECK(GH_COUNT(gh_box_announce(&b, GH_PARTY_ONE, IP(10, 1, 2, 0), 24, 44, GH_BEHIND)), 1);
    CHECK(GH_COUNT(gh_box_announce(&b, GH_PARTY_TWO, IP(10, 1, 2, 0), 24, 9, GH_BEHIND)), 1);
    firsts[0][160] = 2;
    CHECK(gh_box_lookup(&b, GH_PARTY_ONE, IP(10, 1, 2, 5)), GH_REFUSED_UNSOUND);
    CHECK(GH_HOP(gh_box_lookup(&b, GH_PARTY_TWO, IP(10, 1, 2, 5))), 9);
    for (uint32_t party = GH_PARTY_ONE; party <= GH_PARTY_TWO; party++) {
        CHECK(gh_box_report(&b, party), GH_REFUSED_UNSOUND);
        CHECK(gh_box_announce(&b, party, IP(10, 1, 2, 0), 24, 7, GH_BEHIND), GH_REFUSED_UNSOUND);
        CHECK(gh_box_withdraw(&b, party, IP(10, 1, 2, 0), 24), GH_REFUSED_UNSOUND);
        CHECK(gh_box_load(&b, party, list_a, 0), GH_REFUSED_UNSOUND);
        /* 5 before the input's */
        CHECK(gh_box_load(&b, party, list_a, 39), GH_REFUSED_UNSOUND);
    }
    firsts[0][160] = 1;
    CHECK(GH_COUNT(gh_box_report(&b, GH_PARTY_ONE)), 1);
    /* The top bit with no place is nobody's and not 0. */
    own2[3] = 0x80000000u;
    CHECK(gh_box_report(&b, GH_PARTY_ONE), GH_REFUSED_UNSOUND);
    own2[3] = 0;
    /* Limits that do not fit are unsound after make. */
    b.most2[1] = 4;
    CHECK(gh_box_report(&b, GH_PARTY_ONE), GH_REFUSED_UNSOUND);
    b.most2[1] = 3;
    CHECK(GH_COUNT(gh_box_report(&b, GH_PARTY_TWO)), 1);
}

/* A load takes the lowest free chunks between the other's. */
static void loads(void)
{
    uint8_t input[3 * GH_RECORD_BYTES];
    struct gh_pair b = box(2, 2, 2, 2);
    CHECK(gh_box_make(&b), 0);
    CHECK(GH_NUMBER(gh_box_announce(&b, GH_PARTY_ONE, IP(10, 1, 2, 0), 24, 44, GH_BEHIND)), 0);
    CHECK(GH_NUMBER(gh_box_announce(&b, GH_PARTY_TWO, IP(10, 64, 0, 0), 24, 9, GH_BEHIND)), 0);
    CHECK(GH_NUMBER(gh_box_announce(&b, GH_PARTY_ONE, IP(10, 32, 0, 0), 24, 45, GH_BEHIND)), 0);
    put_record(input, IP(10, 1, 2, 0), 24, 1);
    put_record(input + 8, IP(10, 32, 0, 0), 24, 2);
    put_record(input + 16, IP(10, 64, 0, 0), 24, 3);
    CHECK(gh_box_load(&b, GH_PARTY_TWO, input, 24), GH_REFUSED_SECOND);
    CHECK(gh_box_load(&b, GH_PARTY_TWO, input, 16), (uint64_t)2 << 16);
    CHECK(own2[0], 161);
    CHECK(own2[1], 0x800000A1u);
    CHECK(own2[2], 163);
    CHECK(own2[3], 0x800000A3u);
    CHECK(GH_HOP(gh_box_lookup(&b, GH_PARTY_TWO, IP(10, 32, 0, 1))), 2);
    CHECK(GH_HOP(gh_box_lookup(&b, GH_PARTY_TWO, IP(10, 64, 0, 1))), 0);
    CHECK(GH_HOP(gh_box_lookup(&b, GH_PARTY_ONE, IP(10, 32, 0, 1))), 45);
    CHECK(GH_NUMBER(gh_box_load(&b, GH_PARTY_ONE, input, 15)), GH_REFUSED_INPUT);
    CHECK(gh_box_load(&b, GH_PARTY_ONE, input, 0), 0);
    CHECK(b.count[0], 0);
    CHECK(own2[0] | own2[2] | own3[0] | own3[2], 0);
    CHECK(GH_COUNT(gh_box_report(&b, GH_PARTY_TWO)), 2);
}

/* Each call by its prototype answers as the function over the struct. */
static void prototypes(void)
{
    struct gh_pair b = box(1, 1, 3, 3);
    CHECK(gh_pair_make(b.p1, b.p2, 1, 1, 3, 3, GH_PAIR_LENT(&b)), 0);
    uint64_t a = gh_pair_announce(GH_PAIR_STATE(&b), GH_PAIR_LENT(&b), GH_PARTY_TWO, IP(10, 1, 2, 0), 24, 9, GH_BEHIND);
    CHECK(gh_box_keep(&b, GH_PARTY_TWO, a), (uint64_t)1 << 16);
    CHECK(b.count[1], 1);
    CHECK(GH_COUNT(gh_pair_report(GH_PAIR_STATE(&b), GH_PAIR_LENT(&b), GH_PARTY_TWO)), 1);
    CHECK(gh_pair_load(GH_PAIR_STATE(&b), GH_PAIR_LENT(&b), GH_PARTY_ONE, list_a, sizeof list_a), (uint64_t)5 << 16);
    b.count[0] = 5;
    CHECK(gh_pair_withdraw(GH_PAIR_STATE(&b), GH_PAIR_LENT(&b), GH_PARTY_ONE, 0, 0), (uint64_t)4 << 16);
    b.count[0] = 4;
    CHECK(GH_HOP(gh_box_lookup(&b, GH_PARTY_ONE, IP(10, 1, 2, 200))), 57);
    CHECK(gh_box_keep(&b, GH_PARTY_ONE, GH_REFUSED_ROOM), GH_REFUSED_ROOM);
    CHECK(b.count[0], 4);
}

int main(void)
{
    limits();
    changes();
    damage();
    loads();
    prototypes();
    return checked("pair");
}
