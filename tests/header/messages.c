/* gh_update and gh_write_field by their prototypes: list A's field, the messages that BIRD 2.0.12 sent (tests/peers/bgp), and
 * the refusals in document 02's order. The numbers follow from documents 01 and 02 and RFC 4271. */
#include "check.h"

#define ROOM 64

static uint8_t list[ROOM * GH_RECORD_BYTES];
static uint16_t first[GH_FIRST_CELLS(16)], second[4 * GH_SECOND_CHUNK(16, 24)], third[4 * GH_THIRD_CHUNK(24)];
static uint32_t own2[4], own3[4];
static uint16_t long1[GH_ELEMENTS(first)], long2[GH_ELEMENTS(second)];
static struct gh_table t = GH_TABLE(16, 24, list, first, second, third, own2, own3, long1, long2);

/* A table with this room and so many chunks in its pools, and no routes. */
static void make(size_t room, size_t chunks2, size_t chunks3)
{
    t.list_len = room * GH_RECORD_BYTES;
    t.second_len = t.long2_len = chunks2 * GH_SECOND_CHUNK(16, 24);
    t.own2_len = chunks2;
    t.third_len = chunks3 * GH_THIRD_CHUNK(24);
    t.own3_len = chunks3;
    CHECK(gh_table_make(&t), 0);
}

static const uint8_t field_a[] = { 0, 8, 10, 16, 10, 1, 24, 10, 1, 2, 25, 10, 1, 2, 128 };

/* BIRD's reachability field: 11 prefixes, not sorted. */
static const uint8_t reach[] = {
    0x00, 0x16, 0xc6, 0x33, 0x64, 0x0c, 0xac, 0x10, 0x18, 0xc0, 0x00, 0x02, 0x18, 0x0a, 0x01, 0x02, 0x10, 0x0a,
    0x01, 0x01, 0x80, 0x0a, 0x64, 0x40, 0x19, 0x0a, 0x01, 0x02, 0x80, 0x08, 0x0a, 0x20, 0xcb, 0x00, 0x71, 0x07,
};
/* Its withdrawals: of six prefixes, and of those of list A. */
static const uint8_t gone[] = {
    0x16, 0xc6, 0x33, 0x64, 0x0c, 0xac, 0x10, 0x18, 0xc0, 0x00, 0x02, 0x01, 0x80, 0x0a, 0x64, 0x40, 0x20, 0xcb, 0x00, 0x71, 0x07,
};
static const uint8_t gone_a[] = { 0x00, 0x18, 0x0a, 0x01, 0x02, 0x10, 0x0a, 0x01, 0x19, 0x0a, 0x01, 0x02, 0x80, 0x08, 0x0a };
static const uint8_t none[1] = { 0 };

static uint64_t announced(const uint8_t *field, size_t len)
{
    return gh_table_update(&t, none, 0, field, len, 44);
}

static uint64_t withdrawn(const uint8_t *field, size_t len)
{
    return gh_table_update(&t, field, len, none, 0, 44);
}

static void peers(void)
{
    make(ROOM, 4, 4);
    uint64_t a = announced(reach, sizeof reach);
    CHECK(a, UINT64_C(0x0000000B000B0000));
    CHECK(GH_ENTRIES(a), 11);
    CHECK(t.count, 11);
    a = gh_table_report(&t);
    CHECK(GH_NEED_SECOND(a), 4);
    CHECK(GH_NEED_THIRD(a), 2);
    CHECK(GH_HOP(gh_table_lookup(&t, IP(203, 0, 113, 7))), 44);
    CHECK(announced(none, 0), UINT64_C(0x00000000000B0000));

    /* The last one needs a fourth second chunk, and a second third chunk; the eighth and on need room. */
    make(ROOM, 3, 4);
    CHECK(announced(reach, sizeof reach), UINT64_C(0x0000000A000A0107));
    CHECK(t.count, 10);
    CHECK(GH_NUMBER(gh_table_report(&t)), 0);
    CHECK(announced(none, 0), UINT64_C(0x00000000000A0000));
    CHECK(withdrawn(gone, sizeof gone), UINT64_C(0x0000000600050000));
    for (unsigned k = 0; k < 5; k++)
        CHECK(memcmp(list + GH_RECORD_BYTES * k, list_a + GH_RECORD_BYTES * k, 5), 0);
    CHECK(withdrawn(gone_a, sizeof gone_a), UINT64_C(0x0000000500000000));
    CHECK(t.count, 0);
    make(ROOM, 4, 1);
    CHECK(announced(reach, sizeof reach), UINT64_C(0x0000000A000A0108));
    make(8, 4, 4);
    CHECK(announced(reach, sizeof reach), UINT64_C(0x0000000800080106));
    CHECK(t.count, 8);
}

/* Mark 0 and the message's hop replace what stood; a prefix in both fields is withdrawn and then announced. */
static void again(void)
{
    make(ROOM, 4, 4);
    CHECK(GH_NUMBER(gh_table_announce(&t, IP(10, 0, 0, 0), 8, 20, GH_ATTACHED)), 0);
    CHECK(announced(field_a, sizeof field_a), UINT64_C(0x0000000500050000));
    uint64_t a = gh_route(list, GH_RECORD_BYTES * t.count, 1);
    CHECK(GH_HOP(a), 44);
    CHECK(GH_ROUTE_MARK(a), GH_BEHIND);
    static uint8_t before[sizeof list];
    memcpy(before, list, sizeof list);
    CHECK(announced(field_a, sizeof field_a), UINT64_C(0x0000000500050000));
    CHECK(memcmp(before, list, sizeof list), 0);
    CHECK(gh_table_update(&t, field_a, sizeof field_a, field_a + 1, 2, 7), UINT64_C(0x0000000600010000));
    CHECK(GH_HOP(gh_table_lookup(&t, IP(10, 1, 2, 3))), 7);
    /* 10.1.3.255/23 is 10.1.2.0/23 */
    static const uint8_t loose[] = { 23, 10, 1, 3 };
    CHECK(announced(loose, sizeof loose), UINT64_C(0x0000000100020000));
    CHECK(GH_HOP(gh_table_lookup(&t, IP(10, 1, 2, 0))), 44);
}

/* 1, 2, 5, 17, 4, each before those after it; all is then as it was. */
static void refused(void)
{
    static const uint8_t over[] = { 33, 1, 2, 3, 4, 5 }, cut[] = { 24, 10, 1 };
    make(ROOM, 4, 4);
    CHECK(announced(field_a, sizeof field_a), UINT64_C(0x0000000500050000));
    CHECK(gh_update(16, 27, t.count, GH_LENT(&t), over, sizeof over, none, 0, 0), GH_REFUSED_GEOMETRY);
    t.first_len--;
    CHECK(gh_table_update(&t, over, sizeof over, none, 0, 0), GH_REFUSED_SIZE);
    t.first_len++;
    t.count--;
    CHECK(gh_table_update(&t, over, sizeof over, none, 0, 0), GH_REFUSED_UNSOUND);
    t.count++;
    CHECK(gh_table_update(&t, over, sizeof over, none, 0, 0), GH_REFUSED_FIELD);
    CHECK(gh_table_update(&t, none, 0, over, sizeof over, 0), GH_REFUSED_FIELD);
    CHECK(gh_table_update(&t, field_a, sizeof field_a, cut, sizeof cut, 44), GH_REFUSED_FIELD);
    CHECK(gh_table_update(&t, none, 0, none, 0, 0), GH_REFUSED_HOP);
    CHECK(gh_table_update(&t, none, 0, none, 0, 32768), GH_REFUSED_HOP);
    CHECK(gh_table_update(&t, none, 0, none, 0, 65580), GH_REFUSED_HOP);
    CHECK(gh_table_update(&t, none, 0, none, 0, 32767), UINT64_C(0x0000000000050000));
    CHECK(gh_table_update(&t, none, 0, none, 0, 1), UINT64_C(0x0000000000050000));
    CHECK(t.count, 5);
    CHECK(GH_NUMBER(gh_table_report(&t)), 0);
}

/* List A's field; a buffer of one byte less; no byte after the field. */
static void written(void)
{
    uint8_t out[20];
    memset(out, 0xEE, sizeof out);
    CHECK(gh_write_field(list_a, sizeof list_a, out, 14), GH_REFUSED_BUFFER);
    CHECK(out[0], 0xEE);
    uint64_t a = gh_write_field(list_a, sizeof list_a, out, sizeof out);
    CHECK(a, (uint64_t)15 << 32);
    CHECK(GH_BYTES(a), sizeof field_a);
    CHECK(memcmp(out, field_a, sizeof field_a), 0);
    for (unsigned k = 15; k < 20; k++)
        CHECK(out[k], 0xEE);
    CHECK(gh_write_field(list_a, sizeof list_a, out, 15), (uint64_t)15 << 32);
    CHECK(gh_write_field(list_a, 0, out, 0), 0);
    a = gh_write_field(list_a, 9, out, sizeof out);
    CHECK(GH_NUMBER(a), GH_REFUSED_INPUT);
    CHECK(GH_INDEX(a), 1);
    static uint8_t rows[(GH_MOST_RECORDS + 1) * GH_RECORD_BYTES], field[GH_MOST_FIELD];
    for (uint32_t k = 0; k <= GH_MOST_RECORDS; k++)
        put_record(rows + GH_RECORD_BYTES * k, IP(10, 0, 0, 0) + k, 32, 1);
    CHECK(gh_write_field(rows, sizeof rows - GH_RECORD_BYTES, field, sizeof field), (uint64_t)GH_MOST_FIELD << 32);
    CHECK(gh_write_field(rows, sizeof rows - GH_RECORD_BYTES, field, sizeof field - 1), GH_REFUSED_BUFFER);
    CHECK(gh_write_field(rows, sizeof rows, field, sizeof field), GH_REFUSED_ROOM);
}

int main(void)
{
    peers();
    again();
    refused();
    written();
    return checked("messages");
}
