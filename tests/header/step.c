/* The header step on list A's table, standard, with room for eight records and one chunk in each pool: the headers and
 * what becomes of them by RFC 791, 1071 and 1624, the order of refusals by request h of document 02. */
#include "check.h"

static uint8_t list[8 * GH_RECORD_BYTES];
static uint16_t first[GH_FIRST_CELLS(16)];
static uint16_t second[1 * GH_SECOND_CHUNK(16, 24)];
static uint16_t third[1 * GH_THIRD_CHUNK(24)];
static uint32_t own2[1], own3[1];
static uint16_t long1[GH_ELEMENTS(first)], long2[GH_ELEMENTS(second)];
static struct gh_table t = GH_TABLE(16, 24, list, first, second, third, own2, own3, long1, long2);

/* A header: from 192.168.0.1 to 192.168.0.199, and from 192.0.2.1 to 10.1.2.200 and to 10.1.2.5. */
static const uint8_t to_199[GH_HEADER_BYTES] = {
    0x45, 0x00, 0x00, 0x73, 0x00, 0x00, 0x40, 0x00, 0x40, 0x11, 0xb8, 0x61, 0xc0, 0xa8, 0x00, 0x01, 0xc0, 0xa8, 0x00, 0xc7,
};
static const uint8_t to_200[GH_HEADER_BYTES] = {
    0x45, 0x00, 0x00, 0x28, 0x6c, 0xfb, 0x40, 0x00, 0x40, 0x11, 0xfe, 0xff, 0xc0, 0x00, 0x02, 0x01, 0x0a, 0x01, 0x02, 0xc8,
};
static const uint8_t to_5[GH_HEADER_BYTES] = {
    0x45, 0x00, 0x00, 0x28, 0x00, 0x01, 0x40, 0x00, 0x02, 0x06, 0xaa, 0xc8, 0xc0, 0x00, 0x02, 0x01, 0x0a, 0x01, 0x02, 0x05,
};

/* The packet, with four bytes after the header. */
static uint8_t packet[GH_HEADER_BYTES + 4], was[sizeof packet];

static void bring(const uint8_t *header)
{
    static const uint8_t after[4] = { 0xde, 0xad, 0xbe, 0xef };
    memcpy(packet, header, GH_HEADER_BYTES);
    memcpy(packet + GH_HEADER_BYTES, after, sizeof after);
}

/* The packet is answered so, and bytes 8, 10 and 11 are then these; all others are as they were. */
static void lowers(uint64_t answer, unsigned life, unsigned high, unsigned low)
{
    memcpy(was, packet, sizeof packet);
    was[8] = (uint8_t)life;
    was[10] = (uint8_t)high;
    was[11] = (uint8_t)low;
    CHECK(gh_table_step(&t, packet, sizeof packet), answer);
    CHECK(memcmp(packet, was, sizeof packet), 0);
}

/* The same, and the packet is left. */
static void leaves(uint64_t answer, size_t bytes)
{
    memcpy(was, packet, sizeof packet);
    CHECK(gh_table_step(&t, packet, bytes), answer);
    CHECK(memcmp(packet, was, sizeof packet), 0);
}

static void mended(void)
{
    bring(to_199);
    lowers(0x00060100, 0x3f, 0xb9, 0x61);
    bring(to_200);                              /* to 0000, where RFC 1141's equation gives FFFF */
    lowers(0x00390300, 0x3f, 0x00, 0x00);
    static const uint8_t sums[][6] = {          /* identification, checksum, and what it becomes */
        { 0x6c, 0xfa, 0xff, 0x00, 0x00, 0x01 },
        { 0x6c, 0xfc, 0xfe, 0xfe, 0xff, 0xfe },
        { 0x6b, 0xfb, 0x00, 0x00, 0x01, 0x00 },
        { 0x6b, 0xfb, 0xff, 0xff, 0x01, 0x00 }, /* the other zero */
    };
    for (unsigned k = 0; k < GH_ELEMENTS(sums); k++) {
        bring(to_200);
        packet[4] = sums[k][0];
        packet[5] = sums[k][1];
        packet[10] = sums[k][2];
        packet[11] = sums[k][3];
        lowers(0x00390300, 0x3f, sums[k][4], sums[k][5]);
    }
    bring(to_5);                                /* a time to live of 2, and of 255 */
    lowers(0x002c0300, 0x01, 0xab, 0xc8);
    leaves(GH_REFUSED_LIFE, sizeof packet);
    bring(to_5);
    packet[8] = 255;
    packet[10] = 0xad;
    packet[11] = 0xc7;
    lowers(0x002c0300, 254, 0xae, 0xc7);
    bring(to_5);                                /* no more than the header */
    CHECK(gh_step(t.p1, t.p2, t.count, GH_LENT(&t), packet, GH_HEADER_BYTES), 0x002c0300);
    CHECK(packet[8], 1);
}

static void refused(void)
{
    bring(to_5);
    leaves(GH_REFUSED_SHORT, GH_HEADER_BYTES - 1);
    leaves(GH_REFUSED_SHORT, 0);
    packet[0] = 0x46;
    leaves(GH_REFUSED_SHORT, GH_HEADER_BYTES - 1);
    static const uint8_t firsts[][2] = {        /* the first byte, and the higher byte of its right checksum */
        { 0x44, 0xab }, { 0x46, 0xa9 }, { 0x35, 0xba }, { 0x55, 0x9a }, { 0x65, 0x8a },
    };
    for (unsigned k = 0; k < GH_ELEMENTS(firsts); k++) {
        packet[0] = firsts[k][0];
        packet[10] = firsts[k][1];
        leaves(GH_REFUSED_HEADER, sizeof packet);
        packet[10] = 0xaa;                      /* a wrong checksum, and then a time to live of 1 */
        leaves(GH_REFUSED_HEADER, sizeof packet);
        packet[8] = 1;
        leaves(GH_REFUSED_HEADER, sizeof packet);
        bring(to_5);
    }
    for (unsigned k = 1; k < GH_HEADER_BYTES; k++) {
        packet[k] ^= 1;                         /* one bit of any other byte */
        leaves(GH_REFUSED_CHECKSUM, sizeof packet);
        packet[k] ^= 1;
    }
    packet[8] = 1;
    leaves(GH_REFUSED_CHECKSUM, sizeof packet);
    packet[10] = 0xab;
    leaves(GH_REFUSED_LIFE, sizeof packet);
    packet[8] = 0;
    packet[10] = 0xac;
    leaves(GH_REFUSED_LIFE, sizeof packet);
    t.p1 = 17;                                  /* the header's refusals, and then the lookup's */
    leaves(GH_REFUSED_LIFE, sizeof packet);
    bring(to_5);
    leaves(GH_REFUSED_GEOMETRY, sizeof packet);
    t.p1 = 16;
    t.first_len--;
    leaves(GH_REFUSED_SIZE, sizeof packet);
    t.first_len++;
    second[2] = 2;                              /* a chunk beyond its pool */
    leaves(GH_REFUSED_UNSOUND, sizeof packet);
    second[2] = 1;
    lowers(0x002c0300, 0x01, 0xab, 0xc8);
}

int main(void)
{
    CHECK(gh_table_load(&t, list_a, sizeof list_a), (uint64_t)5 << 16);
    mended();
    refused();
    CHECK(GH_NUMBER(gh_table_withdraw(&t, 0, 0)), 0);
    bring(to_199);                              /* no route */
    leaves(0x00000100, sizeof packet);
    bring(to_5);
    uint64_t a = gh_table_step(&t, packet, sizeof packet);
    CHECK(GH_HOP(a), 44);
    CHECK(GH_READS(a), 3);
    return checked("step");
}
