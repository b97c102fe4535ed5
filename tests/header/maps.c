/* The calls on bit maps by their prototypes: list A and the damage and sizes that document 02 names. */
#include "check.h"

static uint8_t bits[GH_MAP_BYTES + 1];
static uint16_t cells[GH_MAP_CELLS + 1];
#define LENT list_a, sizeof list_a, bits, GH_MAP_BYTES, cells, GH_MAP_CELLS

static const struct { uint32_t addr; unsigned hop; } asked[] = {
    { IP(10, 1, 2, 200), 57 }, { IP(10, 1, 2, 5), 44 }, { IP(10, 1, 3, 1), 31 }, { IP(10, 2, 0, 1), 20 },
    { IP(192, 0, 2, 1), 6 },
};
#define ASKED GH_ELEMENTS(asked)

/* Every byte and every cell is written, and none after them. */
static void build(void)
{
    memset(bits, 9, sizeof bits);
    memset(cells, 9, sizeof cells);
    CHECK(gh_basic_build(LENT), 0);
    unsigned set = 0, hops = 0;
    for (size_t k = 0; k < GH_MAP_BYTES; k++)
        set += bits[k] != 0;
    for (size_t k = 0; k < GH_MAP_CELLS; k++)
        hops += cells[k] != 0;
    CHECK(set, 3);
    CHECK(hops, 3);
    CHECK(bits[0], 0x01);
    CHECK(bits[33], 0x02);
    CHECK(bits[8512], 0x01);
    CHECK(cells[0], 6);
    CHECK(cells[265], 20);
    CHECK(cells[68096], 31);
    CHECK(bits[GH_MAP_BYTES], 9);
    CHECK(cells[GH_MAP_CELLS], 0x0909);
}

static void lookups(void)
{
    uint32_t addrs[ASKED], out[ASKED];
    for (unsigned k = 0; k < ASKED; k++) {
        uint64_t a = gh_basic_lookup(LENT, asked[k].addr);
        CHECK(a, (uint64_t)asked[k].hop << 16);
        CHECK(GH_HOP(a), asked[k].hop);
        addrs[k] = asked[k].addr;
    }
    CHECK(gh_basic_lookup_many(LENT, addrs, ASKED, out, ASKED), 0);
    for (unsigned k = 0; k < ASKED; k++)
        CHECK(out[k], asked[k].hop << 16);

    /* 13 at the first set bit; what is found before it stays. */
    cells[265] = 32768;
    CHECK(gh_basic_lookup(LENT, asked[3].addr), GH_REFUSED_IMAGE);
    CHECK(gh_basic_lookup(LENT, asked[2].addr), (uint64_t)31 << 16);
    CHECK(gh_basic_lookup_many(LENT, addrs, ASKED, out, ASKED), 0);
    CHECK(GH_NUMBER(out[3]), GH_REFUSED_IMAGE);
    CHECK(GH_HOP(out[0]), 57);
    /* Level 0 too; without its bit there is no route. */
    cells[0] = 0;
    CHECK(gh_basic_lookup(LENT, asked[4].addr), GH_REFUSED_IMAGE);
    bits[0] = 0;
    CHECK(gh_basic_lookup(LENT, asked[4].addr), 0);
}

/* The input's, then 2; nothing is written. */
static void refusals(void)
{
    static const size_t sizes[][2] = {
        { GH_MAP_BYTES - 1, GH_MAP_CELLS }, { GH_MAP_BYTES + 1, GH_MAP_CELLS }, { GH_MAP_BYTES, GH_MAP_CELLS - 1 },
        { GH_MAP_BYTES, GH_MAP_CELLS + 1 },
    };
    uint32_t addrs[2] = { 0, 1 }, out[3] = { 7, 8, 9 };
    memset(bits, 9, sizeof bits);
    memset(cells, 9, sizeof cells);
    for (unsigned k = 0; k < GH_ELEMENTS(sizes); k++) {
        size_t b = sizes[k][0], c = sizes[k][1];
        CHECK(gh_basic_build(list_a, sizeof list_a, bits, b, cells, c), GH_REFUSED_SIZE);
        CHECK(gh_basic_lookup(list_a, sizeof list_a, bits, b, cells, c, 1), GH_REFUSED_SIZE);
        CHECK(gh_basic_lookup_many(list_a, sizeof list_a, bits, b, cells, c, addrs, 2, out, 2), GH_REFUSED_SIZE);
        uint64_t a = gh_basic_build(list_a, 39, bits, b, cells, c);
        CHECK(GH_NUMBER(a), GH_REFUSED_INPUT);
        CHECK(GH_HAS_INDEX(a), 1);
        CHECK(GH_INDEX(a), 4);
        a = gh_basic_lookup(list_a, 39, bits, b, cells, c, 1);
        CHECK(GH_INDEX(a), 4);
        a = gh_basic_lookup_many(list_a, 39, bits, b, cells, c, addrs, 2, out, 3);
        CHECK(GH_INDEX(a), 4);
    }
    CHECK(gh_basic_lookup_many(LENT, addrs, 2, out, 3), GH_REFUSED_SIZE);
    CHECK(out[0], 7);
    CHECK(bits[0], 9);
    CHECK(cells[GH_MAP_CELLS - 1], 0x0909);
}

int main(void)
{
    build();
    lookups();
    refusals();
    return checked("maps");
}
