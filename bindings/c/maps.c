/* Bit maps of list A, asked one by one and at once. */
#include <stdio.h>
#include <ghatumri.h>

static const uint8_t input[] = {
    0,  0, 0, 0,   0,  0, 0, 6,    /* 0.0.0.0/0 to hop 6 */
    10, 0, 0, 0,   8,  0, 0, 20,   /* 10.0.0.0/8 to hop 20 */
    10, 1, 0, 0,   16, 0, 0, 31,   /* 10.1.0.0/16 to hop 31 */
    10, 1, 2, 0,   24, 0, 0, 44,   /* 10.1.2.0/24 to hop 44 */
    10, 1, 2, 128, 25, 0, 0, 57,   /* 10.1.2.128/25 to hop 57 */
};
static uint8_t bits[GH_MAP_BYTES];
static uint16_t cells[GH_MAP_CELLS];
#define LENT input, sizeof input, bits, GH_MAP_BYTES, cells, GH_MAP_CELLS

int main(void)
{
    static const uint32_t addrs[] = {0x0A0102C8, 0x0A010301, 0x0A020001, 0xC0000201};
    uint32_t out[4];
    if (GH_NUMBER(gh_basic_build(LENT)) != GH_ACCEPTED)
        return 1;
    uint64_t found = gh_basic_lookup(LENT, 0x0A0102C8); /* 10.1.2.200 */
    printf("hop %u\n", GH_HOP(found));
    cells[0] = 0; /* the default route's cell is lost */
    if (GH_NUMBER(gh_basic_lookup_many(LENT, addrs, 4, out, 4)) != GH_ACCEPTED)
        return 1;
    for (int k = 0; k < 4; k++) {
        unsigned number = GH_NUMBER(out[k]);
        if (number == GH_ACCEPTED)
            printf("hop %u\n", GH_HOP(out[k]));
        else
            printf("refused %u, %s\n", number, gh_meaning(number));
    }
    return 0;
}
