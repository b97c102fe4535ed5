/* A table of two routes, one of them attached, asked and changed. */
#include <stdio.h>
#include <ghatumri.h>

static uint8_t list[64 * GH_RECORD_BYTES]; /* room for 64 routes */
static uint16_t first[GH_FIRST_CELLS(16)];
static uint16_t second[4 * GH_SECOND_CHUNK(16, 24)]; /* 4 chunks in each pool */
static uint16_t third[4 * GH_THIRD_CHUNK(24)];
static uint32_t own2[4], own3[4];
static uint16_t long1[GH_FIRST_CELLS(16)], long2[4 * GH_SECOND_CHUNK(16, 24)]; /* counts of long routes */
static struct gh_table table = GH_TABLE(16, 24, list, first, second, third, own2, own3, long1, long2);

/* Tells whether an answer is a refusal, and prints it where it is one. */
static int refused(const char *what, uint64_t answer)
{
    unsigned number = GH_NUMBER(answer);
    if (number != GH_ACCEPTED)
        printf("%s: refused %u, %s\n", what, number, gh_meaning(number));
    return number != GH_ACCEPTED;
}

int main(void)
{
    if (refused("make", gh_table_make(&table))
        || refused("10.1.2.0/24", gh_table_announce(&table, 0x0A010200, 24, 44, GH_BEHIND))
        || refused("10.1.2.128/25", gh_table_announce(&table, 0x0A010280, 25, 57, GH_ATTACHED)))
        return 1;
    uint64_t found = gh_table_lookup(&table, 0x0A0102C8); /* 10.1.2.200 */
    if (refused("10.1.2.200", found))
        return 1;
    printf("hop %u in %u cells\n", GH_HOP(found), GH_READS(found));
    refused("10.1.3.0/24", gh_table_withdraw(&table, 0x0A010300, 24));
    printf("%u routes\n", table.count);
    return 0;
}
