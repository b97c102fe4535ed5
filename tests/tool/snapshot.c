/* Writes snapshots to the folder that is named: a table of list A without and with hop records, and an image. */
#include "snapshot.h"
#include <stdlib.h>

static uint8_t list[8 * 64];
static uint16_t first[GH_FIRST_CELLS(16)], second[4 * GH_SECOND_CHUNK(16, 24)], third[4 * GH_THIRD_CHUNK(24)];
static uint32_t own2[4], own3[4];
static uint16_t long1[GH_FIRST_CELLS(16)], long2[4 * GH_SECOND_CHUNK(16, 24)];
static struct gh_table table = GH_TABLE(16, 24, list, first, second, third, own2, own3, long1, long2);
static struct gh_hop_record records[60];
static uint32_t words[21];
static uint16_t hops[5];

static const uint8_t list_a[40] = {
    0, 0, 0, 0, 0, 0, 0, 6, 10, 0, 0, 0, 8, 0, 0, 20, 10, 1, 0, 0, 16, 0, 0, 31,
    10, 1, 2, 0, 24, 0, 0, 44, 10, 1, 2, 128, 25, 0, 0, 57,
};

static int to_file(void *to, const void *bytes, size_t n) { return fwrite(bytes, 1, n, (FILE *)to) != n; }
static int no_room(void *to, const void *bytes, size_t n) { (void)bytes; (void)n; return ++*(int *)to == 3 ? 7 : 0; }

static FILE *file(const char *folder, const char *name)
{
    char path[512];
    FILE *f;
    snprintf(path, sizeof path, "%s/%s", folder, name);
    f = fopen(path, "wb");
    if (!f) exit(2);
    return f;
}

int main(int argc, char **argv)
{
    FILE *f;
    size_t k;
    int calls = 0, failed = argc != 2;
    if (failed) return 2;
    for (k = 0; k < 60; k++) records[k].port = (uint16_t)(k + 101), records[k].up = GH_UP;
    records[43].up = 0;
    failed |= GH_NUMBER(gh_table_load(&table, list_a, sizeof list_a)) != 0;
    failed |= GH_NUMBER(gh_table_forward(&table, records, 60, 0x0A0102C8, 1500)) != 0;
    failed |= GH_NUMBER(gh_table_forward(&table, records, 60, 0x0A0102C9, 40)) != 0;
    failed |= GH_NUMBER(gh_build(list_a, sizeof list_a, words, 21, hops, 5)) != 0;
    f = file(argv[1], "c.tbl");
    failed |= gh_snapshot_table(to_file, f, &table) | fclose(f);
    f = file(argv[1], "counts.tbl");
    failed |= gh_snapshot_counts(to_file, f, &table, records, 60) | fclose(f);
    f = file(argv[1], "c.img");
    failed |= gh_snapshot_image(to_file, f, words, 21, hops, 5) | fclose(f);
    failed |= gh_snapshot_table(no_room, &calls, &table) != 7 || calls != 3;
    return failed;
}
