/* Snapshots: the state of a table or an image as a line of text and then its arrays, to be read by the command `ghatumri`.
 *
 * A snapshot is handed over piece by piece to a function of the caller, which writes or sends it; nothing is allocated. It is
 * in the byte order of the machine, which its line names. ghatumri(1) gives the form to the byte. Needs snprintf.
 *
 *   static int to_file(void *to, const void *bytes, size_t n) { return fwrite(bytes, 1, n, (FILE *)to) != n; }
 *   failed = gh_snapshot_table(to_file, file, &table);
 *
 * Each function returns 0, or the first answer of `write` that is not 0, and writes no more after it. Take a snapshot while
 * nobody changes what it is of. */
#ifndef GHATUMRI_SNAPSHOT_H
#define GHATUMRI_SNAPSHOT_H

#include "ghatumri.h"
#include <stdio.h>
#include <string.h>

typedef int gh_snapshot_write(void *to, const void *bytes, size_t n);

static inline const char *gh_snapshot_order(void)
{
    const uint16_t one = 1;
    unsigned char low;
    memcpy(&low, &one, 1);
    return low ? "little" : "big";
}

static inline int gh_snapshot_image(gh_snapshot_write *write, void *to, const uint32_t *words, size_t words_len,
                                    const uint16_t *hops, size_t hops_len)
{
    char line[96];
    int n = snprintf(line, sizeof line, "ghatumri image %s nodes %lu hops %lu\n", gh_snapshot_order(),
                     (unsigned long)(words_len / 3), (unsigned long)hops_len);
    int failed = write(to, line, (size_t)n);
    if (!failed) failed = write(to, words, words_len / 3 * 12);
    return failed ? failed : write(to, hops, hops_len * 2);
}

/* A record of a hop in 12 bytes, with no gap that has no value. */
static inline int gh_snapshot_record(gh_snapshot_write *write, void *to, const struct gh_hop_record *r)
{
    unsigned char bytes[12] = { 0 };
    memcpy(bytes, &r->port, 2);
    bytes[2] = r->up;
    memcpy(bytes + 4, &r->packets, 4);
    memcpy(bytes + 8, &r->octets, 4);
    return write(to, bytes, sizeof bytes);
}

/* A table with its hop records. */
static inline int gh_snapshot_counts(gh_snapshot_write *write, void *to, const struct gh_table *t,
                                     const struct gh_hop_record *records, size_t records_len)
{
    char line[192], more[32] = "";
    size_t k;
    int n, failed;
    if (records) snprintf(more, sizeof more, " records %lu", (unsigned long)records_len);
    n = snprintf(line, sizeof line, "ghatumri table %s p1 %lu p2 %lu count %lu room %lu second %lu third %lu%s\n",
                 gh_snapshot_order(), (unsigned long)t->p1, (unsigned long)t->p2, (unsigned long)t->count,
                 (unsigned long)(t->list_len / 8), (unsigned long)t->own2_len, (unsigned long)t->own3_len, more);
    failed = write(to, line, (size_t)n);
    if (!failed) failed = write(to, t->list, t->list_len);
    if (!failed) failed = write(to, t->first, t->first_len * 2);
    if (!failed) failed = write(to, t->second, t->second_len * 2);
    if (!failed) failed = write(to, t->third, t->third_len * 2);
    if (!failed) failed = write(to, t->own2, t->own2_len * 4);
    if (!failed) failed = write(to, t->own3, t->own3_len * 4);
    if (!failed) failed = write(to, t->long1, t->long1_len * 2);
    if (!failed) failed = write(to, t->long2, t->long2_len * 2);
    for (k = 0; !failed && records && k < records_len; k++) failed = gh_snapshot_record(write, to, &records[k]);
    return failed;
}

static inline int gh_snapshot_table(gh_snapshot_write *write, void *to, const struct gh_table *t)
{
    return gh_snapshot_counts(write, to, t, NULL, 0);
}

#endif
