/* Steps headers that another program made. Standard input has a header and what that program makes of it, in hexadecimal,
 * on each line; a line that begins with # is passed over. All destinations are under one route. Writes each header as the
 * step leaves it, and ends with 1 if one is refused or differs. */
#include <stdio.h>
#include <string.h>
#include "ghatumri.h"

static const uint8_t route[GH_RECORD_BYTES] = { 0, 0, 0, 0, 0, 0, 0, 7 }; /* 0.0.0.0/0 to 7 */
static uint8_t list[sizeof route];
static uint16_t first[GH_FIRST_CELLS(12)], long1[GH_FIRST_CELLS(12)];

static int read_header(const char *text, uint8_t *header)
{
    for (unsigned k = 0; k < GH_HEADER_BYTES; k++) {
        unsigned byte;
        if (sscanf(text + 2 * k, "%2x", &byte) != 1)
            return 0;
        header[k] = (uint8_t)byte;
    }
    return 1;
}

int main(void)
{
    uint16_t *cells = (uint16_t *)gh_empty();
    uint32_t *owners = (uint32_t *)gh_empty();
    struct gh_table t = { 12, 22, 0, list, sizeof list, first, GH_ELEMENTS(first), cells, 0, cells, 0, owners, 0, owners, 0,
                          long1, GH_ELEMENTS(long1), cells, 0 };
    if (GH_NUMBER(gh_table_load(&t, route, sizeof route)) != GH_ACCEPTED)
        return 2;
    char line[256];
    unsigned headers = 0, faults = 0;
    while (fgets(line, sizeof line, stdin)) {
        uint8_t header[GH_HEADER_BYTES], expected[GH_HEADER_BYTES];
        if (line[0] == '#')
            continue;
        headers++;
        if (strlen(line) < 81 || !read_header(line, header) || !read_header(line + 41, expected)) {
            fprintf(stderr, "no two headers: %s", line);
            return 2;
        }
        uint64_t answer = gh_table_step(&t, header, sizeof header);
        if (GH_NUMBER(answer) != GH_ACCEPTED || GH_HOP(answer) != 7 || memcmp(header, expected, sizeof header) != 0) {
            faults++;
            fprintf(stderr, "answer %llx of %s", (unsigned long long)answer, line);
        }
        for (unsigned k = 0; k < GH_HEADER_BYTES; k++)
            printf("%02x", header[k]);
        printf("\n");
    }
    fprintf(stderr, "headers: %u stepped, %u faults\n", headers, faults);
    return headers == 0 || faults != 0;
}
