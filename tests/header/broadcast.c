/* gh_broadcast by its prototype: the link of two hosts of RFC 3021, and the cases that document 02's words decide. */
#include "check.h"

static uint8_t two[2 * GH_RECORD_BYTES];

/* One route, then another after it. */
static void put(unsigned k, uint32_t addr, unsigned len, unsigned mark)
{
    put_record(two + GH_RECORD_BYTES * k, addr, len, 1 + k);
    two[GH_RECORD_BYTES * k + 5] = (uint8_t)mark;
}

/* What both rules say of an address, in an input of so many records. */
static void both(size_t records, uint32_t addr, unsigned older, unsigned newer)
{
    uint64_t a = gh_broadcast(GH_OLDER_RULE, two, records * GH_RECORD_BYTES, addr);
    uint64_t b = gh_broadcast(GH_NEWER_RULE, two, records * GH_RECORD_BYTES, addr);
    CHECK(a, older ? 256 : 0);
    CHECK(b, newer ? 256 : 0);
    CHECK(GH_BROADCAST(a), older);
    CHECK(GH_BROADCAST(b), newer);
}

static void rules(void)
{
    put(0, IP(192, 0, 2, 0), 31, GH_ATTACHED);
    both(1, IP(192, 0, 2, 1), 1, 0);
    both(1, IP(192, 0, 2, 0), 0, 0);
    put(0, IP(192, 0, 2, 4), 30, GH_ATTACHED);
    both(1, IP(192, 0, 2, 7), 1, 1);
    both(1, IP(192, 0, 2, 6), 0, 0);
    put(0, 0, 0, GH_ATTACHED);
    both(1, UINT32_MAX, 1, 1);
    both(1, IP(10, 255, 255, 255), 0, 0);
    both(0, UINT32_MAX, 0, 0);
}

/* The longest route decides, attached or not; one of 32 bits has no broadcast. */
static void longest(void)
{
    put(0, IP(10, 0, 0, 0), 24, GH_ATTACHED);
    both(1, IP(10, 0, 0, 255), 1, 1);
    put(1, IP(10, 0, 0, 255), 32, GH_BEHIND);
    both(2, IP(10, 0, 0, 255), 0, 0);
    put(1, IP(10, 0, 0, 255), 32, GH_ATTACHED);
    both(2, IP(10, 0, 0, 255), 0, 0);
    put(1, IP(10, 0, 0, 128), 25, GH_BEHIND);
    both(2, IP(10, 0, 0, 255), 0, 0);
    both(2, IP(10, 0, 0, 127), 0, 0);
    put(0, IP(10, 0, 0, 0), 24, GH_BEHIND);
    put(1, IP(10, 0, 0, 128), 25, GH_ATTACHED);
    both(1, IP(10, 0, 0, 255), 0, 0);
    both(2, IP(10, 0, 0, 255), 1, 1);
}

/* 23 first, whatever the input; then the input's, with its index. */
static void refusals(void)
{
    static const uint32_t versions[] = { 0, 3, 257, 65537, UINT32_MAX };
    for (unsigned k = 0; k < GH_ELEMENTS(versions); k++) {
        CHECK(gh_broadcast(versions[k], two, sizeof two, 0), GH_REFUSED_VERSION);
        CHECK(gh_broadcast(versions[k], two, 9, 0), GH_REFUSED_VERSION);
    }
    two[5] = 2;
    uint64_t a = gh_broadcast(GH_OLDER_RULE, two, sizeof two, 0);
    CHECK(GH_NUMBER(a), GH_REFUSED_INPUT);
    CHECK(GH_HAS_INDEX(a), 1);
    CHECK(GH_INDEX(a), 0);
    a = gh_broadcast(GH_NEWER_RULE, two, 9, 0);
    CHECK(GH_NUMBER(a), GH_REFUSED_INPUT);
    CHECK(GH_INDEX(a), 1);
}

int main(void)
{
    rules();
    longest();
    refusals();
    return checked("broadcast");
}
