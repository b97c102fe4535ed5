/* The test and the changes of a tree image by their prototypes: what list A gives, word by word, refusals in their order,
 * and numbers that do not fit their fields. */
#include "check.h"

#define NODES 13
#define HOPS 6

static uint32_t words[3 * NODES + 2], words_was[GH_ELEMENTS(words)];
static uint16_t hops[HOPS], hops_was[HOPS];

/* List A's image with room for so many words and hops, which are all that the calls are lent. */
static size_t words_len, hops_len;
#define LENT words, words_len, hops, hops_len

static void list_a_in(size_t words_lent, size_t hops_lent)
{
    memset(words, 9, sizeof words);
    memset(hops, 9, sizeof hops);
    words_len = words_lent;
    hops_len = hops_lent;
    CHECK(gh_build(list_a, sizeof list_a, LENT), (uint64_t)7 << 32 | 5 << 16);
}

static void keep(void)
{
    memcpy(words_was, words, sizeof words);
    memcpy(hops_was, hops, sizeof hops);
}

static int as_it_was(void)
{
    return memcmp(words, words_was, sizeof words) == 0 && memcmp(hops, hops_was, sizeof hops) == 0;
}

/* A call that is refused with this number and no index, and leaves all. */
#define REFUSED(call, number) do { keep(); CHECK(call, number); CHECK(as_it_was(), 1); } while (0)

static void same_words(const uint32_t *should, size_t n)
{
    for (size_t k = 0; k < words_len; k++)
        CHECK(words[k], k < n ? should[k] : 0);
}

static void same_hops(const uint16_t *should, size_t n)
{
    for (size_t k = 0; k < hops_len; k++)
        CHECK(hops[k], k < n ? should[k] : 0);
}

static const uint32_t a_words[] = {
    0x00010001, 1, 0,  0x04000000, 2, 1,  0x00010001, 3, 1,  0x00020000, 4, 2,  0x00010001, 5, 2,  0x00040000, 6, 3,
    0x00000005, 7, 3,
};
static const uint16_t a_hops[] = { 6, 20, 31, 44, 57 };

static void tests(void)
{
    list_a_in(3 * 8, HOPS);
    uint64_t a = gh_tree_test(LENT);
    CHECK(GH_NUMBER(a), 0);
    CHECK(GH_NODES(a), 7);
    CHECK(GH_HOPS(a), 5);
    CHECK(a, (uint64_t)7 << 32 | 5 << 16);
    same_words(a_words, GH_ELEMENTS(a_words));
    same_hops(a_hops, GH_ELEMENTS(a_hops));
    /* As much as it uses is enough, and one word or one hop less is not. */
    CHECK(gh_tree_test(words, 21, hops, 5), a);
    CHECK(gh_tree_test(words, 20, hops, 5), GH_REFUSED_IMAGE);
    CHECK(gh_tree_test(words, 21, hops, 4), GH_REFUSED_IMAGE);
    CHECK(gh_tree_test(words, 2, hops, 5), GH_REFUSED_IMAGE);
    CHECK(gh_tree_test((const uint32_t *)gh_empty(), 0, (const uint16_t *)gh_empty(), 0), GH_REFUSED_IMAGE);
    /* An empty list's image is the bare root. */
    static const uint32_t bare[] = { 0, 1, 0 };
    CHECK(gh_tree_test(bare, 3, (const uint16_t *)gh_empty(), 0), (uint64_t)1 << 32);
}

/* Every kind of place at which an image may be broken; lookups still serve most of them. */
static void broken(void)
{
    static const struct { unsigned word; uint32_t value; } harms[] = {
        { 19, 8 }, { 20, 2 }, { 22, 1 }, { 21, 0x80000000u }, { 18, 0x8005 }, { 18, 7 }, { 18, 0 }, { 0, 0 }, { 4, 0 },
        { 1, 0 }, { 2, 1 },
    };
    for (unsigned k = 0; k < GH_ELEMENTS(harms); k++) {
        list_a_in(23, HOPS);
        words[harms[k].word] = harms[k].value;
        REFUSED(gh_tree_announce(LENT, 0, 0, 7), GH_REFUSED_IMAGE);
        REFUSED(gh_tree_withdraw(LENT, 0, 0), GH_REFUSED_IMAGE);
        CHECK(gh_tree_test(LENT), GH_REFUSED_IMAGE);
    }
    static const struct { unsigned hop; uint16_t value; } others[] = { { 2, 0 }, { 2, 32768 }, { 5, 1 } };
    for (unsigned k = 0; k < GH_ELEMENTS(others); k++) {
        list_a_in(23, HOPS);
        hops[others[k].hop] = others[k].value;
        REFUSED(gh_tree_announce(LENT, 0, 0, 7), GH_REFUSED_IMAGE);
        REFUSED(gh_tree_withdraw(LENT, 0, 0), GH_REFUSED_IMAGE);
        CHECK(gh_tree_test(LENT), GH_REFUSED_IMAGE);
    }
}

static void announces(void)
{
    /* A bit more in the last node. */
    list_a_in(21, HOPS);
    uint64_t a = gh_tree_announce(LENT, IP(10, 1, 2, 64), 26, 9);
    CHECK(a, (uint64_t)7 << 32 | 6 << 16);
    CHECK(words[18], 0x15);
    CHECK(hops[5], 9);
    /* One in the root: every later hop base is one more. */
    list_a_in(21, HOPS);
    CHECK(gh_tree_announce(LENT, 0, 1, 9), (uint64_t)7 << 32 | 6 << 16);
    CHECK(words[0], 0x00010003);
    for (unsigned n = 1; n < 7; n++)
        CHECK(words[3 * n + 2], a_words[3 * n + 2] + 1);
    static const uint16_t early[] = { 6, 9, 20, 31, 44, 57 };
    same_hops(early, HOPS);
    /* A node at each depth. */
    static const uint32_t branch[] = {
        0x10010001, 1, 0,   0x04000000, 3, 1,   0x00010000, 4, 1,   0x00010001, 5, 1,   0x00010000, 6, 2,
        0x00020000, 7, 2,   0x00010000, 8, 2,   0x00010001, 9, 2,   0x00010000, 10, 3,  0x00040000, 11, 3,
        0x00040000, 12, 3,  0x00000005, 13, 3,  0x00000001, 13, 5,
    };
    static const uint16_t branch_hops[] = { 6, 20, 31, 44, 57, 3 };
    list_a_in(3 * NODES + 2, HOPS);
    a = gh_tree_announce(LENT, IP(192, 0, 2, 0), 24, 3);
    CHECK(GH_NUMBER(a), 0);
    CHECK(GH_REPLACED(a), 0);
    CHECK(GH_NODES(a), 13);
    CHECK(GH_HOPS(a), 6);
    same_words(branch, GH_ELEMENTS(branch));
    same_hops(branch_hops, HOPS);
    a = gh_tree_lookup(LENT, IP(192, 0, 2, 77));
    CHECK(GH_HOP(a), 3);
    CHECK(GH_READS(a), 8);
    /* A hop replaced, and no word; also where neither a node nor a hop more has room. */
    a = gh_tree_announce(LENT, IP(192, 0, 2, 0), 24, GH_MOST_HOP);
    CHECK(a, (uint64_t)13 << 32 | 6 << 16 | 1 << 8);
    CHECK(GH_REPLACED(a), 1);
    same_words(branch, GH_ELEMENTS(branch));
    CHECK(hops[5], 32767);
    CHECK(gh_tree_withdraw(LENT, IP(192, 0, 2, 0), 24), (uint64_t)7 << 32 | 5 << 16);
    same_words(a_words, GH_ELEMENTS(a_words));
    same_hops(a_hops, GH_ELEMENTS(a_hops));
}

static void withdrawals(void)
{
    list_a_in(21, 5);
    uint64_t a = gh_tree_withdraw(LENT, IP(10, 1, 2, 128), 25);
    CHECK(GH_NUMBER(a), 0);
    CHECK(GH_NODES(a), 7);
    CHECK(GH_HOPS(a), 4);
    CHECK(words[18], 1);
    CHECK(hops[4], 0);
    REFUSED(gh_tree_withdraw(LENT, IP(10, 1, 2, 128), 25), GH_REFUSED_ABSENT);
    /* The nodes of its path that no other route needs go too. */
    CHECK(gh_tree_withdraw(LENT, IP(10, 1, 2, 0), 24), (uint64_t)5 << 32 | 3 << 16);
    CHECK(gh_tree_withdraw(LENT, 0, 0), (uint64_t)5 << 32 | 2 << 16);
    CHECK(words[0], 0x00010000);
    CHECK(gh_tree_withdraw(LENT, IP(10, 1, 0, 0), 16), (uint64_t)3 << 32 | 1 << 16);
    CHECK(gh_tree_withdraw(LENT, IP(10, 0, 0, 0), 8), (uint64_t)1 << 32);
    static const uint32_t bare[] = { 0, 1, 0 };
    same_words(bare, 3);
    same_hops(a_hops, 0);
}

/* 3, 4, 13, 9, 6, 11, 12: where two faults stand side by side the earlier one is told. */
static void refusals(void)
{
    static const uint32_t lens[] = { 33, 255, 256, 280, 65560, UINT32_MAX };
    static const uint32_t bad_hops[] = { 0, 32768, 65535, 65536, 65580, UINT32_MAX };
    for (int is_broken = 0; is_broken < 2; is_broken++) {
        list_a_in(21, 5);
        if (is_broken)
            words[19] = 8;
        for (unsigned k = 0; k < GH_ELEMENTS(lens); k++) {
            REFUSED(gh_tree_announce(LENT, IP(10, 1, 2, 0), lens[k], bad_hops[k]), GH_REFUSED_PREFIX);
            REFUSED(gh_tree_withdraw(LENT, IP(10, 1, 2, 0), lens[k]), GH_REFUSED_PREFIX);
            REFUSED(gh_tree_announce(LENT, IP(10, 1, 2, 0), 24, bad_hops[k]), GH_REFUSED_HOP);
        }
        /* Bits after the length are not cleared here. */
        REFUSED(gh_tree_announce(LENT, IP(10, 1, 2, 1), 24, 44), GH_REFUSED_PREFIX);
        REFUSED(gh_tree_withdraw(LENT, IP(10, 1, 2, 1), 24), GH_REFUSED_PREFIX);
        REFUSED(gh_tree_withdraw(LENT, IP(192, 0, 2, 0), 24), is_broken ? GH_REFUSED_IMAGE : GH_REFUSED_ABSENT);
        REFUSED(gh_tree_announce(LENT, IP(192, 0, 2, 0), 24, 3), is_broken ? GH_REFUSED_IMAGE : GH_REFUSED_NODES);
        REFUSED(gh_tree_announce(LENT, IP(10, 1, 2, 64), 26, 3), is_broken ? GH_REFUSED_IMAGE : GH_REFUSED_HOPS);
    }
    list_a_in(38, HOPS);
    REFUSED(gh_tree_announce(LENT, IP(192, 0, 2, 0), 24, 3), GH_REFUSED_NODES);
    list_a_in(39, 5);
    REFUSED(gh_tree_announce(LENT, IP(192, 0, 2, 0), 24, 3), GH_REFUSED_HOPS);
    CHECK(GH_REPLACED(gh_tree_announce(LENT, 0, 0, 7)), 1);
}

/* 6 before 11 and 12, where 4,096 routes stand; fields of more than 8 bits. */
static void the_most(void)
{
    enum { N = GH_MOST_RECORDS, USED = 1 + 16 + 256 + 6 * N };
    static uint8_t input[N * GH_RECORD_BYTES];
    static uint32_t many_words[3 * USED];
    static uint16_t many_hops[N];
    for (uint32_t k = 0; k < N; k++)
        put_record(input + GH_RECORD_BYTES * k, k << 20, 32, 9);
    const uint64_t full = (uint64_t)USED << 32 | (uint64_t)N << 16;
    CHECK(gh_build(input, sizeof input, many_words, 3 * USED, many_hops, N), full);
    CHECK(gh_tree_test(many_words, 3 * USED, many_hops, N), full);
    CHECK(gh_tree_announce(many_words, 3 * USED, many_hops, N, 1, 32, 5), GH_REFUSED_ROOM);
    CHECK(gh_tree_announce(many_words, 3 * USED, many_hops, N, (uint32_t)300 << 20, 32, 5), full | 1 << 8);
    CHECK(many_hops[300], 5);
    uint64_t a = gh_tree_withdraw(many_words, 3 * USED, many_hops, N, (uint32_t)300 << 20, 32);
    CHECK(GH_NODES(a), USED - 6);
    CHECK(GH_HOPS(a), 4095);
    a = gh_tree_announce(many_words, 3 * USED, many_hops, N, (uint32_t)300 << 20, 32, 9);
    CHECK(a, full);
    CHECK(gh_tree_test(many_words, 3 * USED, many_hops, N), full);
}

int main(void)
{
    tests();
    broken();
    announces();
    withdrawals();
    refusals();
    the_most();
    return checked("images");
}
