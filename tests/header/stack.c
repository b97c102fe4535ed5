/* How much stack each call takes, beside what the header says: it runs in a thread whose stack is painted before, and
 * the paint that is gone afterwards is counted. The table is the largest that there is, with every chunk in use. The
 * image that is tested and changed is the one whose test goes deepest: 16 children at each depth, and 16 under the last. */
#include <pthread.h>
#include <stdlib.h>
#include "check.h"

#define STACK ((size_t)1 << 20)
#define N GH_MOST_RECORDS
#define PAINT 0xA5

static uint8_t list[N * GH_RECORD_BYTES], input[N * GH_RECORD_BYTES];
static uint16_t first[GH_FIRST_CELLS(12)], second[N * GH_SECOND_CHUNK(12, 22)], third[N * GH_THIRD_CHUNK(22)];
static uint32_t own2[N], own3[N];
static uint16_t long1[GH_ELEMENTS(first)], long2[GH_ELEMENTS(second)];
static struct gh_table t = GH_TABLE(12, 22, list, first, second, third, own2, own3, long1, long2);
/* a box of two, in which the second party has all of it */
static uint8_t no_list[GH_RECORD_BYTES];
static uint16_t first_one[GH_ELEMENTS(first)], long_one[GH_ELEMENTS(first)];
static struct gh_pair b = {
    12, 22, { 0, 0 }, { 0, N }, { 0, N }, { no_list, list }, { sizeof no_list, sizeof list },
    { first_one, first }, { GH_ELEMENTS(first), GH_ELEMENTS(first) }, { long_one, long1 }, { GH_ELEMENTS(first), GH_ELEMENTS(first) },
    second, GH_ELEMENTS(second), third, GH_ELEMENTS(third), own2, N, own3, N, long2, GH_ELEMENTS(second),
};
static uint32_t words[GH_WORDS_FOR(N)], addrs[1000], out[1000], counts[GH_TALLY_WORDS], told[GH_REPAIR_WORDS];
static uint16_t hops[N];
#define STEPS (8 * 15 + 1)
static uint8_t steps[STEPS * GH_RECORD_BYTES];
static uint32_t step_words[3 * (1 + 8 * 16)];
static uint16_t step_hops[STEPS];
static uint8_t bits[GH_MAP_BYTES];
static uint16_t cells[GH_MAP_CELLS];
static struct gh_hop_record records[9];
#define MAPS input, sizeof input, bits, GH_MAP_BYTES, cells, GH_MAP_CELLS
static const uint32_t here = IP(100, 16, 0, 77);
/* From 192.0.2.1 to 100.16.0.77. */
static uint8_t packet[GH_HEADER_BYTES] = {
    0x45, 0, 0, 0x28, 0, 1, 0x40, 0, 0x40, 6, 0x14, 0x71, 192, 0, 2, 1, 100, 16, 0, 77,
};

static uint64_t nothing(void) { return 0; }
static uint64_t make(void) { return gh_table_make(&t); }
static uint64_t load(void) { return gh_table_load(&t, input, sizeof input); }
static uint64_t announce(void) { return gh_table_announce(&t, here, 32, 5, GH_BEHIND); }
static uint64_t withdraw(void) { return gh_table_withdraw(&t, here, 32); }
static const uint8_t here_field[] = { 32, 100, 16, 0, 77 };
static uint64_t update(void) { return gh_table_update(&t, here_field, sizeof here_field, here_field, sizeof here_field, 5); }
static uint64_t repair(void) { return gh_table_repair(&t, told); }
static uint64_t report(void) { return gh_table_report(&t); }
static uint64_t lookup(void) { return gh_table_lookup(&t, here); }
static uint64_t lookup_many(void) { return gh_table_lookup_many(&t, addrs, out, 1000); }
static uint64_t step(void) { return gh_table_step(&t, packet, sizeof packet); }
static uint64_t forward(void) { return gh_table_forward(&t, records, GH_ELEMENTS(records), here, 1500); }
static uint64_t count(void) { return gh_count((uint64_t)9 << 16, records, GH_ELEMENTS(records), 1500); }
static uint64_t pair_make(void) { return gh_box_make(&b); }
static uint64_t pair_load(void) { return gh_box_load(&b, GH_PARTY_TWO, input, sizeof input); }
static uint64_t pair_announce(void) { return gh_box_announce(&b, GH_PARTY_TWO, here, 32, 5, GH_BEHIND); }
static uint64_t pair_withdraw(void) { return gh_box_withdraw(&b, GH_PARTY_TWO, here, 32); }
static uint64_t pair_report(void) { return gh_box_report(&b, GH_PARTY_TWO); }
static uint64_t pair_lookup(void) { return gh_box_lookup(&b, GH_PARTY_TWO, here); }
static uint64_t pair_step(void) { return gh_box_step(&b, GH_PARTY_TWO, packet, sizeof packet); }
static uint64_t build(void) { return gh_build(input, sizeof input, words, GH_ELEMENTS(words), hops, N); }
static uint64_t tree_lookup(void) { return gh_tree_lookup(words, GH_ELEMENTS(words), hops, N, here); }
#define IMAGE step_words, GH_ELEMENTS(step_words), step_hops, STEPS
static uint64_t tree_test(void) { return gh_tree_test(IMAGE); }
static uint64_t tree_withdraw(void) { return gh_tree_withdraw(IMAGE, UINT32_MAX, 32); }
static uint64_t tree_announce(void) { return gh_tree_announce(IMAGE, UINT32_MAX, 32, 5); }
static uint64_t run(void) { return gh_run(input, sizeof input, IP(100, 0, 0, 0), 8); }
static uint64_t tally(void) { return gh_tally(input, sizeof input, counts, GH_TALLY_WORDS); }
static uint64_t route(void) { return gh_route(input, sizeof input, 7); }
static uint8_t field[GH_MOST_FIELD];
static uint64_t write_field(void) { return gh_write_field(input, sizeof input, field, sizeof field); }
static uint64_t longest(void) { return gh_longest(input, sizeof input, here); }
static uint64_t broadcast(void) { return gh_broadcast(GH_NEWER_RULE, input, sizeof input, here); }
static uint64_t basic_build(void) { return gh_basic_build(MAPS); }
static uint64_t basic_lookup(void) { return gh_basic_lookup(MAPS, here); }
static uint64_t basic_lookup_many(void) { return gh_basic_lookup_many(MAPS, addrs, 1000, out, 1000); }

struct call {
    const char *name;
    uint64_t (*call)(void);
    size_t most;
    uint64_t answer;
};

static void *in_thread(void *c)
{
    struct call *call = (struct call *)c;
    call->answer = call->call();
    return NULL;
}

static size_t taken(struct call *call)
{
    uint8_t *stack = (uint8_t *)aligned_alloc(4096, STACK);
    memset(stack, PAINT, STACK);
    pthread_attr_t how;
    pthread_t thread;
    pthread_attr_init(&how);
    if (pthread_attr_setstack(&how, stack, STACK) || pthread_create(&thread, &how, in_thread, call)
        || pthread_join(thread, NULL))
        CHECK(0, 1);
    size_t left = 0;
    while (left < STACK && stack[left] == PAINT)
        left++;
    free(stack);
    return STACK - left;
}

int main(void)
{
    struct call calls[] = {
        { "nothing", nothing, STACK, 0 },
        { "make", make, GH_STACK, 0 }, { "load", load, GH_STACK_TABLE, 0 },
        { "withdraw", withdraw, GH_STACK_TABLE, 0 }, { "announce", announce, GH_STACK_TABLE, 0 },
        { "update", update, GH_STACK_UPDATE, 0 },
        { "repair", repair, GH_STACK_REPAIR, 0 }, { "report", report, GH_STACK_TABLE, 0 }, { "lookup", lookup, GH_STACK, 0 },
        { "lookup_many", lookup_many, GH_STACK, 0 }, { "step", step, GH_STACK, 0 }, { "forward", forward, GH_STACK, 0 },
        { "count", count, GH_STACK, 0 }, { "build", build, GH_STACK, 0 },
        { "tree_lookup", tree_lookup, GH_STACK, 0 }, { "tree_test", tree_test, GH_STACK_IMAGE, 0 },
        { "tree_withdraw", tree_withdraw, GH_STACK_IMAGE, 0 }, { "tree_announce", tree_announce, GH_STACK_IMAGE, 0 },
        { "run", run, GH_STACK, 0 }, { "tally", tally, GH_STACK, 0 }, { "route", route, GH_STACK, 0 },
        { "longest", longest, GH_STACK, 0 },
        { "write_field", write_field, GH_STACK, 0 }, { "broadcast", broadcast, GH_STACK, 0 },
        { "basic_build", basic_build, GH_STACK, 0 }, { "basic_lookup", basic_lookup, GH_STACK, 0 },
        { "basic_lookup_many", basic_lookup_many, GH_STACK, 0 },
        { "pair_make", pair_make, GH_STACK, 0 }, { "pair_load", pair_load, GH_STACK_PAIR, 0 },
        { "pair_withdraw", pair_withdraw, GH_STACK_PAIR, 0 }, { "pair_announce", pair_announce, GH_STACK_PAIR, 0 },
        { "pair_report", pair_report, GH_STACK_PAIR, 0 }, { "pair_lookup", pair_lookup, GH_STACK, 0 },
        { "pair_step", pair_step, GH_STACK, 0 },
    };
    for (uint32_t k = 0; k < N; k++)
        put_record(input + GH_RECORD_BYTES * k, k << 20 | 77, 32, 9);
    for (uint32_t k = 0; k < 1000; k++)
        addrs[k] = k * 4294967u;
    for (size_t k = 0; k < GH_ELEMENTS(records); k++)
        records[k].up = GH_UP;
    /* At depth d the prefixes of ones and then 0 to 14, and the last of all; in ascending order. */
    uint8_t *at = steps;
    for (unsigned depth = 1; depth <= 8; depth++)
        for (uint32_t child = 0; child < (depth < 8 ? 15 : 16); child++, at += GH_RECORD_BYTES)
            put_record(at, ~(UINT32_MAX >> (4 * depth - 4)) | child << (32 - 4 * depth), 4 * depth, 9);
    CHECK(GH_NODES(gh_build(steps, sizeof steps, IMAGE)), 129);
    /* A process's first thread may take more than the others. */
    taken(&calls[0]);
    size_t thread = taken(&calls[0]);
    for (size_t k = 1; k < GH_ELEMENTS(calls); k++) {
        size_t bytes = taken(&calls[k]) - thread;
        printf("%s %zu%s", calls[k].name, bytes, k + 1 < GH_ELEMENTS(calls) ? ", " : " bytes of stack\n");
        CHECK(GH_NUMBER(calls[k].answer), 0);
        CHECK(bytes <= calls[k].most, 1);
    }
    return checked("stack");
}
