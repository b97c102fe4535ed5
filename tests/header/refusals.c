/* Each call that can be refused, with each of its numbers, in document 01's order: where two faults stand side by side
 * the earlier one is told. A refused call leaves the table and the arrays as they were. Prints the meanings. */
#include "check.h"

#define P1 GH_SMALL_P1
#define P2 GH_SMALL_P2
#define LONG 70000

struct arrays {
    uint8_t list[4 * GH_RECORD_BYTES];
    uint16_t first[GH_FIRST_CELLS(P1)];
    uint16_t second[1 * GH_SECOND_CHUNK(P1, P2)];
    uint16_t third[2 * GH_THIRD_CHUNK(P2)];
    uint32_t own2[1], own3[2];
    uint16_t long1[GH_FIRST_CELLS(P1)];
    uint16_t long2[1 * GH_SECOND_CHUNK(P1, P2)];
};

static struct arrays lent, lent_was;
static struct gh_table t = GH_TABLE(P1, P2, lent.list, lent.first, lent.second, lent.third, lent.own2, lent.own3,
                                    lent.long1, lent.long2);
static struct gh_table t_was;

static uint8_t rows[LONG * GH_RECORD_BYTES + 3];

static void keep(void)
{
    memcpy(&t_was, &t, sizeof t);
    memcpy(&lent_was, &lent, sizeof lent);
}

static int as_it_was(void)
{
    return memcmp(&t, &t_was, sizeof t) == 0 && memcmp(&lent, &lent_was, sizeof lent) == 0;
}

/* A call that is refused with this number and no index, and leaves all. */
#define REFUSED(call, number) do { keep(); CHECK(call, number); CHECK(as_it_was(), 1); } while (0)
/* The same with an index. */
#define REFUSED_AT(call, number, index) do { \
        keep(); \
        uint64_t answer = (call); \
        CHECK(GH_NUMBER(answer), number); \
        CHECK(GH_HAS_INDEX(answer), 1); \
        CHECK(GH_INDEX(answer), index); \
        CHECK(as_it_was(), 1); \
    } while (0)

/* 1 and 2, for every call that takes a table. */
static void geometry_and_sizes(void)
{
    static const uint32_t off[][2] = { { 11, 22 }, { 17, 26 }, { 12, 21 }, { 12, 23 }, { 16, 27 }, { 0, 0 } };
    uint32_t addrs[2] = { 0, 1 }, out[3] = { 7, 8, 9 };
    for (unsigned k = 0; k < GH_ELEMENTS(off); k++) {
        t.p1 = off[k][0];
        t.p2 = off[k][1];
        t.list_len = 31;
        REFUSED(gh_table_make(&t), GH_REFUSED_GEOMETRY);
        REFUSED(gh_table_load(&t, list_a, 39), GH_REFUSED_GEOMETRY);
        REFUSED(gh_table_announce(&t, 1, 33, 0, GH_BEHIND), GH_REFUSED_GEOMETRY);
        REFUSED(gh_table_withdraw(&t, 1, 33), GH_REFUSED_GEOMETRY);
        REFUSED(gh_table_report(&t), GH_REFUSED_GEOMETRY);
        REFUSED(gh_table_lookup(&t, 1), GH_REFUSED_GEOMETRY);
        REFUSED(gh_table_lookup_many(&t, addrs, out, 2), GH_REFUSED_GEOMETRY);
    }
    t.p1 = P1;
    t.p2 = P2;
    REFUSED(gh_table_make(&t), GH_REFUSED_SIZE);
    REFUSED(gh_table_load(&t, list_a, 39), GH_REFUSED_SIZE);
    REFUSED(gh_table_announce(&t, 1, 33, 0, GH_BEHIND), GH_REFUSED_SIZE);
    REFUSED(gh_table_withdraw(&t, 1, 33), GH_REFUSED_SIZE);
    REFUSED(gh_table_report(&t), GH_REFUSED_SIZE);
    REFUSED(gh_table_lookup(&t, 1), GH_REFUSED_SIZE);
    REFUSED(gh_table_lookup_many(&t, addrs, out, 2), GH_REFUSED_SIZE);
    t.list_len = sizeof lent.list;
    REFUSED(gh_lookup_many(t.p1, t.p2, t.count, GH_LENT(&t), addrs, 2, out, 3), GH_REFUSED_SIZE);
    CHECK(out[0] == 7 && out[1] == 8 && out[2] == 9, 1);
    t.first_len--;
    REFUSED(gh_table_make(&t), GH_REFUSED_SIZE);
    t.first_len++;
    t.own2_len--;
    REFUSED(gh_table_make(&t), GH_REFUSED_SIZE);
    t.own2_len++;
    t.third_len--;
    REFUSED(gh_table_make(&t), GH_REFUSED_SIZE);
    t.third_len++;
    /* One count too few, in every call. */
    t.long1_len--;
    REFUSED(gh_table_make(&t), GH_REFUSED_SIZE);
    REFUSED(gh_table_load(&t, list_a, 39), GH_REFUSED_SIZE);
    REFUSED(gh_table_announce(&t, 1, 33, 0, GH_BEHIND), GH_REFUSED_SIZE);
    REFUSED(gh_table_withdraw(&t, 1, 33), GH_REFUSED_SIZE);
    REFUSED(gh_table_report(&t), GH_REFUSED_SIZE);
    REFUSED(gh_table_lookup(&t, 1), GH_REFUSED_SIZE);
    REFUSED(gh_table_lookup_many(&t, addrs, out, 2), GH_REFUSED_SIZE);
    t.long1_len++;
    t.long2_len--;
    REFUSED(gh_table_make(&t), GH_REFUSED_SIZE);
    t.long2_len++;
}

/* 3 to 9, and 10 for the mark, with a number that does not fit its field beside those just over their limits. */
static void changes(void)
{
    static const uint32_t lens[] = { 33, 255, 256, 280, 65560, UINT32_MAX };
    static const uint32_t hops[] = { 0, 32768, 65535, 65536, 65580, UINT32_MAX };
    static const uint32_t marks[] = { 2, 255, 256, 257, 65537, UINT32_MAX };
    CHECK(gh_table_make(&t), 0);
    for (unsigned k = 0; k < GH_ELEMENTS(lens); k++) {
        REFUSED(gh_table_announce(&t, IP(10, 1, 2, 0), lens[k], 0, GH_BEHIND), GH_REFUSED_PREFIX);
        REFUSED(gh_table_withdraw(&t, IP(10, 1, 2, 0), lens[k]), GH_REFUSED_PREFIX);
        REFUSED(gh_run(list_a, sizeof list_a, IP(10, 1, 0, 0), lens[k]), GH_REFUSED_PREFIX);
        REFUSED(gh_table_announce(&t, IP(10, 1, 2, 0), 24, hops[k], marks[k]), GH_REFUSED_HOP);
        REFUSED(gh_table_announce(&t, IP(10, 1, 2, 0), 24, 32767, marks[k]), GH_REFUSED_INPUT);
    }
    /* A bit after the length is no fault of a change, and what comes after 3 is told. It is one of the run. */
    REFUSED(gh_table_announce(&t, IP(10, 1, 2, 1), 24, 0, GH_BEHIND), GH_REFUSED_HOP);
    REFUSED(gh_table_withdraw(&t, IP(10, 1, 2, 1), 24), GH_REFUSED_ABSENT);
    REFUSED(gh_run(list_a, sizeof list_a, IP(10, 1, 0, 0), 15), GH_REFUSED_PREFIX);
    CHECK(GH_COUNT(gh_table_announce(&t, IP(10, 1, 2, 0), 24, 32767, GH_BEHIND)), 1);
    lent.first[0] = 0x8001;
    REFUSED(gh_table_announce(&t, IP(10, 1, 2, 0), 24, 65580, GH_BEHIND), GH_REFUSED_HOP);
    REFUSED(gh_table_announce(&t, IP(10, 1, 2, 0), 24, 44, 2), GH_REFUSED_INPUT);
    REFUSED(gh_table_announce(&t, IP(10, 1, 2, 0), 24, 44, GH_ATTACHED), GH_REFUSED_UNSOUND);
    REFUSED(gh_table_withdraw(&t, IP(10, 1, 2, 0), 24), GH_REFUSED_UNSOUND);
    REFUSED(gh_table_report(&t), GH_REFUSED_UNSOUND);
    lent.first[0] = 0x8000;
    REFUSED(gh_table_announce(&t, IP(11, 1, 2, 0), 24, 1, GH_BEHIND), GH_REFUSED_SECOND);
    CHECK(GH_COUNT(gh_table_announce(&t, IP(10, 1, 8, 0), 24, 2, GH_BEHIND)), 2);
    CHECK(GH_COUNT(gh_table_announce(&t, 0, 0, 3, GH_BEHIND)), 3);
    REFUSED(gh_table_announce(&t, IP(10, 1, 16, 0), 24, 4, GH_BEHIND), GH_REFUSED_THIRD);
    CHECK(GH_COUNT(gh_table_announce(&t, IP(10, 0, 0, 0), 8, 4, GH_BEHIND)), 4);
    REFUSED(gh_table_announce(&t, IP(11, 1, 2, 0), 24, 1, GH_BEHIND), GH_REFUSED_ROOM);
    CHECK(GH_REPLACED(gh_table_announce(&t, IP(10, 0, 0, 0), 8, 5, GH_BEHIND)), 1);
    REFUSED(gh_table_withdraw(&t, IP(10, 1, 16, 0), 24), GH_REFUSED_ABSENT);
    REFUSED(gh_table_load(&t, list_a, sizeof list_a), GH_REFUSED_ROOM);
}

/* 5 of a lookup: a chunk number beyond its pool or 0, and a third cell that is no leaf. */
static void walks(void)
{
    uint32_t addrs[2] = { IP(10, 1, 2, 3), IP(11, 0, 0, 0) }, out[2];
    static const uint16_t off[] = { 0, 2, 0x7fff };
    for (unsigned k = 0; k < GH_ELEMENTS(off); k++) {
        uint16_t right = lent.first[0x0A0];
        lent.first[0x0A0] = off[k];
        REFUSED(gh_table_lookup(&t, IP(10, 1, 2, 3)), GH_REFUSED_UNSOUND);
        CHECK(gh_table_lookup_many(&t, addrs, out, 2), 0);
        CHECK(GH_NUMBER(out[0]), GH_REFUSED_UNSOUND);
        CHECK(GH_HOP(out[1]), 3);
        lent.first[0x0A0] = right;
    }
    lent.third[0x203] = 0x7fff;
    REFUSED(gh_table_lookup(&t, IP(10, 1, 2, 3)), GH_REFUSED_UNSOUND);
    CHECK(gh_table_make(&t), 0);
}

/* What a record input is refused for, by one of the calls that take one. */
static uint64_t with_input(int call, const uint8_t *input, size_t len)
{
    static uint32_t words[GH_WORDS_FOR(5)], counts[GH_TALLY_WORDS];
    static uint16_t hops[5];
    uint64_t answer;
    switch (call) {
    case 0:
        return gh_table_load(&t, input, len);
    case 1:
        words[0] = hops[0] = 77;
        answer = gh_build(input, len, words, GH_ELEMENTS(words), hops, GH_ELEMENTS(hops));
        CHECK(words[0] == 77 && hops[0] == 77, 1);
        return answer;
    case 2:
        return gh_run(input, len, 1, 33);
    case 3:
        counts[0] = counts[32] = 77;
        answer = gh_tally(input, len, counts, GH_TALLY_WORDS);
        CHECK(counts[0] == 0 && counts[32] == 0, 1);
        return answer;
    case 4:
        return gh_route(input, len, 0);
    case 5:
        return gh_longest(input, len, 0);
    default:
        return gh_broadcast(GH_OLDER_RULE, input, len, 0);
    }
}

static void record_inputs(void)
{
    for (int call = 0; call < 7; call++) {
        uint8_t bad[sizeof list_a];
        REFUSED_AT(with_input(call, list_a, 39), GH_REFUSED_INPUT, 4);
        memcpy(bad, list_a, sizeof bad);
        bad[2 * 8 + 4] = 15;
        bad[2 * 8 + 6] = 0x80;
        REFUSED_AT(with_input(call, bad, sizeof bad), GH_REFUSED_PREFIX, 2);
        bad[2 * 8 + 4] = 16;
        bad[2 * 8 + 5] = 2;
        REFUSED_AT(with_input(call, bad, sizeof bad), GH_REFUSED_HOP, 2);
        bad[2 * 8 + 6] = 0;
        REFUSED_AT(with_input(call, bad, sizeof bad), GH_REFUSED_INPUT, 2);
        memcpy(bad, list_a, sizeof bad);
        memcpy(bad + 3 * 8, list_a + 2 * 8, 8);
        REFUSED_AT(with_input(call, bad, sizeof bad), GH_REFUSED_INPUT, 3);

        /* An index of more than 16 bits, by the length and by a record. */
        put_rows(rows, LONG);
        REFUSED_AT(with_input(call, rows, LONG * 8 + 3), GH_REFUSED_INPUT, 70000);
        put_record(rows + 8 * 66000, IP(10, 0, 0, 0) + (66000 << 8), 24, 0);
        REFUSED_AT(with_input(call, rows, LONG * 8), GH_REFUSED_HOP, 66000);
        put_record(rows + 8 * 66000, IP(10, 0, 0, 0) + (66000 << 8), 24, 1);
        REFUSED(with_input(call, rows, LONG * 8), GH_REFUSED_ROOM);
        REFUSED(with_input(call, rows, (GH_MOST_RECORDS + 1) * 8), GH_REFUSED_ROOM);
    }
    uint32_t counts[34];
    counts[0] = 77;
    CHECK(gh_tally(list_a, 39, counts, 32), GH_REFUSED_SIZE);
    CHECK(gh_tally(list_a, 39, counts, 34), GH_REFUSED_SIZE);
    CHECK(counts[0], 77);
    /* Three routes want two second chunks and three third ones. */
    put_record(rows, IP(10, 1, 0, 0), 23, 1);
    put_record(rows + 8, IP(10, 1, 8, 0), 23, 1);
    put_record(rows + 16, IP(10, 1, 16, 0), 23, 1);
    REFUSED(gh_table_load(&t, rows, 24), GH_REFUSED_THIRD);
    put_record(rows + 16, IP(11, 1, 16, 0), 23, 1);
    REFUSED(gh_table_load(&t, rows, 24), GH_REFUSED_SECOND);
}

/* 11, 12 and 13. */
static void images(void)
{
    uint32_t words[21];
    uint16_t hops[5];
    CHECK(gh_build(list_a, sizeof list_a, words, 20, hops, 4), GH_REFUSED_NODES);
    CHECK(gh_build(list_a, sizeof list_a, words, 21, hops, 4), GH_REFUSED_HOPS);
    CHECK(GH_NODES(gh_build(list_a, sizeof list_a, words, 21, hops, 5)), 7);
    CHECK(gh_tree_lookup(words, 2, hops, 5, IP(10, 1, 2, 200)), GH_REFUSED_IMAGE);
    CHECK(gh_tree_lookup(words, 20, hops, 5, IP(10, 1, 2, 200)), GH_REFUSED_IMAGE);
    CHECK(gh_tree_lookup(words, 21, hops, 4, IP(10, 1, 2, 200)), GH_REFUSED_IMAGE);
    hops[4] = 32768;
    CHECK(gh_tree_lookup(words, 21, hops, 5, IP(10, 1, 2, 200)), GH_REFUSED_IMAGE);
    hops[4] = 0;
    CHECK(gh_tree_lookup(words, 21, hops, 5, IP(10, 1, 2, 200)), GH_REFUSED_IMAGE);
    CHECK(GH_HOP(gh_tree_lookup(words, 21, hops, 5, IP(10, 1, 3, 1))), 31);
    words[0] |= 0x8000;
    CHECK(gh_tree_lookup(words, 21, hops, 5, IP(192, 0, 2, 1)), GH_REFUSED_IMAGE);
}

static void meanings(void)
{
    enum gh_refusal accepted = GH_ACCEPTED;
    CHECK(accepted, 0);
    CHECK(strcmp(gh_meaning(accepted), "accepted"), 0);
    const char *none = gh_meaning(UINT32_MAX);
    for (unsigned number = GH_REFUSED_GEOMETRY; number <= GH_REFUSED_LIMITS; number++)
        if (strcmp(gh_meaning(number), none) != 0)
            printf("| %u | %s |\n", number, gh_meaning(number));
    CHECK(strcmp(gh_meaning(GH_REFUSED_DOWN + 1), none), 0);
    CHECK(strcmp(gh_meaning(GH_REFUSED_LIMITS + 1), none), 0);
}

int main(void)
{
    geometry_and_sizes();
    changes();
    walks();
    record_inputs();
    images();
    meanings();
    return checked("refusals");
}
