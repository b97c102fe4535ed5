/* SPDX-License-Identifier: Apache-2.0 OR MIT */
/* ghatumri.h: the C boundary of Ghatumri, proved IPv4 lookup. For C from C99 on and C++ from C++11 on.
 *
 * Link with libghatumri (pkg-config --cflags --libs ghatumri). No call keeps a pointer, allocates, or holds state: a
 * table is its geometry (p1, p2), its route count and eight arrays, and all of them belong to the caller. Every call
 * answers for every content of the arrays. A call that is refused leaves all of them as they were, but for two: gh_tally
 * then writes 33 zeros, and gh_update that stops for want of room (6, 7, 8) leaves the table as after the entries it
 * had dealt with.
 *
 * Start with struct gh_table and the functions over it, at the end of this file: they keep the route count. Two parties
 * that share the pools of one box have struct gh_pair, which keeps both counts.
 *
 * ARRAYS. An array is a pointer and then its length, counted in elements. A pointer is never null and is aligned
 * for its type, also where the length is 0 (gh_empty() is such a pointer). An array that a call writes overlaps no
 * other array of that call: gh_lookup_many cannot answer in place. Pointers to arrays that are written, and to those
 * beside them, are `restrict`, so that a compiler can warn.
 *
 *   input   record input: records of 8 bytes end to end, strictly ascending by address and then length. A record is
 *           address (4 bytes, most significant first), length (1), mark (1), hop (2, most significant first). The
 *           mark is GH_ATTACHED for a network on a port of ours, and GH_BEHIND for one behind a neighbour
 *   list    8 bytes for each record of room, 0 to 4,096 records
 *   first   2^p1 cells
 *   second  a pool of 0 to 4,096 chunks of 2^(p2 - p1) cells
 *   third   a pool of 0 to 4,096 chunks of 2^(32 - p2) cells
 *   own2    an owner for each chunk of the second pool
 *   own3    an owner for each chunk of the third pool
 *   long1   a count for each first cell: the routes longer than p1 that have its bits
 *   long2   a count for each cell of the second pool: the routes longer than p2 that have its bits, 0 in free chunks
 *   packet  an IPv4 packet as it came, from its first byte on: GH_HEADER_BYTES of it or more
 *   records hop records, any number of them: hop h has records[h - 1]
 *   list1, first1, long11   of a box of two: the first party's own list, first cells and counts for them
 *   list2, first2, long12   and the second party's. second, third, own2, own3 and long2 are shared; an owner's top bit is 1
 *                           for a chunk of the second party, and owner 0 is nobody's
 *   words   3 words for each node of a tree image
 *   hops    the hops of a tree image
 *   bits    the bits of bit maps, GH_MAP_BYTES
 *   cells   the hops of bit maps, GH_MAP_CELLS
 *   withdrawn, reach   what the withdrawn and the reachability field of a BGP message hold (RFC 4271), without their
 *           length: prefixes end to end, each a length byte and then only as many bytes as the length needs. Bits after
 *           the length have no meaning. An empty field has no prefixes
 *
 * NUMBERS. Every number goes in with 32 bits, whatever its limits, and none is cut: length 280 is refused with 3 as 33
 * is, hop 65,580 with 4 as 32,768 is, mark 257 with 10 as 2 is.
 *
 * ADDRESSES are numbers in the order of the processor: 10.1.2.0 is 0x0A010200. What inet_addr answers, what stands in
 * struct in_addr and in a packet is in the order of the network: ntohl makes such a number of it. In a record the four
 * bytes stand as in a packet, and gh_step reads them out of one.
 *
 * GEOMETRY. p1 is 12 to 16, p2 is 22 to 26, p2 - p1 at most 10. Standard is (16, 24), small is (12, 22).
 *
 * ANSWERS. Bits 0 to 7 are the refusal's number, 0 when the call is accepted.
 *
 *   refused          bit 8: an index is carried; bits 32 to 63: the index
 *   gh_make          bits 16 to 31: routes after the call, so 0
 *   gh_load          bits 16 to 31: routes after the call
 *   gh_announce      bit 8: the prefix stood and its hop and mark were replaced; bit 9: bits after the length were
 *                    cleared; bits 16 to 31: routes after the call
 *   gh_withdraw      bit 9: bits after the length were cleared; bits 16 to 31: routes after the call
 *   gh_repair        bits 16 to 31: routes after the call; the words of out: records dropped, and how many first, second
 *                    and third cells differ from before
 *   gh_report        bits 16 to 31: routes; 32 to 47: need for second chunks; 48 to 63: need for third chunks
 *   gh_lookup        bits 8 to 15: cells read; 16 to 31: hop, 0 for no route
 *   gh_lookup_many   0; each word of out: the low 32 bits of what gh_lookup answers
 *   gh_step, gh_pair_step  as gh_lookup
 *   gh_forward       as gh_lookup; with a hop, bits 32 to 47: its port
 *   gh_count         the same, of what found has
 *   gh_pair_make, gh_pair_load, gh_pair_announce, gh_pair_withdraw, gh_pair_report, gh_pair_lookup
 *                    as the call of one party; routes and needs are the calling party's
 *   gh_build         bits 16 to 31: hops; 32 to 63: nodes
 *   gh_tree_lookup   bits 8 to 15: nodes read, and one more where a hop is answered; 16 to 31: hop, 0 for no route
 *   gh_tree_test     bits 16 to 31: hops; 32 to 63: nodes
 *   gh_tree_announce bit 8: the prefix stood and its hop was replaced; bits 16 to 31: hops after the call;
 *                    32 to 63: nodes after the call
 *   gh_tree_withdraw bits 16 to 31: hops after the call; 32 to 63: nodes after the call
 *   gh_run           bits 16 to 31: first record of the run; 32 to 47: records in it
 *   gh_tally         0
 *   gh_route         bits 8 to 14: length; 15: mark; 16 to 31: hop; 32 to 63: address; no record of that index: all 0
 *   gh_longest       as gh_route; no route covers the address: all 0
 *   gh_broadcast     bit 8: the address is a directed broadcast
 *   gh_update        bits 16 to 31: routes after the call; 32 to 63: entries. 6, 7, 8: the number, bit 8, and both as well,
 *                    the entries being those dealt with before. Entries are exact for fields of less than 4 GiB together
 *   gh_write_field   bits 32 to 63: bytes written
 *   gh_basic_build   0
 *   gh_basic_lookup  bits 16 to 31: hop, 0 for no route
 *   gh_basic_lookup_many   0; each word of out: the low 32 bits of what gh_basic_lookup answers
 *
 * Bits that are not named are 0. So the count of a refusal reads as 0 (but for 6, 7 and 8 of gh_update), and the count of a
 * lookup reads as its hop.
 *
 * REFUSALS. The first that holds, in the order given with each call, is the answer. What each number means: gh_meaning.
 * "The input's" are 10 for the length (index: the number of whole records), then record by record 3, 4, 10 for the mark,
 * 10 for order (index: the record's, from 0), and after all records 6 (no index). No other refusal carries an index.
 *
 * THREADS. No call has memory of its own, so calls over different arrays may run at the same time, in threads and in
 * interrupts. Over the same arrays calls that only read them may run at the same time: every lookup, the report,
 * the test of an image, the run, the tally, a route read back, a broadcast, and a header step, which writes its packet
 * alone. So may gh_forward and gh_count, each with hop records of its own, as a thread has: they write these alone. A call
 * that writes an array (make, load,
 * announce, withdraw, update, repair, build) runs alone: no other call may use that array meanwhile, lookups neither. To change a
 * table beside readers, keep two sets of arrays: change the set that no reader uses, hand it to the readers (an atomic
 * pointer to the struct), wait until no reader has the old one, and copy arrays and count over or make the same change
 * there. There is no pointer in the arrays, so a copy of them with geometry and count is the same table. It is so with
 * images too: a change in place moves nodes, and a reader beside it would meet halves.
 *
 * STACK. gh_load, gh_announce, gh_withdraw and gh_report take at most GH_STACK_TABLE bytes of stack, gh_update
 * GH_STACK_UPDATE, the same calls on a box of two GH_STACK_PAIR, gh_repair GH_STACK_REPAIR, the test and the changes of an
 * image GH_STACK_IMAGE, the others GH_STACK. On x86-64 and on Arm it is 44 KB for announce, withdraw and the report, 42 KB
 * for load, 8.5 KB for an image; on Arm 152 KB for repair. On x86-64 it is 78 KB for announce, withdraw and the report on a
 * box of two, 150 KB for its load, and under 600 bytes for each of the others. Only the test of an image is recursive: the
 * test of a node calls that of its children, and back, at most 17 calls for each of 8 depths.
 *
 * WHAT THE LIBRARY NEEDS: memcpy and memset, and nothing else of a C library.
 */
#ifndef GHATUMRI_H
#define GHATUMRI_H

#include <stddef.h>
#include <stdint.h>

/* ---- Platform and compiler ------------------------------------------------------------------------------------- */

#if SIZE_MAX != UINT64_MAX
#error "ghatumri.h: the library is for platforms of 64 bits: pointers and size_t have 8 bytes"
#endif

/* An array that overlaps no other array of the call. */
#if !defined(__cplusplus)
#define GH_RESTRICT restrict
#elif defined(__GNUC__) || defined(__clang__) || defined(_MSC_VER)
#define GH_RESTRICT __restrict
#else
#define GH_RESTRICT
#endif

/* A call: its answer must be looked at, since it may be a refusal, and no pointer that it takes is null. */
#if defined(__GNUC__) || defined(__clang__)
#define GH_CALL __attribute__((warn_unused_result, nonnull))
#elif defined(__cplusplus) && __cplusplus >= 201703L
#define GH_CALL [[nodiscard]]
#else
#define GH_CALL
#endif

#ifdef __cplusplus
extern "C" {
#endif

/* ---- Version --------------------------------------------------------------------------------------------------- */

#define GH_VERSION         20100      /* 10,000 for each major, 100 for each minor version */
#define GH_VERSION_TEXT    "2.1.0"

/* ---- Limits and sizes ------------------------------------------------------------------------------------------ */

#define GH_MOST_RECORDS    4096       /* of a record input, and of room in a list */
#define GH_MOST_CHUNKS     4096       /* of a pool */
#define GH_MOST_LENGTH     32
#define GH_MOST_HOP        32767      /* the least is 1 */
#define GH_BEHIND          0          /* marks: a network behind a neighbour */
#define GH_ATTACHED        1          /* and one on a port of ours */
#define GH_OLDER_RULE      1          /* versions of gh_broadcast: networks of 0 to 31 bits have a broadcast */
#define GH_NEWER_RULE      2          /* of 0 to 30 bits; a link of 31 bits has two hosts and none (RFC 3021) */
#define GH_UP              1          /* marks of a hop record: up, */
#define GH_DOWN            0          /* and down, as every other number is */

#define GH_PARTY_ONE       0          /* the parties of a box of two; any other number is the second too */
#define GH_PARTY_TWO       1

#define GH_STANDARD_P1     16         /* the named geometries */
#define GH_STANDARD_P2     24
#define GH_SMALL_P1        12
#define GH_SMALL_P2        22

#define GH_RECORD_BYTES    8
#define GH_FIRST_CELLS(p1)           ((size_t)1 << (p1))
#define GH_SECOND_CHUNK(p1, p2)      ((size_t)1 << ((p2) - (p1)))     /* cells of a chunk of the second pool */
#define GH_THIRD_CHUNK(p2)           ((size_t)1 << (32 - (p2)))       /* cells of a chunk of the third pool */
#define GH_NODES_FOR(n)              (1 + (size_t)8 * (n))            /* enough for the image of any n routes */
#define GH_WORDS_FOR(n)              (3 * GH_NODES_FOR(n))            /* the words of so many nodes; its hops are n */
#define GH_HEADER_BYTES    20         /* of a packet, the least that gh_step takes */
#define GH_TALLY_WORDS     33
#define GH_REPAIR_WORDS    4          /* what gh_repair tells, in this order: */
#define GH_DROPPED         0          /* records dropped */
#define GH_FIRST_OFF       1          /* first cells that differ from before */
#define GH_SECOND_OFF      2          /* second cells */
#define GH_THIRD_OFF       3          /* third cells */
#define GH_MOST_FIELD      20480      /* bytes of a route field: a length byte and four for each of 4,096 prefixes */
#define GH_MAP_BYTES       16384      /* the bits of bit maps */
#define GH_MAP_CELLS       131071     /* their cells */

#define GH_STACK_TABLE     49152      /* bytes of stack: load, announce, withdraw, report */
#define GH_STACK_UPDATE    49152      /* update */
#define GH_STACK_PAIR      163840     /* the same calls on a box of two */
#define GH_STACK_IMAGE     12288      /* gh_tree_test, gh_tree_announce, gh_tree_withdraw */
#define GH_STACK_REPAIR    163840     /* repair */
#define GH_STACK           1024       /* the other calls */

/* ---- Refusals -------------------------------------------------------------------------------------------------- */

enum gh_refusal {
    GH_ACCEPTED = 0,
    GH_REFUSED_GEOMETRY = 1,
    GH_REFUSED_SIZE = 2,
    GH_REFUSED_PREFIX = 3,
    GH_REFUSED_HOP = 4,
    GH_REFUSED_UNSOUND = 5,
    GH_REFUSED_ROOM = 6,
    GH_REFUSED_SECOND = 7,
    GH_REFUSED_THIRD = 8,
    GH_REFUSED_ABSENT = 9,
    GH_REFUSED_INPUT = 10,
    GH_REFUSED_NODES = 11,
    GH_REFUSED_HOPS = 12,
    GH_REFUSED_IMAGE = 13,
    GH_REFUSED_RECORD = 14,
    GH_REFUSED_DOWN = 15,
    GH_REFUSED_FIELD = 17,
    GH_REFUSED_BUFFER = 18,
    GH_REFUSED_SHORT = 19,
    GH_REFUSED_HEADER = 20,
    GH_REFUSED_CHECKSUM = 21,
    GH_REFUSED_LIFE = 22,
    GH_REFUSED_VERSION = 23,
    GH_REFUSED_LIMITS = 24
};

/* What a number means. */
static inline const char *gh_meaning(unsigned number)
{
    static const char *const texts[] = {
        /*  0 */ "accepted",
        /*  1 */ "geometry outside the limits",
        /*  2 */ "a lent array has another size than it must, or too many chunks or records of room",
        /*  3 */ "length over 32, or a bit set after the length; announce and withdraw on a table: length over 32 alone",
        /*  4 */ "hop not 1 to 32,767",
        /*  5 */ "table not sound; in lookup only: a chunk number is 0 or beyond its pool, a third cell is no leaf, or a chunk is owned by the other party",
        /*  6 */ "announce: list room full, in an image 4,096 routes stand; load: more records than room; any record input: over 4,096",
        /*  7 */ "need for second chunks exceeds those lent, or the party's limit",
        /*  8 */ "need for third chunks exceeds those lent, or the party's limit",
        /*  9 */ "withdrawn prefix doesn't stand",
        /* 10 */ "record input not a multiple of 8 bytes, mark over 1, or not ascending; announce: mark over 1",
        /* 11 */ "too few whole nodes lent",
        /* 12 */ "too few hops lent",
        /* 13 */ "image broken on this walk: bit 15 set, child or hop beyond what is lent, no root, hop outside 1 to 32,767; image tested or changed: not well formed; bit maps: such a hop at the first set bit",
        /* 14 */ "the hop has no record",
        /* 15 */ "the record is down",
        /* 16 */ 0,
        /* 17 */ "route field: a length over 32, or the field ends inside an entry",
        /* 18 */ "buffer too short for the route field",
        /* 19 */ "packet of fewer than 20 bytes",
        /* 20 */ "version not 4, or header length not 5 words",
        /* 21 */ "header checksum wrong",
        /* 22 */ "time to live 0 or 1",
        /* 23 */ "version neither 1 nor 2",
        /* 24 */ "the two parties' limits add to more than a pool's chunks",
    };
    return number < sizeof texts / sizeof *texts && texts[number] ? texts[number] : "no number of a refusal";
}

/* ---- Reading an answer ----------------------------------------------------------------------------------------- */

#define GH_NUMBER(a)       ((unsigned)((a) & 0xff))               /* the refusal's number, 0: accepted */
#define GH_HAS_INDEX(a)    ((unsigned)((a) >> 8 & 1))             /* refused: an index is carried */
#define GH_INDEX(a)        ((uint32_t)((a) >> 32))                /* refused: that index */
#define GH_REPLACED(a)     ((unsigned)((a) >> 8 & 1))             /* gh_announce, gh_tree_announce */
#define GH_CLEARED(a)      ((unsigned)((a) >> 9 & 1))             /* accepted gh_announce and gh_withdraw */
#define GH_COUNT(a)        ((unsigned)((a) >> 16 & 0xffff))       /* changes and reports: routes */
#define GH_ENTRIES(a)      ((uint32_t)((a) >> 32))                /* gh_update: entries dealt with */
#define GH_BYTES(a)        ((uint32_t)((a) >> 32))                /* gh_write_field */
#define GH_NEED_SECOND(a)  ((unsigned)((a) >> 32 & 0xffff))       /* gh_report */
#define GH_NEED_THIRD(a)   ((unsigned)((a) >> 48 & 0xffff))       /* gh_report */
#define GH_READS(a)        ((unsigned)((a) >> 8 & 0xff))          /* gh_lookup, gh_step: cells read; gh_tree_lookup: as above */
#define GH_HOP(a)          ((unsigned)((a) >> 16 & 0xffff))       /* lookups, gh_route, gh_longest: hop, 0 for none */
#define GH_PORT(a)         ((unsigned)((uint64_t)(a) >> 32 & 0xffff)) /* gh_forward, gh_count: the port of that hop */
#define GH_HOPS(a)         ((unsigned)((a) >> 16 & 0xffff))       /* gh_build; test and changes of an image */
#define GH_NODES(a)        ((uint32_t)((a) >> 32))                /* the same */
#define GH_RUN_FIRST(a)    ((unsigned)((a) >> 16 & 0xffff))       /* gh_run */
#define GH_RUN_RECORDS(a)  ((unsigned)((a) >> 32 & 0xffff))       /* gh_run */
#define GH_ROUTE_LEN(a)    ((unsigned)((a) >> 8 & 0x7f))          /* gh_route, gh_longest */
#define GH_ROUTE_MARK(a)   ((unsigned)((a) >> 15 & 1))            /* gh_route, gh_longest */
#define GH_ROUTE_ADDR(a)   ((uint32_t)((a) >> 32))                /* gh_route, gh_longest */
#define GH_BROADCAST(a)    ((unsigned)((a) >> 8 & 1))             /* gh_broadcast */

/* ---- Calls on tables ------------------------------------------------------------------------------------------- */

/* Makes a fresh table with no routes: leaves of hop 0, all else zero. Reads nothing of the arrays.
 * Refusals: 1, 2. */
GH_CALL
uint64_t gh_make(uint32_t p1, uint32_t p2,
                 uint8_t *GH_RESTRICT list, size_t list_len,
                 uint16_t *GH_RESTRICT first, size_t first_len,
                 uint16_t *GH_RESTRICT second, size_t second_len,
                 uint16_t *GH_RESTRICT third, size_t third_len,
                 uint32_t *GH_RESTRICT own2, size_t own2_len,
                 uint32_t *GH_RESTRICT own3, size_t own3_len,
                 uint16_t *GH_RESTRICT long1, size_t long1_len,
                 uint16_t *GH_RESTRICT long2, size_t long2_len);

/* Makes the table of a record input, as gh_make and then announcing each record in order would. Reads nothing of
 * the old table. Refusals: 1, 2, the input's, 6 where there are more records than room, 7, 8 on the needs of the
 * whole input. */
GH_CALL
uint64_t gh_load(uint32_t p1, uint32_t p2,
                 const uint8_t *GH_RESTRICT input, size_t input_len,
                 uint8_t *GH_RESTRICT list, size_t list_len,
                 uint16_t *GH_RESTRICT first, size_t first_len,
                 uint16_t *GH_RESTRICT second, size_t second_len,
                 uint16_t *GH_RESTRICT third, size_t third_len,
                 uint32_t *GH_RESTRICT own2, size_t own2_len,
                 uint32_t *GH_RESTRICT own3, size_t own3_len,
                 uint16_t *GH_RESTRICT long1, size_t long1_len,
                 uint16_t *GH_RESTRICT long2, size_t long2_len);

/* Adds the route addr/len to hop with its mark, or replaces hop and mark of that prefix where it stands. Bits of addr
 * after the length are cleared first, and an accepted answer tells whether any were: 10.1.2.3/24 means 10.1.2.0/24. A
 * chunk that is opened takes the lowest free number. Refusals: 1, 2, 3 for a length over 32, 4, 10 for the mark, 5, 6, 7,
 * 8; a replacement never meets 6 to 8. */
GH_CALL
uint64_t gh_announce(uint32_t p1, uint32_t p2, uint32_t count,
                     uint8_t *GH_RESTRICT list, size_t list_len,
                     uint16_t *GH_RESTRICT first, size_t first_len,
                     uint16_t *GH_RESTRICT second, size_t second_len,
                     uint16_t *GH_RESTRICT third, size_t third_len,
                     uint32_t *GH_RESTRICT own2, size_t own2_len,
                     uint32_t *GH_RESTRICT own3, size_t own3_len,
                     uint16_t *GH_RESTRICT long1, size_t long1_len,
                     uint16_t *GH_RESTRICT long2, size_t long2_len,
                     uint32_t addr, uint32_t len, uint32_t hop, uint32_t mark);

/* Removes the route of the prefix addr/len and closes the chunks that are no longer needed. Bits of addr after the length
 * are cleared first, as by gh_announce. Refusals: 1, 2, 3 for a length over 32, 5, 9. */
GH_CALL
uint64_t gh_withdraw(uint32_t p1, uint32_t p2, uint32_t count,
                     uint8_t *GH_RESTRICT list, size_t list_len,
                     uint16_t *GH_RESTRICT first, size_t first_len,
                     uint16_t *GH_RESTRICT second, size_t second_len,
                     uint16_t *GH_RESTRICT third, size_t third_len,
                     uint32_t *GH_RESTRICT own2, size_t own2_len,
                     uint32_t *GH_RESTRICT own3, size_t own3_len,
                     uint16_t *GH_RESTRICT long1, size_t long1_len,
                     uint16_t *GH_RESTRICT long2, size_t long2_len,
                     uint32_t addr, uint32_t len);

/* Deals a message to a table: the prefixes of `withdrawn` are withdrawn, and then those of `reach` announced with this hop
 * and mark GH_BEHIND, in field order. One that is withdrawn and does not stand is passed over, and counts. All bytes of
 * both fields are checked before anything is written. The first announcement for which there is no room stops the work:
 * the answer is 6, 7 or 8 with the number of entries dealt with before it, of both fields, and the table is as after
 * exactly those, with the routes that the answer gives. The hop is judged even if nothing is announced: where a message only
 * withdraws, pass 1. Soundness is tested once for the message, and a prefix that stands with this hop and mark is
 * passed over without a write. Refusals: 1, 2, 5, 17, 4, which leave all as it was; then 6, 7, 8 as they arise. */
GH_CALL
uint64_t gh_update(uint32_t p1, uint32_t p2, uint32_t count,
                   uint8_t *GH_RESTRICT list, size_t list_len,
                   uint16_t *GH_RESTRICT first, size_t first_len,
                   uint16_t *GH_RESTRICT second, size_t second_len,
                   uint16_t *GH_RESTRICT third, size_t third_len,
                   uint32_t *GH_RESTRICT own2, size_t own2_len,
                   uint32_t *GH_RESTRICT own3, size_t own3_len,
                   uint16_t *GH_RESTRICT long1, size_t long1_len,
                   uint16_t *GH_RESTRICT long2, size_t long2_len,
                   const uint8_t *GH_RESTRICT withdrawn, size_t withdrawn_len,
                   const uint8_t *GH_RESTRICT reach, size_t reach_len,
                   uint32_t hop);

/* Puts a table right after a memory fault, whatever it holds. Looks at the first count records of the list, or to the end
 * of its room if that is less; keeps each that is valid and larger than the last one kept, drops the others, and loads
 * what was kept. A damaged record that is valid and very large so shuts out what follows it. Into out: the records
 * dropped of those looked at, and how many first, second and third cells differ from before. A sound table keeps all its
 * records; its cells may still differ, for a load numbers the chunks in order of addresses. Refusals: 1, 2; also 2 where
 * out_len is not GH_REPAIR_WORDS; 7, 8 on the needs of what was kept. A refusal writes nothing, out neither. */
GH_CALL
uint64_t gh_repair(uint32_t p1, uint32_t p2, uint32_t count,
                   uint8_t *GH_RESTRICT list, size_t list_len,
                   uint16_t *GH_RESTRICT first, size_t first_len,
                   uint16_t *GH_RESTRICT second, size_t second_len,
                   uint16_t *GH_RESTRICT third, size_t third_len,
                   uint32_t *GH_RESTRICT own2, size_t own2_len,
                   uint32_t *GH_RESTRICT own3, size_t own3_len,
                   uint16_t *GH_RESTRICT long1, size_t long1_len,
                   uint16_t *GH_RESTRICT long2, size_t long2_len,
                   uint32_t *GH_RESTRICT out, size_t out_len);

/* Tells the route count and both needs of a sound table. Refusals: 1, 2, 5. */
GH_CALL
uint64_t gh_report(uint32_t p1, uint32_t p2, uint32_t count,
                   const uint8_t *list, size_t list_len,
                   const uint16_t *first, size_t first_len,
                   const uint16_t *second, size_t second_len,
                   const uint16_t *third, size_t third_len,
                   const uint32_t *own2, size_t own2_len,
                   const uint32_t *own3, size_t own3_len,
                   const uint16_t *long1, size_t long1_len,
                   const uint16_t *long2, size_t long2_len);

/* Looks one address up: 1 to 3 cells are read. The table need not be sound, and count is not looked at.
 * Refusals: 1, 2, 5 in the form for lookups. */
GH_CALL
uint64_t gh_lookup(uint32_t p1, uint32_t p2, uint32_t count,
                   const uint8_t *list, size_t list_len,
                   const uint16_t *first, size_t first_len,
                   const uint16_t *second, size_t second_len,
                   const uint16_t *third, size_t third_len,
                   const uint32_t *own2, size_t own2_len,
                   const uint32_t *own3, size_t own3_len,
                   const uint16_t *long1, size_t long1_len,
                   const uint16_t *long2, size_t long2_len,
                   uint32_t addr);

/* Looks many addresses up: geometry and sizes are checked once, and out[k] becomes the low 32 bits of what
 * gh_lookup answers for addrs[k], a 5 among them too. Refusals: 1, 2; also 2 where out_len is not addrs_len. */
GH_CALL
uint64_t gh_lookup_many(uint32_t p1, uint32_t p2, uint32_t count,
                        const uint8_t *GH_RESTRICT list, size_t list_len,
                        const uint16_t *GH_RESTRICT first, size_t first_len,
                        const uint16_t *GH_RESTRICT second, size_t second_len,
                        const uint16_t *GH_RESTRICT third, size_t third_len,
                        const uint32_t *GH_RESTRICT own2, size_t own2_len,
                        const uint32_t *GH_RESTRICT own3, size_t own3_len,
                        const uint16_t *GH_RESTRICT long1, size_t long1_len,
                        const uint16_t *GH_RESTRICT long2, size_t long2_len,
                        const uint32_t *GH_RESTRICT addrs, size_t addrs_len,
                        uint32_t *GH_RESTRICT out, size_t out_len);

/* Takes an IPv4 packet one step on its way. Checks its header: version 4, five words, the checksum (RFC 791). Looks its
 * destination up as gh_lookup does. With a hop it lowers the time to live by one and mends the checksum (RFC 1624): bytes
 * 8, 10 and 11 change, and the mended checksum is the very number that would be worked out afresh. No route and every
 * refusal leave the packet as it was. Of a checksum 0000 and FFFF are both zero, and either is taken. Total length,
 * fragments and bytes from 20 on are not looked at. It takes up to 20 ns more than the lookup. Refusals: 19 for fewer than
 * GH_HEADER_BYTES bytes, 20 for the version or the header length, 21 for the checksum, 22 for a time to live of 0 or 1;
 * then those of gh_lookup. */
GH_CALL
uint64_t gh_step(uint32_t p1, uint32_t p2, uint32_t count,
                 const uint8_t *GH_RESTRICT list, size_t list_len,
                 const uint16_t *GH_RESTRICT first, size_t first_len,
                 const uint16_t *GH_RESTRICT second, size_t second_len,
                 const uint16_t *GH_RESTRICT third, size_t third_len,
                 const uint32_t *GH_RESTRICT own2, size_t own2_len,
                 const uint32_t *GH_RESTRICT own3, size_t own3_len,
                 const uint16_t *GH_RESTRICT long1, size_t long1_len,
                 const uint16_t *GH_RESTRICT long2, size_t long2_len,
                 uint8_t *GH_RESTRICT packet, size_t packet_len);

/* ---- Hop records ----------------------------------------------------------------------------------------------- */

/* Where the packets of a hop go, and how many went there. Port and mark are the caller's: no call changes them. The counts
 * are Counter32 (RFC 2578): after 4,294,967,295 the next value is 0. They start with whatever the caller puts there. */
struct gh_hop_record {
    uint16_t port;
    uint8_t up;           /* GH_UP: up; every other number: down */
    uint32_t packets;
    uint32_t octets;
};

/* Looks the address of a packet up as gh_lookup does. With a hop it counts the packet in the record of that hop, one packet
 * and so many octets, and answers the port too; no other record changes. No route changes nothing, nor does a refusal.
 * Refusals: those of gh_lookup, 14 if the hop has no record, 15 if the record is down. */
GH_CALL
uint64_t gh_forward(uint32_t p1, uint32_t p2, uint32_t count,
                    const uint8_t *GH_RESTRICT list, size_t list_len,
                    const uint16_t *GH_RESTRICT first, size_t first_len,
                    const uint16_t *GH_RESTRICT second, size_t second_len,
                    const uint16_t *GH_RESTRICT third, size_t third_len,
                    const uint32_t *GH_RESTRICT own2, size_t own2_len,
                    const uint32_t *GH_RESTRICT own3, size_t own3_len,
                    const uint16_t *GH_RESTRICT long1, size_t long1_len,
                    const uint16_t *GH_RESTRICT long2, size_t long2_len,
                    struct gh_hop_record *GH_RESTRICT records, size_t records_len,
                    uint32_t addr, uint32_t octets);

/* Counts a packet whose hop has been found already: found is what gh_lookup or gh_tree_lookup answered, or a word that
 * gh_lookup_many wrote. After gh_lookup it does and answers what gh_forward would have. For any other number: one with a
 * refusal's number, or with nothing from bit 16 on, is answered as it is, and nothing changes; else bits 16 and up are the
 * hop, and one over GH_MOST_HOP has no record. Refusals: the one in found, 14, 15. */
GH_CALL
uint64_t gh_count(uint64_t found, struct gh_hop_record *records, size_t records_len, uint32_t octets);

/* ---- Calls on a box of two parties ----------------------------------------------------------------------------- */

/* Two parties share the two pools of one box. Each has its own list, first cells and counts for them, and a limit of
 * chunks in either pool, most2 and most3. The state is p1, p2, either party's route count and its limits; the limits stay
 * as they were given to gh_pair_make. What a party is answered depends on its own calls, the room of its list, its limits
 * and the geometry, and on nothing that the other does or has. Each call is that of the party `party`: GH_PARTY_ONE, or any
 * other number for the second. Costs: gh_pair_lookup reads 1 to 3 cells and an owner for each chunk; gh_pair_make writes
 * all arrays; the others test the whole box first, both parties' parts of it.
 *
 * Makes a fresh box with no routes of either party. Reads nothing of the arrays. Refusals: 1, 2, 24 if the two limits add to
 * more than a pool's chunks. */
GH_CALL
uint64_t gh_pair_make(uint32_t p1, uint32_t p2, uint32_t most2_one, uint32_t most3_one,
                      uint32_t most2_two, uint32_t most3_two,
                      uint8_t *GH_RESTRICT list1, size_t list1_len,
                      uint16_t *GH_RESTRICT first1, size_t first1_len,
                      uint16_t *GH_RESTRICT long11, size_t long11_len,
                      uint8_t *GH_RESTRICT list2, size_t list2_len,
                      uint16_t *GH_RESTRICT first2, size_t first2_len,
                      uint16_t *GH_RESTRICT long12, size_t long12_len,
                      uint16_t *GH_RESTRICT second, size_t second_len,
                      uint16_t *GH_RESTRICT third, size_t third_len,
                      uint32_t *GH_RESTRICT own2, size_t own2_len,
                      uint32_t *GH_RESTRICT own3, size_t own3_len,
                      uint16_t *GH_RESTRICT long2, size_t long2_len);

/* Replaces all routes of the party by those of a record input, as withdrawing each of them and then announcing each record
 * in order would; the chunks that it opens are the lowest free ones, between the other's. Refusals: 1, 2, 5, the input's,
 * 6 if there are more records than room, 7, 8 by the party's limits. */
GH_CALL
uint64_t gh_pair_load(uint32_t p1, uint32_t p2, uint32_t count_one, uint32_t count_two,
                      uint32_t most2_one, uint32_t most3_one, uint32_t most2_two, uint32_t most3_two,
                      uint8_t *GH_RESTRICT list1, size_t list1_len,
                      uint16_t *GH_RESTRICT first1, size_t first1_len,
                      uint16_t *GH_RESTRICT long11, size_t long11_len,
                      uint8_t *GH_RESTRICT list2, size_t list2_len,
                      uint16_t *GH_RESTRICT first2, size_t first2_len,
                      uint16_t *GH_RESTRICT long12, size_t long12_len,
                      uint16_t *GH_RESTRICT second, size_t second_len,
                      uint16_t *GH_RESTRICT third, size_t third_len,
                      uint32_t *GH_RESTRICT own2, size_t own2_len,
                      uint32_t *GH_RESTRICT own3, size_t own3_len,
                      uint16_t *GH_RESTRICT long2, size_t long2_len,
                      uint32_t party, const uint8_t *GH_RESTRICT input, size_t input_len);

/* As gh_announce, for the party. Refusals: 1, 2, 3 for a length over 32, 4, 10, 5, 6 by the party's own room, 7, 8 by its
 * limits; a replacement never meets 6 to 8. */
GH_CALL
uint64_t gh_pair_announce(uint32_t p1, uint32_t p2, uint32_t count_one, uint32_t count_two,
                          uint32_t most2_one, uint32_t most3_one, uint32_t most2_two, uint32_t most3_two,
                          uint8_t *GH_RESTRICT list1, size_t list1_len,
                          uint16_t *GH_RESTRICT first1, size_t first1_len,
                          uint16_t *GH_RESTRICT long11, size_t long11_len,
                          uint8_t *GH_RESTRICT list2, size_t list2_len,
                          uint16_t *GH_RESTRICT first2, size_t first2_len,
                          uint16_t *GH_RESTRICT long12, size_t long12_len,
                          uint16_t *GH_RESTRICT second, size_t second_len,
                          uint16_t *GH_RESTRICT third, size_t third_len,
                          uint32_t *GH_RESTRICT own2, size_t own2_len,
                          uint32_t *GH_RESTRICT own3, size_t own3_len,
                          uint16_t *GH_RESTRICT long2, size_t long2_len,
                          uint32_t party, uint32_t addr, uint32_t len, uint32_t hop, uint32_t mark);

/* As gh_withdraw, for the party. Refusals: 1, 2, 3 for a length over 32, 5, 9. */
GH_CALL
uint64_t gh_pair_withdraw(uint32_t p1, uint32_t p2, uint32_t count_one, uint32_t count_two,
                          uint32_t most2_one, uint32_t most3_one, uint32_t most2_two, uint32_t most3_two,
                          uint8_t *GH_RESTRICT list1, size_t list1_len,
                          uint16_t *GH_RESTRICT first1, size_t first1_len,
                          uint16_t *GH_RESTRICT long11, size_t long11_len,
                          uint8_t *GH_RESTRICT list2, size_t list2_len,
                          uint16_t *GH_RESTRICT first2, size_t first2_len,
                          uint16_t *GH_RESTRICT long12, size_t long12_len,
                          uint16_t *GH_RESTRICT second, size_t second_len,
                          uint16_t *GH_RESTRICT third, size_t third_len,
                          uint32_t *GH_RESTRICT own2, size_t own2_len,
                          uint32_t *GH_RESTRICT own3, size_t own3_len,
                          uint16_t *GH_RESTRICT long2, size_t long2_len,
                          uint32_t party, uint32_t addr, uint32_t len);

/* Reports the party's route count and both its needs, if the box is sound: both parties' parts of it, with needs within
 * limits and limits that fit the pools. Refusals: 1, 2, 5. */
GH_CALL
uint64_t gh_pair_report(uint32_t p1, uint32_t p2, uint32_t count_one, uint32_t count_two,
                        uint32_t most2_one, uint32_t most3_one, uint32_t most2_two, uint32_t most3_two,
                        const uint8_t *list1, size_t list1_len,
                        const uint16_t *first1, size_t first1_len,
                        const uint16_t *long11, size_t long11_len,
                        const uint8_t *list2, size_t list2_len,
                        const uint16_t *first2, size_t first2_len,
                        const uint16_t *long12, size_t long12_len,
                        const uint16_t *second, size_t second_len,
                        const uint16_t *third, size_t third_len,
                        const uint32_t *own2, size_t own2_len,
                        const uint32_t *own3, size_t own3_len,
                        const uint16_t *long2, size_t long2_len,
                        uint32_t party);

/* Looks one address up in the party's table: 1 to 3 cells are read. The box need not be sound, and counts and limits are
 * not looked at. Refusals: 1, 2, 5 in the form for lookups, and 5 at a chunk owned by the other party. */
GH_CALL
uint64_t gh_pair_lookup(uint32_t p1, uint32_t p2, uint32_t count_one, uint32_t count_two,
                        uint32_t most2_one, uint32_t most3_one, uint32_t most2_two, uint32_t most3_two,
                        const uint8_t *list1, size_t list1_len,
                        const uint16_t *first1, size_t first1_len,
                        const uint16_t *long11, size_t long11_len,
                        const uint8_t *list2, size_t list2_len,
                        const uint16_t *first2, size_t first2_len,
                        const uint16_t *long12, size_t long12_len,
                        const uint16_t *second, size_t second_len,
                        const uint16_t *third, size_t third_len,
                        const uint32_t *own2, size_t own2_len,
                        const uint32_t *own3, size_t own3_len,
                        const uint16_t *long2, size_t long2_len,
                        uint32_t party, uint32_t addr);

/* Takes an IPv4 packet one step on its way, by the party's lookup: as gh_step. Refusals: 19 to 22, then those of
 * gh_pair_lookup. */
GH_CALL
uint64_t gh_pair_step(uint32_t p1, uint32_t p2, uint32_t count_one, uint32_t count_two,
                      uint32_t most2_one, uint32_t most3_one, uint32_t most2_two, uint32_t most3_two,
                      const uint8_t *list1, size_t list1_len,
                      const uint16_t *first1, size_t first1_len,
                      const uint16_t *long11, size_t long11_len,
                      const uint8_t *list2, size_t list2_len,
                      const uint16_t *first2, size_t first2_len,
                      const uint16_t *long12, size_t long12_len,
                      const uint16_t *second, size_t second_len,
                      const uint16_t *third, size_t third_len,
                      const uint32_t *own2, size_t own2_len,
                      const uint32_t *own3, size_t own3_len,
                      const uint16_t *long2, size_t long2_len,
                      uint32_t party, uint8_t *GH_RESTRICT packet, size_t packet_len);

/* ---- Calls on tree images -------------------------------------------------------------------------------------- */

/* Builds the tree image of a record input. Words and hops after the last used become zero. Images in arrays of equal
 * lengths, built or changed afterwards, are equal to the byte exactly when they hold the same prefixes with the same hops.
 * Refusals: the input's, 11, 12. */
GH_CALL
uint64_t gh_build(const uint8_t *GH_RESTRICT input, size_t input_len,
                  uint32_t *GH_RESTRICT words, size_t words_len,
                  uint16_t *GH_RESTRICT hops, size_t hops_len);

/* Looks one address up in a tree image: at most 9 nodes are read, and then one hop. The count is 1 to 10, and at most
 * 9 for no route. Refusals: 13. */
GH_CALL
uint64_t gh_tree_lookup(const uint32_t *words, size_t words_len,
                        const uint16_t *hops, size_t hops_len,
                        uint32_t addr);

/* Tests a tree image: whether some record input builds these very words and hops into arrays of these lengths. Then
 * bitmaps and hops are right, the bases are those of the fixed order, no path ends without a route but the bare root of
 * an empty list, and everything after the last used is zero. Answers nodes and hops as gh_build does. A lookup asks for
 * less. Each word and each hop is read a bounded number of times, whatever they are. Refusals: 13. */
GH_CALL
uint64_t gh_tree_test(const uint32_t *words, size_t words_len,
                      const uint16_t *hops, size_t hops_len);

/* Adds the route addr/len to hop to a tree image itself, or replaces the hop of that prefix where it stands. The image
 * is tested first; no list and no second copy is needed. Words and hops then are those of a fresh build, into the same
 * arrays, from the routes then standing, and no hop before the place of the changed one is altered. An image of no
 * routes is what gh_build makes of an empty input. Bits of addr after the length are not cleared: they give 3.
 * Refusals: 3, 4, 13, 6 where more than 4,096 routes would stand, 11, 12; a replacement never meets 6, 11 and 12. */
GH_CALL
uint64_t gh_tree_announce(uint32_t *GH_RESTRICT words, size_t words_len,
                          uint16_t *GH_RESTRICT hops, size_t hops_len,
                          uint32_t addr, uint32_t len, uint32_t hop);

/* Removes the route of the prefix addr/len from a tree image itself, as gh_tree_announce adds one.
 * Refusals: 3, 13, 9. */
GH_CALL
uint64_t gh_tree_withdraw(uint32_t *GH_RESTRICT words, size_t words_len,
                          uint16_t *GH_RESTRICT hops, size_t hops_len,
                          uint32_t addr, uint32_t len);

/* ---- Calls on record inputs ------------------------------------------------------------------------------------ */

/* Tells the run under the prefix addr/len: the records of that length or longer inside it. An empty run stands
 * before the first record that isn't smaller than the prefix. Refusals: the input's, then 3 for the prefix (no
 * index). */
GH_CALL
uint64_t gh_run(const uint8_t *input, size_t input_len, uint32_t addr, uint32_t len);

/* Counts the routes of each length, 0 to 32, into the 33 words of out. Where the input is refused, out becomes 33
 * zeros. Refusals: 2 where out_len is not 33 (nothing is written), the input's. */
GH_CALL
uint64_t gh_tally(const uint8_t *GH_RESTRICT input, size_t input_len,
                  uint32_t *GH_RESTRICT out, size_t out_len);

/* Reads the record of that index, from 0, out of an input. Refusals: the input's. */
GH_CALL
uint64_t gh_route(const uint8_t *input, size_t input_len, uint32_t index);

/* Writes the prefixes of an input as one reachability field, at the front of out, in their order; hops and marks are not in
 * it. No byte after the field is touched. A field of 4,096 prefixes has at most GH_MOST_FIELD bytes. For the list of a
 * table hand in its first GH_RECORD_BYTES * count bytes. Refusals: the input's, 18. */
GH_CALL
uint64_t gh_write_field(const uint8_t *GH_RESTRICT input, size_t input_len,
                        uint8_t *GH_RESTRICT out, size_t out_len);

/* Reads the longest record of an input that covers an address. Refusals: the input's. */
GH_CALL
uint64_t gh_longest(const uint8_t *input, size_t input_len, uint32_t addr);

/* Tells whether an address is a directed broadcast: the longest route that covers it is attached, the address is the
 * highest one of that route, and the route has at most 31 bits where version is GH_OLDER_RULE, at most 30 where it is
 * GH_NEWER_RULE. Refusals: 23 for any other version, whatever the input, then the input's. */
GH_CALL
uint64_t gh_broadcast(uint32_t version, const uint8_t *input, size_t input_len, uint32_t addr);

/* ---- Calls on bit maps ----------------------------------------------------------------------------------------- */

/* Bit maps are for cards without chunk memory: basic SAIL for lengths 0 to 16, and the record input itself for anything
 * longer. The prefix of length l whose bits are the number v has place 2^l - 1 + v in both arrays. Its bit is bit
 * i % 8, counted from the least significant, of byte i / 8, where i is the place; it is set where a route of the
 * prefix stands. Its cell holds that route's hop, and 0 where none stands. The last bit, 131,071, is 0.
 *
 * Builds both from a record input, whatever they held. Refusals: the input's, 2. */
GH_CALL
uint64_t gh_basic_build(const uint8_t *GH_RESTRICT input, size_t input_len,
                        uint8_t *GH_RESTRICT bits, size_t bits_len,
                        uint16_t *GH_RESTRICT cells, size_t cells_len);

/* Looks one address up, down from the longest length: lengths 32 to 17 in the input, by halving, then 16 to 0 in the
 * bits. The input is checked whole each time; for many addresses call gh_basic_lookup_many. Where bits and cells are
 * those built from the input, the hop is that of the longest route that covers the address. Refusals: the input's, 2,
 * then 13 where the first set bit met has a hop outside 1 to 32,767. */
GH_CALL
uint64_t gh_basic_lookup(const uint8_t *input, size_t input_len,
                         const uint8_t *bits, size_t bits_len,
                         const uint16_t *cells, size_t cells_len,
                         uint32_t addr);

/* Looks many addresses up: input and sizes are checked once, and out[k] becomes the low 32 bits of what
 * gh_basic_lookup answers for addrs[k], a 13 among them too. Refusals: the input's, 2; also 2 where out_len is not
 * addrs_len. */
GH_CALL
uint64_t gh_basic_lookup_many(const uint8_t *GH_RESTRICT input, size_t input_len,
                              const uint8_t *GH_RESTRICT bits, size_t bits_len,
                              const uint16_t *GH_RESTRICT cells, size_t cells_len,
                              const uint32_t *GH_RESTRICT addrs, size_t addrs_len,
                              uint32_t *GH_RESTRICT out, size_t out_len);

/* ---- A table as one struct ------------------------------------------------------------------------------------- */

/* All of a table. The caller sets everything once; gh_table_make or gh_table_load then makes it a table. After that only
 * the functions below write here, and only the count: an accepted change sets it, and so does gh_table_update that stops
 * for want of room; any other refusal leaves it. */
struct gh_table {
    uint32_t p1, p2;      /* the geometry */
    uint32_t count;       /* the route count */
    uint8_t *list;        /* the eight arrays, each with its length in elements */
    size_t list_len;
    uint16_t *first;
    size_t first_len;
    uint16_t *second;
    size_t second_len;
    uint16_t *third;
    size_t third_len;
    uint32_t *own2;
    size_t own2_len;
    uint32_t *own3;
    size_t own3_len;
    uint16_t *long1;
    size_t long1_len;
    uint16_t *long2;
    size_t long2_len;
};

/* The initial value of a struct gh_table over eight arrays of the caller (arrays, and no pointers to them):
 *   struct gh_table t = GH_TABLE(16, 24, list, first, second, third, own2, own3, long1, long2); */
#define GH_TABLE(p1, p2, list, first, second, third, own2, own3, long1, long2) \
    { (p1), (p2), 0, (list), GH_ELEMENTS(list), (first), GH_ELEMENTS(first), (second), GH_ELEMENTS(second), \
      (third), GH_ELEMENTS(third), (own2), GH_ELEMENTS(own2), (own3), GH_ELEMENTS(own3), \
      (long1), GH_ELEMENTS(long1), (long2), GH_ELEMENTS(long2) }
#define GH_ELEMENTS(array) (sizeof(array) / sizeof *(array))

/* The eight arrays as the calls above take them: gh_report(t->p1, t->p2, t->count, GH_LENT(t)). */
#define GH_LENT(t) \
    (t)->list, (t)->list_len, (t)->first, (t)->first_len, (t)->second, (t)->second_len, \
    (t)->third, (t)->third_len, (t)->own2, (t)->own2_len, (t)->own3, (t)->own3_len, \
    (t)->long1, (t)->long1_len, (t)->long2, (t)->long2_len

/* A pointer for an array of no elements, which must not be null. */
static inline void *gh_empty(void)
{
    static uint64_t nothing;
    return &nothing;
}

/* Takes the count over from the answer of a change, where it was accepted. */
static inline uint64_t gh_table_keep(struct gh_table *t, uint64_t answer)
{
    if (GH_NUMBER(answer) == GH_ACCEPTED)
        t->count = GH_COUNT(answer);
    return answer;
}

/* As gh_make, gh_load, gh_announce, gh_withdraw, gh_report, gh_lookup: the same answers. */
GH_CALL
static inline uint64_t gh_table_make(struct gh_table *t)
{
    return gh_table_keep(t, gh_make(t->p1, t->p2, GH_LENT(t)));
}

GH_CALL
static inline uint64_t gh_table_load(struct gh_table *t, const uint8_t *input, size_t input_len)
{
    return gh_table_keep(t, gh_load(t->p1, t->p2, input, input_len, GH_LENT(t)));
}

GH_CALL
static inline uint64_t gh_table_announce(struct gh_table *t, uint32_t addr, uint32_t len, uint32_t hop, uint32_t mark)
{
    return gh_table_keep(t, gh_announce(t->p1, t->p2, t->count, GH_LENT(t), addr, len, hop, mark));
}

GH_CALL
static inline uint64_t gh_table_withdraw(struct gh_table *t, uint32_t addr, uint32_t len)
{
    return gh_table_keep(t, gh_withdraw(t->p1, t->p2, t->count, GH_LENT(t), addr, len));
}

/* As gh_update. The count is taken over after a stop for want of room too: the table is then as after the entries before. */
GH_CALL
static inline uint64_t gh_table_update(struct gh_table *t, const uint8_t *GH_RESTRICT withdrawn, size_t withdrawn_len,
                                       const uint8_t *GH_RESTRICT reach, size_t reach_len, uint32_t hop)
{
    uint64_t answer = gh_update(t->p1, t->p2, t->count, GH_LENT(t), withdrawn, withdrawn_len, reach, reach_len, hop);
    if (GH_HAS_INDEX(answer))
        t->count = GH_COUNT(answer);
    return gh_table_keep(t, answer);
}

/* As gh_repair, into GH_REPAIR_WORDS words. */
GH_CALL
static inline uint64_t gh_table_repair(struct gh_table *t, uint32_t *GH_RESTRICT out)
{
    return gh_table_keep(t, gh_repair(t->p1, t->p2, t->count, GH_LENT(t), out, GH_REPAIR_WORDS));
}

GH_CALL
static inline uint64_t gh_table_report(const struct gh_table *t)
{
    return gh_report(t->p1, t->p2, t->count, GH_LENT(t));
}

GH_CALL
static inline uint64_t gh_table_lookup(const struct gh_table *t, uint32_t addr)
{
    return gh_lookup(t->p1, t->p2, t->count, GH_LENT(t), addr);
}

/* As gh_step. */
GH_CALL
static inline uint64_t gh_table_step(const struct gh_table *t, uint8_t *GH_RESTRICT packet, size_t packet_len)
{
    return gh_step(t->p1, t->p2, t->count, GH_LENT(t), packet, packet_len);
}

/* As gh_forward. */
GH_CALL
static inline uint64_t gh_table_forward(const struct gh_table *t, struct gh_hop_record *GH_RESTRICT records,
                                        size_t records_len, uint32_t addr, uint32_t octets)
{
    return gh_forward(t->p1, t->p2, t->count, GH_LENT(t), records, records_len, addr, octets);
}

/* As gh_lookup_many, for n addresses into n words. */
GH_CALL
static inline uint64_t gh_table_lookup_many(const struct gh_table *t, const uint32_t *GH_RESTRICT addrs,
                                            uint32_t *GH_RESTRICT out, size_t n)
{
    return gh_lookup_many(t->p1, t->p2, t->count, GH_LENT(t), addrs, n, out, n);
}

/* ---- A box of two parties as one struct ------------------------------------------------------------------------ */

/* All of a box of two. The caller sets everything once; gh_box_make then makes it a box. After that only the functions
 * below write here, and only the count of the party that calls: an accepted change sets it, and a refusal leaves it. */
struct gh_pair {
    uint32_t p1, p2;                    /* the geometry */
    uint32_t count[2];                  /* either party's route count, the first party's at GH_PARTY_ONE */
    uint32_t most2[2], most3[2];        /* its limits of second and of third chunks */
    uint8_t *list[2];                   /* each party's own arrays, and their lengths in elements */
    size_t list_len[2];
    uint16_t *first[2];
    size_t first_len[2];
    uint16_t *long1[2];
    size_t long1_len[2];
    uint16_t *second;                   /* the arrays that both share */
    size_t second_len;
    uint16_t *third;
    size_t third_len;
    uint32_t *own2;
    size_t own2_len;
    uint32_t *own3;
    size_t own3_len;
    uint16_t *long2;
    size_t long2_len;
};

/* State and arrays as the calls above take them: gh_pair_report(GH_PAIR_STATE(b), GH_PAIR_LENT(b), party). */
#define GH_PAIR_STATE(b) \
    (b)->p1, (b)->p2, (b)->count[0], (b)->count[1], (b)->most2[0], (b)->most3[0], (b)->most2[1], (b)->most3[1]
#define GH_PAIR_LENT(b) \
    (b)->list[0], (b)->list_len[0], (b)->first[0], (b)->first_len[0], (b)->long1[0], (b)->long1_len[0], \
    (b)->list[1], (b)->list_len[1], (b)->first[1], (b)->first_len[1], (b)->long1[1], (b)->long1_len[1], \
    (b)->second, (b)->second_len, (b)->third, (b)->third_len, (b)->own2, (b)->own2_len, (b)->own3, (b)->own3_len, \
    (b)->long2, (b)->long2_len

/* The index of a party in the arrays of struct gh_pair. */
static inline unsigned gh_party(uint32_t party)
{
    return party == GH_PARTY_ONE ? 0 : 1;
}

/* Takes the party's count over from the answer of its change, if it was accepted. */
static inline uint64_t gh_box_keep(struct gh_pair *b, uint32_t party, uint64_t answer)
{
    if (GH_NUMBER(answer) == GH_ACCEPTED)
        b->count[gh_party(party)] = GH_COUNT(answer);
    return answer;
}

/* As gh_pair_make, gh_pair_load, gh_pair_announce, gh_pair_withdraw, gh_pair_report, gh_pair_lookup: the same answers. */
GH_CALL
static inline uint64_t gh_box_make(struct gh_pair *b)
{
    uint64_t answer = gh_pair_make(b->p1, b->p2, b->most2[0], b->most3[0], b->most2[1], b->most3[1], GH_PAIR_LENT(b));
    return gh_box_keep(b, GH_PARTY_TWO, gh_box_keep(b, GH_PARTY_ONE, answer));
}

GH_CALL
static inline uint64_t gh_box_load(struct gh_pair *b, uint32_t party, const uint8_t *input, size_t input_len)
{
    return gh_box_keep(b, party, gh_pair_load(GH_PAIR_STATE(b), GH_PAIR_LENT(b), party, input, input_len));
}

GH_CALL
static inline uint64_t gh_box_announce(struct gh_pair *b, uint32_t party, uint32_t addr, uint32_t len, uint32_t hop,
                                       uint32_t mark)
{
    return gh_box_keep(b, party, gh_pair_announce(GH_PAIR_STATE(b), GH_PAIR_LENT(b), party, addr, len, hop, mark));
}

GH_CALL
static inline uint64_t gh_box_withdraw(struct gh_pair *b, uint32_t party, uint32_t addr, uint32_t len)
{
    return gh_box_keep(b, party, gh_pair_withdraw(GH_PAIR_STATE(b), GH_PAIR_LENT(b), party, addr, len));
}

GH_CALL
static inline uint64_t gh_box_report(const struct gh_pair *b, uint32_t party)
{
    return gh_pair_report(GH_PAIR_STATE(b), GH_PAIR_LENT(b), party);
}

GH_CALL
static inline uint64_t gh_box_lookup(const struct gh_pair *b, uint32_t party, uint32_t addr)
{
    return gh_pair_lookup(GH_PAIR_STATE(b), GH_PAIR_LENT(b), party, addr);
}

/* As gh_pair_step. */
GH_CALL
static inline uint64_t gh_box_step(const struct gh_pair *b, uint32_t party, uint8_t *GH_RESTRICT packet, size_t packet_len)
{
    return gh_pair_step(GH_PAIR_STATE(b), GH_PAIR_LENT(b), party, packet, packet_len);
}

#ifdef __cplusplus
}
#endif

#endif
