/* What a compiler must warn of: CASE picks one. Case 0 is right. */
#if CASE == 4
/* A platform whose pointers have 4 bytes. */
#include <stdint.h>
#undef SIZE_MAX
#define SIZE_MAX UINT32_MAX
#endif
#include "ghatumri.h"

uint64_t misused(struct gh_table *t, uint32_t *words, uint32_t *out, size_t n);

uint64_t misused(struct gh_table *t, uint32_t *words, uint32_t *out, size_t n)
{
#if CASE == 0
    return gh_table_make(t) | gh_table_lookup_many(t, words, out, n) | gh_run((const uint8_t *)gh_empty(), 0, 0, 0);
#elif CASE == 1
    /* An answer that nobody looks at (GH_CALL). */
    gh_table_announce(t, 0, 0, 1, GH_BEHIND);
    return words[0] | out[0] | n;
#elif CASE == 2
    /* A null pointer (GH_CALL). */
    return gh_run(NULL, 0, 0, 0) | gh_table_lookup_many(t, words, out, n);
#elif CASE == 3
    /* Answers written over the addresses (GH_RESTRICT). */
    return gh_table_lookup_many(t, words, words, n) | out[0];
#else
    return 0;
#endif
}
