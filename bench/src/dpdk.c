/* DPDK's rte_lpm behind four functions. Its lookups are inline functions of a header, so they are compiled here, with
 * the flags that pkg-config gives. */
#include <stddef.h>
#include <stdint.h>
#include <rte_eal.h>
#include <rte_lpm.h>

static struct rte_lpm *lpm;

/* Starts DPDK with ordinary memory and no devices, and fills the table. Answers 0, or the number of the step that
 * failed. rte_lpm has no route of length 0: two of length 1 stand for it. */
int ghdpdk_start(const uint32_t *addrs, const uint8_t *lens, const uint16_t *hops, size_t n)
{
    static char *argv[] = {"bench", "--no-huge", "-m", "512", "--no-pci", "--no-shconf", "--no-telemetry", "--log-level=1", NULL};
    struct rte_lpm_config config = {.max_rules = 8192, .number_tbl8s = 4096, .flags = 0};
    if (rte_eal_init(8, argv) < 0)
        return 1;
    lpm = rte_lpm_create("bench", SOCKET_ID_ANY, &config);
    if (lpm == NULL)
        return 2;
    /* The route of length 0 stands first in the list, so a longer one of length 1 comes later and wins. */
    for (size_t k = 0; k < n; k++) {
        int bad = lens[k] == 0
            ? rte_lpm_add(lpm, 0, 1, hops[k]) < 0 || rte_lpm_add(lpm, 1u << 31, 1, hops[k]) < 0
            : rte_lpm_add(lpm, addrs[k], lens[k], hops[k]) < 0;
        if (bad)
            return 3;
    }
    return 0;
}

/* One lookup after the other; 0 where there is no route. */
void ghdpdk_each(const uint32_t *addrs, uint32_t *out, size_t n)
{
    for (size_t k = 0; k < n; k++) {
        uint32_t hop = 0;
        out[k] = rte_lpm_lookup(lpm, addrs[k], &hop) == 0 ? hop : 0;
    }
}

/* In bulk, 64 at a time. Each word has the flag of a hit at bit 24; the caller looks at the low 16 bits. */
void ghdpdk_bulk(const uint32_t *addrs, uint32_t *out, size_t n)
{
    for (size_t k = 0; k < n; k += 64)
        rte_lpm_lookup_bulk(lpm, addrs + k, out + k, n - k < 64 ? (unsigned)(n - k) : 64);
}

/* Four at a time with vector instructions; 0 where there is no route. n is a multiple of 4. */
void ghdpdk_four(const uint32_t *addrs, uint32_t *out, size_t n)
{
    for (size_t k = 0; k + 4 <= n; k += 4) {
        xmm_t four;
        __builtin_memcpy(&four, addrs + k, sizeof four);
        rte_lpm_lookupx4(lpm, four, out + k, 0);
    }
}
