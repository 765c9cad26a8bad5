/* A host that boots a realm and takes it down, with the calls of rmi_calls.h in the sequence of KVM with kvmtool. */
#include "host.h"

#include "granules.h"
#include "rmi_calls.h"

#include <string.h>

#define ATTRIBUTES 0xd8 /* of a descriptor: normal memory, to be read and written */

/* ---- tables and pages */

/* Whether a walk has ended above level 3, so that a table is missing. */
static bool is_table_missing(unsigned long word)
{
    return RMI_RETURN_STATUS(word) == RMI_ERROR_RTT && RMI_RETURN_INDEX(word) < 3;
}

/* Makes the table that a walk lacks. */
static bool create_table(const struct host *host, uint64_t ipa, unsigned long word)
{
    unsigned level = (unsigned)RMI_RETURN_INDEX(word) + 1;
    uint64_t covered = UINT64_C(1) << (12 + 9 * (4 - level)), rtt = alloc_delegated(1);
    bool is_made = rtt != 0 && rmi_rtt_create(host->rd, rtt, ipa - ipa % covered, level) == RMI_SUCCESS;
    if (!is_made && LEAK != 2)
        free_delegated(rtt, 1);
    return is_made;
}

/* Maps a page with the bytes of `src`, or for 0 with bytes that are not said. */
bool host_map_page(const struct host *host, uint64_t ipa, uint64_t src)
{
    uint64_t data = alloc_delegated(1);
    unsigned long word;
    if (data == 0)
        return false;
    do
        word = src != 0 ? rmi_data_create(host->rd, data, ipa, src, RMM_MEASURE_CONTENT)
                        : rmi_data_create_unknown(host->rd, data, ipa);
    while (is_table_missing(word) && create_table(host, ipa, word));
    if (word != RMI_SUCCESS && LEAK != 3)
        free_delegated(data, 1);
    return word == RMI_SUCCESS;
}

/* Maps a page of the host, which it shares with the guest. */
bool host_map_shared(struct host *host, uint64_t ipa)
{
    unsigned long word;
    if (host->shared == 0)
        host->shared = alloc_pages(1);
    do
        word = rmi_rtt_map_unprotected(host->rd, ipa, 3, host->shared | ATTRIBUTES);
    while (is_table_missing(word) && create_table(host, ipa, word));
    return word == RMI_SUCCESS;
}

/* A range becomes RAM before the realm is ACTIVE, or for a REC the RIPAS that its guest has asked for: as far as a call
 * comes, and on from there. */
bool host_set_ripas(const struct host *host, uint64_t rec, uint64_t base, uint64_t top)
{
    while (base < top) {
        unsigned long next = 0, word = rec != 0 ? rmi_rtt_set_ripas(host->rd, rec, base, top, &next)
                                                : rmi_rtt_init_ripas(host->rd, base, top, &next);
        if (word == RMI_SUCCESS)
            base = next;
        else if (!is_table_missing(word) || !create_table(host, base, word))
            return false;
    }
    return true;
}

/* ---- boot */

static bool create_realm(struct host *host)
{
    uint64_t page = alloc_pages(1), rd = alloc_delegated(1), tables = alloc_delegated(HOST_TABLES);
    bool is_made = page != 0 && rd != 0 && tables != 0;
    if (is_made) {
        *(rmm_realm_params *)page_at(page) =
            (rmm_realm_params){.s2sz = HOST_S2SZ, .rtt_base = tables, .rtt_level_start = HOST_START_LEVEL,
                               .rtt_num_start = HOST_TABLES, .vmid = 1};
        is_made = rmi_realm_create(rd, page) == RMI_SUCCESS;
    }
    free_pages(page, 1);
    if (is_made) {
        host->rd = rd;
        host->tables = tables;
        return true;
    }
    free_delegated(rd, 1);
    if (LEAK != 4)
        free_delegated(tables, HOST_TABLES);
    return false;
}

static bool load_image(const struct host *host, unsigned pages)
{
    uint64_t page = alloc_pages(1);
    bool is_right = page != 0;
    if (is_right)
        memset(page_at(page), 7, PAGE_SIZE);
    for (unsigned k = 0; is_right && k < pages; k++)
        is_right = host_map_page(host, HOST_RAM + k * (uint64_t)PAGE_SIZE, page);
    free_pages(page, 1);
    return is_right;
}

static void free_rec(struct host_rec *it, uint64_t rec)
{
    for (unsigned k = 0; k < HOST_AUX; k++)
        free_delegated(it->aux[k], 1);
    free_delegated(rec, 1);
    free_pages(it->run, 1);
    *it = (struct host_rec){0};
}

static bool alloc_aux(struct host_rec *it, unsigned long count)
{
    for (unsigned long k = 0; k < count; k++)
        if (k == HOST_AUX || (it->aux[k] = alloc_delegated(1)) == 0)
            return false;
    return true;
}

static bool create_rec(struct host *host, unsigned number)
{
    struct host_rec *it = &host->recs[number];
    unsigned long count = 0;
    bool is_counted = rmi_rec_aux_count(host->rd, &count) == RMI_SUCCESS;
    uint64_t page = alloc_pages(1), rec = alloc_delegated(1);
    it->run = alloc_pages(1);
    if (is_counted && page != 0 && rec != 0 && it->run != 0 && alloc_aux(it, count)) {
        rmm_rec_params *params = page_at(page);
        *params = (rmm_rec_params){.flags = number == 0, .mpidr = number, .pc = HOST_RAM, .num_aux = count};
        memcpy(params->aux, it->aux, sizeof it->aux);
        *(rmm_rec_run *)page_at(it->run) = (rmm_rec_run){0};
        it->rec = rmi_rec_create(host->rd, rec, page) == RMI_SUCCESS ? rec : 0;
    }
    free_pages(page, 1);
    if (it->rec == 0 && LEAK != 5)
        free_rec(it, rec);
    return it->rec != 0;
}

bool host_boot(struct host *host, unsigned pages)
{
    unsigned long lower, higher, features;
    bool is_right = rmi_version(0x10000, &lower, &higher) == RMI_SUCCESS && rmi_features(0, &features) == RMI_SUCCESS;
    is_right = is_right && create_realm(host) && host_set_ripas(host, 0, HOST_RAM, HOST_RAM_END);
    is_right = is_right && load_image(host, pages);
    for (unsigned k = 0; is_right && k < HOST_RECS; k++)
        is_right = create_rec(host, k);
    return is_right && rmi_realm_activate(host->rd) == RMI_SUCCESS;
}

/* ---- down */

/* A call that unmaps one entry. Its output `top` is the address of the next live one. */
typedef unsigned long unmap_one(uint64_t rd, uint64_t ipa, unsigned long *granule, unsigned long *top);

static unsigned long unmap_shared(uint64_t rd, uint64_t ipa, unsigned long *granule, unsigned long *top)
{
    *granule = 0;
    return rmi_rtt_unmap_unprotected(rd, ipa, 3, top);
}

static unsigned long unmap_table(uint64_t rd, uint64_t ipa, unsigned long *granule, unsigned long *top)
{
    return rmi_rtt_destroy(rd, ipa, 3, granule, top);
}

static bool unmap(const struct host *host, uint64_t ipa, uint64_t end, unmap_one *one)
{
    while (ipa < end) {
        unsigned long granule = 0, top = 0, word = one(host->rd, ipa, &granule, &top);
        if (word == RMI_SUCCESS)
            free_delegated(granule, 1);
        else if (RMI_RETURN_STATUS(word) != RMI_ERROR_RTT || top <= ipa)
            return false;
        ipa = top;
    }
    return true;
}

bool host_unmap_pages(const struct host *host, uint64_t ipa, uint64_t end)
{
    return unmap(host, ipa, end, rmi_data_destroy);
}

static bool destroy_realm(struct host *host)
{
    bool is_empty = host_unmap_pages(host, 0, HOST_UNPROTECTED) &&
                    unmap(host, HOST_UNPROTECTED, 2 * HOST_UNPROTECTED, unmap_shared) &&
                    unmap(host, 0, 2 * HOST_UNPROTECTED, unmap_table);
    if (!is_empty || rmi_realm_destroy(host->rd) != RMI_SUCCESS)
        return false;
    free_delegated(host->rd, 1);
    free_delegated(host->tables, HOST_TABLES);
    host->rd = 0;
    return true;
}

static bool take_down(struct host *host)
{
    for (unsigned k = 0; k < HOST_RECS; k++) {
        struct host_rec *it = &host->recs[k];
        if (it->rec != 0 && rmi_rec_destroy(it->rec) != RMI_SUCCESS)
            return false;
        if (it->rec != 0)
            free_rec(it, it->rec);
    }
    if (host->rd != 0 && !destroy_realm(host))
        return false;
    free_pages(host->shared, 1);
    host->shared = 0;
    return true;
}

bool host_down(struct host *host) { return take_down(host) || take_down(host); }
