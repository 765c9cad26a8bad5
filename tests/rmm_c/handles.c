/* Closed handles, settings out of their range, two machines at once, accesses that a host may not make, judgements, and
 * the texts of lines.
 * The last line is `N checks passed`. */
#include "life.h"

static unsigned passed;

#define CHECKED(IT) \
    do {            \
        WANTED(IT); \
        passed++;   \
    } while (0)

static bool is_zero(const void *it, size_t size)
{
    for (size_t k = 0; k < size; k++)
        if (((const uint8_t *)it)[k] != 0)
            return false;
    return true;
}

/* On a closed handle there is no RMM, no memory, no REC and nothing to read, and nothing is written. */
static bool closed(void)
{
    rmm_handle handle = RMM_CLOSED;
    rmm_registers registers = {RMM_FID_VERSION, 1, 2, 3, 4, 5, 6};
    rmm_step step = {RMM_STEP_SPIN, 0, 0, 0, 0};
    rmm_step_result result = {8, 9};
    rmm_realm realm = {.state = 7};
    rmm_rec rec = {.state = 7};
    uint64_t word = 3;
    uint8_t byte = 5;
    rmm_smc(&handle, &registers);
    CHECKED(registers.x0 == RMM_NOT_SUPPORTED && registers.x1 == 1 && registers.x4 == 4 && registers.x6 == 6);
    CHECKED(rmm_deciding_check(&handle, &registers) == 0 && rmm_is_allowed(&handle, &registers, RMM_NOT_SUPPORTED));
    CHECKED(!rmm_is_allowed(&handle, &registers, RMM_SUCCESS) && !rmm_is_allowed(&handle, &registers, RMM_ERROR_INPUT));
    CHECKED(!rmm_load(&handle, RD, &byte, 1) && byte == 5 && !rmm_store(&handle, RD, &byte, 1));
    CHECKED(rmm_guest(&handle, REC, &step) == RMM_NO_REC);
    CHECKED(!rmm_interrupt(&handle, REC, &word) && word == 3);
    CHECKED(!rmm_result(&handle, REC, 0, &result) && result.kind == 8 && result.value == 9);
    CHECKED(!rmm_read_state(&handle, RD, &word) && !rmm_read_word(&handle, RD, 0, &word) && word == 3);
    CHECKED(!rmm_read_realm(&handle, RD, &realm) && realm.state == 7);
    CHECKED(!rmm_read_rec(&handle, REC, &rec) && rec.state == 7);
    rmm_close(&handle);
    CHECKED(!handle.is_open && handle.monitor == NULL);
    return true;
}

/* A setting, the least and the greatest values that it has, and a value out of its range. */
static const struct range {
    size_t offset;
    uint64_t least, most, out;
} ranges[] = {
    {offsetof(rmm_settings, granules), 1, 4096, 0},
    {offsetof(rmm_settings, granules), 1, 4096, 4097},
    {offsetof(rmm_settings, granules), 1, 4096, 0x100000001},
    {offsetof(rmm_settings, base), 0, 0x7ffffffff000, 0x800000000000},
    {offsetof(rmm_settings, base), 0, 0x1000, 0x1008},
    {offsetof(rmm_settings, secure_base), 0, 0x7ffffffff000, 0x800},
    {offsetof(rmm_settings, secure_count), 0, 0xffff, 0x10000},
    {offsetof(rmm_settings, aux), 0, 16, 17},
    {offsetof(rmm_settings, aux), 0, 16, 0x100},
    {offsetof(rmm_settings, vmid_bits), 8, 16, 12},
    {offsetof(rmm_settings, s2sz), 32, 48, 31},
    {offsetof(rmm_settings, s2sz), 32, 48, 49},
    {offsetof(rmm_settings, max_recs_order), 0, 15, 16},
    {offsetof(rmm_settings, block_level), 1, 2, 3},
    {offsetof(rmm_settings, block_level), 1, 2, 0},
    {offsetof(rmm_settings, bps), 0, 63, 64},
    {offsetof(rmm_settings, wps), 0, 63, 64},
    {offsetof(rmm_settings, lrs), 0, 15, 16},
    {offsetof(rmm_settings, layout), RMM_REL0, RMM_EAC5, 2},
};

static uint64_t opened_with(rmm_handle *handle, size_t offset, uint64_t value)
{
    rmm_settings settings = RMM_DEFAULTS;
    memcpy((uint8_t *)&settings + offset, &value, sizeof value);
    return rmm_open(handle, &settings);
}

static bool settings(void)
{
    rmm_handle handle = RMM_CLOSED;
    for (size_t k = 0; k < sizeof ranges / sizeof ranges[0]; k++) {
        CHECKED(opened_with(&handle, ranges[k].offset, ranges[k].least) == RMM_OPENED);
        rmm_close(&handle);
        CHECKED(opened_with(&handle, ranges[k].offset, ranges[k].most) == RMM_OPENED);
        CHECKED(opened_with(&handle, ranges[k].offset, ranges[k].least) == RMM_ALREADY_OPEN);
        rmm_close(&handle);
        CHECKED(opened_with(&handle, ranges[k].offset, ranges[k].out) == RMM_NO_MACHINE);
        CHECKED(!handle.is_open && handle.monitor == NULL);
    }
    return true;
}

/* Two machines at once: neither sees the other's granules, realms or bytes. */
static bool two_machines(void)
{
    rmm_handle one = RMM_CLOSED, other = RMM_CLOSED;
    rmm_realm realm;
    uint64_t state = 0, lower = 0, higher = 0;
    uint8_t byte = 9;
    CHECKED(opened(&one, PAGE_COUNT) == RMM_OPENED && opened(&other, PAGE_COUNT) == RMM_OPENED);
    CHECKED(make_realm(&one, 1, 3));
    CHECKED(rmm_read_state(&other, RD, &state) && state == RMM_UNDELEGATED && !rmm_read_realm(&other, RD, &realm));
    CHECKED(rmm_load(&other, SOURCE, &byte, 1) && byte == 0);
    CHECKED(live(&other, 1, 4) && run_realm(&one, 3));
    rmm_close(&other);
    CHECKED(end_realm(&one));
    CHECKED(rmm_version(&one, 0x10000, &lower, &higher) == RMM_SUCCESS && lower == 0x10000 && higher == 0x10000);
    CHECKED(rmm_version(&other, 0x10000, NULL, NULL) == RMM_NOT_SUPPORTED);
    rmm_close(&one);
    return true;
}

/* Bytes within a granule of the host's, and no others. */
static bool accesses(void)
{
    rmm_handle handle = RMM_CLOSED;
    uint8_t bytes[RMM_GRANULE_SIZE + 1] = {1, 2, 3};
    uint8_t read[4] = {0};
    uint64_t end = RD + 4 * (uint64_t)RMM_GRANULE_SIZE;
    CHECKED(opened(&handle, 4) == RMM_OPENED);
    CHECKED(rmm_store(&handle, RD, bytes, RMM_GRANULE_SIZE) && !rmm_store(&handle, RD, bytes, sizeof bytes));
    CHECKED(rmm_store(&handle, RD + 0xffd, bytes, 3) && !rmm_store(&handle, RD + 0xffe, bytes, 3));
    CHECKED(rmm_load(&handle, RD + 0xffc, read, 4) && read[0] == 0 && read[1] == 1 && read[2] == 2 && read[3] == 3);
    CHECKED(!rmm_load(&handle, RD + 0xffd, read, 4) && read[0] == 0);
    CHECKED(rmm_store(&handle, RD + 5, bytes, 3) && rmm_load(&handle, RD + 4, read, 4) && read[1] == 1 && read[3] == 3);
    CHECKED(rmm_load(&handle, RD, read, 0) && !rmm_load(&handle, end, read, 0) && !rmm_load(&handle, RD - 1, read, 1));
    CHECKED(rmm_load(&handle, end - 1, read, 1) && !rmm_load(&handle, end, read, 1));
    CHECKED(!rmm_load(&handle, UINT64_MAX, read, 1) && !rmm_store(&handle, UINT64_MAX - 7, bytes, 8));
    CHECKED(rmm_granule_delegate(&handle, RD) == RMM_SUCCESS && !rmm_load(&handle, RD, read, 1));
    CHECKED(!rmm_store(&handle, RD, bytes, 1) && rmm_granule_undelegate(&handle, RD) == RMM_SUCCESS);
    CHECKED(rmm_load(&handle, RD + 0xffc, read, 4) && is_zero(read, sizeof read));
    rmm_close(&handle);
    return true;
}

static uint64_t line(rmm_handle *handle, const char *text, char *answer, size_t capacity)
{
    return rmm_line(handle, text, strlen(text), answer, capacity);
}

/* A text is cut before the zero that ends it, and the bytes after that stay. A platform gives a fresh machine. */
static bool lines(void)
{
    rmm_handle handle = RMM_CLOSED;
    char answer[16] = "...............";
    CHECKED(line(&handle, "state 0x80000000", answer, 16) == 10 && strcmp(answer, "no command") == 0 && !handle.is_open);
    CHECKED(answer[10] == 0 && answer[11] == '.' && answer[14] == '.');
    CHECKED(line(&handle, "platform 0x80000000 0", answer, 16) == 10 && !handle.is_open);
    CHECKED(line(&handle, "platform 0x80000000 4", answer, 16) == 0 && answer[0] == 0 && handle.is_open);
    CHECKED(line(&handle, "rmi_granule_delegate 0x80000000 = RMI_ERROR_INPUT # it is", answer, 16) == 11);
    CHECKED(strcmp(answer, "RMI_SUCCESS") == 0);
    CHECKED(line(&handle, "state 0x80000000", answer, 5) == 9 && strcmp(answer, "DELE") == 0 && answer[5] == 'U');
    CHECKED(line(&handle, "state 0x80000000", answer, 10) == 9 && strcmp(answer, "DELEGATED") == 0 && answer[10] == 'S');
    CHECKED(line(&handle, "state 0x80001000", answer, 1) == 11 && answer[0] == 0 && answer[1] == 'E');
    CHECKED(line(&handle, "state 0x80001000", answer, 0) == 11 && answer[0] == 0);
    CHECKED(line(&handle, "# state", answer, 16) == 0 && line(&handle, "", answer, 16) == 0);
    CHECKED(line(&handle, "state 0x80000000\n", answer, 16) == 10 && strcmp(answer, "no command") == 0);
    CHECKED(line(&handle, "platform 0x80000000 4 aux 17", answer, 16) == 10);
    CHECKED(line(&handle, "state 0x80000000", answer, 16) == 9 && line(&handle, "platform 0x80000000 2", answer, 16) == 0);
    CHECKED(line(&handle, "state 0x80000000", answer, 16) == 11 && strcmp(answer, "UNDELEGATED") == 0);
    CHECKED(line(&handle, "state 0x80002000", answer, 16) == 4 && strcmp(answer, "none") == 0);
    rmm_close(&handle);
    return true;
}

/* A guest has 16 steps at a time, and an address that is none of a REC has no guest. */
static bool guests(void)
{
    rmm_handle handle = RMM_CLOSED;
    rmm_step wait = {RMM_STEP_WFI, 0, 0, 0, 0};
    rmm_rec rec;
    uint64_t word = 0;
    memset(&rec, 0xff, sizeof rec);
    CHECKED(opened(&handle, PAGE_COUNT) == RMM_OPENED && make_realm(&handle, 1, 3));
    for (unsigned k = 0; k < 16; k++)
        CHECKED(rmm_guest(&handle, REC, &wait) == RMM_QUEUED);
    CHECKED(rmm_guest(&handle, REC, &wait) == RMM_FULL);
    CHECKED(rmm_guest(&handle, REC + 8, &wait) == RMM_NO_REC && rmm_guest(&handle, RD, &wait) == RMM_NO_REC);
    CHECKED(rmm_read_rec(&handle, REC, &rec) && rec.step_count == 16 && rec.state == RMM_READY);
    CHECKED(rec.is_runnable == 1 && rec.is_psci_pending == 0);
    CHECKED(!rmm_read_rec(&handle, REC + 8, &rec) && !rmm_interrupt(&handle, REC, &word));
    CHECKED(!rmm_read_word(&handle, RD, 512, &word) && !rmm_read_word(&handle, RD, UINT64_MAX, &word));
    rmm_close(&handle);
    return true;
}

/* RMI_DATA_CREATE in an ACTIVE realm, of a source that is DELEGATED. RMM 1.0 orders neither check after the other. */
static bool judgements(void)
{
    const uint64_t page = 0x80006000, source = 0x80007000;
    const rmm_registers data_create = {RMM_FID_DATA_CREATE, RD, page, 0x1000, source, 0, 0};
    rmm_registers asked = data_create, other = {0xC4000156, 1, 2, 3, 4, 5, 6};
    rmm_handle handle = RMM_CLOSED;
    CHECKED(opened(&handle, PAGE_COUNT) == RMM_OPENED && make_realm(&handle, 1, 3) && delegated(&handle, page, 2));
    CHECKED(rmm_realm_activate(&handle, RD) == RMM_SUCCESS);
    CHECKED(rmm_deciding_check(&handle, &asked) == RMM_CHECK_SRC_PAS && asked.x0 == RMM_FID_DATA_CREATE);
    CHECKED(rmm_is_allowed(&handle, &asked, RMM_ERROR_INPUT) && rmm_is_allowed(&handle, &asked, RMM_ERROR_REALM));
    CHECKED(!rmm_is_allowed(&handle, &asked, RMM_SUCCESS) && !rmm_is_allowed(&handle, &asked, RMM_ERROR_RTT | 3 << 8));
    CHECKED(!rmm_is_allowed(&handle, &asked, RMM_ERROR_REALM | 1 << 8) && !rmm_is_allowed(&handle, &asked, UINT64_MAX));
    CHECKED(rmm_checked_smc(&handle, &asked) == RMM_CHECK_SRC_PAS && asked.x0 == RMM_ERROR_INPUT);
    CHECKED(rmm_granule_undelegate(&handle, source) == RMM_SUCCESS);
    CHECKED(rmm_deciding_check(&handle, &data_create) == RMM_CHECK_REALM_STATE);
    CHECKED(rmm_is_allowed(&handle, &data_create, RMM_ERROR_REALM));
    CHECKED(!rmm_is_allowed(&handle, &data_create, RMM_ERROR_INPUT));
    CHECKED(rmm_deciding_check(&handle, &other) == 0 && rmm_is_allowed(&handle, &other, RMM_NOT_SUPPORTED));
    CHECKED(!rmm_is_allowed(&handle, &other, RMM_SUCCESS));
    CHECKED(strcmp(rmm_check_name(RMM_CHECK_SRC_PAS), "src_pas") == 0 && strcmp(rmm_check_name(76), "status") == 0);
    CHECKED(strcmp(rmm_check_name(0), "?") == 0 && strcmp(rmm_check_name(77), "?") == 0);
    rmm_close(&handle);
    return true;
}

/* The first RIM of a realm with 33 bits: by hand, SHA-256 of RmiRealmParams with nothing but s2sz. */
static bool measurement(void)
{
    static const char wanted[] = "bf97de388b1abb45577017aa8a9a8d1f160889b11df8e5803e2bf9d8a33e788c";
    rmm_realm_params params = {0};
    rmm_handle handle = RMM_CLOSED;
    rmm_realm realm;
    char digits[65] = "";
    params.s2sz = 33;
    params.rtt_base = ROOT;
    params.rtt_level_start = 2;
    params.rtt_num_start = ROOTS;
    CHECKED(opened(&handle, PAGE_COUNT) == RMM_OPENED && delegated(&handle, RD, 1) && delegated(&handle, ROOT, ROOTS));
    CHECKED(stored(&handle, PARAMS, &params) && rmm_realm_create(&handle, RD, PARAMS) == RMM_SUCCESS);
    CHECKED(rmm_read_realm(&handle, RD, &realm) && realm.state == RMM_NEW && realm.hash_algo == RMM_SHA_256);
    CHECKED(realm.s2sz == 33 && realm.rtt_base == ROOT && realm.rtt_num_start == ROOTS && realm.rec_count == 0);
    for (int k = 0; k < 32; k++)
        snprintf(digits + 2 * k, 3, "%02x", (unsigned)realm.rim[k]);
    CHECKED(strcmp(digits, wanted) == 0 && is_zero(realm.rim + 32, 32));
    rmm_close(&handle);
    return true;
}

int main(void)
{
    if (!closed() || !settings() || !two_machines() || !accesses() || !lines() || !guests() ||
        !judgements() || !measurement())
        return 1;
    printf("%u checks passed\n", passed);
    return 0;
}
