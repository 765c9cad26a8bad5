/* Random calls, loads, stores, steps of guests and lines of traces, as the bytes of libFuzzer ask for them. After each
 * of them is checked:
 *
 *   - a call is refused exactly if a check decides it, and its word is one that is allowed;
 *   - a call that is refused or is no command changes the state of no granule, and is decided by the same check again;
 *   - X5 and X6 stay, and so do X1 to X4 of what is no command;
 *   - the pages of the host have the bytes that it stored. A granule that comes back from the RMM is zero, and only an
 *     entry or an interrupt writes to pages of the host's;
 *   - an access writes its own bytes and no others, and is refused as a whole;
 *   - the text of a line ends with a zero in its room, and no byte after that is written. A call by a line is one by
 *     registers.
 *
 * PLANTED is the number of a wrong library that has to be found. Without libFuzzer, as with -DALONE, a program replays
 * the inputs of the files that it is given. */
#include "life.h"

#include <inttypes.h>
#include <stdlib.h>

enum { COMMANDS = 0x1a, CHECKS = 77, FIRST_COMMAND = 0x150, AROUND = 16 };

/* A counter for each command with each check that decides it: what libFuzzer tries to raise. */
#ifndef ALONE
__attribute__((section("__libfuzzer_extra_counters")))
#endif
static uint8_t met[COMMANDS * CHECKS];

static const uint64_t BASE = 0x80000000, GRANULE = RMM_GRANULE_SIZE;

/* The bytes that the host stored, of each granule that is its own. */
static uint8_t stored_pages[PAGE_COUNT][RMM_GRANULE_SIZE];
static rmm_handle handle = RMM_CLOSED;
/* The machine of random lines, which have platforms of their own. */
static rmm_handle other_handle = RMM_CLOSED;

#define HOLDS(IT)                                                       \
    do {                                                                \
        if (!(IT)) {                                                    \
            fprintf(stderr, "%s:%d: not %s\n", __FILE__, __LINE__, #IT); \
            abort();                                                    \
        }                                                               \
    } while (0)

/* ---- the library, or a wrong one */

#ifndef PLANTED
#define PLANTED 0
#endif

/* A line, and its answer in a room that has to be kept to. */
static uint64_t answered(rmm_handle *to, const char *line, char *answer, size_t capacity)
{
    char room[RMM_ANSWER_SIZE + AROUND], before[sizeof room];
    memset(room, 'x', sizeof room);
    memset(before, 'x', sizeof before);
    uint64_t count = rmm_line(to, line, strlen(line), room, capacity);
    HOLDS(count < RMM_ANSWER_SIZE);
    size_t kept = count < capacity ? (size_t)count + 1 : capacity;
    if (PLANTED == 5 && count >= capacity && capacity != 0)
        room[kept - 1] = '.';
    HOLDS(kept == 0 || memchr(room, 0, sizeof room) == room + kept - 1);
    HOLDS(memcmp(room + kept, before, sizeof room - kept) == 0);
    memcpy(answer, room, capacity);
    return count;
}

/* A call as a line. Its answer has X0 first. */
static void call_by_line(rmm_registers *it)
{
    char line[160], answer[RMM_ANSWER_SIZE];
    const uint64_t x[] = {it->x0, it->x1, it->x2, it->x3, it->x4, it->x5, it->x6};
    int length = snprintf(line, sizeof line, "smc");
    for (unsigned k = 0; k < sizeof x / sizeof x[0]; k++)
        length += snprintf(line + length, sizeof line - (size_t)length, " 0x%" PRIx64, x[k]);
    answered(&handle, line, answer, sizeof answer);
    it->x0 = strtoull(answer, NULL, 16);
}

static void call(rmm_registers *registers, bool is_line)
{
    uint64_t asked = registers->x0, operand = registers->x1;
    uint8_t byte = 1;
    if (is_line)
        call_by_line(registers);
    else
        rmm_smc(&handle, registers);
    bool is_delegate = asked == RMM_FID_GRANULE_DELEGATE, is_refused = registers->x0 != RMM_SUCCESS;
    if (PLANTED == 1 && is_delegate && is_refused)
        rmm_store(&handle, BASE + (operand & 0x1f000), &byte, 1);
    if (PLANTED == 2 && asked == RMM_FID_GRANULE_UNDELEGATE && !is_refused)
        rmm_store(&handle, operand + 0xfff, &byte, 1);
    if (PLANTED == 3 && asked == RMM_FID_RTT_DESTROY && rmm_status(registers->x0) == RMM_ERROR_RTT)
        registers->x0 ^= 1 << 8;
    if (PLANTED == 4 && asked == RMM_FID_REC_DESTROY && !is_refused)
        registers->x6 = 0;
}

/* ---- the bytes of the input */

static const uint8_t *at, *end;

static uint8_t next(void) { return at < end ? *at++ : 0; }

static uint64_t next_number(unsigned bytes)
{
    uint64_t number = 0;
    for (unsigned k = 0; k < bytes; k++)
        number |= (uint64_t)next() << 8 * k;
    return number;
}

/* An address: of a granule of the machine, sometimes of none, and sometimes of no granule's begin. Half of them are of
 * four granules that no realm begins with. */
static uint64_t next_address(void)
{
    uint8_t which = next();
    uint64_t address = BASE + GRANULE * (which < 128 ? 20 + which % 4 : which % (PAGE_COUNT + 1));
    return which < 250 ? address : address + next_number(which == 255 ? 8 : 1);
}

/* An IPA, a multiple of what an entry of some level maps. The realm has 33 bits. */
static uint64_t next_ipa(void)
{
    uint8_t which = next();
    static const unsigned bits[] = {12, 12, 21, 21, 30, 39};
    uint64_t ipa = (uint64_t)(which >> 4) << bits[which % 6];
    return (which & 8) != 0 ? ipa | (uint64_t)1 << 32 : ipa;
}

/* The address that is likely for an operand of a kind: r(d), (re)c, p(arameters), (r)u(n), s(ource). */
static uint64_t likely(char kind)
{
    return kind == 'r' ? RD : kind == 'c' ? REC : kind == 'p' ? PARAMS : kind == 'u' ? RUN : SOURCE;
}

/* An operand of a kind: one of the above, a(ddress), i(pa), l(evel), d(escriptor), n(umber). One of 16 is any number. */
static uint64_t next_operand(char kind)
{
    uint8_t which = next();
    if (which >= 240)
        return next_number(8);
    switch (kind) {
    case 'r':
    case 'c':
    case 'p':
    case 'u':
    case 's':
        return which < 180 ? likely(kind) : next_address();
    case 'a':
        return next_address();
    case 'i':
        return next_ipa();
    case 'l':
        return which % 5;
    case 'd':
        return next_address() | (uint64_t)(which % 16) << 2;
    default:
        return which < 220 ? which % 4 : 0 - (uint64_t)(which % 10);
    }
}

/* The kinds of the operands of a command, by its number from FIRST_COMMAND on. */
static const char *const operands[COMMANDS] = {
    "n",    "a",   "a",   "raisn", "rai",  "ri",  "",   "r",   "rp", "r",   "rcp", "c",   "cu",
    "rail", "ril", "rild", "",     "ril",  "ril", "",   "ccn", "n",  "ril", "r",   "rii", "rcii",
};

/* ---- the pages of the host */

static unsigned place_of(uint64_t address) { return (unsigned)((address - BASE) / GRANULE); }

static bool is_of_host(uint64_t address)
{
    uint64_t state;
    return rmm_read_state(&handle, address - address % GRANULE, &state) && state == RMM_UNDELEGATED;
}

/* The page of an address has the bytes that are kept of it, if it is the host's. */
static void check_page(uint64_t address)
{
    uint64_t begin = address - address % GRANULE, word = 0, kept;
    if (!is_of_host(begin))
        return;
    for (unsigned k = 0; k < RMM_GRANULE_SIZE / sizeof word; k++) {
        memcpy(&kept, stored_pages[place_of(begin)] + k * sizeof word, sizeof word);
        HOLDS(rmm_read_word(&handle, begin, k, &word) && word == kept);
    }
}

/* The host loads the bytes that are kept of its pages, and no others. */
static void check_pages(void)
{
    uint8_t page[RMM_GRANULE_SIZE];
    for (unsigned k = 0; k < PAGE_COUNT; k++) {
        uint64_t begin = BASE + k * GRANULE;
        HOLDS(rmm_load(&handle, begin, page, sizeof page) == is_of_host(begin));
        HOLDS(!is_of_host(begin) || memcmp(page, stored_pages[k], sizeof page) == 0);
    }
}

/* The pages are kept as they are, since a guest or an exit may have written to any. */
static void keep_pages(void)
{
    uint64_t word = 0;
    for (unsigned k = 0; k < PAGE_COUNT; k++)
        for (unsigned n = 0; n < RMM_GRANULE_SIZE / sizeof word; n++) {
            HOLDS(rmm_read_word(&handle, BASE + k * GRANULE, n, &word));
            memcpy(stored_pages[k] + n * sizeof word, &word, sizeof word);
        }
}

/* ---- operations */

static void read_states(uint64_t *states)
{
    for (unsigned k = 0; k < PAGE_COUNT; k++)
        HOLDS(rmm_read_state(&handle, BASE + k * GRANULE, &states[k]));
}

static void check_refused(const rmm_registers *asked, uint64_t check, const uint64_t *states)
{
    uint64_t after[PAGE_COUNT];
    read_states(after);
    HOLDS(memcmp(after, states, sizeof after) == 0);
    HOLDS(rmm_deciding_check(&handle, asked) == check);
    check_page(asked->x1);
    check_page(asked->x2);
}

static void perform(rmm_registers asked, bool is_line)
{
    uint64_t states[PAGE_COUNT];
    read_states(states);
    rmm_registers after = asked;
    uint64_t check = rmm_deciding_check(&handle, &asked);
    uint64_t number = asked.x0 - 0xC4000000 - FIRST_COMMAND;
    HOLDS(check < CHECKS);
    if (number < COMMANDS)
        met[number * CHECKS + check] = 1;
    bool is_success_allowed = rmm_is_allowed(&handle, &asked, RMM_SUCCESS);
    call(&after, is_line);
    HOLDS(after.x5 == asked.x5 && after.x6 == asked.x6);
    if (after.x0 == RMM_NOT_SUPPORTED) {
        HOLDS(check == 0 && after.x1 == asked.x1 && after.x2 == asked.x2 && after.x3 == asked.x3 && after.x4 == asked.x4);
        HOLDS(!is_success_allowed && rmm_is_allowed(&handle, &asked, RMM_NOT_SUPPORTED));
        check_refused(&asked, check, states);
    } else if (after.x0 == RMM_SUCCESS || after.x0 == RMM_RUNS_ON) {
        HOLDS(check == 0 && is_success_allowed);
        if (asked.x0 == RMM_FID_GRANULE_UNDELEGATE)
            memset(stored_pages[place_of(asked.x1)], 0, RMM_GRANULE_SIZE);
        if (asked.x0 == RMM_FID_REC_ENTER)
            keep_pages();
    } else {
        HOLDS(check != 0 && !is_success_allowed && rmm_is_allowed(&handle, &asked, after.x0));
        check_refused(&asked, check, states);
    }
}

static void call_next(void)
{
    rmm_registers asked = {0xC4000000 + FIRST_COMMAND, 0, 0, 0, 0, 0, 0};
    uint64_t *registers[] = {&asked.x1, &asked.x2, &asked.x3, &asked.x4, &asked.x5, &asked.x6};
    uint8_t which = next();
    const char *kinds = operands[which % COMMANDS];
    asked.x0 += which % COMMANDS;
    if (which >= 250)
        asked.x0 = next_number(8);
    for (size_t k = 0; k < strlen(kinds); k++)
        *registers[k] = next_operand(kinds[k]);
    asked.x6 = which;
    perform(asked, which % 8 == 7);
}

/* Bytes between others, which have to stay. */
static void access_next(void)
{
    uint8_t room[AROUND + RMM_GRANULE_SIZE + 1 + AROUND], before[sizeof room];
    uint64_t address = next_address() + next_number(2) % GRANULE;
    uint8_t which = next();
    size_t count = which < 200 ? which % 9 : (size_t)next_number(2) % (RMM_GRANULE_SIZE + 2);
    bool is_inside = count <= GRANULE - address % GRANULE && is_of_host(address);
    uint8_t *bytes = room + AROUND;
    memset(room, which, sizeof room);
    memcpy(before, room, sizeof room);
    if (which % 2 == 0) {
        HOLDS(rmm_store(&handle, address, bytes, count) == is_inside);
        HOLDS(memcmp(before, room, sizeof room) == 0);
        if (is_inside)
            memcpy(stored_pages[place_of(address)] + address % GRANULE, bytes, count);
    } else {
        HOLDS(rmm_load(&handle, address, bytes, count) == is_inside);
        if (is_inside)
            memcpy(before + AROUND, stored_pages[place_of(address)] + address % GRANULE, count);
        HOLDS(memcmp(before, room, sizeof room) == 0);
    }
}

static void store_page(uint64_t address, const void *page)
{
    bool is_host = is_of_host(address);
    HOLDS(rmm_store(&handle, address, page, RMM_GRANULE_SIZE) == is_host);
    if (is_host)
        memcpy(stored_pages[place_of(address)], page, RMM_GRANULE_SIZE);
}

/* Parameters that are right in most fields, at the page of PARAMS or of RUN. */
static void params_next(void)
{
    rmm_realm_params realm = {0};
    rmm_rec_params rec = {0};
    rmm_rec_run run = {0};
    uint8_t which = next();
    switch (which % 3) {
    case 0:
        realm.s2sz = which < 128 ? 33 : next();
        realm.rtt_level_start = which < 192 ? 2 : next() % 5;
        realm.rtt_num_start = which < 192 ? ROOTS : next();
        realm.rtt_base = next_operand('a');
        realm.vmid = next();
        realm.hash_algo = next() % 3;
        store_page(PARAMS, &realm);
        return;
    case 1:
        rec.flags = which % 2;
        rec.mpidr = next() % 20;
        rec.pc = next_number(4);
        rec.num_aux = which < 200 ? AUXILIARIES : next() % 18;
        for (unsigned k = 0; k < AUXILIARIES; k++)
            rec.aux[k] = next_operand('a');
        store_page(PARAMS, &rec);
        return;
    default:
        run.enter.flags = next() % 32;
        run.enter.gprs[0] = next();
        run.enter.gicv3_hcr = which < 200 ? 0 : next_number(8);
        store_page(RUN, &run);
    }
}

static void guest_next(void)
{
    static const char kinds[] = "in";
    uint64_t rec = next_operand('c');
    rmm_step step = {next() % 16, 0, 0, 0, 0};
    step.a = next_operand(kinds[step.kind >= RMM_STEP_HOST_CALL && step.kind != RMM_STEP_SET_RIPAS]);
    step.b = next_operand(step.kind == RMM_STEP_SET_RIPAS ? 'i' : 'n');
    step.c = next_operand('n');
    step.d = next_operand('n');
    rmm_rec attributes;
    bool is_rec = rmm_read_rec(&handle, rec, &attributes);
    uint64_t answer = rmm_guest(&handle, rec, &step);
    HOLDS(answer == (!is_rec ? RMM_NO_REC : attributes.step_count == 16 ? RMM_FULL : RMM_QUEUED));
}

static void interrupt_next(void)
{
    uint64_t rec = next_operand('c'), word = 77;
    rmm_rec attributes;
    bool is_running = rmm_read_rec(&handle, rec, &attributes) && attributes.state == RMM_REC_RUNNING;
    HOLDS(rmm_interrupt(&handle, rec, &word) == is_running && (is_running || word == 77));
    if (is_running)
        keep_pages();
}

/* Readings change nothing: what they read is left to the sanitizers. */
static void read_next(void)
{
    uint64_t address = next_operand("arc"[next() % 3]), number = next_operand('n') + 500 * (next() % 2), word = 0;
    rmm_realm realm;
    rmm_step_result result;
    bool is_read = rmm_read_state(&handle, address, &word);
    bool is_rd = is_read && word == RMM_RD;
    HOLDS(rmm_read_realm(&handle, address, &realm) == is_rd);
    HOLDS(rmm_read_word(&handle, address, number, &word) == (is_read && number < 512));
    (void)rmm_result(&handle, address, number, &result);
}

/* Words of a question, and sometimes a byte between two. */
static void line_next(void)
{
    static const char *const words[] = {
        "platform", "0x80000000", "16", "0x80001000", "aux", "1", "layout", "eac5", "repeat", "rmi_granule_delegate",
        "rmi_granule_undelegate", "smc", "0xc4000151", "state", "sum", "load", "store", "fill", "0", "realm_params",
        "s2sz", "33", "vmid", "rtt_base", "rtt_level_start", "2", "rtt_num_start", "8", "rmi_realm_create", "rim",
        "realm", "rec", "saw", "guest", "spin", "interrupt", "rmi_version", "0x10000", "=", "#",
    };
    char line[512] = "", answer[RMM_ANSWER_SIZE];
    size_t length = 0, capacity = next();
    for (unsigned left = next() % 12; left > 0; left--) {
        const char *word = words[next() % (sizeof words / sizeof words[0])];
        uint8_t between = next();
        line[length++] = between < 250 || between == 0 ? ' ' : (char)between;
        memcpy(line + length, word, strlen(word));
        length += strlen(word);
    }
    line[length] = 0;
    answered(&other_handle, line + (length != 0), answer, capacity < 128 ? capacity : RMM_ANSWER_SIZE);
}

static void step_next(void)
{
    switch (next() % 13) {
    case 12:
        line_next();
        return;
    case 0:
        access_next();
        return;
    case 1:
    case 2:
        params_next();
        return;
    case 3:
        guest_next();
        return;
    case 4:
        interrupt_next();
        return;
    case 5:
        read_next();
        return;
    default:
        call_next();
    }
}

/* A machine with any settings is opened, or refused with the handle as it was. */
static void settings_next(void)
{
    rmm_settings settings = RMM_DEFAULTS;
    rmm_handle other = RMM_CLOSED;
    uint64_t *fields[] = {&settings.granules, &settings.base, &settings.secure_base, &settings.secure_count,
                          &settings.aux, &settings.vmid_bits, &settings.s2sz, &settings.max_recs_order,
                          &settings.block_level, &settings.bps, &settings.wps, &settings.lrs, &settings.layout};
    settings.granules = 4;
    *fields[next() % (sizeof fields / sizeof fields[0])] = next_number(next() % 9);
    if (settings.granules <= 64 && rmm_open(&other, &settings) == RMM_OPENED)
        HOLDS(other.is_open && rmm_open(&other, &settings) == RMM_ALREADY_OPEN);
    else
        HOLDS(!other.is_open && other.monitor == NULL);
    rmm_close(&other);
    HOLDS(!other.is_open);
}

/* The beginning of an input: a fresh machine, or a realm with a page and a REC, NEW or ACTIVE, or after another's life. */
static void begin(uint8_t which)
{
    memset(stored_pages, 0, sizeof stored_pages);
    HOLDS(opened(&handle, PAGE_COUNT) == RMM_OPENED);
    if (which % 4 == 0)
        return;
    HOLDS(which % 4 != 2 || live(&handle, 1, which));
    HOLDS(make_realm(&handle, 1, which));
    if (which % 4 == 3)
        HOLDS(rmm_realm_activate(&handle, RD) == RMM_SUCCESS);
    keep_pages();
}

int LLVMFuzzerTestOneInput(const uint8_t *bytes, size_t count);

int LLVMFuzzerTestOneInput(const uint8_t *bytes, size_t count)
{
    at = bytes;
    end = bytes + count;
    uint8_t which = next();
    if (which >= 240)
        settings_next();
    begin(which);
    while (at < end)
        step_next();
    check_pages();
    rmm_close(&handle);
    rmm_close(&other_handle);
    return 0;
}

#ifdef ALONE
int main(int count, char **files)
{
    static uint8_t bytes[1 << 16];
    for (int k = 1; k < count; k++) {
        FILE *file = fopen(files[k], "rb");
        if (file == NULL)
            return 1;
        size_t size = fread(bytes, 1, sizeof bytes, file);
        fclose(file);
        LLVMFuzzerTestOneInput(bytes, size);
    }
    unsigned pairs = 0;
    for (size_t k = 0; k < sizeof met; k++)
        pairs += met[k];
    printf("%d inputs, %u pairs of a command and its deciding check\n", count - 1, pairs);
    return 0;
}
#endif
