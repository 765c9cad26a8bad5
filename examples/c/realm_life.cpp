// The life of a realm in C++11, as a trace: an RMM that closes itself, and the commands of rmm_commands.h.
#include <rmm_commands.h>

#include <iostream>
#include <stdexcept>

static const uint64_t RD = 0x40000000, TABLE = 0x40001000, DATA = 0x40002000, PARAMS = 0x40003000, ROOT = 0x40004000;

class Rmm {
public:
    Rmm(uint64_t base, uint64_t granules)
    {
        rmm_settings settings = RMM_DEFAULTS;
        settings.base = base;
        settings.granules = granules;
        if (rmm_open(&handle, &settings) != RMM_OPENED)
            throw std::runtime_error("the RMM is not opened");
        std::cout << std::hex << "platform 0x" << base << ' ' << std::dec << granules << '\n';
    }
    ~Rmm() { rmm_close(&handle); }
    Rmm(const Rmm &) = delete;
    Rmm &operator=(const Rmm &) = delete;

    // Calls a command, and prints it as a line. An output that is nullptr is left out.
    template <typename Command, typename... Operands>
    void ask(const char *name, Command command, Operands... operands)
    {
        uint64_t word = command(&handle, operands...);
        std::cout << name << std::hex;
        const int printed[] = {(print(operands), 0)...};
        (void)printed;
        std::cout << " = " << rmm_status_name(word);
        if (rmm_status(word) == RMM_ERROR_RTT)
            std::cout << " " << rmm_index(word);
        std::cout << "\n";
    }
    template <typename Page>
    void store(uint64_t address, const Page &page, const char *line)
    {
        std::cout << line << " = " << (rmm_store(&handle, address, &page, sizeof page) ? "done" : "fault") << '\n';
    }

private:
    static void print(uint64_t number) { std::cout << " 0x" << number; }
    static void print(std::nullptr_t) {}
    rmm_handle handle = RMM_CLOSED;
};

int main()
{
    Rmm rmm(RD, 8);
    for (uint64_t granule : {RD, TABLE, DATA, ROOT, ROOT + 0x1000, ROOT + 0x2000, ROOT + 0x3000})
        rmm.ask("rmi_granule_delegate", rmm_granule_delegate, granule);
    rmm_realm_params realm = {};
    realm.s2sz = 32;
    realm.vmid = 1;
    realm.rtt_base = ROOT;
    realm.rtt_level_start = 2;
    realm.rtt_num_start = 4;
    rmm.store(PARAMS, realm,
              "realm_params 0x40003000 s2sz 32 vmid 1 rtt_base 0x40004000 rtt_level_start 2 rtt_num_start 4");
    rmm.ask("rmi_realm_create", rmm_realm_create, RD, PARAMS);
    // A page needs a table of level 3: without one the walk ends at level 2.
    rmm.store(PARAMS, uint64_t(7), "store 0x40003000 0x7");
    rmm.ask("rmi_data_create", rmm_data_create, RD, DATA, 0, PARAMS, RMM_MEASURE_CONTENT);
    rmm.ask("rmi_rtt_create", rmm_rtt_create, RD, TABLE, 0, 3);
    rmm.ask("rmi_rtt_init_ripas", rmm_rtt_init_ripas, RD, 0, 0x1000, nullptr);
    rmm.ask("rmi_data_create", rmm_data_create, RD, DATA, 0, PARAMS, RMM_MEASURE_CONTENT);
    rmm.ask("rmi_realm_destroy", rmm_realm_destroy, RD);
    rmm.ask("rmi_data_destroy", rmm_data_destroy, RD, 0, nullptr, nullptr);
    rmm.ask("rmi_rtt_destroy", rmm_rtt_destroy, RD, 0, 3, nullptr, nullptr);
    rmm.ask("rmi_realm_destroy", rmm_realm_destroy, RD);
    for (uint64_t granule : {RD, TABLE, DATA, ROOT, ROOT + 0x1000, ROOT + 0x2000, ROOT + 0x3000})
        rmm.ask("rmi_granule_undelegate", rmm_granule_undelegate, granule);
}
