"""Lines of traces for `tests/test_traces.py`, which asks the program, and `tests/test_rmm_traces.py`, which asks the second model.

They are what is no command, lines that are read alike, comments, and answers that are same, allowed or wrong.
"""

REALM = (
    "platform 0x80000000 64", "repeat 16 rmi_granule_delegate 0x80000000+0x1000",
    "realm_params 0x80020000 s2sz 48 vmid 1 rtt_base 0x80001000 rtt_num_start 1",
    "rmi_realm_create 0x80000000 0x80020000", "rmi_rtt_create 0x80000000 0x80002000 0x0 1",
    "rmi_rtt_create 0x80000000 0x80003000 0x0 2", "rmi_rtt_create 0x80000000 0x80004000 0x0 3",
    "rec_params 0x80021000 flags 0x1 aux 0x80006000 0x80007000", "rmi_rec_create 0x80000000 0x80005000 0x80021000",
)
# Lines that are no command, each after REALM.
NO_COMMANDS = """
rmi_nothing
rmi_granule_delegate
rmi_granule_delegate 1 2
rmi_granule_delegate  1
rmi_granule_delegate 01
rmi_granule_delegate 0x01
rmi_granule_delegate 0X1
rmi_granule_delegate 0xA
rmi_granule_delegate -1
rmi_granule_delegate 18446744073709551616
rmi_granule_delegate 0x1+0x1
RMI_GRANULE_DELEGATE 1
repeat 1 rmi_version 0
repeat 0 rmi_version 0
repeat 513 rmi_version 0
repeat 2 load 0x80020000
repeat 2 repeat 2 rmi_version 0
repeat 2 rmi_version 0+1+1
repeat 2
fill 0x80020000 256
fill 0x80020001 1
fill 0x80020000
store 0x80020004 1
load 0x80020004
realm_params 0x80020000 s2sz 256
realm_params 0x80020000 vmid 65536
realm_params 0x80020000 hash_algo
realm_params 0x80020000 s2sz 48 s2sz 48
realm_params 0x80020000 vmid 1 s2sz 48
realm_params 0x80020000 aux 1
rec_params 0x80020000 num_aux 1
rec_params 0x80020000 gprs 1 2 3 4 5 6 7 8 9
rec_run 0x80020000 mpidr 0
realm_params
guest 0x80005000
guest 0x80005000 jump
guest 0x80005000 write 0x1000 256
guest 0x80005000 write 0x1001 1 2
guest 0x80005000 read 0x1000 3
guest 0x80005000 host_call 65536
guest 0x80005000 set_ripas 0x0 0x1000 SOME
guest 0x80005000 set_ripas 0x0 0x1000 3
guest 0x80005000 spin 1
guest 0x80005000 set_ripas 0x0 0x1000 RAM twice
guest 0x80005000 sysreg 0x2000000 0
smc
smc 1 2 3 4 5 6 7 8
interrupt
state
realm 0x80000000 1
platform 0x80000000
platform 0x80000000 0
platform 0x80000001 64
platform 0x80000000 64 aux
platform 0x80000000 64 aux 17
platform 0x80000000 64 aux 1 aux 1
platform 0x80000000 64 vmid_bits 9
platform 0x80000000 64 s2sz 49
platform 0x80000000 64 layout rel1
platform 0x80000000 64 colour 1
platform 0x80000000 64 secure 0x80040000 1
platform 0x80000000 64 secure 0x80000000
"""
NO_COMMANDS_EITHER = (" rmi_granule_delegate 1", "rmi_granule_delegate\t1", "rmi_version 0 \udcff", "x" * 65537)
# Two lines that are read alike.
ALIKE = """
rmi_granule_undelegate 2147532800 | rmi_granule_undelegate 0x8000c000
rmi_psci_complete 0x80005000 0x80006000 PSCI_DENIED | rmi_psci_complete 0x80005000 0x80006000 0xfffffffffffffffd
guest 0x80005000 set_ripas 0x0 0x1000 RAM | guest 0x80005000 set_ripas 0 4096 1
guest 0x80005000 write 0x1000 5 | guest 0x80005000 write 0x1000 5 1
smc 0xc4000150 | smc 0xc4000150 0 0 0 0 0 0
"""
# A line, and the line with its answer.
COMMENTS = {
    "": "", "# x = y": "# x = y", "state 0x0 # x": "state 0x0 = none # x", "state 0x0 = RD# x": "state 0x0 = none# x",
}

# A question after REALM, an answer, and what the judge has to say of it.
VERDICTS = """
rmi_rtt_read_entry 0x80000000 0x0 3 | RMI_SUCCESS | same
rmi_rtt_read_entry 0x80000000 0x0 3 | RMI_SUCCESS, state UNASSIGNED | same
rmi_rtt_read_entry 0x80000000 0x0 3 | RMI_SUCCESS, level 2 | wrong
rmi_rtt_read_entry 0x80000000 0x0 3 | RMI_SUCCESS, level 0x3/0x1 | same
rmi_rtt_read_entry 0x80000000 0x0 3 | RMI_SUCCESS, level 0x2/0x1 | wrong
rmi_rtt_read_entry 0x80000000 0x0 3 | RMI_SUCCESS, colour 3 | wrong
rmi_rtt_read_entry 0x80000000 0x0 2 | RMI_SUCCESS, state TABLE, desc - | same
rmi_rtt_destroy 0x80000000 0x200000 3 | RMI_ERROR_RTT - | same
rmi_rtt_destroy 0x80000000 0x200000 3 | RMI_ERROR_RTT 2 (rtte_state) | same
rmi_rtt_destroy 0x80000000 0x200000 3 | RMI_ERROR_RTT 2 (rtt_walk) | wrong
rmi_rtt_destroy 0x80000000 0x200000 3 | RMI_ERROR_RTT 3 | wrong
rmi_rtt_destroy 0x80000000 0x200000 3 | RMI_ERROR_RTT | wrong
rmi_granule_delegate 0x80000800 | RMI_ERROR_INPUT 0 | same
rmi_granule_delegate 0x80000800 | RMI_SUCCESS | wrong
rmi_granule_delegate 0x80000800 | no command | wrong
rmi_data_create 0x80000000 0x80008000 0x1000 0x80009000 0x1 | RMI_ERROR_INPUT | same
rmi_data_create 0x80000000 0x80008000 0x1000 0x80009000 0x1 | RMI_ERROR_INPUT (data_state) | wrong
rmi_data_create 0x80000000 0x80008000 0x800000000000 0x80009000 0x1 | RMI_ERROR_RTT 0 | wrong
rmi_data_create 0x80000000 0x80008000 0x200000 0x80009000 0x1 | RMI_ERROR_RTT 2 | allowed
rmi_data_create 0x80000000 0x80008000 0x200000 0x80009000 0x1 | RMI_ERROR_RTT - | allowed
rmi_data_create 0x80000000 0x80008000 0x200000 0x80009000 0x1 | RMI_ERROR_RTT 3 | wrong
smc 0xc4000153 0x80000000 0x80008000 0x200000 0x80009000 0x1 | 0x204 | allowed
smc 0xc4000153 0x80000000 0x80008000 0x200000 0x80009000 0x1 | 0x1 | same
smc 0xc4000153 0x80000000 0x80008000 0x200000 0x80009000 0x1 | 0x0 | wrong
smc 0xc4000161 0x80000000 0x0 0x2 | 0x0 0x2 - 0x80004000 | same
smc 0xc4000161 0x80000000 0x0 0x2 | 0x0 0x2 0x1 | wrong
smc 0xc4000161 0x80000000 0x0 0x2 | 0x0 0x2 - 0x80004001 | wrong
smc 0xc4000161 0x80000000 0x0 0x2 | 0x0 - - 0x4001/0xf00 | same
smc 0xc4000161 0x80000000 0x0 0x2 | 0x0 0x2 0x2 0x80004000 0x0 0x7 0x8 | same
smc 0xc4000161 0x80000000 0x0 0x2 | 0x0 0x2 0x2 0x80004000 0x1 0x7 0x8 | wrong
smc 0xc4000151 0x80010000 | 0x0 0x0 | same
smc 0xc4000151 0x80010000 | 0x0 0x80010000 0x5 0x6 0x7 | same
smc 0xc4000151 0x80010000 | 0x0 RD | wrong
smc 0xc4000151 0x80010000 | 0x0, 0x0 | wrong
smc 0xc4000151 0x80000000 | 0x1 0x9 | same
smc 0xc4000151 0x80000000 | 0x0 0x9 | wrong
smc 0xc4000155 0x80000000 0x200000 | 0x204 0x9 0x40000000 | same
smc 0xc4000155 0x80000000 0x200000 | 0x204 0x0 0x200000 | wrong
smc 0xc4000155 0x80000001 0x200000 | 0x1 0x9 0x9 | same
smc 0xc4000161 0x80000001 0x0 0x2 | 0x1 0x9 0x9 0x9 0x9 | same
smc 0xc4000150 0x20000 | 0x1 0x10000 0x10000 | same
smc 0xc4000150 0x20000 | 0x1 0x10000 0x10001 | wrong
smc 0xc4000150 0x10000 | - 0x10000 0x10000 | same
smc 0xc4000150 0x10000 | - 0x10000 0x1 | wrong
smc 0xc4000156 | 0xffffffffffffffff 0x1 0x2 | same
rmi_rtt_init_ripas 0x80000000 0x800 0x2000 | RMI_ERROR_INPUT (base_gran_align) | same
rmi_rtt_init_ripas 0x80000000 0x800 0x2000 | RMI_ERROR_INPUT (base_align) | same
rmi_rtt_init_ripas 0x80000000 0x800 0x2000 | RMI_ERROR_RTT 3 (base_align) | allowed
rmi_rtt_init_ripas 0x80000000 0x1000 0x1000 | RMI_ERROR_INPUT (rd_state) | same
rmi_rtt_init_ripas 0x80000000 0x1000 0x1000 | RMI_ERROR_INPUT (no_such_check) | wrong
repeat 2 rmi_granule_delegate 0x80010000+0x1000 | RMI_SUCCESS | same
repeat 2 rmi_granule_delegate 0x8000f000+0x1000 | RMI_ERROR_INPUT (gran_state) | same
repeat 2 rmi_granule_delegate 0x8003f000+0x1000 | RMI_ERROR_INPUT (gran_bound), after 1 | same
repeat 2 rmi_granule_delegate 0x8003f000+0x1000 | RMI_ERROR_INPUT, after 2 | wrong
load 0x80020008 | 0x30 | same
load 0x80020008 | 48 | same
load 0x80020008 | fault | wrong
realm 0x80000000 | NEW, s2sz 48, level 0, tables 1, base 0x80001000, vmid 1, next 1, recs 1 | same
realm 0x80000000 | NEW, s2sz 48 | wrong
state 0x80000000 | RTT | wrong
rmi_rec_enter 0x80005000 0x80000000 | RMI_ERROR_REALM | allowed
rmi_rec_enter 0x80005000 0x80000000 | RMI_ERROR_REALM 1 | wrong
"""
AFTER_ENTRY = """
rmi_rec_enter 0x80005000 0x80022000 | RMI_SUCCESS, exit HOST_CALL, gprs 0x1 0x0 0x0 | same
rmi_rec_enter 0x80005000 0x80022000 | RMI_SUCCESS, exit HOST_CALL, gprs 0x1 0x2 | wrong
rmi_rec_enter 0x80005000 0x80022000 | RMI_SUCCESS, exit IRQ | wrong
rmi_rec_enter 0x80005000 0x80022000 | RUNNING | wrong
rmi_data_create 0x80000000 0x80008000 0x1000 0x80009000 0x1 | RMI_ERROR_INPUT (src_pas) | same
rmi_data_create 0x80000000 0x80008000 0x1000 0x80009000 0x1 | RMI_ERROR_REALM | allowed
rmi_data_create 0x80000000 0x80008000 0x1000 0x80009000 0x1 | RMI_ERROR_RTT 3 | wrong
"""
ENTRY = ("rmi_realm_activate 0x80000000", "guest 0x80005000 host_call 1 0x1")
