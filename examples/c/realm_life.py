"""The same life of a realm in Python, as a trace: PYTHONPATH=python python3 examples/c/realm_life.py"""
from rmm import RealmParams, Rmm

RD, TABLE, DATA, PARAMS, ROOT, END = (0x40000000 + 0x1000 * k for k in (0, 1, 2, 3, 4, 8))


def ask(rmm, name, *operands):
    """Calls a command, and prints it as a line."""
    answer = rmm.command(name, *operands)
    index = f" {answer.index}" if answer.name == "RMI_ERROR_RTT" else ""
    print(f"rmi_{name} {' '.join(map(hex, operands))} = {answer.name}{index}")


def store(rmm, address, content, line):
    print(f"{line} = {'done' if rmm.store(address, content) else 'fault'}")


def main():
    print("platform 0x40000000 8")
    delegated = [granule for granule in range(RD, END, 0x1000) if granule != PARAMS]
    with Rmm(base=RD, granules=8) as rmm:
        for granule in delegated:
            ask(rmm, "granule_delegate", granule)
        realm = RealmParams(s2sz=32, vmid=1, rtt_base=ROOT, rtt_level_start=2, rtt_num_start=4)
        fields = "s2sz 32 vmid 1 rtt_base 0x40004000 rtt_level_start 2 rtt_num_start 4"
        store(rmm, PARAMS, realm, f"realm_params {PARAMS:#x} {fields}")
        ask(rmm, "realm_create", RD, PARAMS)
        # A page needs a table of level 3: without one the walk ends at level 2.
        store(rmm, PARAMS, (7).to_bytes(8, "little"), f"store {PARAMS:#x} 0x7")
        ask(rmm, "data_create", RD, DATA, 0, PARAMS, 1)
        ask(rmm, "rtt_create", RD, TABLE, 0, 3)
        ask(rmm, "rtt_init_ripas", RD, 0, 0x1000)
        ask(rmm, "data_create", RD, DATA, 0, PARAMS, 1)
        ask(rmm, "realm_destroy", RD)
        ask(rmm, "data_destroy", RD, 0)
        ask(rmm, "rtt_destroy", RD, 0, 3)
        ask(rmm, "realm_destroy", RD)
        for granule in delegated:
            ask(rmm, "granule_undelegate", granule)


main()
