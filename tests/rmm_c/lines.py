"""Performs raw operations through the Python module, one a line, and prints the result of each.

    lines.py < OPERATIONS

tests/rmm_lines.py has the operations. A comment and a platform are printed as an empty line.
"""
import sys
from pathlib import Path

sys.dont_write_bytecode = True
sys.path.append(str(Path(__file__).resolve().parents[2] / "python"))
from rmm import GRANULE_STATES, REALM_STATES, RESULTS, STEPS, Rmm

# The setting that a bit of FLAGS is, and its value.
FLAGS = (
    ("layout", "eac5"), ("stops_at_destroyed", True), ("measures_all_recs", True), ("ignores_data_flags", True),
    ("aligns_live_top", True), ("shows_target_alone", True), ("block_level", 1), ("takes_shareability", True),
    ("data_needs_ram", True), ("checks_params", True), ("checks_gic", True),
)
NUMBERS = ("base", "granules", "aux", "vmid_bits", "s2sz", "max_recs_order")
MORE = ("bps", "wps", "lrs", "secure_base", "secure_count")
NO_SUM = ("RTT", "RD", "REC")


def digits(*numbers):
    return " ".join(f"{it:x}" for it in numbers)


def opened(words):
    numbers = [int(it, 16) for it in words]
    flags = {name: value for k, (name, value) in enumerate(FLAGS) if numbers[6] >> k & 1}
    return Rmm(**dict(zip(NUMBERS, numbers)), **dict(zip(MORE, numbers[7:])), **flags)


def content(loaded):
    return "fault" if loaded is None else loaded.hex()


def done(is_stored):
    return "done" if is_stored else "fault"


def guest(rmm, rec, kind, *operands):
    if len(operands) > 4:
        return "-"
    return {"no REC": "none"}.get(it := rmm.guest(rec, STEPS[kind], *operands), it)


def interrupt(rmm, rec):
    answer = rmm.interrupt(rec)
    return "none" if answer is None else digits(answer.word)


def saw(rmm, rec):
    results = rmm.results(rec)
    if rmm.read_rec(rec) is None:
        return "none"
    return " ".join([digits(len(results)), *(digits(RESULTS.index(name), value) for name, value in results)])


def state(rmm, address):
    it = rmm.read_state(address)
    return "none" if it is None else digits(GRANULE_STATES.index(it))


def sum_of(rmm, address):
    state = rmm.read_state(address)
    if state is None:
        return "none"
    words = () if state in NO_SUM else (rmm.read_word(address, k) for k in range(512))
    return digits(sum(byte for word in words for byte in word.to_bytes(8, "little")))


def realm(rmm, rd):
    it = rmm.read_realm(rd)
    if it is None:
        return "none"
    shape = it.s2sz, it.rtt_level_start, it.rtt_num_start, it.rtt_base, it.vmid, it.next_rec, it.rec_count
    return digits(REALM_STATES.index(it.state), *shape)


def rim(rmm, rd):
    it = rmm.read_realm(rd)
    return it.rim.hex() if it else "none"


def rec(rmm, address):
    it = rmm.read_rec(address)
    if it is None:
        return "none"
    flags = it.state == "RUNNING", it.is_runnable, it.is_psci_pending
    words = rmm.read_word(address, 31), rmm.read_word(address, 0)
    return f"{digits(flags[0])} - {digits(it.mpidr, *flags[1:], *words)}"


def judge(rmm, *registers):
    return " ".join([rmm.deciding_check(*registers) or "-", *(digits(it) for it in rmm.allowed(*registers))])


# Each operation on numbers.
OPERATIONS = {
    "smc": lambda rmm, *registers: digits(*rmm.smc(*registers)),
    "fill": lambda rmm, address, byte: done(rmm.store(address, bytes([byte]) * 4096)),
    "load": lambda rmm, address, count: content(rmm.load(address, count)),
    "guest": guest, "interrupt": interrupt, "saw": saw, "state": state, "sum": sum_of, "realm": realm, "rim": rim,
    "rec": rec, "judge": judge,
}


def result(rmm, kind, words):
    if kind == "store":
        return done(rmm.store(int(words[0], 16), bytes.fromhex(words[1])))
    return OPERATIONS[kind](rmm, *(int(it, 16) for it in words))


def main():
    rmm = None
    for line in sys.stdin:
        kind, *words = line.split(" = ")[0].split()
        if kind == "platform":
            rmm = opened(words)
        print("" if kind in ("platform", "#") else result(rmm, kind, words))


main()
