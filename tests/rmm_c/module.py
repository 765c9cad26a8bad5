"""What the Python module does beside answering: exits, exceptions, closed RMMs, and numbers that no register holds.

The last line is `the module is as its text says`.
"""
import copy
import pickle
import sys
from pathlib import Path

sys.dont_write_bytecode = True
sys.path.append(str(Path(__file__).resolve().parents[2] / "python"))
import rmm as module
from rmm import NOT_SUPPORTED, Answer, Fault, NoMachine, RealmParams, Rec, RecParams, RecRun, Refused, Rmm

RD, REC, AUX, TABLE, DATA, ROOT = (0x80000000 + 0x1000 * k for k in (0, 1, 2, 4, 5, 8))
PARAMS, RUN, SOURCE = 0x80010000, 0x80011000, 0x80012000


def raised(kind, call):
    try:
        call()
    except kind as error:
        return error
    raise AssertionError(f"{kind.__name__} is not raised")


def made(rmm):
    """A realm with a page of bytes 3 at IPA 0, and a REC."""
    for address in (*range(RD, RD + 0x6000, 0x1000), *range(ROOT, ROOT + 0x8000, 0x1000)):
        assert rmm.granule_delegate(address).word == 0
    rmm.store(PARAMS, RealmParams(s2sz=33, rtt_base=ROOT, rtt_level_start=2, rtt_num_start=8, vmid=7))
    assert rmm.realm_create(RD, PARAMS).name == "RMI_SUCCESS"
    assert rmm.rtt_create(RD, TABLE, 0, 3).word == 0 and rmm.rtt_init_ripas(RD, 0, 0x1000).out_top == 0x1000
    rmm.store(SOURCE, b"\3" * 4096)
    assert rmm.data_create(RD, DATA, 0, SOURCE, 1).word == 0
    rmm.store(PARAMS, RecParams(flags=1, aux=(AUX, AUX + 0x1000)))
    assert rmm.rec_create(RD, REC, PARAMS).word == 0 and rmm.realm_activate(RD).word == 0


def of_text():
    """The example of the module's text has the values beside it."""
    lines = [it.strip() for it in module.__doc__.splitlines() if it.startswith("        rmm.")]
    assert len(lines) == 7
    with Rmm(granules=2048, base=0x80000000, aux=2) as rmm:
        for line in lines:
            code, _, wanted = line.partition("  #")
            value = repr(eval(code, {"rmm": rmm, "RealmParams": RealmParams}))
            assert wanted.strip().startswith(value) or not wanted, (line, value)


def of_runs():
    with Rmm(granules=32, raises=True) as rmm:
        made(rmm)
        rmm.store(RUN, RecRun(gprs=(1, 2)))
        assert rmm.guest(REC, "read", 0xFFF) == "queued" and rmm.guest(REC, "host_call", 9, 11, 12) == "queued"
        exit = rmm.rec_enter(REC, RUN).exit
        assert (exit.reason, exit.imm, exit.gprs[:3], exit.esr) == ("HOST_CALL", 9, (11, 12, 0), 0)
        assert rmm.results(REC) == [("read", 3)] and rmm.interrupt(REC) is None
        rmm.guest(REC, "spin")
        answer = rmm.rec_enter(REC, RUN)
        assert answer.is_running and answer.exit is None and answer.name == "RUNNING"
        assert rmm.results(REC) == [("returned", 1)] and rmm.read_rec(REC).state == "RUNNING"
        assert rmm.interrupt(REC).exit.reason == "IRQ"
        assert rmm.read_rec(REC) == Rec("READY", 0, True, False, 0, 0, "EMPTY", 0, 1) and rmm.read_rec(RD) is None
        realm = rmm.read_realm(RD)
        assert (realm.state, realm.vmid, realm.rtt_base, realm.rec_count, len(realm.rim)) == ("ACTIVE", 7, ROOT, 1, 32)
        assert (rmm.read_state(DATA), rmm.read_state(RD + 8)) == ("DATA", None)
        assert rmm.read_word(DATA, 0) == 0x0303030303030303
        entry = rmm.rtt_read_entry(RD, 0, 3)
        assert entry.outputs == {"walk_level": 3, "state": 1, "desc": DATA, "ripas": 1} and entry.desc == DATA
        error = raised(Refused, lambda: rmm.rtt_destroy(RD, 0, 3))
        assert (error.answer.word, error.answer.index, str(error)) == (0x304, 3, "rtt_destroy: RMI_ERROR_RTT 3")
        assert str(raised(Refused, lambda: rmm.granule_delegate(RD))) == "granule_delegate: RMI_ERROR_INPUT"
        raised(Fault, lambda: rmm.load(DATA, 1))
        raised(Fault, lambda: rmm.store(DATA, b"1"))


def of_values():
    with Rmm() as rmm:
        assert rmm.smc(0xC4000156) == [NOT_SUPPORTED, 0, 0, 0, 0] and rmm.features(0).value == 0x10300000030
        assert [repr(rmm.granule_delegate(RD)) for _ in range(2)] == ["Answer(word=0)", "Answer(word=0x1)"]
        assert rmm.store(PARAMS, b"abc") is True and rmm.load(PARAMS + 1, 3) == b"bc\0" and rmm.load(PARAMS, 0) == b""
        assert rmm.load(RD, 1) is None and rmm.store(RD, b"1") is False and rmm.load(PARAMS, 4097) is None
        assert rmm.guest(RD, "wfi") == "no REC" and rmm.results(RD) == []
        for operands in ("write", 0x1000), ("spin", 1), ("read", 0, 1, 2), ("host_call", 1, 2, 3, 4, 5), ("cpu_on", 1, 2):
            raised(TypeError, lambda: rmm.guest(RD, *operands))
        raised(ValueError, lambda: rmm.guest(RD, "jump"))
        raised(AttributeError, lambda: rmm.granule_delegate(RD).top)
        answer = rmm.granule_delegate(RD)
        assert (answer.status, answer.index, answer.check, answer.allowed) == (1, 0, "gran_state", (1,))
        answer = rmm.rtt_create(RD, RD + 1, 0, 3)
        assert (answer.word, answer.check, answer.allowed) == (1, "rtt_align", (1,))
        answer = rmm.version(0x10000)
        assert (answer.check, answer.allowed, answer.lower) == (None, (0,), 0x10000)
        assert rmm.deciding_check(0xC4000156) is None and rmm.allowed(0xC4000156) == (NOT_SUPPORTED,)
        assert rmm.is_allowed(1, 0xC4000151, RD) is True and rmm.is_allowed(0, 0xC4000151, RD) is False
        raised(OverflowError, lambda: rmm.deciding_check(2**64))
        raised(TypeError, lambda: rmm.granule_delegate())
        raised(TypeError, lambda: rmm.smc(*range(8)))
    assert Answer(5).name == "?" and Answer(0x204).name == "RMI_ERROR_RTT"
    assert bytes(RealmParams(rtt_level_start=-1))[0x810:0x818] == b"\xff" * 8
    assert bytes(RecParams(aux=(1, 2)))[0x800] == 2 and bytes(RecParams(aux=(1, 2), num_aux=3))[0x800] == 3
    raised(TypeError, lambda: RealmParams(vmids=1))
    raised(OverflowError, lambda: bytes(RealmParams(s2sz=256)))
    raised(ValueError, lambda: bytes(RecParams(gprs=range(9))))


def of_numbers():
    """A number that no register holds is never cut: 2^64 would be the address 0."""
    with Rmm(granules=16, base=0) as rmm:
        for number in (2**64, 2**64 + 0x1000, -1):
            raised(OverflowError, lambda: rmm.granule_delegate(number))
            raised(OverflowError, lambda: rmm.load(number, 1))
            raised(OverflowError, lambda: rmm.read_state(number))
        assert rmm.read_state(0) == "UNDELEGATED"
        raised(TypeError, lambda: rmm.granule_delegate(1.0))


def of_opening():
    raised(NoMachine, lambda: Rmm(granules=0))
    raised(NoMachine, lambda: Rmm(aux=17))
    raised(TypeError, lambda: Rmm(vmids=4))
    raised(OSError, lambda: Rmm(library="/no/librmm.so.0"))
    with Rmm(layout="eac5", s2sz=40, max_recs_order=0) as rmm:
        assert rmm.features(0).value == 0x30000028
        raised(TypeError, lambda: copy.copy(rmm))
        raised(TypeError, lambda: copy.deepcopy(rmm))
        raised(TypeError, lambda: pickle.dumps(rmm))
    raised(ValueError, lambda: rmm.granule_delegate(RD))
    rmm.close()


for check in (of_text, of_runs, of_values, of_numbers, of_opening):
    check()
print("the module is as its text says")
