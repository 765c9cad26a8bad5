"""The words of `rmitrace why` for each check of each command, by RMM 1.0 (DEN0137), failure conditions of RMI commands.

A check's name may be that of several commands, and mean something else in each of them: so each has its own words here.
"""
from __future__ import annotations

Words = dict[str, str]


def granule(operand: str, state: str, last: str = "state") -> Words:
    """An operand that is the address of a granule in a state."""
    return {
        f"{operand}_align": f"{operand} must be a multiple of 4,096",
        f"{operand}_bound": f"{operand} must name a granule of the machine",
        f"{operand}_{last}": f"{operand} must be {state}",
    }


def host(operand: str) -> Words:
    return granule(operand, "UNDELEGATED, the host's", "pas")


def walk(to: str, entry: str) -> Words:
    return {"rtt_walk": f"the walk must reach {to}", "rtte_state": f"the entry must {entry}"}


def delegated(state: str) -> Words:
    """The operand of the two commands that hand granules over."""
    return {
        "gran_align": "the address must be a multiple of 4,096",
        "gran_bound": "the address must name a granule of the machine",
        "gran_state": f"the granule must be {state}",
    }


RD, REC = granule("rd", "an RD"), granule("rec", "a REC", "gran_state")
RTT, DATA = granule("rtt", "DELEGATED"), granule("data", "DELEGATED")
NEW, READY = {"realm_state": "the realm must be NEW"}, {"rec_state": "the REC must not be running"}
LEVEL = {"level_bound": "level must be one that the command has in this realm"}
IN_REALM, UNPROTECTED = ({"ipa_bound": f"ipa must be an {it}"} for it in ("address of the realm", "unprotected address"))
OF_TABLE, OF_ENTRY = ({"ipa_align": f"ipa must be a multiple of the size of {it}"} for it in ("a table", "an entry"))
AT_TABLE, AT_UNPROTECTED = {**RD, **LEVEL, **OF_TABLE, **IN_REALM}, {**RD, **LEVEL, **OF_ENTRY, **UNPROTECTED}
AT_PAGE = {**RD, "ipa_align": "ipa must be a multiple of 4,096", "ipa_bound": "ipa must be a protected address"}
RANGE = {
    "size": "top must be above base", "top_gran_align": "top must be a multiple of 4,096",
    "base_align": "base must be a multiple of the size of its entry",
    "no_progress": "top must not be below the end of the entry at base",
}

# Of each command the words of its checks.
REQUIREMENTS: dict[str, Words] = {
    "rmi_version": {"version": "the requested version must be 1.0"},
    "rmi_features": {},
    "rmi_granule_delegate": {
        **delegated("UNDELEGATED"), "gran_gpt": "the granule must be memory that can be delegated",
    },
    "rmi_granule_undelegate": delegated("DELEGATED"),
    "rmi_realm_create": {
        **host("params"), **granule("rd", "DELEGATED"), "params_valid": "hash_algo must be 0 or 1",
        "params_supp": "the RMM must support the parameters",
        "rtt_num_level": "s2sz, starting level and number of tables must fit each other",
        "rtt_align": "rtt_base must be a multiple of the size of all starting tables",
        "alias": "rd must be none of the starting tables", "rtt_state": "each starting table must be DELEGATED",
        "vmid_valid": "vmid must be in range, and no other realm's",
    },
    "rmi_realm_activate": {**RD, **NEW},
    "rmi_realm_destroy": {**RD, "realm_live": "the realm must have no REC and no live entry"},
    "rmi_rec_create": {
        **host("params"), **granule("rec", "DELEGATED"), **RD, **NEW,
        "num_aux": "num_aux must be the realm's number of auxiliary granules",
        "aux_align": "each of aux must be a multiple of 4,096",
        "aux_bound": "each of aux must name a granule of the machine",
        "aux_alias": "rec and aux must be different granules", "aux_state": "each of aux must be DELEGATED",
        "params_valid": "mpidr must have affinity bits alone",
        "mpidr_index": "mpidr must be that of the realm's next REC",
        "num_recs": "the realm must have fewer RECs than the RMM allows",
    },
    "rmi_rec_destroy": {**REC, **READY},
    "rmi_rec_enter": {
        **host("run"), **REC, **READY, "realm_new": "the realm must not be NEW",
        "system_off": "the realm must not be SYSTEM_OFF", "rec_runnable": "the REC must be runnable",
        "rec_mmio": "EMUL_MMIO requires an exit that can be emulated",
        "rec_gicv3": "the GIC fields must be ones that a host may set",
        "rec_psci": "no PSCI request of the REC may be pending",
    },
    "rmi_rec_aux_count": RD,
    "rmi_rtt_create": {**RTT, **AT_TABLE, **walk("the level above", "not be TABLE")},
    "rmi_rtt_destroy": {
        **AT_TABLE, **walk("the level above", "be TABLE"), "rtt_live": "the table must have no live entry",
    },
    "rmi_rtt_fold": {
        **AT_TABLE, **walk("the level above", "be TABLE"),
        "rtt_homo": "the entries of the table must say the same as one entry above",
        "rtt_block": "a block must be allowed at the level above",
    },
    "rmi_rtt_init_ripas": {
        **RD, **RANGE, **NEW, "base_gran_align": "base must be a multiple of 4,096",
        "base_bound": "base must be a protected address", "top_bound": "top must not be above the protected addresses",
        "rtte_state": "the entry must be UNASSIGNED, and with init_destroyed stop not DESTROYED",
    },
    "rmi_rtt_set_ripas": {
        **RD, **REC, **READY, **RANGE, "rec_owner": "the REC must be the realm's",
        "base_bound": "base must be the address that the REC asked for",
        "top_bound": "top must not be above the top that the REC asked for",
        "rtte_state": "the entry must not be DESTROYED, unless the guest lets it change",
    },
    "rmi_rtt_read_entry": {**RD, **LEVEL, **OF_ENTRY, **IN_REALM},
    "rmi_rtt_map_unprotected": {
        **AT_UNPROTECTED, **walk("the level", "be UNASSIGNED_NS"),
        "desc_bound": "desc must be a descriptor of the level",
    },
    "rmi_rtt_unmap_unprotected": {**AT_UNPROTECTED, **walk("the level", "be ASSIGNED_NS")},
    "rmi_data_create": {
        **host("src"), **DATA, **AT_PAGE, **NEW, **walk("level 3", "be UNASSIGNED"), "flags_valid": "flags must be 0 or 1",
        "rtte_ripas": "the RIPAS of the entry must be RAM",
    },
    "rmi_data_create_unknown": {**DATA, **AT_PAGE, **walk("level 3", "be UNASSIGNED")},
    "rmi_data_destroy": {**AT_PAGE, **walk("level 3", "be ASSIGNED")},
    "rmi_psci_complete": {
        "alias": "calling and target must be two RECs", **granule("calling", "a REC"), **granule("target", "a REC"),
        "pending": "a PSCI request of calling must be pending", "owner": "calling and target must be RECs of one realm",
        "target": "target must have the MPIDR of the request",
        "status": "status must be PSCI_SUCCESS, or PSCI_DENIED for a CPU_ON",
    },
}
