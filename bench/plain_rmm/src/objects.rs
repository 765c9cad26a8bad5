//! Realms and RECs.
use crate::entry::Ripas;

#[derive(Clone, Copy, PartialEq, Eq)]
pub enum RealmState {
    New,
    Active,
    SystemOff,
}

#[derive(Clone, Copy, PartialEq, Eq)]
pub enum Hash {
    Sha256,
    Sha512,
}

#[derive(Clone, Copy)]
pub struct Realm {
    pub state: RealmState,
    pub hash: Hash,
    pub rim: [u8; 64],
    pub s2sz: u8,
    pub start_level: u8,
    pub first_table: u16,
    pub table_count: u8,
    pub vmid: u16,
    pub next_rec: u32,
    pub rec_count: u16,
}

impl Realm {
    pub fn is_in_space(&self, ipa: u64) -> bool {
        ipa < 1 << self.s2sz
    }

    pub fn is_protected(&self, ipa: u64) -> bool {
        ipa < 1 << (self.s2sz - 1)
    }

    pub fn tables(&self) -> std::ops::Range<usize> {
        let first = usize::from(self.first_table);
        first..first + usize::from(self.table_count)
    }
}

/// The change of RIPAS that a REC asked for.
#[derive(Clone, Copy)]
pub struct RipasRequest {
    pub base: u64,
    pub top: u64,
    pub ripas: Ripas,
    pub changes_destroyed: bool,
}

pub const NO_REQUEST: RipasRequest =
    RipasRequest { base: 0, top: 0, ripas: Ripas::Empty, changes_destroyed: false };

#[derive(Clone, Copy)]
pub enum Psci {
    None,
    CpuOn { target: u64, entry_point: u64, context: u64 },
    AffinityInfo { target: u64 },
    Complete(u64),
}

#[derive(Clone, Copy, PartialEq, Eq)]
pub enum LastExit {
    Other,
    HostCall,
    RipasChange,
    EmulatableAbort,
    UnprotectedAbort,
    SystemRegister,
}

#[derive(Clone, Copy)]
pub struct Rec {
    pub is_running: bool,
    pub is_runnable: bool,
    pub mpidr: u64,
    pub ripas: RipasRequest,
    pub psci: Psci,
    pub exit: LastExit,
    pub run: u64,
    pub first_step: u8,
    pub step_count: u8,
    pub result_count: u8,
}

impl Rec {
    pub fn new(is_runnable: bool, mpidr: u64) -> Rec {
        Rec {
            is_running: false,
            is_runnable,
            mpidr,
            ripas: NO_REQUEST,
            psci: Psci::None,
            exit: LastExit::Other,
            run: 0,
            first_step: 0,
            step_count: 0,
            result_count: 0,
        }
    }

    pub fn is_on(&self) -> bool {
        self.is_runnable || self.is_running
    }

    pub fn is_pending(&self) -> bool {
        matches!(self.psci, Psci::CpuOn { .. } | Psci::AffinityInfo { .. })
    }
}

pub fn is_mpidr(mpidr: u64) -> bool {
    mpidr < 1 << 32 && mpidr & 0xF0 == 0
}

/// The number of the REC that an MPIDR names.
pub fn rec_number(mpidr: u64) -> u64 {
    (mpidr & 0xF) + (mpidr >> 8 << 4)
}
