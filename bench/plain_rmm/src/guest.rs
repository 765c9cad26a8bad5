//! Guests of RECs: the steps that they perform.
use crate::abi::Settings;
use crate::entry::{Entry, Ripas, entry_size};
use crate::granules::{Granules, Page, word_in};
use crate::objects::{LastExit, Psci, Realm, Rec, RipasRequest, is_mpidr, rec_number};

/// The most steps that a guest can be given, and the most results that it keeps.
pub const MOST_STEPS: u8 = 16;
pub const MOST_RESULTS: u8 = 32;
/// The first words of a REC's page with its steps, five words each, and with its results, two words each.
const STEPS: usize = 48;
const RESULTS: usize = 128;

const PSCI_INVALID_PARAMETERS: u64 = -2i64 as u64;
const PSCI_ALREADY_ON: u64 = -4i64 as u64;
const PSCI_INVALID_ADDRESS: u64 = -9i64 as u64;

/// The size of an access.
#[derive(Clone, Copy)]
pub enum AccessSize {
    Byte,
    Halfword,
    Word,
    Doubleword,
}

#[derive(Clone, Copy)]
pub enum Step {
    Write { ipa: u64, value: u64, size: AccessSize },
    Read { ipa: u64, size: AccessSize },
    Fetch { ipa: u64 },
    HostCall { imm: u64, gprs: [u64; 3] },
    SetRipas { base: u64, top: u64, ripas: u64, flags: u64 },
    CpuOn { target: u64, entry_point: u64, context: u64 },
    AffinityInfo { target: u64, level: u64 },
    CpuOff,
    CpuSuspend,
    SystemOff,
    SystemReset,
    Wfi,
    Wfe,
    SystemRegister { iss: u64, value: u64 },
    Spin,
}

#[derive(Clone, Copy)]
pub enum StepResult {
    Done,
    Read(u64),
    Sea,
    Psci(u64),
    RsiErrorInput,
    Accepted(u64),
    Rejected(u64),
    Returned(u64),
}

#[derive(Clone, Copy)]
pub enum Reason {
    Sync = 0,
    Irq = 1,
    Psci = 3,
    RipasChange = 4,
    HostCall = 5,
}

#[derive(Clone, Copy)]
pub struct Exit {
    pub reason: Reason,
    pub esr: u64,
    pub far: u64,
    pub hpfar: u64,
    pub gprs: [u64; 4],
    pub ripas_base: u64,
    pub ripas_top: u64,
    pub ripas: u64,
    pub imm: u64,
}

/// The result of a step: one that the guest sees, an exit, or a guest that spins.
pub enum Came {
    Result(StepResult),
    Exit(Exit, LastExit),
    Spin,
}

pub enum Queued {
    Queued,
    Full,
    NoRec,
}

impl AccessSize {
    /// The size of that many bytes; a number that is no size is read as one byte.
    fn of(bytes: u64) -> AccessSize {
        match bytes {
            2 => AccessSize::Halfword,
            4 => AccessSize::Word,
            8 => AccessSize::Doubleword,
            _ => AccessSize::Byte,
        }
    }

    /// SAS of a data abort, at its place in ESR_EL2.
    fn syndrome(self) -> u64 {
        (self as u64) << 22
    }

    /// The low bytes of a value: as many as an access has.
    pub fn low(self, value: u64) -> u64 {
        match self {
            AccessSize::Byte => value & 0xFF,
            AccessSize::Halfword => value & 0xFFFF,
            AccessSize::Word => value & 0xFFFF_FFFF,
            AccessSize::Doubleword => value,
        }
    }

    /// The value that an access at an address reads from its page.
    pub fn read(self, page: &Page, ipa: u64) -> u64 {
        let at = ipa as usize % 4096;
        match self {
            AccessSize::Byte => u64::from(page[at]),
            AccessSize::Halfword => u64::from(u16::from_le_bytes(page[at & !1..][..2].try_into().unwrap())),
            AccessSize::Word => u64::from(u32::from_le_bytes(page[at & !3..][..4].try_into().unwrap())),
            AccessSize::Doubleword => word_in(page, at / 8),
        }
    }

    /// Writes a value by an access at an address of its page.
    pub fn write(self, page: &mut Page, ipa: u64, value: u64) {
        let at = ipa as usize % 4096;
        match self {
            AccessSize::Byte => page[at] = value as u8,
            AccessSize::Halfword => page[at & !1..][..2].copy_from_slice(&(value as u16).to_le_bytes()),
            AccessSize::Word => page[at & !3..][..4].copy_from_slice(&(value as u32).to_le_bytes()),
            AccessSize::Doubleword => page[at & !7..][..8].copy_from_slice(&value.to_le_bytes()),
        }
    }
}

impl Step {
    pub fn of([kind, a, b, c, d]: [u64; 5]) -> Step {
        match kind {
            0 => Step::Write { ipa: a, value: b, size: AccessSize::of(c) },
            1 => Step::Read { ipa: a, size: AccessSize::of(b) },
            2 => Step::HostCall { imm: a, gprs: [b, c, d] },
            3 => Step::SetRipas { base: a, top: b, ripas: c, flags: d },
            4 => Step::CpuOn { target: a, entry_point: b, context: c },
            5 => Step::AffinityInfo { target: a, level: b },
            6 => Step::CpuOff,
            7 => Step::CpuSuspend,
            8 => Step::SystemOff,
            9 => Step::SystemReset,
            10 => Step::Wfi,
            11 => Step::Wfe,
            13 => Step::Fetch { ipa: a },
            14 => Step::SystemRegister { iss: a, value: b },
            _ => Step::Spin,
        }
    }
}

impl StepResult {
    fn words(self) -> [u64; 2] {
        match self {
            StepResult::Done => [0, 0],
            StepResult::Read(value) => [1, value],
            StepResult::Sea => [2, 0],
            StepResult::Accepted(value) => [3, value],
            StepResult::Rejected(value) => [4, value],
            StepResult::Returned(value) => [5, value],
            StepResult::Psci(value) => [6, value],
            StepResult::RsiErrorInput => [7, 0],
        }
    }
}

impl Exit {
    pub const fn only(reason: Reason) -> Exit {
        Exit { reason, esr: 0, far: 0, hpfar: 0, gprs: [0; 4], ripas_base: 0, ripas_top: 0, ripas: 0, imm: 0 }
    }

    /// The words of a run page that are not 0, each with its place.
    pub fn words(&self) -> [(usize, u64); 12] {
        let [gpr0, gpr1, gpr2, gpr3] = self.gprs;
        [
            (256, self.reason as u64),
            (288, self.esr),
            (289, self.far),
            (290, self.hpfar),
            (320, gpr0),
            (321, gpr1),
            (322, gpr2),
            (323, gpr3),
            (416, self.ripas_base),
            (417, self.ripas_top),
            (418, self.ripas),
            (448, self.imm),
        ]
    }
}

// ---- the steps and results in a REC's page

impl Granules {
    /// Gives the guest of a REC a step.
    pub fn queue(&mut self, address: u64, words: [u64; 5]) -> Queued {
        let Ok((g, rec)) = self.rec_of(address) else { return Queued::NoRec };
        if rec.step_count >= MOST_STEPS {
            return Queued::Full;
        }
        let place = usize::from((rec.first_step + rec.step_count) % MOST_STEPS);
        for (k, word) in words.into_iter().enumerate() {
            self.set_word(g, STEPS + 5 * place + k, word);
        }
        self.rec_mut(g).step_count += 1;
        Queued::Queued
    }

    pub fn first_step(&self, g: usize, rec: &Rec) -> Step {
        let first = STEPS + 5 * usize::from(rec.first_step);
        Step::of(std::array::from_fn(|k| self.word(g, first + k)))
    }

    pub fn pass_step(&mut self, g: usize) {
        let rec = self.rec_mut(g);
        rec.first_step = (rec.first_step + 1) % MOST_STEPS;
        rec.step_count = rec.step_count.saturating_sub(1);
    }

    pub fn push_result(&mut self, g: usize, result: StepResult) {
        let rec = self.rec_mut(g);
        let first = RESULTS + 2 * usize::from(rec.result_count);
        rec.result_count = (rec.result_count + 1) % MOST_RESULTS;
        let [code, value] = result.words();
        self.set_word(g, first, code);
        self.set_word(g, first + 1, value);
    }

    // ---- accesses to memory

    fn protected_access(&self, class: u64, entry: Entry, level: u8, ipa: u64) -> Result<usize, Came> {
        if let Entry::Assigned(Ripas::Ram, address) = entry {
            let address = address + (ipa & (entry_size(level) - 1));
            return self.index_of(address).ok_or(Came::Result(StepResult::Sea));
        }
        if entry.ripas() == Ripas::Empty {
            return Err(Came::Result(StepResult::Sea));
        }
        let esr = class + 4 + u64::from(level);
        Err(Came::Exit(Exit { esr, hpfar: ipa >> 12 << 4, ..Exit::only(Reason::Sync) }, LastExit::Other))
    }

    /// The granule at an unprotected address; `written` is what the guest writes there.
    fn unprotected_access(
        &self,
        entry: Entry,
        level: u8,
        ipa: u64,
        size: AccessSize,
        written: Option<u64>,
    ) -> Result<usize, Came> {
        let wnr = if written.is_some() { 0x40 } else { 0 };
        let emulatable = |class: u64| {
            let exit = Exit {
                esr: class + size.syndrome() + wnr + u64::from(level),
                far: ipa & 0xFFF,
                hpfar: ipa >> 12 << 4,
                gprs: [written.unwrap_or(0), 0, 0, 0],
                ..Exit::only(Reason::Sync)
            };
            Came::Exit(exit, LastExit::EmulatableAbort)
        };
        let Entry::AssignedNs(desc) = entry else { return Err(emulatable(0x9100_0004)) };
        if desc & if written.is_some() { 0x80 } else { 0x40 } == 0 {
            return Err(emulatable(0x9100_000C));
        }
        let address = (desc & !0xFFF) + (ipa & (entry_size(level) - 1));
        self.host_granule(address).ok_or_else(|| {
            let exit = Exit { esr: 0x9000_0028, hpfar: ipa >> 12 << 4, ..Exit::only(Reason::Sync) };
            Came::Exit(exit, LastExit::UnprotectedAbort)
        })
    }

    pub fn access(&self, realm: &Realm, ipa: u64, size: AccessSize, written: Option<u64>) -> Result<usize, Came> {
        if !realm.is_in_space(ipa) {
            return Err(Came::Result(StepResult::Sea));
        }
        let found = self.walk(realm, ipa, 3);
        let entry = self.entry(found, ipa);
        if realm.is_protected(ipa) {
            self.protected_access(0x9000_0000, entry, found.level, ipa)
        } else {
            self.unprotected_access(entry, found.level, ipa, size, written)
        }
    }

    pub fn fetch(&self, realm: &Realm, ipa: u64) -> Result<usize, Came> {
        if !realm.is_protected(ipa) {
            return Err(Came::Result(StepResult::Sea));
        }
        let found = self.walk(realm, ipa, 3);
        self.protected_access(0x8000_0000, self.entry(found, ipa), found.level, ipa)
    }
}

// ---- calls of a guest

fn was_given(realm: &Realm, mpidr: u64) -> bool {
    is_mpidr(mpidr) && rec_number(mpidr) < u64::from(realm.next_rec)
}

fn psci_exit(settings: &Settings, [function, target, b, c]: [u64; 4]) -> Came {
    let [b, c] = if settings.shows_target_alone { [0, 0] } else { [b, c] };
    Came::Exit(Exit { gprs: [function, target, b, c], ..Exit::only(Reason::Psci) }, LastExit::Other)
}

fn wait(is_trapped: bool, esr: u64) -> Came {
    if is_trapped {
        Came::Exit(Exit { esr, ..Exit::only(Reason::Sync) }, LastExit::Other)
    } else {
        Came::Result(StepResult::Done)
    }
}

fn cpu_on(settings: &Settings, realm: &Realm, rec: &Rec, target: u64, entry_point: u64, context: u64) -> Came {
    if !realm.is_protected(entry_point) {
        Came::Result(StepResult::Psci(PSCI_INVALID_ADDRESS))
    } else if !was_given(realm, target) {
        Came::Result(StepResult::Psci(PSCI_INVALID_PARAMETERS))
    } else if target == rec.mpidr {
        Came::Result(StepResult::Psci(PSCI_ALREADY_ON))
    } else {
        psci_exit(settings, [0xC400_0003, target, entry_point, context])
    }
}

fn affinity_info(settings: &Settings, realm: &Realm, rec: &Rec, target: u64, level: u64) -> Came {
    if level != 0 || !was_given(realm, target) {
        Came::Result(StepResult::Psci(PSCI_INVALID_PARAMETERS))
    } else if target == rec.mpidr {
        Came::Result(StepResult::Psci(0))
    } else {
        psci_exit(settings, [0xC400_0004, target, level, 0])
    }
}

fn set_ripas(realm: &Realm, base: u64, top: u64, ripas: u64) -> Came {
    let is_range = (base | top) & 0xFFF == 0 && base < top && realm.is_protected(top - 1) && ripas < 2;
    if !is_range {
        return Came::Result(StepResult::RsiErrorInput);
    }
    let exit = Exit { ripas_base: base, ripas_top: top, ripas, ..Exit::only(Reason::RipasChange) };
    Came::Exit(exit, LastExit::RipasChange)
}

/// The result of a step that accesses no memory.
pub fn call(settings: &Settings, realm: &Realm, rec: &Rec, flags: u64, step: Step) -> Came {
    match step {
        Step::HostCall { imm, gprs: [a, b, c] } => {
            let exit = Exit { gprs: [a, b, c, 0], imm: imm & 0xFFFF, ..Exit::only(Reason::HostCall) };
            Came::Exit(exit, LastExit::HostCall)
        }
        Step::SetRipas { base, top, ripas, .. } => set_ripas(realm, base, top, ripas),
        Step::CpuOn { target, entry_point, context } => cpu_on(settings, realm, rec, target, entry_point, context),
        Step::AffinityInfo { target, level } => affinity_info(settings, realm, rec, target, level),
        Step::CpuOff => psci_exit(settings, [0x8400_0002, 0, 0, 0]),
        Step::CpuSuspend => psci_exit(settings, [0xC400_0001, 0, 0, 0]),
        Step::SystemOff => psci_exit(settings, [0x8400_0008, 0, 0, 0]),
        Step::SystemReset => psci_exit(settings, [0x8400_0009, 0, 0, 0]),
        Step::Wfi => wait(flags & 4 != 0, 0x0400_0000),
        Step::Wfe => wait(flags & 8 != 0, 0x0400_0001),
        Step::SystemRegister { iss, value } => {
            let esr = 0x6000_0000 + (iss & 0x1FF_FFFF);
            let exit = Exit { esr, gprs: [value, 0, 0, 0], ..Exit::only(Reason::Sync) };
            Came::Exit(exit, LastExit::SystemRegister)
        }
        _ => Came::Spin,
    }
}

impl Rec {
    /// The attributes after a step that makes an exit.
    pub fn after_exit(&mut self, step: Step) {
        match step {
            Step::SetRipas { base, top, ripas, flags } => {
                let ripas = if ripas == 1 { Ripas::Ram } else { Ripas::Empty };
                self.ripas = RipasRequest { base, top, ripas, changes_destroyed: flags & 1 == 1 };
            }
            Step::CpuOn { target, entry_point, context } => self.psci = Psci::CpuOn { target, entry_point, context },
            Step::AffinityInfo { target, .. } => self.psci = Psci::AffinityInfo { target },
            Step::CpuOff => self.is_runnable = false,
            Step::CpuSuspend => self.psci = Psci::Complete(0),
            _ => {}
        }
    }
}
