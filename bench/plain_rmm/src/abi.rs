//! Registers, answers and settings.

pub type Registers = [u64; 7];

/// The result word of a command, and its outputs X1 to X4.
#[derive(Clone, Copy)]
pub struct Answer {
    pub word: u64,
    pub outputs: [u64; 4],
}

/// A value, or the answer of a command that is refused.
pub type Checked<T> = Result<T, Answer>;

pub const RUNNING: u64 = 0xFFFF_FFFF_FFFF_FFFE;
pub const VERSION: u64 = 0x1_0000;

const fn only(word: u64) -> Answer {
    Answer { word, outputs: [0; 4] }
}

pub const SUCCESS: Answer = only(0);
pub const ERROR_INPUT: Answer = only(1);
pub const ERROR_REALM: Answer = only(2);
pub const ERROR_SYSTEM_OFF: Answer = only(2 + 256);
pub const ERROR_REC: Answer = only(3);

pub fn success(outputs: [u64; 4]) -> Answer {
    Answer { word: 0, outputs }
}

pub fn error_rtt(level: u8) -> Answer {
    only(4 + 256 * u64::from(level))
}

/// Passes where a check holds, and else gives the answer.
pub fn check(holds: bool, refusal: Answer) -> Checked<()> {
    if holds { Ok(()) } else { Err(refusal) }
}

#[derive(Clone, Copy)]
pub struct Settings {
    pub base: u64,
    pub secure_base: u64,
    pub secure_count: u64,
    pub aux: u8,
    pub vmid_bits: u8,
    pub s2sz: u8,
    pub max_recs_order: u8,
    pub block_level: u8,
    pub bps: u8,
    pub wps: u8,
    pub lrs: u8,
    pub is_eac5: bool,
    pub stops_at_destroyed: bool,
    pub measures_all_recs: bool,
    pub ignores_data_flags: bool,
    pub data_needs_ram: bool,
    pub aligns_live_top: bool,
    pub shows_target_alone: bool,
    pub takes_shareability: bool,
    pub checks_params: bool,
    pub checks_gic: bool,
}

impl Default for Settings {
    fn default() -> Settings {
        Settings {
            base: 0x8000_0000,
            secure_base: 0,
            secure_count: 0,
            aux: 2,
            vmid_bits: 16,
            s2sz: 48,
            max_recs_order: 4,
            block_level: 2,
            bps: 0,
            wps: 0,
            lrs: 0,
            is_eac5: false,
            stops_at_destroyed: false,
            measures_all_recs: false,
            ignores_data_flags: false,
            data_needs_ram: false,
            aligns_live_top: false,
            shows_target_alone: false,
            takes_shareability: false,
            checks_params: false,
            checks_gic: false,
        }
    }
}

impl Settings {
    pub fn feature_register(&self, index: u64) -> u64 {
        if index != 0 {
            return 0;
        }
        let [s2sz, bps, wps, lrs, order] =
            [self.s2sz, self.bps, self.wps, self.lrs, self.max_recs_order].map(u64::from);
        if self.is_eac5 {
            s2sz | bps << 14 | wps << 18 | 3 << 28 | lrs << 30 | order << 34
        } else {
            s2sz | bps << 14 | wps << 20 | 3 << 32 | lrs << 34 | order << 38
        }
    }

    /// Whether settings are in range, as of a platform line.
    pub fn are_in_range(&self) -> bool {
        let is_address = |it: u64| it < 1 << 47 && it.is_multiple_of(4096);
        let most = if self.is_eac5 { 15 } else { 63 };
        is_address(self.base)
            && is_address(self.secure_base)
            && self.aux <= 16
            && matches!(self.vmid_bits, 8 | 16)
            && (32..=48).contains(&self.s2sz)
            && self.max_recs_order <= 15
            && self.bps <= most
            && self.wps <= most
            && self.lrs <= 15
    }
}
