//! A Realm Management Monitor of RMM 1.0 in plain Rust with nothing proved, as a baseline of the crate `rmm`: granules
//! as states and pages, tables as 512 words in pages, measurements by SHA-256 or SHA-512. It makes each check of all 23
//! commands.
//!
//! `plain_rmm` reads a script as `crates/test_memory` does, and prints the same sum. `plain_rmm lines` performs the
//! raw operations of `tests/rmm_lines.py`, so that `tests/rmm_lines.py --by` tries it by the traces.
mod abi;
mod enter;
mod entry;
mod granules;
mod guest;
mod lines;
mod measure;
mod objects;
mod realm;
mod rtt;
mod script;
#[path = "../../plain/src/sha256.rs"]
mod sha256;
mod sha512;

use abi::{Answer, Checked, Registers};
use granules::Granules;

impl Granules {
    fn perform(&mut self, r: &Registers) -> Option<Checked<Answer>> {
        let &[x0, x1, x2, x3, x4, x5, _] = r;
        Some(match x0 {
            0xC400_0150 => self.version(x1),
            0xC400_0151 => self.granule_delegate(x1),
            0xC400_0152 => self.granule_undelegate(x1),
            0xC400_0153 => self.data_create(x1, x2, x3, x4, x5),
            0xC400_0154 => self.data_create_unknown(x1, x2, x3),
            0xC400_0155 => self.data_destroy(x1, x2),
            0xC400_0157 => self.realm_activate(x1),
            0xC400_0158 => self.realm_create(x1, x2),
            0xC400_0159 => self.realm_destroy(x1),
            0xC400_015A => self.rec_create(x1, x2, x3),
            0xC400_015B => self.rec_destroy(x1),
            0xC400_015C => self.rec_enter(x1, x2),
            0xC400_015D => self.rtt_create(x1, x2, x3, x4),
            0xC400_015E => self.rtt_destroy(x1, x2, x3),
            0xC400_015F => self.rtt_map_unprotected(x1, x2, x3, x4),
            0xC400_0161 => self.rtt_read_entry(x1, x2, x3),
            0xC400_0162 => self.rtt_unmap_unprotected(x1, x2, x3),
            0xC400_0164 => self.psci_complete(x1, x2, x3),
            0xC400_0165 => self.features(x1),
            0xC400_0166 => self.rtt_fold(x1, x2, x3),
            0xC400_0167 => self.rec_aux_count(x1),
            0xC400_0168 => self.rtt_init_ripas(x1, x2, x3),
            0xC400_0169 => self.rtt_set_ripas(x1, x2, x3, x4),
            _ => return None,
        })
    }

    /// Does what a call by registers asks, and returns the registers after it.
    pub fn smc(&mut self, r: &Registers) -> Registers {
        let [_, x1, x2, x3, x4, x5, x6] = *r;
        match self.perform(r) {
            Some(Ok(answer) | Err(answer)) => {
                let [y1, y2, y3, y4] = answer.outputs;
                [answer.word, y1, y2, y3, y4, x5, x6]
            }
            None => [u64::MAX, x1, x2, x3, x4, x5, x6],
        }
    }

    /// Stores eight bytes of the host at an address, if it may.
    pub fn store(&mut self, address: u64, word: u64) -> bool {
        let granule = self.host_granule(address).filter(|_| address.is_multiple_of(8));
        if let Some(granule) = granule {
            self.set_word(granule, (address % 4096 / 8) as usize, word);
        }
        granule.is_some()
    }
}

fn main() {
    match std::env::args().nth(1).as_deref() {
        Some("lines") => lines::run(),
        _ => script::run(),
    }
}
