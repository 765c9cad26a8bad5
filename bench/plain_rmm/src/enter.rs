//! RMI_REC_ENTER.
use crate::abi::{
    Answer, Checked, ERROR_INPUT, ERROR_REALM, ERROR_REC, ERROR_SYSTEM_OFF, RUNNING, SUCCESS, check,
};
use crate::entry::Ripas;
use crate::granules::{Granules, Page, word_in};
use crate::guest::{Came, Exit, Reason, Step, StepResult, call};
use crate::objects::{LastExit, NO_REQUEST, Psci, Realm, RealmState, RipasRequest};

/// Flags of an entry.
const EMULATE_MMIO: u64 = 1;
const INJECT_SEA: u64 = 2;
const REJECT_RIPAS: u64 = 16;

fn ripas_result(asked: &RipasRequest, flags: u64) -> StepResult {
    if flags & REJECT_RIPAS != 0 && asked.ripas == Ripas::Ram && asked.base != asked.top {
        StepResult::Rejected(asked.base)
    } else {
        StepResult::Accepted(asked.base)
    }
}

/// Whether a host may set gicv3_hcr and the list registers as a run page has them.
fn may_set_gic(lrs: u8, page: &Page) -> bool {
    let hcr = word_in(page, 96);
    let fits = |k: usize| {
        let lr = word_in(page, 97 + k);
        if k <= usize::from(lrs) { lr >> 61 & 1 == 0 } else { lr == 0 }
    };
    hcr & 0x3F01 == 0 && hcr < 0x8000 && (0..16).all(fits)
}

impl Granules {
    /// Words of one granule's page become words of another one's.
    fn copy_words(&mut self, from: usize, first: usize, to: usize, place: usize, count: usize) {
        let (to, from) = self.page_pair(to, from);
        to[8 * place..8 * (place + count)].copy_from_slice(&from[8 * first..8 * (first + count)]);
    }

    fn owner_realm(&self, g: usize) -> Option<(usize, &Realm)> {
        let rd = usize::from(self.granule(g).owner?);
        match &self.granule(rd).state {
            crate::granules::State::Rd(realm) => Some((rd, realm)),
            _ => None,
        }
    }

    // ---- exits

    /// A REC leaves: the upper half of its run page is the exit, if that page is the host's.
    fn leave(&mut self, g: usize, exit: &Exit, last: LastExit) {
        let rec = self.rec_mut(g);
        rec.is_running = false;
        rec.exit = last;
        let run = rec.run;
        let Some(run) = self.host_granule(run) else { return };
        self.page_mut(run)[2048..].fill(0);
        for (place, word) in exit.words() {
            self.set_word(run, place, word);
        }
        if self.settings.checks_gic {
            self.copy_words(g, 192, run, 352, 17);
        }
    }

    pub fn interrupt(&mut self, address: u64) -> Option<u64> {
        let (g, rec) = self.rec_of(address).ok().filter(|(_, rec)| rec.is_running)?;
        let word = if self.host_granule(rec.run).is_some() { SUCCESS.word } else { ERROR_INPUT.word };
        self.leave(g, &Exit::only(Reason::Irq), LastExit::Other);
        Some(word)
    }

    // ---- entries

    fn gpr(&self, run: usize, k: usize) -> u64 {
        self.word(run, 64 + k)
    }

    fn end_step(&mut self, g: usize, result: StepResult) {
        self.pass_step(g);
        self.push_result(g, result);
    }

    fn answer_abort(&mut self, g: usize, run: usize, flags: u64) {
        if flags & INJECT_SEA != 0 {
            self.end_step(g, StepResult::Sea);
        } else if flags & EMULATE_MMIO != 0 {
            let gpr0 = self.gpr(run, 0);
            let step = self.first_step(g, self.rec(g));
            let result = match step {
                Step::Read { size, .. } => StepResult::Read(size.low(gpr0)),
                _ => StepResult::Done,
            };
            self.end_step(g, result);
        }
    }

    fn answer_host_call(&mut self, g: usize, run: usize) {
        self.copy_words(run, 64, g, 0, 31);
        self.push_result(g, StepResult::Returned(self.gpr(run, 0)));
    }

    /// The guest gets the host's answer to the last exit.
    fn answer_exit(&mut self, g: usize, last: LastExit, run: usize, flags: u64) {
        match last {
            LastExit::RipasChange => {
                let asked = std::mem::replace(&mut self.rec_mut(g).ripas, NO_REQUEST);
                self.push_result(g, ripas_result(&asked, flags));
            }
            LastExit::HostCall => self.answer_host_call(g, run),
            LastExit::SystemRegister => self.push_result(g, StepResult::Done),
            LastExit::UnprotectedAbort if flags & INJECT_SEA != 0 => self.end_step(g, StepResult::Sea),
            LastExit::UnprotectedAbort => {}
            LastExit::EmulatableAbort => self.answer_abort(g, run, flags),
            LastExit::Other => {
                if let Psci::Complete(value) = self.rec(g).psci {
                    self.rec_mut(g).psci = Psci::None;
                    self.push_result(g, StepResult::Psci(value));
                }
            }
        }
    }

    // ---- steps

    fn perform_access(&mut self, g: usize, step: Step) -> Came {
        let Some((_, realm)) = self.owner_realm(g) else { return Came::Spin };
        let came = match step {
            Step::Write { ipa, value, size } => self.access(realm, ipa, size, Some(size.low(value))),
            Step::Read { ipa, size } => self.access(realm, ipa, size, None),
            Step::Fetch { ipa } => self.fetch(realm, ipa),
            _ => return Came::Spin,
        };
        match (came, step) {
            (Err(came), _) => came,
            (Ok(granule), Step::Write { ipa, value, size }) => {
                size.write(self.page_mut(granule), ipa, value);
                Came::Result(StepResult::Done)
            }
            (Ok(granule), Step::Read { ipa, size }) => {
                Came::Result(StepResult::Read(size.read(self.page(granule), ipa)))
            }
            (Ok(_), _) => Came::Result(StepResult::Done),
        }
    }

    fn perform_call(&mut self, g: usize, flags: u64, step: Step) -> Came {
        let Some((rd, realm)) = self.owner_realm(g) else { return Came::Spin };
        let came = call(&self.settings, realm, self.rec(g), flags, step);
        if let Came::Exit(..) = came {
            self.rec_mut(g).after_exit(step);
        }
        if let (Step::SystemOff | Step::SystemReset, Some(realm)) = (step, self.realm_mut(rd)) {
            realm.state = RealmState::SystemOff;
        }
        came
    }

    /// A guest performs its first step.
    fn perform_first(&mut self, g: usize, flags: u64) -> Came {
        let rec = self.rec(g);
        if rec.step_count == 0 || self.owner_realm(g).is_none() {
            return Came::Exit(Exit::only(Reason::Irq), LastExit::Other);
        }
        let step = self.first_step(g, rec);
        let came = match step {
            Step::Write { .. } | Step::Read { .. } | Step::Fetch { .. } => self.perform_access(g, step),
            _ => self.perform_call(g, flags, step),
        };
        match &came {
            Came::Result(result) => self.end_step(g, *result),
            Came::Exit(Exit { reason: Reason::Sync, .. }, last) if *last != LastExit::SystemRegister => {}
            _ => self.pass_step(g),
        }
        came
    }

    /// A guest performs its steps, up to one that makes an exit or spins. Whether the REC left.
    fn run(&mut self, g: usize, flags: u64) -> bool {
        for _ in 0..crate::guest::MOST_STEPS {
            match self.perform_first(g, flags) {
                Came::Result(_) => {}
                Came::Exit(exit, last) => {
                    self.leave(g, &exit, last);
                    return true;
                }
                Came::Spin => return false,
            }
        }
        self.leave(g, &Exit::only(Reason::Irq), LastExit::Other);
        true
    }

    // ---- the command

    pub fn rec_enter(&mut self, rec: u64, address: u64) -> Checked<Answer> {
        let run = self.host_page(address)?;
        let (g, rec) = self.rec_of(rec)?;
        let flags = word_in(self.page(run), 0);
        match self.owner_realm(g).map(|(_, realm)| realm.state) {
            Some(RealmState::Active) => {}
            Some(RealmState::SystemOff) => return Err(ERROR_SYSTEM_OFF),
            _ => return Err(ERROR_REALM),
        }
        check(!rec.is_running && rec.is_runnable, ERROR_REC)?;
        check(flags & EMULATE_MMIO == 0 || rec.exit == LastExit::EmulatableAbort, ERROR_REC)?;
        check(!self.settings.checks_gic || may_set_gic(self.settings.lrs, self.page(run)), ERROR_REC)?;
        check(!rec.is_pending(), ERROR_REC)?;
        let last = rec.exit;
        let rec = self.rec_mut(g);
        rec.is_running = true;
        rec.run = address;
        rec.exit = LastExit::Other;
        rec.result_count = 0;
        if self.settings.checks_gic {
            self.copy_words(run, 96, g, 192, 17);
        }
        self.answer_exit(g, last, run, flags);
        if self.run(g, flags) { Ok(SUCCESS) } else { Ok(Answer { word: RUNNING, ..SUCCESS }) }
    }
}
