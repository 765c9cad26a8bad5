//! A simulated RMM: pages, free blocks, the state of each granule, and places for realms and RECs by granule.
//! Entries of tables are words in the pages of the tables.
use crate::buddy::Buddy;
use crate::host::Auxiliaries;
use crate::pages::Pages;
use crate::sha256::sha256;

#[derive(Clone, Copy, PartialEq)]
pub enum State {
    Undelegated,
    Delegated,
    Rd,
    Rtt,
    Data,
    Rec,
    RecAux,
}

/// The word of a refusal: a status and an index.
#[derive(Clone, Copy, PartialEq)]
pub struct Rmi(pub u8, pub u8);

const INPUT: Rmi = Rmi(1, 0);
/// The realm has no REC of that number.
pub const NO_REC: Rmi = INPUT;
const REALM: Rmi = Rmi(2, 0);
const REC: Rmi = Rmi(3, 0);

const fn rtt(level: u8) -> Rmi {
    Rmi(4, level)
}

#[derive(Clone)]
pub struct Realm {
    measurement: [u8; 32],
    root: u16,
    next: u16,
    pub vmid: u8,
    width: u8,
    pub is_active: bool,
}

#[derive(Clone)]
struct Rec {
    auxiliaries: Auxiliaries,
    _number: u16,
    runs: bool,
}

// An entry of a table is a word: its kind in bits 0 and 1, its RIPAS in 2 and 3, and the address of its granule.
const ASSIGNED: u64 = 1;
const TABLE: u64 = 2;
const RAM: u64 = 4;
const DESTROYED: u64 = 8;

fn kind(word: u64) -> u64 {
    word % 4
}

fn granule_of(word: u64) -> usize {
    (word / 4096 % 4096) as usize
}

// The index of an IPA granule in a table of a level.
fn index(ipa: u32, level: u8) -> usize {
    (ipa >> (9 * (3 - level)) & 511) as usize
}

pub struct Monitor {
    pub pages: Pages,
    pub buddy: Buddy,
    states: Vec<(State, Option<u16>)>,
    realms: Vec<Option<Realm>>,
    rec_counts: Vec<u16>,
    recs: Vec<Option<Rec>>,
    vmids: u8,
    aux: usize,
}

impl Monitor {
    pub fn new(count: usize, vmids: u8, aux: usize) -> Monitor {
        Monitor {
            pages: Pages::new(count),
            buddy: Buddy::new(count),
            states: vec![(State::Undelegated, None); count],
            realms: vec![None; count],
            rec_counts: vec![0; count],
            recs: vec![None; count],
            vmids,
            aux,
        }
    }

    pub fn state(&self, granule: usize) -> State {
        self.states[granule].0
    }

    pub fn realm(&self, rd: usize) -> Option<&Realm> {
        self.realms[rd].as_ref()
    }

    fn is(&self, granule: usize, state: State) -> bool {
        self.states[granule].0 == state
    }

    pub fn delegate(&mut self, granule: usize) -> Result<(), Rmi> {
        if !self.is(granule, State::Undelegated) {
            return Err(INPUT);
        }
        self.states[granule].0 = State::Delegated;
        self.pages.clear(granule, 1);
        Ok(())
    }

    pub fn undelegate(&mut self, granule: usize) -> Result<(), Rmi> {
        if !self.is(granule, State::Delegated) {
            return Err(INPUT);
        }
        self.states[granule].0 = State::Undelegated;
        Ok(())
    }

    pub fn fill(&mut self, granule: usize, value: u8) -> Result<(), Rmi> {
        if !self.is(granule, State::Undelegated) {
            return Err(INPUT);
        }
        self.pages.fill(granule, value);
        Ok(())
    }

    // A granule leaves its realm: it is cleared and DELEGATED.
    fn leave(&mut self, granule: usize) {
        self.pages.clear(granule, 1);
        self.states[granule] = (State::Delegated, None);
    }

    pub fn realm_create(&mut self, rd: usize, root: usize, vmid: u8, used: &[u8]) -> Result<(), Rmi> {
        let is_free = vmid >= 1 && vmid <= self.vmids && !used.contains(&vmid);
        if !self.is(rd, State::Delegated) || !self.is(root, State::Delegated) || rd == root || !is_free {
            return Err(INPUT);
        }
        self.pages.clear(root, 1);
        self.states[rd] = (State::Rd, Some(rd as u16));
        self.states[root] = (State::Rtt, Some(rd as u16));
        let root = root as u16;
        self.realms[rd] = Some(Realm { measurement: [0; 32], root, next: 0, vmid, width: 39, is_active: false });
        self.rec_counts[rd] = 0;
        Ok(())
    }

    pub fn realm_destroy(&mut self, rd: usize) -> Result<(), Rmi> {
        let Some(realm) = &self.realms[rd] else { return Err(INPUT) };
        let root = realm.root as usize;
        if self.rec_counts[rd] > 0 || (0..512).any(|at| kind(self.pages.word(root, at)) == TABLE) {
            return Err(REALM);
        }
        self.realms[rd] = None;
        self.leave(root);
        self.leave(rd);
        Ok(())
    }

    pub fn realm_activate(&mut self, rd: usize) -> Result<(), Rmi> {
        let Some(realm) = &mut self.realms[rd] else { return Err(INPUT) };
        if realm.is_active {
            return Err(REALM);
        }
        realm.is_active = true;
        Ok(())
    }

    // The realm, if the IPA granule is protected.
    fn realm_at(&self, rd: usize, ipa: u32) -> Result<&Realm, Rmi> {
        match &self.realms[rd] {
            Some(realm) if u64::from(ipa) < 1 << (realm.width - 13) => Ok(realm),
            _ => Err(INPUT),
        }
    }

    // The table and the index at which a walk ends at that level, and the word there.
    fn walk(&self, root: u16, ipa: u32, level: u8) -> Result<(usize, usize, u64), Rmi> {
        let (mut table, mut at) = (root as usize, 1);
        loop {
            let word = self.pages.word(table, index(ipa, at));
            if at == level {
                return Ok((table, index(ipa, at), word));
            }
            if kind(word) != TABLE {
                return Err(rtt(at));
            }
            (table, at) = (granule_of(word), at + 1);
        }
    }

    pub fn rtt_create(&mut self, rd: usize, granule: usize, ipa: u32, level: u8) -> Result<(), Rmi> {
        let is_place = (level == 2 || level == 3) && ipa % (1 << (9 * (4 - level))) == 0;
        let realm = self.realm_at(rd, ipa)?;
        if !self.is(granule, State::Delegated) || !is_place {
            return Err(INPUT);
        }
        let (table, at, word) = self.walk(realm.root, ipa, level - 1)?;
        if kind(word) == TABLE {
            return Err(rtt(level - 1));
        }
        self.states[granule] = (State::Rtt, Some(rd as u16));
        if word != 0 {
            for index in 0..512 {
                self.pages.set_word(granule, index, word);
            }
        }
        self.pages.set_word(table, at, TABLE + granule as u64 * 4096);
        Ok(())
    }

    pub fn rtt_destroy(&mut self, rd: usize, ipa: u32, level: u8) -> Result<(), Rmi> {
        let realm = self.realm_at(rd, ipa)?;
        let (table, at, word) = self.walk(realm.root, ipa, level - 1)?;
        if kind(word) != TABLE {
            return Err(rtt(level - 1));
        }
        let child = granule_of(word);
        if (0..512).any(|at| kind(self.pages.word(child, at)) != 0) {
            return Err(rtt(level));
        }
        self.pages.set_word(table, at, DESTROYED);
        self.leave(child);
        Ok(())
    }

    pub fn data_create(&mut self, rd: usize, granule: usize, ipa: u32, source: usize) -> Result<(), Rmi> {
        let realm = self.realm_at(rd, ipa)?;
        if !self.is(granule, State::Delegated) || !self.is(source, State::Undelegated) {
            return Err(INPUT);
        }
        if realm.is_active {
            return Err(REALM);
        }
        let (table, at, word) = self.walk(realm.root, ipa, 3)?;
        if kind(word) != 0 {
            return Err(rtt(3));
        }
        self.pages.copy(granule, source);
        self.states[granule] = (State::Data, Some(rd as u16));
        self.pages.set_word(table, at, ASSIGNED + RAM + granule as u64 * 4096);
        let mut event = [0; 37];
        event[0] = 1;
        event[1..5].copy_from_slice(&ipa.to_be_bytes());
        event[5..].copy_from_slice(&sha256(self.pages.get(source)));
        self.measure(rd, &event);
        Ok(())
    }

    pub fn data_destroy(&mut self, rd: usize, ipa: u32) -> Result<(), Rmi> {
        let realm = self.realm_at(rd, ipa)?;
        let (table, at, word) = self.walk(realm.root, ipa, 3)?;
        if kind(word) != ASSIGNED {
            return Err(rtt(3));
        }
        self.pages.set_word(table, at, if word % 16 / 4 == 0 { 0 } else { DESTROYED });
        self.leave(granule_of(word));
        Ok(())
    }

    // A realm's measurement goes on over the bytes of an event.
    fn measure(&mut self, rd: usize, event: &[u8]) {
        let realm = self.realms[rd].as_mut().unwrap();
        let mut bytes = [0; 69];
        bytes[..32].copy_from_slice(&realm.measurement);
        bytes[32..32 + event.len()].copy_from_slice(event);
        realm.measurement = sha256(&bytes[..32 + event.len()]);
    }

    pub fn rec_create(&mut self, rd: usize, granule: usize, auxiliaries: Auxiliaries) -> Result<u16, Rmi> {
        let Some(realm) = &mut self.realms[rd] else { return Err(INPUT) };
        let named = auxiliaries.numbers();
        let is_free = |granule: usize| self.states[granule].0 == State::Delegated;
        let is_alone = |at: usize| usize::from(named[at]) != granule && !named[..at].contains(&named[at]);
        let are_free = is_free(granule) && named.iter().all(|&auxiliary| is_free(auxiliary.into()));
        if !are_free || named.len() != self.aux || !(0..named.len()).all(is_alone) {
            return Err(INPUT);
        }
        if realm.is_active {
            return Err(REALM);
        }
        let number = realm.next;
        realm.next += 1;
        self.states[granule] = (State::Rec, Some(rd as u16));
        for &auxiliary in named {
            self.states[auxiliary as usize] = (State::RecAux, Some(rd as u16));
        }
        self.recs[granule] = Some(Rec { auxiliaries, _number: number, runs: false });
        self.rec_counts[rd] += 1;
        let mut event = [3, 0, 0, 0, 0];
        event[1..].copy_from_slice(&u32::from(number).to_be_bytes());
        self.measure(rd, &event);
        Ok(number)
    }

    pub fn rec_destroy(&mut self, rd: usize, granule: usize) -> Result<(), Rmi> {
        let Some(rec) = &self.recs[granule] else { return Err(INPUT) };
        if rec.runs {
            return Err(REC);
        }
        let auxiliaries = rec.auxiliaries;
        self.recs[granule] = None;
        self.rec_counts[rd] -= 1;
        self.leave(granule);
        for &auxiliary in auxiliaries.numbers() {
            self.leave(auxiliary as usize);
        }
        Ok(())
    }

    /// Lets a REC run, or stop.
    pub fn rec_runs(&mut self, rd: usize, granule: usize, runs: bool) -> Result<(), Rmi> {
        let (Some(realm), Some(rec)) = (&self.realms[rd], &mut self.recs[granule]) else { return Err(INPUT) };
        if runs && !realm.is_active {
            return Err(REALM);
        }
        if rec.runs == runs {
            return Err(REC);
        }
        rec.runs = runs;
        Ok(())
    }
}
