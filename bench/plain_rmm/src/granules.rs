//! Granules: their states and pages, and the checks of operands.
use crate::abi::{Checked, ERROR_INPUT, Settings};
use crate::entry::{Entry, is_live, shift_of};
use crate::objects::{Realm, Rec};

pub type Page = [u8; 4096];

#[derive(Clone, Copy)]
pub enum State {
    Undelegated,
    Delegated,
    Rd(Realm),
    Rec(Rec),
    RecAux,
    Data,
    Rtt,
}

#[derive(Clone, Copy)]
pub struct Granule {
    pub state: State,
    pub owner: Option<u16>,
}

/// The end of a walk: a table and its level.
#[derive(Clone, Copy)]
pub struct Walk {
    pub table: usize,
    pub level: u8,
}

pub struct Granules {
    pub settings: Settings,
    granules: Vec<Granule>,
    pages: Vec<Page>,
    vmids: Vec<bool>,
}

pub fn word_in(page: &Page, index: usize) -> u64 {
    u64::from_le_bytes(page[8 * index..8 * index + 8].try_into().unwrap())
}

pub fn words_of(page: &Page) -> impl Iterator<Item = u64> {
    page.chunks_exact(8).map(|bytes| u64::from_le_bytes(bytes.try_into().unwrap()))
}

pub fn set_words(page: &mut Page, words: impl Iterator<Item = u64>) {
    for (bytes, word) in page.chunks_exact_mut(8).zip(words) {
        bytes.copy_from_slice(&word.to_le_bytes());
    }
}

pub fn has_live(page: &Page) -> bool {
    words_of(page).any(is_live)
}

impl Granules {
    pub fn new(settings: Settings, count: usize) -> Granules {
        let granules = vec![Granule { state: State::Undelegated, owner: None }; count];
        Granules { settings, granules, pages: vec![[0; 4096]; count], vmids: vec![false; 0x1_0000] }
    }

    // ---- addresses

    /// The granule that an address is in.
    pub fn index_of(&self, address: u64) -> Option<usize> {
        let index = (address.checked_sub(self.settings.base)? / 4096) as usize;
        (index < self.granules.len()).then_some(index)
    }

    pub fn is_secure(&self, address: u64) -> bool {
        let s = &self.settings;
        address >= s.secure_base && (address - s.secure_base) / 4096 < s.secure_count
    }

    /// The granule of the host that an address is in.
    pub fn host_granule(&self, address: u64) -> Option<usize> {
        let index = self.index_of(address)?;
        (matches!(self.granules[index].state, State::Undelegated) && !self.is_secure(address)).then_some(index)
    }

    // ---- operands

    pub fn named(&self, address: u64) -> Checked<usize> {
        if !address.is_multiple_of(4096) {
            return Err(ERROR_INPUT);
        }
        self.index_of(address).ok_or(ERROR_INPUT)
    }

    pub fn host_page(&self, address: u64) -> Checked<usize> {
        if !address.is_multiple_of(4096) {
            return Err(ERROR_INPUT);
        }
        self.host_granule(address).ok_or(ERROR_INPUT)
    }

    pub fn is_delegated(&self, index: usize) -> bool {
        matches!(self.granules[index].state, State::Delegated)
    }

    pub fn delegated(&self, address: u64) -> Checked<usize> {
        let index = self.named(address)?;
        if self.is_delegated(index) { Ok(index) } else { Err(ERROR_INPUT) }
    }

    pub fn realm_of(&self, rd: u64) -> Checked<(usize, &Realm)> {
        let index = self.named(rd)?;
        match &self.granules[index].state {
            State::Rd(realm) => Ok((index, realm)),
            _ => Err(ERROR_INPUT),
        }
    }

    pub fn rec_of(&self, rec: u64) -> Checked<(usize, &Rec)> {
        let index = self.named(rec)?;
        match &self.granules[index].state {
            State::Rec(rec) => Ok((index, rec)),
            _ => Err(ERROR_INPUT),
        }
    }

    // ---- states

    pub fn granule(&self, index: usize) -> &Granule {
        &self.granules[index]
    }

    pub fn realm_mut(&mut self, rd: usize) -> Option<&mut Realm> {
        match &mut self.granules[rd].state {
            State::Rd(realm) => Some(realm),
            _ => None,
        }
    }

    /// The attributes of a granule that is a REC.
    pub fn rec(&self, rec: usize) -> &Rec {
        match &self.granules[rec].state {
            State::Rec(rec) => rec,
            _ => unreachable!("a REC stays one"),
        }
    }

    pub fn rec_mut(&mut self, rec: usize) -> &mut Rec {
        match &mut self.granules[rec].state {
            State::Rec(rec) => rec,
            _ => unreachable!("a REC stays one"),
        }
    }

    pub fn set(&mut self, index: usize, state: State, owner: Option<u16>) {
        self.granules[index] = Granule { state, owner };
    }

    /// A granule gets a state, and its page is zero.
    pub fn wipe(&mut self, index: usize, state: State, owner: Option<u16>) {
        self.set(index, state, owner);
        self.pages[index].fill(0);
    }

    pub fn is_vmid_used(&self, vmid: u16) -> bool {
        self.vmids[usize::from(vmid)]
    }

    pub fn set_vmid(&mut self, vmid: u16, is_used: bool) {
        self.vmids[usize::from(vmid)] = is_used;
    }

    // ---- pages

    pub fn page(&self, index: usize) -> &Page {
        &self.pages[index]
    }

    pub fn page_mut(&mut self, index: usize) -> &mut Page {
        &mut self.pages[index]
    }

    /// The page of one granule to be written, and that of another.
    pub fn page_pair(&mut self, target: usize, source: usize) -> (&mut Page, &Page) {
        let [to, from] = self.pages.get_disjoint_mut([target, source]).unwrap();
        (to, from)
    }

    pub fn copy(&mut self, target: usize, source: usize) {
        let (to, from) = self.page_pair(target, source);
        to.copy_from_slice(from);
    }

    pub fn word(&self, granule: usize, index: usize) -> u64 {
        word_in(&self.pages[granule], index)
    }

    pub fn set_word(&mut self, granule: usize, index: usize, word: u64) {
        self.pages[granule][8 * index..8 * index + 8].copy_from_slice(&word.to_le_bytes());
    }

    // ---- tables

    pub fn entry(&self, found: Walk, ipa: u64) -> Entry {
        Entry::of(self.word(found.table, crate::entry::index_of(found.level, ipa)))
    }

    pub fn set_entry(&mut self, found: Walk, ipa: u64, entry: Entry) {
        self.set_word(found.table, crate::entry::index_of(found.level, ipa), entry.word());
    }

    pub fn table_below(&self, entry: Entry) -> Option<usize> {
        match entry {
            Entry::Table(address) => self.index_of(address),
            _ => None,
        }
    }

    pub fn memory_below(&self, entry: Entry) -> Option<usize> {
        match entry {
            Entry::Assigned(_, address) => self.index_of(address),
            _ => None,
        }
    }

    /// The end of the walk of an address towards a level.
    pub fn walk(&self, realm: &Realm, ipa: u64, to: u8) -> Walk {
        let start = realm.first_table as usize + (ipa >> shift_of(realm.start_level) >> 9) as usize;
        let mut found = Walk { table: start, level: realm.start_level };
        while found.level < to {
            let Some(table) = self.table_below(self.entry(found, ipa)) else { break };
            found = Walk { table, level: found.level + 1 };
        }
        found
    }

    /// The address of the next live entry from an address on, in the table where its walk ends.
    pub fn top(&self, found: Walk, ipa: u64) -> u64 {
        let (index, shift) = (crate::entry::index_of(found.level, ipa), shift_of(found.level));
        let rest = &self.pages[found.table][8 * index..];
        let mut words = rest.chunks_exact(8).map(|bytes| u64::from_le_bytes(bytes.try_into().unwrap()));
        let ahead = words.position(is_live).unwrap_or(512 - index);
        if ahead > 0 {
            ((ipa >> shift) + ahead as u64) << shift
        } else if self.settings.aligns_live_top {
            ipa >> shift << shift
        } else {
            ipa
        }
    }
}
