//! Entries of translation tables, and their words.

#[derive(Clone, Copy, PartialEq, Eq)]
pub enum Ripas {
    Empty,
    Ram,
    Destroyed,
}

#[derive(Clone, Copy, PartialEq, Eq)]
pub enum Entry {
    Unassigned(Ripas),
    Assigned(Ripas, u64),
    Table(u64),
    UnassignedNs,
    AssignedNs(u64),
}

/// The entries whose RIPAS a command changes.
#[derive(Clone, Copy)]
pub struct Changeable {
    pub assigned: bool,
    pub destroyed: bool,
}

const REPEATED: u64 = 0x0101_0101_0101_0101;
const DESCRIPTOR: u64 = (1 << 48) - 1;
const RIPAS: [Ripas; 3] = [Ripas::Empty, Ripas::Ram, Ripas::Destroyed];

/// The log of the bytes that an entry of a level covers.
pub fn shift_of(level: u8) -> u32 {
    12 + 9 * (3 - u32::from(level))
}

pub fn entry_size(level: u8) -> u64 {
    1 << shift_of(level)
}

pub fn index_of(level: u8, ipa: u64) -> usize {
    (ipa >> shift_of(level)) as usize % 512
}

pub fn is_aligned(address: u64, level: u8) -> bool {
    address & (entry_size(level) - 1) == 0
}

/// Whether the entry of a word leads to a page, a block or a table.
pub fn is_live(word: u64) -> bool {
    (4..=8).contains(&(word >> 56))
}

impl Entry {
    pub fn of(word: u64) -> Entry {
        let descriptor = word & DESCRIPTOR;
        match word >> 56 {
            1 => Entry::Unassigned(Ripas::Ram),
            2 => Entry::Unassigned(Ripas::Destroyed),
            3 => Entry::UnassignedNs,
            4 => Entry::Table(descriptor),
            5 => Entry::AssignedNs(descriptor),
            kind @ 6..=8 => Entry::Assigned(RIPAS[kind as usize - 6], descriptor),
            _ => Entry::Unassigned(Ripas::Empty),
        }
    }

    pub fn word(self) -> u64 {
        match self {
            Entry::Unassigned(ripas) => ripas as u64 * REPEATED,
            Entry::UnassignedNs => 3 * REPEATED,
            Entry::Table(address) => 4 << 56 | address & DESCRIPTOR,
            Entry::AssignedNs(descriptor) => 5 << 56 | descriptor & DESCRIPTOR,
            Entry::Assigned(ripas, address) => (6 + ripas as u64) << 56 | address & DESCRIPTOR,
        }
    }

    pub fn is_mapping(self) -> bool {
        matches!(self, Entry::Assigned(..) | Entry::AssignedNs(_))
    }

    pub fn descriptor(self) -> u64 {
        match self {
            Entry::Assigned(_, it) | Entry::Table(it) | Entry::AssignedNs(it) => it,
            _ => 0,
        }
    }

    pub fn ripas(self) -> Ripas {
        match self {
            Entry::Unassigned(ripas) | Entry::Assigned(ripas, _) => ripas,
            _ => Ripas::Empty,
        }
    }

    pub fn state_code(self) -> u64 {
        match self {
            Entry::Unassigned(_) | Entry::UnassignedNs => 0,
            Entry::Assigned(..) | Entry::AssignedNs(_) => 1,
            Entry::Table(_) => 2,
        }
    }

    pub fn can_change(self, changeable: Changeable) -> bool {
        let fits = changeable.destroyed || self.ripas() != Ripas::Destroyed;
        match self {
            Entry::Unassigned(_) => fits,
            Entry::Assigned(..) => changeable.assigned && fits,
            _ => false,
        }
    }

    pub fn with_ripas(self, ripas: Ripas) -> Entry {
        match self {
            Entry::Unassigned(_) => Entry::Unassigned(ripas),
            Entry::Assigned(_, address) => Entry::Assigned(ripas, address),
            _ => self,
        }
    }

    /// The step from the word of one child to that of the next: only mappings have addresses that rise.
    pub fn stride(self, level: u8) -> u64 {
        if self.is_mapping() { entry_size(level) } else { 0 }
    }
}
