//! Commands of translation tables and data.
use crate::abi::{Answer, Checked, ERROR_INPUT, ERROR_REALM, ERROR_REC, SUCCESS, check, error_rtt, success};
use crate::entry::{Changeable, Entry, Ripas, entry_size, index_of, is_aligned, shift_of};
use crate::granules::{Granules, State, Walk, has_live, set_words, word_in, words_of};
use crate::measure::{Extension, digest, extend};
use crate::objects::{Realm, RealmState};

// ---- addresses

/// A level from `least` on, of an address at which an entry of the level that many above it begins.
fn level_of(realm: &Realm, least: u8, level: u64, above: u8, ipa: u64) -> Checked<u8> {
    check(u64::from(least) <= level && level <= 3, ERROR_INPUT)?;
    let level = level as u8;
    check(is_aligned(ipa, level - above), ERROR_INPUT)?;
    check(realm.is_in_space(ipa), ERROR_INPUT)?;
    Ok(level)
}

fn check_page(realm: &Realm, ipa: u64) -> Checked<()> {
    check(is_aligned(ipa, 3), ERROR_INPUT)?;
    check(realm.is_protected(ipa), ERROR_INPUT)
}

fn check_entry(found: Walk, level: u8, fits: bool) -> Checked<()> {
    check(found.level == level && fits, error_rtt(found.level))
}

impl Granules {
    fn unprotected_level(&self, realm: &Realm, level: u64, ipa: u64) -> Checked<u8> {
        let least = self.settings.block_level.max(realm.start_level);
        let level = level_of(realm, least, level, 0, ipa)?;
        check(!realm.is_protected(ipa), ERROR_INPUT)?;
        Ok(level)
    }

    /// RMI_ERROR_RTT with the next live entry in the first output or the second.
    fn error_rtt_top(&self, level: u8, found: Walk, ipa: u64, output: usize) -> Answer {
        let mut answer = error_rtt(level);
        answer.outputs[output] = self.top(found, ipa);
        answer
    }

    // ---- tables

    pub fn rtt_read_entry(&self, rd: u64, ipa: u64, level: u64) -> Checked<Answer> {
        let (_, realm) = self.realm_of(rd)?;
        let level = level_of(realm, realm.start_level, level, 0, ipa)?;
        let found = self.walk(realm, ipa, level);
        let entry = self.entry(found, ipa);
        let outputs = [u64::from(found.level), entry.state_code(), entry.descriptor(), entry.ripas() as u64];
        Ok(success(outputs))
    }

    pub fn rtt_create(&mut self, rd: u64, rtt: u64, ipa: u64, level: u64) -> Checked<Answer> {
        let table = self.delegated(rtt)?;
        let (rd, realm) = self.realm_of(rd)?;
        let level = level_of(realm, realm.start_level + 1, level, 1, ipa)?;
        let found = self.walk(realm, ipa, level - 1);
        let parent = self.entry(found, ipa);
        check_entry(found, level - 1, !matches!(parent, Entry::Table(_)))?;
        self.set(table, State::Rtt, Some(rd as u16));
        let (first, stride) = (parent.word(), parent.stride(level));
        if stride == 0 {
            self.page_mut(table).fill(first as u8);
        } else {
            set_words(self.page_mut(table), (0..512).map(|k| first + k * stride));
        }
        self.set_entry(found, ipa, Entry::Table(rtt));
        Ok(SUCCESS)
    }

    pub fn rtt_destroy(&mut self, rd: u64, ipa: u64, level: u64) -> Checked<Answer> {
        let (_, realm) = self.realm_of(rd)?;
        let level = level_of(realm, realm.start_level + 1, level, 1, ipa)?;
        let found = self.walk(realm, ipa, level - 1);
        let parent = self.entry(found, ipa);
        let below = self.table_below(parent).filter(|_| found.level == level - 1);
        let Some(table) = below else {
            return Err(self.error_rtt_top(found.level, found, ipa, 1));
        };
        if has_live(self.page(table)) {
            return Err(self.error_rtt_top(level, found, ipa, 1));
        }
        let left = if realm.is_protected(ipa) { Entry::Unassigned(Ripas::Destroyed) } else { Entry::UnassignedNs };
        self.set_entry(found, ipa, left);
        self.wipe(table, State::Delegated, None);
        Ok(success([parent.descriptor(), self.top(found, ipa), 0, 0]))
    }

    pub fn rtt_fold(&mut self, rd: u64, ipa: u64, level: u64) -> Checked<Answer> {
        let (_, realm) = self.realm_of(rd)?;
        let level = level_of(realm, realm.start_level + 1, level, 1, ipa)?;
        let found = self.walk(realm, ipa, level - 1);
        check(found.level == level - 1, error_rtt(found.level))?;
        let parent = self.entry(found, ipa);
        let table = self.table_below(parent).ok_or(error_rtt(found.level))?;
        let page = self.page(table);
        let first = Entry::of(word_in(page, 0));
        check(!matches!(first, Entry::Table(_)), error_rtt(level))?;
        let is_whole = !first.is_mapping() || is_aligned(first.descriptor() & !0xFFF, level - 1);
        let (word, stride) = (first.word(), first.stride(level));
        let is_homogeneous = is_whole && words_of(page).zip(0..).all(|(it, k)| it == word + k * stride);
        check(is_homogeneous, error_rtt(level))?;
        check(!first.is_mapping() || level > self.settings.block_level, error_rtt(level - 1))?;
        self.set_entry(found, ipa, first);
        self.wipe(table, State::Delegated, None);
        Ok(success([parent.descriptor(), 0, 0, 0]))
    }

    // ---- unprotected mappings

    fn is_descriptor(&self, level: u8, desc: u64) -> bool {
        let sh = desc >> 8 & 3;
        desc < 1 << 48
            && desc & 0b1100_0010_0011 == 0
            && desc >> 2 & 7 != 4
            && (sh == 0 || self.settings.takes_shareability && sh != 1)
            && is_aligned(desc & !0xFFF, level)
    }

    pub fn rtt_map_unprotected(&mut self, rd: u64, ipa: u64, level: u64, desc: u64) -> Checked<Answer> {
        let (_, realm) = self.realm_of(rd)?;
        let level = self.unprotected_level(realm, level, ipa)?;
        check(self.is_descriptor(level, desc), ERROR_INPUT)?;
        let found = self.walk(realm, ipa, level);
        check_entry(found, level, self.entry(found, ipa) == Entry::UnassignedNs)?;
        self.set_entry(found, ipa, Entry::AssignedNs(desc));
        Ok(SUCCESS)
    }

    pub fn rtt_unmap_unprotected(&mut self, rd: u64, ipa: u64, level: u64) -> Checked<Answer> {
        let (_, realm) = self.realm_of(rd)?;
        let level = self.unprotected_level(realm, level, ipa)?;
        let found = self.walk(realm, ipa, level);
        if found.level != level || !matches!(self.entry(found, ipa), Entry::AssignedNs(_)) {
            return Err(self.error_rtt_top(found.level, found, ipa, 0));
        }
        self.set_entry(found, ipa, Entry::UnassignedNs);
        Ok(success([self.top(found, ipa), 0, 0, 0]))
    }

    // ---- data

    pub fn data_create(&mut self, rd: u64, data: u64, ipa: u64, source: u64, flags: u64) -> Checked<Answer> {
        check(self.settings.ignores_data_flags || flags <= 1, ERROR_INPUT)?;
        let source = self.host_page(source)?;
        let page = self.delegated(data)?;
        let (rd, realm) = self.realm_of(rd)?;
        check_page(realm, ipa)?;
        check(realm.state == RealmState::New, ERROR_REALM)?;
        let found = self.walk(realm, ipa, 3);
        let entry = self.entry(found, ipa);
        check_entry(found, 3, matches!(entry, Entry::Unassigned(_)))?;
        check(!self.settings.data_needs_ram || entry.ripas() == Ripas::Ram, error_rtt(3))?;
        let content = if flags & 1 == 1 { digest(realm.hash, self.page(source)) } else { [0; 64] };
        let rim = extend(realm.hash, &realm.rim, &Extension::Data { ipa, flags, digest: content });
        self.set(page, State::Data, Some(rd as u16));
        self.copy(page, source);
        self.set_entry(found, ipa, Entry::Assigned(Ripas::Ram, data));
        self.set_rim(rd, rim);
        Ok(SUCCESS)
    }

    fn set_rim(&mut self, rd: usize, rim: [u8; 64]) {
        if let Some(realm) = self.realm_mut(rd) {
            realm.rim = rim;
        }
    }

    pub fn data_create_unknown(&mut self, rd: u64, data: u64, ipa: u64) -> Checked<Answer> {
        let page = self.delegated(data)?;
        let (rd, realm) = self.realm_of(rd)?;
        check_page(realm, ipa)?;
        let found = self.walk(realm, ipa, 3);
        let entry = self.entry(found, ipa);
        check_entry(found, 3, matches!(entry, Entry::Unassigned(_)))?;
        self.wipe(page, State::Data, Some(rd as u16));
        self.set_entry(found, ipa, Entry::Assigned(entry.ripas(), data));
        Ok(SUCCESS)
    }

    pub fn data_destroy(&mut self, rd: u64, ipa: u64) -> Checked<Answer> {
        let (_, realm) = self.realm_of(rd)?;
        check_page(realm, ipa)?;
        let found = self.walk(realm, ipa, 3);
        let entry = self.entry(found, ipa);
        let Some(page) = self.memory_below(entry).filter(|_| found.level == 3) else {
            return Err(self.error_rtt_top(found.level, found, ipa, 1));
        };
        let ripas = if entry.ripas() == Ripas::Empty { Ripas::Empty } else { Ripas::Destroyed };
        self.set_entry(found, ipa, Entry::Unassigned(ripas));
        self.wipe(page, State::Delegated, None);
        Ok(success([entry.descriptor(), self.top(found, ipa), 0, 0]))
    }

    // ---- RIPAS

    /// The number of entries of a table, from the one of an address on, that can be changed below a top.
    fn change_count(&self, changeable: Changeable, found: Walk, base: u64, top: u64) -> Checked<usize> {
        let refusal = error_rtt(found.level);
        check(is_aligned(base, found.level), refusal)?;
        let first = index_of(found.level, base);
        let whole = ((top - base) >> shift_of(found.level)) as usize;
        let words = words_of(self.page(found.table)).skip(first).take(whole.min(512 - first));
        let count = words.take_while(|word| Entry::of(*word).can_change(changeable)).count();
        check(count > 0, refusal)?;
        Ok(count)
    }

    fn write_ripas(&mut self, found: Walk, base: u64, count: usize, ripas: Ripas) {
        let at = 8 * index_of(found.level, base);
        for bytes in self.page_mut(found.table)[at..at + 8 * count].chunks_exact_mut(8) {
            let entry = Entry::of(u64::from_le_bytes((&*bytes).try_into().unwrap()));
            bytes.copy_from_slice(&entry.with_ripas(ripas).word().to_le_bytes());
        }
    }

    pub fn rtt_init_ripas(&mut self, rd: u64, base: u64, top: u64) -> Checked<Answer> {
        check(base < top, ERROR_INPUT)?;
        let (rd, realm) = self.realm_of(rd)?;
        check(is_aligned(base, 3) && is_aligned(top, 3), ERROR_INPUT)?;
        check(realm.is_protected(base) && realm.is_protected(top.saturating_sub(4096)), ERROR_INPUT)?;
        check(realm.state == RealmState::New, ERROR_REALM)?;
        let found = self.walk(realm, base, 3);
        let changeable = Changeable { assigned: false, destroyed: !self.settings.stops_at_destroyed };
        let count = self.change_count(changeable, found, base, top)?;
        let size = entry_size(found.level);
        let mut rim = realm.rim;
        for k in 0..count as u64 {
            let extension = Extension::Ripas { base: base + k * size, top: base + (k + 1) * size };
            rim = extend(realm.hash, &rim, &extension);
        }
        self.write_ripas(found, base, count, Ripas::Ram);
        self.set_rim(rd, rim);
        Ok(success([base + count as u64 * size, 0, 0, 0]))
    }

    pub fn rtt_set_ripas(&mut self, rd: u64, rec: u64, base: u64, top: u64) -> Checked<Answer> {
        check(base < top, ERROR_INPUT)?;
        let (rd, realm) = self.realm_of(rd)?;
        let (index, rec) = self.rec_of(rec)?;
        check(is_aligned(top, 3), ERROR_INPUT)?;
        check(!rec.is_running, ERROR_REC)?;
        check(self.granule(index).owner == Some(rd as u16), ERROR_REC)?;
        let request = rec.ripas;
        check(base == request.base && realm.is_protected(base), ERROR_INPUT)?;
        check(top <= request.top, ERROR_INPUT)?;
        let found = self.walk(realm, base, 3);
        let changeable = Changeable { assigned: true, destroyed: request.changes_destroyed };
        let count = self.change_count(changeable, found, base, top)?;
        let stop = base + count as u64 * entry_size(found.level);
        self.write_ripas(found, base, count, request.ripas);
        self.rec_mut(index).ripas.base = stop;
        Ok(success([stop, 0, 0, 0]))
    }
}
