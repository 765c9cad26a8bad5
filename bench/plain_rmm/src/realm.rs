//! Commands of granules, realms and RECs.
use crate::abi::{Answer, Checked, ERROR_INPUT, ERROR_REALM, ERROR_REC, SUCCESS, VERSION, check, success};
use crate::entry::{entry_size, shift_of};
use crate::granules::{Granules, Page, State, has_live, word_in};
use crate::measure::{Extension, extend, initial, rec_digest};
use crate::objects::{Hash, Psci, Realm, RealmState, Rec, is_mpidr, rec_number};

const PSCI_SUCCESS: u64 = 0;
const PSCI_DENIED: u64 = -3i64 as u64;
const PSCI_ALREADY_ON: u64 = -4i64 as u64;
const PSCI_OFF: u64 = 1;

/// The parameters of a realm.
struct Params {
    flags: u64,
    s2sz: u8,
    sve_vl: u8,
    num_bps: u8,
    num_wps: u8,
    pmu_num_ctrs: u8,
    hash_algo: u8,
    vmid: u16,
    rtt_base: u64,
    rtt_level_start: u64,
    rtt_num_start: u32,
}

impl Params {
    fn read(page: &Page) -> Params {
        Params {
            flags: word_in(page, 0),
            s2sz: page[8],
            sve_vl: page[16],
            num_bps: page[24],
            num_wps: page[32],
            pmu_num_ctrs: page[40],
            hash_algo: page[48],
            vmid: u16::from_le_bytes([page[0x800], page[0x801]]),
            rtt_base: word_in(page, 257),
            rtt_level_start: word_in(page, 258),
            rtt_num_start: word_in(page, 259) as u32,
        }
    }

    fn measured(&self) -> [u64; 7] {
        let bytes = [self.s2sz, self.sve_vl, self.num_bps, self.num_wps, self.pmu_num_ctrs, self.hash_algo];
        let [s2sz, sve_vl, num_bps, num_wps, pmu_num_ctrs, hash_algo] = bytes.map(u64::from);
        [self.flags, s2sz, sve_vl, num_bps, num_wps, pmu_num_ctrs, hash_algo]
    }
}

fn is_start(s2sz: u8, level: u64, count: u32) -> bool {
    if level > 3 {
        return false;
    }
    let served = 512 * entry_size(level as u8);
    entry_size(level as u8) < 1 << s2sz && count <= 16 && u64::from(count) == (1u64 << s2sz).div_ceil(served)
}

impl Granules {
    pub fn version(&self, requested: u64) -> Checked<Answer> {
        let word = if requested == VERSION { 0 } else { ERROR_INPUT.word };
        Ok(Answer { word, outputs: [VERSION, VERSION, 0, 0] })
    }

    pub fn features(&self, index: u64) -> Checked<Answer> {
        Ok(success([self.settings.feature_register(index), 0, 0, 0]))
    }

    // ---- granules

    pub fn granule_delegate(&mut self, address: u64) -> Checked<Answer> {
        let index = self.named(address)?;
        check(matches!(self.granule(index).state, State::Undelegated), ERROR_INPUT)?;
        check(!self.is_secure(address), ERROR_INPUT)?;
        self.wipe(index, State::Delegated, None);
        Ok(SUCCESS)
    }

    pub fn granule_undelegate(&mut self, address: u64) -> Checked<Answer> {
        let index = self.delegated(address)?;
        self.wipe(index, State::Undelegated, None);
        Ok(SUCCESS)
    }

    // ---- realms

    fn check_params(&self, p: &Params, rd: u64) -> Checked<()> {
        let s = &self.settings;
        let fits = !s.checks_params || p.num_bps <= s.bps && p.num_wps <= s.wps && p.sve_vl == 0;
        check(p.hash_algo <= 1, ERROR_INPUT)?;
        check(p.flags == 0 && (32..=s.s2sz).contains(&p.s2sz) && fits, ERROR_INPUT)?;
        check(is_start(p.s2sz, p.rtt_level_start, p.rtt_num_start), ERROR_INPUT)?;
        let size = u64::from(p.rtt_num_start) * 4096;
        check(p.rtt_base.is_multiple_of(size), ERROR_INPUT)?;
        let offset = rd.wrapping_sub(p.rtt_base);
        check(offset >= size || !offset.is_multiple_of(4096), ERROR_INPUT)
    }

    /// The first starting table, if all of them are DELEGATED granules.
    fn first_table(&self, p: &Params) -> Checked<usize> {
        let first = self.index_of(p.rtt_base).ok_or(ERROR_INPUT)?;
        let last = p.rtt_base + (u64::from(p.rtt_num_start) - 1) * 4096;
        let last = self.index_of(last).ok_or(ERROR_INPUT)?;
        check((first..=last).all(|it| self.is_delegated(it)), ERROR_INPUT)?;
        Ok(first)
    }

    pub fn realm_create(&mut self, rd: u64, params: u64) -> Checked<Answer> {
        let p = Params::read(self.page(self.host_page(params)?));
        self.check_params(&p, rd)?;
        let rd = self.delegated(rd)?;
        let first_table = self.first_table(&p)?;
        check(u64::from(p.vmid) < 1 << self.settings.vmid_bits && !self.is_vmid_used(p.vmid), ERROR_INPUT)?;
        let hash = if p.hash_algo == 1 { Hash::Sha512 } else { Hash::Sha256 };
        let realm = Realm {
            state: RealmState::New,
            hash,
            rim: initial(hash, p.measured()),
            s2sz: p.s2sz,
            start_level: p.rtt_level_start as u8,
            first_table: first_table as u16,
            table_count: p.rtt_num_start as u8,
            vmid: p.vmid,
            next_rec: 0,
            rec_count: 0,
        };
        self.write_tables(&realm, rd);
        self.set(rd, State::Rd(realm), None);
        self.set_vmid(p.vmid, true);
        Ok(SUCCESS)
    }

    /// Makes the starting tables: UNASSIGNED, EMPTY in the protected half, and else UNASSIGNED_NS.
    fn write_tables(&mut self, realm: &Realm, rd: usize) {
        let mut protected = (1usize << (realm.s2sz - 1)) >> shift_of(realm.start_level);
        for table in realm.tables() {
            self.set(table, State::Rtt, Some(rd as u16));
            let (low, high) = self.page_mut(table).split_at_mut(8 * protected.min(512));
            low.fill(0);
            high.fill(3);
            protected = protected.saturating_sub(512);
        }
    }

    pub fn realm_activate(&mut self, rd: u64) -> Checked<Answer> {
        let (rd, realm) = self.realm_of(rd)?;
        check(realm.state == RealmState::New, ERROR_REALM)?;
        if let Some(realm) = self.realm_mut(rd) {
            realm.state = RealmState::Active;
        }
        Ok(SUCCESS)
    }

    pub fn realm_destroy(&mut self, rd: u64) -> Checked<Answer> {
        let (rd, realm) = self.realm_of(rd)?;
        check(realm.rec_count == 0 && !realm.tables().any(|it| has_live(self.page(it))), ERROR_REALM)?;
        let (tables, vmid) = (realm.tables(), realm.vmid);
        for table in tables {
            self.wipe(table, State::Delegated, None);
        }
        self.wipe(rd, State::Delegated, None);
        self.set_vmid(vmid, false);
        Ok(SUCCESS)
    }

    // ---- RECs

    pub fn rec_aux_count(&self, rd: u64) -> Checked<Answer> {
        self.realm_of(rd)?;
        Ok(success([u64::from(self.settings.aux), 0, 0, 0]))
    }

    /// The auxiliary granules that parameters name, if they are DELEGATED and no two of them and the REC are one.
    fn aux_of(&self, params: &Page, rec: u64) -> Checked<([usize; 16], usize)> {
        let count = usize::from(self.settings.aux);
        check(word_in(params, 256) == count as u64, ERROR_INPUT)?;
        let mut addresses = [rec; 17];
        let mut granules = [0; 16];
        for k in 0..count {
            let address = word_in(params, 257 + k);
            check(!addresses[..=k].contains(&address), ERROR_INPUT)?;
            granules[k] = self.delegated(address)?;
            addresses[k + 1] = address;
        }
        Ok((granules, count))
    }

    pub fn rec_create(&mut self, rd: u64, rec: u64, params: u64) -> Checked<Answer> {
        let source = self.host_page(params)?;
        let index = self.delegated(rec)?;
        let (rd, realm) = self.realm_of(rd)?;
        let page = self.page(source);
        let (aux, count) = self.aux_of(page, rec)?;
        let (mpidr, is_runnable) = (word_in(page, 32), word_in(page, 0) & 1 == 1);
        check(is_mpidr(mpidr) && rec_number(mpidr) == u64::from(realm.next_rec), ERROR_INPUT)?;
        check(realm.state == RealmState::New, ERROR_REALM)?;
        check(u64::from(realm.rec_count) < 1 << self.settings.max_recs_order, ERROR_REALM)?;
        let rim = if is_runnable || self.settings.measures_all_recs {
            extend(realm.hash, &realm.rim, &Extension::Rec { digest: rec_digest(realm.hash, page) })
        } else {
            realm.rim
        };
        let owner = Some(rd as u16);
        self.write_rec_page(index, source);
        self.set(index, State::Rec(Rec::new(is_runnable, mpidr)), owner);
        for granule in &aux[..count] {
            self.wipe(*granule, State::RecAux, owner);
        }
        if let Some(realm) = self.realm_mut(rd) {
            realm.rim = rim;
            realm.next_rec += 1;
            realm.rec_count += 1;
        }
        Ok(SUCCESS)
    }

    /// The registers and the addresses of auxiliary granules are words of a REC's page.
    fn write_rec_page(&mut self, rec: usize, source: usize) {
        let mut words = [0; 64];
        for k in 0..8 {
            words[k] = self.word(source, 96 + k);
        }
        words[31] = self.word(source, 64);
        for k in 0..16 {
            words[32 + k] = self.word(source, 257 + k);
        }
        let page = self.page_mut(rec);
        crate::granules::set_words(page, words.into_iter());
        page[512..].fill(0);
    }

    pub fn rec_destroy(&mut self, rec: u64) -> Checked<Answer> {
        let (index, rec) = self.rec_of(rec)?;
        check(!rec.is_running, ERROR_REC)?;
        if let Some(rd) = self.granule(index).owner
            && let Some(realm) = self.realm_mut(usize::from(rd))
        {
            realm.rec_count = realm.rec_count.saturating_sub(1);
        }
        for k in 0..usize::from(self.settings.aux) {
            if let Some(granule) = self.index_of(self.word(index, 32 + k)) {
                self.wipe(granule, State::Delegated, None);
            }
        }
        self.wipe(index, State::Delegated, None);
        Ok(SUCCESS)
    }

    // ---- PSCI

    pub fn psci_complete(&mut self, calling: u64, target: u64, status: u64) -> Checked<Answer> {
        check(calling != target, ERROR_INPUT)?;
        let (calling, caller) = self.rec_of(calling)?;
        let (target, named) = self.rec_of(target)?;
        let (wanted, can_be_denied) = match caller.psci {
            Psci::CpuOn { target, .. } => (target, true),
            Psci::AffinityInfo { target } => (target, false),
            _ => return Err(ERROR_INPUT),
        };
        check(self.granule(calling).owner == self.granule(target).owner, ERROR_INPUT)?;
        check(wanted == named.mpidr, ERROR_INPUT)?;
        check(status == PSCI_SUCCESS || status == PSCI_DENIED && can_be_denied, ERROR_INPUT)?;
        let (on, request) = (named.is_on(), caller.psci);
        let result = match request {
            Psci::CpuOn { .. } if on => PSCI_ALREADY_ON,
            Psci::CpuOn { .. } => status,
            _ if on => PSCI_SUCCESS,
            _ => PSCI_OFF,
        };
        self.rec_mut(calling).psci = Psci::Complete(result);
        if let Psci::CpuOn { entry_point, context, .. } = request
            && !on
            && status == PSCI_SUCCESS
        {
            self.rec_mut(target).is_runnable = true;
            self.set_word(target, 31, entry_point);
            self.set_word(target, 0, context);
        }
        Ok(SUCCESS)
    }
}
