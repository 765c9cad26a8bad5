//! Raw operations, one a line, as tests/rmm_lines.py has them.
use crate::abi::Settings;
use crate::granules::{Granules, State};
use crate::guest::Queued;
use crate::objects::{Hash, Realm, RealmState};
use std::fmt::Write;

fn numbers(words: &str) -> Option<[u64; 12]> {
    let mut numbers = [0; 12];
    for (number, word) in numbers.iter_mut().zip(words.split(' ').take_while(|word| *word != "=")) {
        *number = u64::from_str_radix(word, 16).ok()?;
    }
    Some(numbers)
}

fn open(n: &[u64; 12]) -> Option<Granules> {
    let is = |bit: u32| n[6] >> bit & 1 == 1;
    let settings = Settings {
        base: n[0],
        aux: n[2] as u8,
        vmid_bits: n[3] as u8,
        s2sz: n[4] as u8,
        max_recs_order: n[5] as u8,
        is_eac5: is(0),
        stops_at_destroyed: is(1),
        measures_all_recs: is(2),
        ignores_data_flags: is(3),
        aligns_live_top: is(4),
        shows_target_alone: is(5),
        block_level: if is(6) { 1 } else { 2 },
        takes_shareability: is(7),
        data_needs_ram: is(8),
        checks_params: is(9),
        checks_gic: is(10),
        bps: n[7] as u8,
        wps: n[8] as u8,
        lrs: n[9] as u8,
        secure_base: n[10],
        secure_count: n[11],
    };
    (settings.are_in_range() && (1..=4096).contains(&n[1])).then(|| Granules::new(settings, n[1] as usize))
}

fn hex(bytes: &[u8]) -> String {
    bytes.iter().fold(String::new(), |mut text, byte| {
        write!(text, "{byte:02x}").unwrap();
        text
    })
}

fn store(rmm: &mut Granules, address: u64, digits: &str) -> Option<()> {
    for (at, k) in (address..).zip((0..digits.len()).step_by(2)) {
        let value = u8::from_str_radix(&digits[k..k + 2], 16).ok()?;
        let granule = rmm.host_granule(at)?;
        rmm.page_mut(granule)[at as usize % 4096] = value;
    }
    Some(())
}

fn load(rmm: &Granules, address: u64, count: u64) -> Option<String> {
    let byte = |at: u64| Some(rmm.page(rmm.host_granule(at)?)[at as usize % 4096]);
    (address..address + count).map(byte).collect::<Option<Vec<u8>>>().map(|bytes| hex(&bytes))
}

fn fill(rmm: &mut Granules, address: u64, value: u8) -> Option<()> {
    let granule = rmm.host_page(address).ok()?;
    rmm.page_mut(granule).fill(value);
    Some(())
}

fn realm_text(rmm: &Granules, realm: &Realm) -> String {
    let state = match realm.state {
        RealmState::New => 0,
        RealmState::Active => 1,
        RealmState::SystemOff => 2,
    };
    let first = rmm.settings.base + u64::from(realm.first_table) * 4096;
    let Realm { s2sz, start_level, table_count, vmid, next_rec, rec_count, .. } = realm;
    format!("{state:x} {s2sz:x} {start_level:x} {table_count:x} {first:x} {vmid:x} {next_rec:x} {rec_count:x}")
}

fn reading(rmm: &Granules, kind: &str, address: u64) -> Option<String> {
    let index = rmm.named(address).ok()?;
    let granule = rmm.granule(index);
    Some(match (kind, &granule.state) {
        ("state", state) => match state {
            State::Undelegated => "0",
            State::Delegated => "1",
            State::Rd(_) => "2",
            State::Rec(_) => "3",
            State::RecAux => "4",
            State::Data => "5",
            State::Rtt => "6",
        }
        .to_string(),
        ("sum", State::Rd(_) | State::Rec(_) | State::Rtt) => "0".to_string(),
        ("sum", _) => format!("{:x}", rmm.page(index).iter().map(|byte| u64::from(*byte)).sum::<u64>()),
        ("realm", State::Rd(realm)) => realm_text(rmm, realm),
        ("rim", State::Rd(realm)) => hex(&realm.rim[..if realm.hash == Hash::Sha256 { 32 } else { 64 }]),
        ("rec", State::Rec(rec)) => {
            let flags = [rec.is_runnable, rec.is_pending()].map(u8::from);
            let (pc, gpr0) = (rmm.word(index, 31), rmm.word(index, 0));
            let running = u8::from(rec.is_running);
            format!("{running} - {:x} {} {} {pc:x} {gpr0:x}", rec.mpidr, flags[0], flags[1])
        }
        ("saw", State::Rec(rec)) => (0..usize::from(rec.result_count)).fold(format!("{:x}", rec.result_count), |text, k| {
            format!("{text} {:x} {:x}", rmm.word(index, 128 + 2 * k), rmm.word(index, 129 + 2 * k))
        }),
        _ => return None,
    })
}

fn guest(rmm: &mut Granules, n: &[u64; 12]) -> &'static str {
    match rmm.queue(n[0], [n[1], n[2], n[3], n[4], n[5]]) {
        Queued::Queued => "queued",
        Queued::Full => "full",
        Queued::NoRec => "none",
    }
}

fn result(rmm: &mut Granules, kind: &str, words: &str) -> String {
    let word = |done: Option<()>| if done.is_some() { "done" } else { "fault" }.to_string();
    if kind == "store" {
        let mut parts = words.split(' ');
        let address = parts.next().and_then(|it| u64::from_str_radix(it, 16).ok());
        return word(address.and_then(|it| store(rmm, it, parts.next().unwrap_or(""))));
    }
    let Some(n) = numbers(words) else { return "unknown".to_string() };
    match kind {
        "smc" => {
            let [x0, x1, x2, x3, x4, ..] = rmm.smc(&[n[0], n[1], n[2], n[3], n[4], n[5], n[6]]);
            format!("{x0:x} {x1:x} {x2:x} {x3:x} {x4:x}")
        }
        "guest" => guest(rmm, &n).to_string(),
        "interrupt" => rmm.interrupt(n[0]).map_or("none".to_string(), |it| format!("{it:x}")),
        "fill" => word(fill(rmm, n[0], n[1] as u8)),
        "load" => load(rmm, n[0], n[1]).unwrap_or("fault".to_string()),
        "state" | "sum" | "realm" | "rim" | "rec" | "saw" => reading(rmm, kind, n[0]).unwrap_or("none".to_string()),
        _ => "unknown".to_string(),
    }
}

pub fn run() {
    let mut rmm = None;
    for line in std::io::stdin().lines() {
        let line = line.unwrap();
        let (kind, words) = line.split_once(' ').unwrap_or((&line, ""));
        if kind == "platform" {
            rmm = numbers(words).and_then(|n| open(&n));
            println!();
        } else if let Some(rmm) = rmm.as_mut().filter(|_| kind != "#") {
            println!("{}", result(rmm, kind, words));
        } else {
            println!();
        }
    }
}
