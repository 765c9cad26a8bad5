//! The printed text: the lines of turns, and the map.
use crate::host::{Answer, Host, Step};
use crate::monitor::State;
use std::fmt::Write;

pub fn push_step(text: &mut String, build: usize, step: Step) {
    match step {
        Step::Take(order) => write!(text, "{build} take {order}"),
        Step::Fill(page, value) => write!(text, "{build} fill {page} {value}"),
        Step::Delegate(page) => write!(text, "{build} delegate {page}"),
        Step::Realm(page, root) => write!(text, "{build} realm {page} {root}"),
        Step::Activate => write!(text, "{build} activate"),
        Step::Rtt(page, ipa, level) => write!(text, "{build} rtt {page} {ipa} {level}"),
        Step::Data(page, ipa, source) => write!(text, "{build} data {page} {ipa} {source}"),
        Step::Rec(page, auxiliaries) => {
            write!(text, "{build} rec {page}").unwrap();
            auxiliaries.numbers().iter().try_for_each(|it| write!(text, " {it}"))
        }
        Step::Enter(rec) => write!(text, "{build} enter {rec}"),
        Step::Exit(rec) => write!(text, "{build} exit {rec}"),
        Step::Undo => write!(text, "{build} undo"),
        Step::Abort => write!(text, "{build} abort"),
    }
    .unwrap();
}

pub fn push_answer(text: &mut String, step: Step, answer: Answer) {
    match answer {
        Answer::Ok => writeln!(text, " = ok"),
        Answer::Told(number) => writeln!(text, " = ok {number}"),
        Answer::Undone(kind, left) => {
            let is_last = matches!(step, Step::Abort) && left == 0;
            writeln!(text, " = {} {kind}", if is_last { "done" } else { "ok" })
        }
        Answer::No(number, name, None) => writeln!(text, " = no {number} {name}"),
        Answer::No(number, name, Some(of)) => writeln!(text, " = no {number} {name} {of}"),
        Answer::Rmi(rmi) => writeln!(text, " = no 13 Rmi {} {}", rmi.0, rmi.1),
    }
    .unwrap();
}

fn push_page(text: &mut String, host: &Host, build: usize, page: usize, granule: usize) {
    let (name, has_sum) = match host.monitor.state(granule) {
        State::Undelegated => ("UNDELEGATED", true),
        State::Delegated => ("DELEGATED", false),
        State::Rd => ("RD", false),
        State::Rtt => ("RTT", false),
        State::Data => ("DATA", true),
        State::Rec => ("REC", false),
        State::RecAux => ("REC_AUX", false),
    };
    if has_sum {
        writeln!(text, "{build} page {page} {name} {}", host.monitor.pages.sum(granule))
    } else {
        writeln!(text, "{build} page {page} {name}")
    }
    .unwrap();
}

pub fn push_map(text: &mut String, host: &Host) {
    for build in 0..host.build_count() {
        for (page, &granule) in host.pages_of(build).iter().enumerate() {
            push_page(text, host, build, page, granule.into());
        }
        if let Some(realm) = host.rd_of(build).and_then(|rd| host.monitor.realm(rd.into())) {
            let state = if realm.is_active { "ACTIVE" } else { "NEW" };
            writeln!(text, "{build} realm {state} vmid {}", realm.vmid).unwrap();
        }
    }
    writeln!(text, "free {}", host.monitor.buddy.free).unwrap();
}
