//! The same design in plain Rust with nothing proved, as a baseline: slots of pages, lists of free blocks by order, a
//! granule table, places for realms and RECs, tables in pages, SHA-256, page stacks, journals, a history, threads
//! behind one lock, and the text in one buffer. It reads plans by the `toml` crate, and prints what `realmhost` prints: `plain replay`, `plain replay --erase B`, `plain run`.
mod buddy;
mod host;
mod monitor;
mod pages;
mod sha256;
mod text;
mod threads;

use host::{Answer, Auxiliaries, Host, Step};
use std::io::{Read, Write};
use toml::Value;
use toml::value::Table;

const MOST_STEPS: usize = 1024;
const MOST_TURNS: usize = 16384;

struct Plan {
    pages: usize,
    vmids: u8,
    aux: usize,
    room: usize,
    order: Vec<u8>,
    builds: Vec<Vec<Step>>,
}

fn step_of(text: &str) -> Step {
    let mut words = text.split(' ');
    let name = words.next().unwrap();
    let mut number = || words.next().unwrap().parse::<u32>().unwrap();
    match name {
        "take" => Step::Take(number() as u8),
        "fill" => Step::Fill(number() as u16, number() as u8),
        "delegate" => Step::Delegate(number() as u16),
        "realm" => Step::Realm(number() as u16, number() as u16),
        "activate" => Step::Activate,
        "rtt" => Step::Rtt(number() as u16, number(), number() as u8),
        "data" => Step::Data(number() as u16, number(), number() as u16),
        "rec" => {
            let page = number() as u16;
            Step::Rec(page, Auxiliaries::new(words.map(|word| word.parse::<u16>().unwrap())))
        }
        "enter" => Step::Enter(number() as u16),
        "exit" => Step::Exit(number() as u16),
        "undo" => Step::Undo,
        "abort" => Step::Abort,
        _ => panic!("{text}: no such step"),
    }
}

fn number_of(table: &Table, key: &str, missing: usize) -> Option<usize> {
    match table.get(key) {
        Some(Value::Integer(number)) => usize::try_from(*number).ok(),
        Some(_) => None,
        None => Some(missing),
    }
}

fn steps_of(build: &Value) -> Option<Vec<Step>> {
    let Some(Value::Array(texts)) = build.get("steps") else { return None };
    let step = |value: &Value| match value {
        Value::String(text) => Some(step_of(text)),
        _ => None,
    };
    if texts.len() <= MOST_STEPS { texts.iter().map(step).collect() } else { None }
}

fn order_of(table: &Table, builds: usize) -> Option<Vec<u8>> {
    let Some(Value::Array(turns)) = table.get("order") else { return Some(Vec::new()) };
    let turn = |value: &Value| match value {
        Value::Integer(build) if usize::try_from(*build).is_ok_and(|build| build < builds) => Some(*build as u8),
        _ => None,
    };
    if turns.len() <= MOST_TURNS { turns.iter().map(turn).collect() } else { None }
}

// The plan, or nothing where it is refused.
fn plan_of(text: &str) -> Option<Plan> {
    let table: Table = toml::from_str(text).ok()?;
    let Some(Value::Array(builds)) = table.get("build") else { return None };
    Some(Plan {
        pages: number_of(&table, "pages", 0).filter(|pages| (1..=4096).contains(pages))?,
        vmids: number_of(&table, "vmids", 8).filter(|vmids| (1..=255).contains(vmids))? as u8,
        aux: number_of(&table, "aux", 0).filter(|aux| *aux <= 16)?,
        room: number_of(&table, "history", 1024).filter(|room| (16..=16384).contains(room))?,
        order: order_of(&table, builds.len())?,
        builds: builds.iter().map(steps_of).collect::<Option<_>>()?,
    })
}

fn read_plan() -> Option<Plan> {
    let mut text = String::new();
    std::io::stdin().read_to_string(&mut text).ok()?;
    plan_of(&text)
}

fn booted(plan: &Plan) -> Host {
    Host::new(plan.pages, plan.vmids, plan.aux, plan.builds.len(), plan.room)
}

// A turn of a build: an abort that has begun goes on, one operation a turn.
fn turn(host: &mut Host, plan: &Plan, next: &mut [usize], build: usize, text: &mut String) {
    if host.is_aborting(build) {
        let answer = host.serve(build, Step::Undo);
        text::push_step(text, build, Step::Abort);
        text::push_answer(text, Step::Abort, answer);
        return;
    }
    let Some(&step) = plan.builds[build].get(next[build]) else {
        text.push((b'0' + build as u8) as char);
        text.push_str(" - idle\n");
        return;
    };
    next[build] += 1;
    let answer: Answer = host.serve(build, step);
    text::push_step(text, build, step);
    text::push_answer(text, step, answer);
}

fn replayed(plan: &Plan, text: &mut String) -> Host {
    let mut host = booted(plan);
    let mut next = vec![0; plan.builds.len()];
    for &build in &plan.order {
        turn(&mut host, plan, &mut next, build as usize, text);
    }
    host
}

// The map of the history without a build, on a second machine; the first is given back before that is booted.
fn erased(plan: &Plan, build: u8, text: &mut String) {
    let books = replayed(plan, &mut String::new()).books;
    let mut host = booted(plan);
    for &event in books.history.iter().filter(|event| event.build != build) {
        assert!(host.apply(event));
    }
    text::push_map(text, &host);
}

fn main() {
    let words: Vec<String> = std::env::args().skip(1).collect();
    let words: Vec<&str> = words.iter().map(String::as_str).collect();
    let Some(plan) = read_plan() else {
        std::process::exit(1);
    };
    let mut text = String::new();
    match words[..] {
        ["run"] => threads::run(booted(&plan), &plan.builds, &mut text),
        ["replay", "--erase", build] => erased(&plan, build.parse().unwrap(), &mut text),
        _ => {
            let host = replayed(&plan, &mut text);
            text::push_map(&mut text, &host);
        }
    }
    std::io::stdout().write_all(text.as_bytes()).unwrap();
}
