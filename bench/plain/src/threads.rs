//! Builds worked on by threads: each asks its steps on one host behind a lock, as fast as they are answered, and keeps
//! a report, and a list of the events that its calls made. In the end each list is compared with what the history has of
//! its build, and each report is held against the history.
use crate::host::{Act, Answer, Event, Host, Step, act_of};
use crate::text::{push_answer, push_map, push_step};
use std::sync::Mutex;

type Report = Vec<(Step, Answer)>;

// One build's way to the host, and the events of its calls that were accepted.
struct Seat<'a> {
    host: &'a Mutex<Host>,
    build: usize,
    trail: Vec<Event>,
}

impl Seat<'_> {
    fn ask(&mut self, step: Step) -> Answer {
        let mut host = self.host.lock().unwrap();
        let before = host.books.history.len();
        let answer = host.serve(self.build, step);
        self.trail.extend_from_slice(&host.books.history[before..]);
        answer
    }
}

// Asks the steps of a build; an abort undoes until nothing is open. A refusal ends the work, and all that is open is
// undone.
fn work(seat: &mut Seat, steps: &[Step]) -> Report {
    let mut report = Vec::with_capacity(2 * steps.len());
    for &step in steps {
        let mut answer = seat.ask(step);
        report.push((step, answer));
        while let (Step::Abort, Answer::Undone(_, 1..)) = (step, answer) {
            answer = seat.ask(Step::Undo);
            report.push((step, answer));
        }
        if matches!(answer, Answer::No(..) | Answer::Rmi(_)) {
            while let answer @ Answer::Undone(..) = seat.ask(Step::Undo) {
                report.push((Step::Undo, answer));
            }
            break;
        }
    }
    report
}

// The open operations of a build, and its pages, after some of its events.
#[derive(Default)]
struct Standing {
    opened: Vec<Act>,
    pages: Vec<u16>,
}

impl Standing {
    fn follow(&mut self, act: Act) {
        if act.is_reverse() {
            self.opened.pop();
        } else if act.reverse().is_some() {
            self.opened.push(act);
        }
        match act {
            Act::Take { order, first } => self.pages.extend(first..first + (1 << order)),
            Act::UnTake { order, .. } => self.pages.truncate(self.pages.len() - (1 << order)),
            _ => {}
        }
    }

    // Whether an accepted line reports that operation: the command's, with the granules of its pages, or the reverse of the
    // newest open one.
    fn fits(&self, step: Step, answer: Answer, act: Act) -> bool {
        match step {
            Step::Undo | Step::Abort => self.is_undone(answer, act),
            Step::Take(order) => {
                matches!(act, Act::Take { order: taken, .. } if order == taken)
                    && matches!(answer, Answer::Told(page) if page as usize == self.pages.len())
            }
            _ => self.is_made_of(step, act) && is_told_of(answer, act),
        }
    }

    fn is_undone(&self, answer: Answer, act: Act) -> bool {
        let (Some(newest), Answer::Undone(kind, left)) = (self.opened.last(), answer) else { return false };
        newest.reverse() == Some(act) && newest.kind() == kind && left as usize == self.opened.len() - 1
    }

    fn is_made_of(&self, step: Step, act: Act) -> bool {
        let Ok(mut made) = act_of(&self.pages, step) else { return false };
        match (&mut made, act) {
            (Act::Realm { vmid, .. }, Act::Realm { vmid: picked, .. }) => *vmid = picked,
            (Act::Rec { number, .. }, Act::Rec { number: picked, .. }) => *number = picked,
            _ => {}
        }
        made == act
    }
}

// Whether that is the answer to an operation other than a take.
fn is_told_of(answer: Answer, act: Act) -> bool {
    match act {
        Act::Realm { vmid, .. } => matches!(answer, Answer::Told(told) if told == vmid.into()),
        Act::Rec { number, .. } => matches!(answer, Answer::Told(told) if told == number),
        _ => matches!(answer, Answer::Ok),
    }
}

// Whether the accepted lines of a report have the events of its build, one by one.
fn is_told(host: &Host, build: usize, report: &Report) -> bool {
    let mut standing = Standing::default();
    let mut events = host.books.history.iter().filter(|event| event.build as usize == build);
    for &(step, answer) in report {
        // (what is refused, and an abort of nothing, has no event)
        if matches!((step, answer), (_, Answer::No(..) | Answer::Rmi(_)) | (Step::Abort, Answer::Ok)) {
            continue;
        }
        let Some(event) = events.next() else { return false };
        if !standing.fits(step, answer, event.act) {
            return false;
        }
        standing.follow(event.act);
    }
    events.next().is_none()
}

// Whether a seat's list is what the history has of its build.
fn is_trail(host: &Host, build: usize, trail: &[Event]) -> bool {
    host.books.history.iter().filter(|event| event.build as usize == build).eq(trail)
}

pub fn run(host: Host, builds: &[Vec<Step>], text: &mut String) {
    let host = Mutex::new(host);
    let room = host.lock().unwrap().books.history.capacity() / builds.len();
    let done: Vec<(Report, Vec<Event>)> = std::thread::scope(|scope| {
        let seats: Vec<_> = builds
            .iter()
            .enumerate()
            .map(|(build, steps)| {
                scope.spawn({
                    let host = &host;
                    move || {
                        let mut seat = Seat { host, build, trail: Vec::with_capacity(room) };
                        (work(&mut seat, steps), seat.trail)
                    }
                })
            })
            .collect();
        seats.into_iter().map(|seat| seat.join().unwrap()).collect()
    });
    let host = host.into_inner().unwrap();
    assert!(done.iter().enumerate().all(|(build, (_, trail))| is_trail(&host, build, trail)));
    assert!(done.iter().enumerate().all(|(build, (report, _))| is_told(&host, build, report)));
    for (build, (report, _)) in done.iter().enumerate() {
        for &(step, answer) in report {
            push_step(text, build, step);
            push_answer(text, step, answer);
        }
    }
    push_map(text, &host);
    text.push_str("audit ok\n");
}
