//! The host: an RMM, and beside it the ledger: the history, and of each build what it has open, its pages, its realm
//! and its RECs. A command is checked, performed and recorded; an undo performs the reverse of the newest open operation.
use crate::monitor::{Monitor, NO_REC, Rmi};

/// The auxiliaries of a REC: pages in a step, granules in an operation.
#[derive(Clone, Copy, PartialEq)]
pub struct Auxiliaries {
    numbers: [u16; 16],
    count: u8,
}

impl Auxiliaries {
    /// Sixteen at most.
    pub fn new(numbers: impl IntoIterator<Item = u16>) -> Auxiliaries {
        let mut made = Auxiliaries { numbers: [0; 16], count: 0 };
        for number in numbers {
            made.numbers[made.count as usize] = number;
            made.count += 1;
        }
        made
    }

    pub fn numbers(&self) -> &[u16] {
        &self.numbers[..self.count as usize]
    }
}

/// The operation of one accepted command.
#[derive(Clone, Copy, PartialEq)]
pub enum Act {
    Take { order: u8, first: u16 },
    UnTake { order: u8, first: u16 },
    Fill { granule: u16, value: u8 },
    Delegate { granule: u16 },
    Undelegate { granule: u16 },
    Realm { rd: u16, root: u16, vmid: u8 },
    UnRealm { rd: u16, root: u16, vmid: u8 },
    Activate,
    Rtt { granule: u16, ipa: u32, level: u8 },
    UnRtt { granule: u16, ipa: u32, level: u8 },
    Data { granule: u16, ipa: u32, source: u16 },
    UnData { granule: u16, ipa: u32 },
    Rec { granule: u16, auxiliaries: Auxiliaries, number: u16 },
    UnRec { granule: u16, auxiliaries: Auxiliaries, number: u16 },
    Enter { number: u16 },
    Exit { number: u16 },
}

impl Act {
    /// The reverse of an operation that has one.
    pub fn reverse(self) -> Option<Act> {
        match self {
            Act::Take { order, first } => Some(Act::UnTake { order, first }),
            Act::Delegate { granule } => Some(Act::Undelegate { granule }),
            Act::Realm { rd, root, vmid } => Some(Act::UnRealm { rd, root, vmid }),
            Act::Rtt { granule, ipa, level } => Some(Act::UnRtt { granule, ipa, level }),
            Act::Data { granule, ipa, .. } => Some(Act::UnData { granule, ipa }),
            Act::Rec { granule, auxiliaries, number } => Some(Act::UnRec { granule, auxiliaries, number }),
            _ => None,
        }
    }

    pub fn is_reverse(self) -> bool {
        use Act::*;
        matches!(self, UnTake { .. } | Undelegate { .. } | UnRealm { .. } | UnRtt { .. } | UnData { .. } | UnRec { .. })
    }

    pub fn kind(self) -> &'static str {
        match self {
            Act::Take { .. } => "take",
            Act::Delegate { .. } => "delegate",
            Act::Realm { .. } => "realm",
            Act::Rtt { .. } => "rtt",
            Act::Data { .. } => "data",
            _ => "rec",
        }
    }
}

#[derive(Clone, Copy, PartialEq)]
pub struct Event {
    pub build: u8,
    pub act: Act,
}

/// A step of a plan, as a host is asked for it.
#[derive(Clone, Copy)]
pub enum Step {
    Take(u8),
    Fill(u16, u8),
    Delegate(u16),
    Realm(u16, u16),
    Activate,
    Rtt(u16, u32, u8),
    Data(u16, u32, u16),
    Rec(u16, Auxiliaries),
    Enter(u16),
    Exit(u16),
    Undo,
    Abort,
}

#[derive(Clone, Copy)]
pub enum Answer {
    Ok,
    Told(u16),
    Undone(&'static str, u16),
    No(u8, &'static str, Option<u16>),
    Rmi(Rmi),
}

// The question mark takes a refusal to the answer.
type Done = Result<Answer, Answer>;

struct Build {
    journal: Vec<Act>,
    pages: Vec<u16>,
    recs: Vec<(u16, u16)>,
    rd: Option<u16>,
    running: u16,
    events: usize,
    is_aborting: bool,
}

pub struct Books {
    pub history: Vec<Event>,
    builds: Vec<Build>,
    holders: Vec<Option<u8>>,
    vmids: Vec<u8>,
    room: usize,
}

pub struct Host {
    pub monitor: Monitor,
    pub books: Books,
}

const NO_REALM: Answer = Answer::No(6, "NoRealm", None);

fn refused(rmi: Rmi) -> Answer {
    Answer::Rmi(rmi)
}

/// The operation that a command asks for, with the granules of its pages. The number that is allocated for it, a VMID or
/// that of a REC, is 0 in it.
pub fn act_of(pages: &[u16], step: Step) -> Result<Act, Answer> {
    let granule = |page: u16| pages.get(page as usize).copied().ok_or(Answer::No(4, "NotLeased", Some(page)));
    Ok(match step {
        Step::Fill(page, value) => Act::Fill { granule: granule(page)?, value },
        Step::Delegate(page) => Act::Delegate { granule: granule(page)? },
        Step::Realm(page, root) => Act::Realm { rd: granule(page)?, root: granule(root)?, vmid: 0 },
        Step::Activate => Act::Activate,
        Step::Rtt(page, ipa, level) => Act::Rtt { granule: granule(page)?, ipa, level },
        Step::Data(page, ipa, source) => Act::Data { granule: granule(page)?, ipa, source: granule(source)? },
        Step::Rec(page, named) => {
            let of = |page: &u16| granule(*page);
            let auxiliaries: Vec<u16> = named.numbers().iter().map(of).collect::<Result<_, _>>()?;
            Act::Rec { granule: granule(page)?, auxiliaries: Auxiliaries::new(auxiliaries), number: 0 }
        }
        Step::Enter(number) => Act::Enter { number },
        Step::Exit(number) => Act::Exit { number },
        Step::Take(_) | Step::Undo | Step::Abort => unreachable!(),
    })
}

impl Books {
    fn new(pages: usize, builds: usize, room: usize) -> Books {
        let build = || Build {
            journal: Vec::with_capacity(512),
            pages: Vec::with_capacity(pages),
            recs: Vec::with_capacity(512),
            rd: None,
            running: 0,
            events: 0,
            is_aborting: false,
        };
        Books {
            history: Vec::with_capacity(builds * room),
            builds: (0..builds).map(|_| build()).collect(),
            holders: vec![None; pages],
            vmids: Vec::with_capacity(255),
            room,
        }
    }

    fn rd(&self, build: usize) -> Result<usize, Answer> {
        self.builds[build].rd.map(usize::from).ok_or(NO_REALM)
    }

    fn rec(&self, build: usize, number: u16) -> Result<u16, Answer> {
        let is_it = |rec: &&(u16, u16)| rec.0 == number;
        self.builds[build].recs.iter().find(is_it).map(|rec| rec.1).ok_or(Answer::Rmi(NO_REC))
    }

    // Whether there is capacity for a forward command; one that has a reverse takes capacity for that too.
    fn has_room(&self, build: usize, paired: bool) -> Result<(), Answer> {
        let it = &self.builds[build];
        if paired && it.journal.len() == 512 {
            return Err(Answer::No(9, "JournalFull", None));
        }
        let wanted = if paired { 2 } else { 1 };
        if it.events + it.journal.len() + it.running as usize + wanted > self.room {
            return Err(Answer::No(10, "HistoryFull", None));
        }
        Ok(())
    }

    // The state beside the history follows an event.
    fn record(&mut self, build: usize, act: Act) {
        self.history.push(Event { build: build as u8, act });
        let it = &mut self.builds[build];
        it.events += 1;
        if act.is_reverse() {
            it.journal.pop();
            it.is_aborting &= !it.journal.is_empty();
        } else if act.reverse().is_some() {
            it.journal.push(act);
        }
        match act {
            Act::Take { order, first } => {
                it.pages.extend(first..first + (1 << order));
                self.holders[first as usize..][..1 << order].fill(Some(build as u8));
            }
            Act::UnTake { order, first } => {
                it.pages.truncate(it.pages.len() - (1 << order));
                self.holders[first as usize..][..1 << order].fill(None);
            }
            Act::Realm { rd, vmid, .. } => {
                it.rd = Some(rd);
                self.vmids.push(vmid);
            }
            Act::UnRealm { vmid, .. } => {
                it.rd = None;
                self.vmids.retain(|&other| other != vmid);
            }
            Act::Rec { granule, number, .. } => it.recs.push((number, granule)),
            Act::UnRec { .. } => {
                it.recs.pop();
            }
            Act::Enter { .. } => it.running += 1,
            Act::Exit { .. } => it.running -= 1,
            _ => {}
        }
    }

    fn lowest_vmid(&self) -> u8 {
        (1..=255).find(|vmid| !self.vmids.contains(vmid)).unwrap_or(0)
    }
}

impl Host {
    pub fn new(pages: usize, vmids: u8, aux: usize, builds: usize, room: usize) -> Host {
        Host { monitor: Monitor::new(pages, vmids, aux), books: Books::new(pages, builds, room) }
    }

    pub fn build_count(&self) -> usize {
        self.books.builds.len()
    }

    pub fn pages_of(&self, build: usize) -> &[u16] {
        &self.books.builds[build].pages
    }

    pub fn rd_of(&self, build: usize) -> Option<u16> {
        self.books.builds[build].rd
    }

    pub fn is_aborting(&self, build: usize) -> bool {
        self.books.builds[build].is_aborting
    }

    pub fn serve(&mut self, build: usize, step: Step) -> Answer {
        let done = match step {
            Step::Take(order) => self.take(build, order),
            Step::Undo => self.undo(build),
            Step::Abort => self.begin_abort(build),
            _ => self.command(build, step),
        };
        done.unwrap_or_else(|answer| answer)
    }

    fn take(&mut self, build: usize, order: u8) -> Done {
        if order > 9 {
            return Err(Answer::No(3, "BadOrder", None));
        }
        self.books.has_room(build, true)?;
        let first = self.monitor.buddy.take(order as usize).ok_or(Answer::No(11, "NoBlock", Some(order.into())))?;
        let page = self.books.builds[build].pages.len();
        self.books.record(build, Act::Take { order, first: first as u16 });
        Ok(Answer::Told(page as u16))
    }

    fn command(&mut self, build: usize, step: Step) -> Done {
        let mut act = act_of(&self.books.builds[build].pages, step)?;
        if let Act::Realm { vmid, .. } = &mut act {
            *vmid = self.books.lowest_vmid();
        }
        self.books.has_room(build, act.reverse().is_some() || matches!(act, Act::Enter { .. }))?;
        let act = self.perform(build, act)?;
        self.books.record(build, act);
        Ok(match act {
            Act::Realm { vmid, .. } => Answer::Told(vmid.into()),
            Act::Rec { number, .. } => Answer::Told(number),
            _ => Answer::Ok,
        })
    }

    // An operation on the RMM: the operation as it was done.
    fn perform(&mut self, build: usize, act: Act) -> Result<Act, Answer> {
        let monitor = &mut self.monitor;
        let books = &self.books;
        match act {
            Act::Fill { granule, value } => monitor.fill(granule.into(), value),
            Act::Delegate { granule } => monitor.delegate(granule.into()),
            Act::Undelegate { granule } => monitor.undelegate(granule.into()),
            Act::Realm { rd, root, vmid } => monitor.realm_create(rd.into(), root.into(), vmid, &books.vmids),
            Act::UnRealm { rd, .. } => monitor.realm_destroy(rd.into()),
            Act::Activate => monitor.realm_activate(books.rd(build)?),
            Act::Rtt { granule, ipa, level } => monitor.rtt_create(books.rd(build)?, granule.into(), ipa, level),
            Act::UnRtt { ipa, level, .. } => monitor.rtt_destroy(books.rd(build)?, ipa, level),
            Act::Data { granule, ipa, source } => {
                monitor.data_create(books.rd(build)?, granule.into(), ipa, source.into())
            }
            Act::UnData { ipa, .. } => monitor.data_destroy(books.rd(build)?, ipa),
            Act::Rec { granule, auxiliaries, .. } => {
                let number =
                    monitor.rec_create(books.rd(build)?, granule.into(), auxiliaries).map_err(refused)?;
                return Ok(Act::Rec { granule, auxiliaries, number });
            }
            Act::UnRec { granule, .. } => monitor.rec_destroy(books.rd(build)?, granule.into()),
            Act::Enter { number } | Act::Exit { number } => {
                let rd = books.rd(build)?;
                let granule = books.rec(build, number)?;
                monitor.rec_runs(rd, granule.into(), matches!(act, Act::Enter { .. }))
            }
            Act::UnTake { order, first } => {
                monitor.pages.clear(first.into(), 1 << order);
                monitor.buddy.give(first.into(), order.into());
                Ok(())
            }
            Act::Take { .. } => unreachable!(),
        }
        .map_err(refused)?;
        Ok(act)
    }

    pub fn undo(&mut self, build: usize) -> Done {
        let it = &self.books.builds[build];
        let newest = *it.journal.last().ok_or(Answer::No(7, "NothingToUndo", None))?;
        let left = it.journal.len() as u16 - 1;
        let back = self.perform(build, newest.reverse().unwrap())?;
        self.books.record(build, back);
        Ok(Answer::Undone(newest.kind(), left))
    }

    fn begin_abort(&mut self, build: usize) -> Done {
        let it = &mut self.books.builds[build];
        if it.running > 0 {
            return Err(Answer::No(8, "RecRunning", None));
        }
        it.is_aborting = !it.journal.is_empty();
        if it.is_aborting { self.undo(build) } else { Ok(Answer::Ok) }
    }

    /// Applies an event as it is: nothing is allocated.
    pub fn apply(&mut self, event: Event) -> bool {
        let build = event.build as usize;
        let books = &self.books;
        let Some(it) = books.builds.get(build) else { return false };
        if event.act.is_reverse() {
            let is_newest = it.journal.last().and_then(|newest| newest.reverse()) == Some(event.act);
            if !is_newest {
                return false;
            }
        } else if books.has_room(build, event.act.reverse().is_some()).is_err() {
            return false;
        }
        if let Act::Take { order, first } = event.act {
            if !self.monitor.buddy.take_at(order.into(), first.into()) {
                return false;
            }
        } else if !self.has_granules(build, event.act) || self.perform(build, event.act) != Ok(event.act) {
            return false;
        }
        self.books.record(build, event.act);
        true
    }

    // Whether the build leases each granule that an operation names.
    fn has_granules(&self, build: usize, act: Act) -> bool {
        let has = |granule: u16| self.books.holders[granule as usize] == Some(build as u8);
        match act {
            Act::Fill { granule, .. }
            | Act::Delegate { granule }
            | Act::Rtt { granule, .. } => has(granule),
            Act::Rec { granule, auxiliaries, .. } => has(granule) && auxiliaries.numbers().iter().all(|it| has(*it)),
            Act::Realm { rd, root, .. } => has(rd) && has(root),
            Act::Data { granule, source, .. } => has(granule) && has(source),
            _ => true,
        }
    }
}

impl PartialEq for Answer {
    fn eq(&self, other: &Answer) -> bool {
        match (self, other) {
            (Answer::Rmi(one), Answer::Rmi(two)) => one == two,
            _ => std::mem::discriminant(self) == std::mem::discriminant(other),
        }
    }
}
