//! Scripts: a scene, and parts that are performed again and again.
use crate::abi::{Registers, Settings};
use crate::granules::Granules;
use crate::guest::Queued;
use std::io::Read;

enum Operation {
    Call(Registers),
    Store { address: u64, word: u64 },
    Guest { rec: u64, step: [u64; 5] },
}

/// Operations, and the least processor time that they took, in nanoseconds.
struct Part {
    operations: Vec<Operation>,
    least: u64,
}

struct Script {
    pages: usize,
    rounds: u64,
    scene: Vec<Operation>,
    parts: Vec<Part>,
}

#[repr(C)]
struct Time {
    seconds: i64,
    nanos: i64,
}

unsafe extern "C" {
    fn clock_gettime(clock: i32, time: *mut Time) -> i32;
}

/// The processor time of this thread, in nanoseconds.
fn processor_time() -> u64 {
    const THREAD: i32 = 3;
    let mut time = Time { seconds: 0, nanos: 0 };
    assert_eq!(unsafe { clock_gettime(THREAD, &mut time) }, 0);
    time.seconds as u64 * 1_000_000_000 + time.nanos as u64
}

impl Script {
    fn read(text: &str) -> Script {
        let mut script = Script { pages: 0, rounds: 0, scene: Vec::new(), parts: Vec::new() };
        for line in text.lines() {
            let (kind, numbers) = line.split_once(' ').unwrap_or((line, ""));
            let mut n = [0; 7];
            for (number, word) in n.iter_mut().zip(numbers.split(' ').filter(|word| !word.is_empty())) {
                *number = word.parse().unwrap();
            }
            let operation = match kind {
                "machine" => {
                    (script.pages, script.rounds) = (n[0] as usize, n[1]);
                    continue;
                }
                "part" => {
                    script.parts.push(Part { operations: Vec::new(), least: u64::MAX });
                    continue;
                }
                "smc" => Operation::Call(n),
                "store" => Operation::Store { address: n[0], word: n[1] },
                "guest" => Operation::Guest { rec: n[0], step: [n[1], n[2], n[3], n[4], n[5]] },
                _ => panic!("{line}: no such operation"),
            };
            script.parts.last_mut().map_or(&mut script.scene, |part| &mut part.operations).push(operation);
        }
        script
    }
}

/// A number that the result of an operation has.
fn result(rmm: &mut Granules, operation: &Operation) -> u64 {
    match operation {
        Operation::Call(registers) => {
            let [x0, x1, x2, x3, x4, ..] = rmm.smc(registers);
            let outputs = [(x1, 3), (x2, 5), (x3, 7), (x4, 9)];
            outputs.into_iter().fold(x0, |sum, (x, weight)| sum.wrapping_add(x.wrapping_mul(weight)))
        }
        Operation::Store { address, word } => u64::from(rmm.store(*address, *word)),
        Operation::Guest { rec, step } => match rmm.queue(*rec, *step) {
            Queued::Queued => 0,
            Queued::Full => 1,
            Queued::NoRec => 2,
        },
    }
}

fn perform(rmm: &mut Granules, operations: &[Operation], mut sum: u64) -> u64 {
    for operation in operations {
        sum = sum.wrapping_mul(31).wrapping_add(result(rmm, operation));
    }
    sum
}

/// Performs the script on standard input. Prints a sum of the results, and on standard error the least time of each part.
pub fn run() {
    let mut text = String::new();
    std::io::stdin().read_to_string(&mut text).unwrap();
    let mut script = Script::read(&text);
    let mut rmm = Granules::new(Settings::default(), script.pages);
    let mut sum = perform(&mut rmm, &script.scene, 0);
    for _ in 0..script.rounds {
        for part in &mut script.parts {
            let before = processor_time();
            sum = perform(&mut rmm, &part.operations, sum);
            part.least = part.least.min(processor_time() - before);
        }
    }
    println!("{sum}");
    for part in &script.parts {
        eprintln!("{}", part.least);
    }
}
