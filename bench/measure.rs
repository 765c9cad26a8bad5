//! Runs a program several times over one input: `measure RUNS INPUT OUTPUT PROGRAM [WORD..]`. What each run writes goes
//! to OUTPUT. Prints the least CPU time in microseconds, the most memory in KiB, the status, and the least time by the
//! clock in microseconds.
use std::fs::File;
use std::os::raw::{c_int, c_long};
use std::process::{Command, exit};

#[repr(C)]
#[derive(Default)]
struct Usage {
    user: [c_long; 2],
    system: [c_long; 2],
    most_memory: c_long,
    others: [c_long; 13],
}

unsafe extern "C" {
    fn wait4(process: c_int, status: *mut c_int, options: c_int, usage: *mut Usage) -> c_int;
}

fn main() {
    let words: Vec<String> = std::env::args().collect();
    let (mut least, mut most, mut status, mut by_clock) = (c_long::MAX, 0, 0, u128::MAX);
    for _run in 0..words[1].parse().unwrap() {
        let mut command = Command::new(&words[4]);
        command.args(&words[5..]).stdin(File::open(&words[2]).unwrap());
        let child = command.stdout(File::create(&words[3]).unwrap()).stderr(File::create("/dev/null").unwrap());
        let began = std::time::Instant::now();
        let process = child.spawn().unwrap().id() as c_int;
        let mut usage = Usage::default();
        if unsafe { wait4(process, &mut status, 0, &mut usage) } != process {
            exit(1);
        }
        by_clock = by_clock.min(began.elapsed().as_micros());
        let micros = (usage.user[0] + usage.system[0]) * 1_000_000 + usage.user[1] + usage.system[1];
        least = least.min(micros);
        most = most.max(usage.most_memory);
    }
    println!("{least} {most} {} {by_clock}", (status >> 8) & 0xff);
}
