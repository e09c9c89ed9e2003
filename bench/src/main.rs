//! Measures this port and the original's files on the same tapes, by turns, and prints what a row takes in each (docs/bench.md).

mod library;
mod port;
mod tapes;

use oracle::measure;
use std::process::ExitCode;
use tapes::{Series, Workload};

const USAGE: &str = "bench times REPETITIONS           nanoseconds a row of each workload and task: a line each workload, parted by tabs
bench series REPETITIONS          a row's time by how many columns, and by how many bytes, it has: a line each, parted by tabs
bench names                       the tasks and the workloads, a line each
bench once TASK WORKLOAD          one task of one workload, to be watched from outside; prints how many rows that has, or nothing where
                                  the workload has no number to be read";

/// A number that no row has in column 0.
const ABSENT: i32 = -1;

/// A measurement goes through a tape until so many fields have come.
const FIELDS: usize = 120_000;

// What stands before all other code, so that it lies BENCH_SHIFT bytes further on: where jumps lie decides about a tenth of a row's time.
std::arch::global_asm!(
    ".section .text.bench_shift,\"ax\",@progbits",
    ".globl bench_shift",
    "bench_shift:",
    concat!(".skip ", env!("BENCH_SHIFT")),
    "ret",
);

extern "C" {
    fn bench_shift();
}

type Task = fn(&Workload, &mut [u8]);

/// What is done with a tape, and by which side. The last three are what lies below a session: each side's host, and a bare copy of each row's bytes.
const TASKS: [(&str, Task); 7] = [
    ("port-fetch", |w, arena| assert_eq!(port::count(&w.tape, arena).shown as usize, w.rows)),
    ("original-fetch", |w, _| assert_eq!(original(w, measure::count).shown as usize, w.rows)),
    ("port-read", |w, arena| assert!(port::lacks_class(&w.tape, arena, ABSENT))),
    ("original-read", |w, _| assert_eq!(original(w, || measure::count_class(ABSENT)).1, 0)),
    ("port-walks", |w, _| assert_eq!(port::events(&w.tape), w.rows)),
    ("original-library", |w, _| assert_eq!(library::alone(&w.tape, 2_048) as usize, w.rows)),
    ("copy", |w, arena| assert_eq!(copy_rows(w, arena), w.rows)),
];

/// Copies as many bytes of each row as its fields have, in one piece, to the front of the arena.
fn copy_rows(workload: &Workload, arena: &mut [u8]) -> usize {
    let mut rows = 0;
    for (start, bytes) in &workload.places {
        let bytes = (*bytes).min(arena.len());
        arena[..bytes].copy_from_slice(&workload.tape[*start..start + bytes]);
        std::hint::black_box(&mut *arena);
        rows += 1;
    }
    rows
}

impl Workload {
    /// Whether a task is for this workload.
    fn has(&self, task: &str) -> bool {
        self.is_read || !task.ends_with("read")
    }
}

fn original<T>(workload: &Workload, ask: impl FnOnce() -> T) -> T {
    unsafe { library::hand_in(&workload.tape) };
    ask()
}

/// What is watched: no more than the task.
#[inline(never)]
fn watched(task: Task, workload: &Workload, arena: &mut [u8]) {
    task(workload, arena);
}

/// Nanoseconds of this thread on a processor so far.
fn now() -> i64 {
    extern "C" {
        fn clock_gettime(clock: i32, time: *mut [i64; 2]) -> i32;
    }
    const THREAD: i32 = 3;
    let mut time = [0; 2];
    assert_eq!(unsafe { clock_gettime(THREAD, &mut time) }, 0);
    time[0] * 1_000_000_000 + time[1]
}

/// Nanoseconds a row.
fn time(task: Task, workload: &Workload, arena: &mut [u8]) -> f64 {
    let times = FIELDS.div_ceil(workload.rows * workload.columns);
    let start = now();
    for _ in 0..times {
        watched(task, workload, arena);
    }
    (now() - start) as f64 / (times * workload.rows) as f64
}

fn median(times: &mut [f64]) -> f64 {
    times.sort_by(f64::total_cmp);
    times[times.len() / 2]
}

/// The middle time of each task of a workload. All are done by turns, so that what else the machine does falls on all alike.
fn times(workload: &Workload, repetitions: usize) -> [f64; 7] {
    let mut arena = vec![0; workload.arena];
    let mut times: [Vec<f64>; 7] = Default::default();
    // the first turn is for warmth
    for turn in 0..=repetitions {
        for ((name, task), times) in TASKS.iter().zip(&mut times) {
            if workload.has(name) {
                let one = time(*task, workload, &mut arena);
                if turn > 0 {
                    times.push(one);
                }
            }
        }
    }
    times.map(|mut times| if times.is_empty() { f64::NAN } else { median(&mut times) })
}

fn table(repetitions: usize) {
    let tasks: Vec<&str> = TASKS.iter().map(|(name, _)| *name).collect();
    println!("workload\trows\t{}", tasks.join("\t"));
    for (name, make) in tapes::ALL {
        let workload = make();
        let times = times(&workload, repetitions).map(|time| format!("{time:.1}"));
        println!("{name}\t{}\t{}", workload.rows, times.join("\t"));
    }
}

/// A row's time by a number of columns or bytes.
fn series(repetitions: usize) {
    println!("series\tnumber\tport\toriginal\tcopy");
    for Series { name, numbers, make } in tapes::SERIES {
        for number in numbers {
            let [port, original, _, _, _, _, copy] = times(&make(*number), repetitions);
            println!("{name}\t{number}\t{port:.1}\t{original:.1}\t{copy:.1}");
        }
    }
}

fn main() -> ExitCode {
    std::hint::black_box(bench_shift as *const ());
    let words: Vec<String> = std::env::args().skip(1).collect();
    let words: Vec<&str> = words.iter().map(String::as_str).collect();
    match words.as_slice() {
        ["times", repetitions] => match repetitions.parse() {
            Ok(repetitions) if repetitions > 0 => table(repetitions),
            _ => return usage(),
        },
        ["series", repetitions] => match repetitions.parse() {
            Ok(repetitions) if repetitions > 0 => series(repetitions),
            _ => return usage(),
        },
        ["names"] => {
            TASKS.iter().for_each(|(name, _)| println!("task {name}"));
            tapes::ALL.iter().for_each(|(name, _)| println!("workload {name}"));
        }
        ["once", task, name] => {
            let task = TASKS.iter().find(|(other, _)| other == task);
            let make = tapes::ALL.iter().find(|(other, _)| other == name);
            let (Some(task), Some((_, make))) = (task, make) else {
                return usage();
            };
            let workload = make();
            if !workload.has(task.0) {
                return ExitCode::SUCCESS;
            }
            watched(task.1, &workload, &mut vec![0; workload.arena]);
            println!("{}", workload.rows);
        }
        _ => return usage(),
    }
    ExitCode::SUCCESS
}

fn usage() -> ExitCode {
    eprintln!("{USAGE}");
    ExitCode::FAILURE
}
