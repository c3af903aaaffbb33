//! The library's time beside the second program's, side by side in one run, and the stack of each call.

mod port;
mod stack;

use compare::calls::{Call, EXPAND, NORMALISE, SCHEDULE};
use compare::random::Random;
use compare::tables;
use second::records::{flow, job, link, pass, Record};

fn main() {
    println!(
        "processor time, best of several runs, all built for release; outputs are not cleared between runs"
    );
    let mut r = Random(1);
    let late = |mut table: Vec<Record>, bad: Record| {
        table[4095] = bad;
        table.concat()
    };
    let (passes, dense, full) = (full_passes(), tables::dense(&mut r, 1000), tables::full(&mut r));
    if EXPAND.is_on() {
        let long = [&passes[..], &vec![flow(0, 1, 9); 4096 - passes.len()]].concat();
        ratio(EXPAND, "48 jobs and 64 flows", &passes.concat(), 0);
        ratio(EXPAND, "4,096 records, the last one wrong", &late(long.clone(), flow(0, 9, 0)), 5);
        worst_stack(EXPAND, &[passes, long]);
    }
    if NORMALISE.is_on() {
        ratio(NORMALISE, "48 jobs and 1,128 links", &dense.concat(), 0);
        ratio(NORMALISE, "4,096 records, the last one wrong", &late(full.clone(), link(0, 200, 0)), 5);
        worst_stack(NORMALISE, &[dense.clone(), full, tables::chain(&mut r)]);
    }
    if SCHEDULE.is_on() {
        search_ratio(&knot().concat());
        worst_stack(SCHEDULE, &[dense, tables::chain(&mut r), wide(), falling(), knot()]);
    }
}

/// 48 jobs and 64 flows with as many links as can be: 23 for each flow.
fn full_passes() -> Vec<Record> {
    let mut table = vec![pass(0, 9, 1000, 0, 1000), pass(1, 9, 1000, 0, 1000)];
    table.extend([pass(2, 9, 23_000, 0, 9), pass(3, 9, 23_000, 0, 9)]);
    table.extend([flow(0, 1, 5), flow(1, 0, 7)].repeat(32));
    table
}

/// 48 jobs that may run in any order.
fn wide() -> Vec<Record> {
    (0..48).map(|number| job(number, 1, 0, 48_000)).collect()
}

/// 48 jobs that can only run by falling number.
fn falling() -> Vec<Record> {
    (0..48).map(|number| job(number, 1, 0, 48 - i64::from(number))).collect()
}

/// 26 jobs that would fit the core exactly, but a tick must idle before job 25: after the first 13, which
/// run one by one, the search goes through very many orders of the next 12.
fn knot() -> Vec<Record> {
    let mut table: Vec<Record> = (0..13).map(|n| job(n, 2, 2 * i64::from(n), 2 * i64::from(n) + 2)).collect();
    table.extend((13..25).map(|number| job(number, 2, 0, 52)));
    table.push(job(25, 2, 43, 45));
    table.extend([link(13, 19, 0), link(14, 20, 1), link(15, 21, 2)]);
    table
}

extern "C" {
    fn clock_gettime(clock: i32, time: *mut [i64; 2]) -> i32;
}

/// The processor time of this thread: other work on the machine does not count.
fn seconds() -> f64 {
    const THREAD_CPUTIME: i32 = 3;
    let mut time = [0; 2];
    // Sound: on 64-bit Linux a timespec is two 64-bit numbers.
    assert_eq!(unsafe { clock_gettime(THREAD_CPUTIME, &mut time) }, 0);
    time[0] as f64 + time[1] as f64 / 1e9
}

/// The seconds that each task takes at best, in rounds where they take turns.
fn best<const N: usize>(rounds: usize, mut tasks: [&mut dyn FnMut(); N]) -> [f64; N] {
    let mut least = [f64::MAX; N];
    for _ in 0..rounds {
        for (task, least) in tasks.iter_mut().zip(&mut least) {
            let begin = seconds();
            task();
            *least = least.min(seconds() - begin);
        }
    }
    least
}

fn print(call: Call, what: &str, library: f64, other: f64) {
    let [one, two] = [library, other].map(|seconds| seconds * 1e6);
    println!("{}, {what}: {one:.1} us / {two:.1} us = {:.2}", call.name, library / other);
}

/// Prints library time / second program time, where both answer with this number.
fn ratio(call: Call, what: &str, table: &[u8], number: u32) {
    let mut out = vec![0; 49_152];
    let mut library = || assert_eq!(call.ask(table, 0, &mut out).number, number);
    let mut second = || assert_eq!((call.second)(table, 0, 49_152).number, number);
    let [library, second] = best(300, [&mut library, &mut second]);
    print(call, what, library, second);
}

/// The search under a budget of 3,000,000 against the second program, and against the port.
fn search_ratio(table: &[u8]) {
    const BUDGET: u32 = 3_000_000;
    let mut out = vec![0; 49_152];
    let mut library = || assert_eq!(SCHEDULE.ask(table, BUDGET, &mut out).openings, BUDGET);
    let mut second = || assert_eq!((SCHEDULE.second)(table, BUDGET, 49_152).openings, BUDGET);
    let normal = second::normal_form(table).expect("a normal form");
    let mut port = || {
        let mut port = port::Port::over(&normal, BUDGET);
        assert_eq!((port.run(), port.openings), ((11, 0), BUDGET));
    };
    let [library, second, port] = best(2, [&mut library, &mut second, &mut port]);
    print(SCHEDULE, "26 jobs and 3,000,000 openings", library, second);
    print(SCHEDULE, "the same against the port to arrays", library, port);
}

/// Prints the most stack that a call takes on some tables.
fn worst_stack(call: Call, tables: &[Vec<Record>]) {
    let mut out = vec![0; 49_152];
    let mut used = |table: &Vec<Record>| {
        let table = table.concat();
        stack::used(|| assert_ne!(call.ask(&table, 1000, &mut out).number, 9))
    };
    let worst = tables.iter().map(&mut used).max().unwrap_or(0);
    println!("{}: {worst} bytes of stack at most, over {} tables", call.name, tables.len());
}
