//! Compares every call that is switched on with the second program, on many tables.
//! The seed is fixed; another one is the first argument.

use compare::calls::{Call, EXPAND, NORMALISE, SCHEDULE};
use compare::check::Check;
use compare::random::Random;
use compare::{tables, tiny};
use second::records::{link, read_jobs, Record};
use second::Answer;
use std::time::Instant;

fn main() {
    let seed = std::env::args().nth(1).map_or(1, |seed| seed.parse().expect("the seed is a number"));
    let runs: [(Call, fn(&mut Check)); 3] =
        [(EXPAND, expanding), (NORMALISE, normalising), (SCHEDULE, scheduling)];
    assert!(runs.iter().any(|(call, _)| call.is_on()), "no call is switched on");
    for (call, run) in runs.into_iter().filter(|(call, _)| call.is_on()) {
        let begin = Instant::now();
        let mut check = Check::new(call, seed);
        run(&mut check);
        check.close();
        println!("{}: seed {seed}, {:.1} s", call.name, begin.elapsed().as_secs_f64());
    }
}

/// The table's bytes, now and then of a length at the limits, and half of the time damaged.
fn bytes(r: &mut Random, table: Vec<Record>) -> Vec<u8> {
    let mut bytes = match r.between(1, 200) {
        1 => Vec::new(),
        2 => vec![b'P'; 11],
        3 => tables::lengthen(r, table, 4096).concat(),
        4 => tables::lengthen(r, table, 4097).concat(),
        _ => table.concat(),
    };
    if r.once_in(2) {
        tables::damage(r, &mut bytes);
    }
    bytes
}

fn expanding(check: &mut Check) {
    for _ in 0..200_000 {
        let table = tables::passes(&mut check.random);
        let table = bytes(&mut check.random, table);
        check.rooms(&table, 0);
    }
}

/// A job table of any size, or one of the shapes at the limits.
fn any_jobs(r: &mut Random) -> Vec<Record> {
    match r.between(1, 200) {
        1 => tables::chain(r),
        2 => tables::dense(r, 0),
        3 => tables::dense(r, 1000),
        4 => tables::full(r),
        _ => {
            let (most, span) = r.pick(&[(3, 10), (8, 100), (8, 20_000), (16, 300), (48, 300)]);
            tables::jobs(r, most, span, span / 10)
        }
    }
}

fn normalising(check: &mut Check) {
    for _ in 0..200_000 {
        let table = any_jobs(&mut check.random);
        let table = bytes(&mut check.random, table);
        let answer = check.rooms(&table, 0);
        if answer.number == 0 && table.len() < 49_152 && check.random.once_in(5) {
            properties(check, &table, &answer);
        }
    }
    for _ in 0..20_000 {
        let tiny = tiny::Jobs::random(&mut check.random);
        let answer = check.rooms(&tiny.table(), 0);
        let agree = match tiny.normal() {
            None => matches!(answer.number, 7 | 8),
            Some(normal) => (answer.number, answer.output) == (0, normal.table()),
        };
        if !agree {
            check.stop(&tiny.table(), "not the normal form that the permitted starts give");
        }
    }
}

/// Normalising twice changes nothing; nor does a link implied by a link or by windows; a raised one does.
fn properties(check: &mut Check, table: &[u8], answer: &Answer) {
    let form = &answer.output;
    check.at(form, 0, form.len(), answer);
    let (jobs, links) = read_jobs(form).expect("a normal form is a job table");
    if !links.is_empty() {
        let some = check.random.pick(&links);
        let implied = link(some.from, some.to, check.random.between(0, some.latency));
        check.at(&[table, &implied].concat(), 0, form.len(), answer);
        let raised = [&form[..], &link(some.from, some.to, some.latency + 1)].concat();
        let changed = (check.call.second)(&raised, 0, usize::MAX);
        check.at(&raised, 0, 49_152, &changed);
        if changed == *answer {
            check.stop(&raised, "a raised link changes nothing");
        }
    }
    if !jobs.is_empty() {
        let (i, j) = (check.random.pick(&jobs), check.random.pick(&jobs));
        if i.deadline <= j.release {
            let implied = link(i.number, j.number, j.release - i.deadline);
            check.at(&[table, &implied].concat(), 0, form.len(), answer);
        }
    }
}

fn scheduling(check: &mut Check) {
    for _ in 0..100_000 {
        if check.random.once_in(50) {
            let table = any_jobs(&mut check.random);
            let table = bytes(&mut check.random, table);
            let budget = check.random.between(0, 200) as u32;
            check.rooms(&table, budget);
        } else {
            let table = match check.random.pick(&[(0, 0), (0, 0), (4, 3), (12, 4), (30, 9)]) {
                (0, _) => tables::knot(&mut check.random),
                (span, longest) => tables::jobs(&mut check.random, 7, span, longest),
            };
            let table = bytes(&mut check.random, table);
            budgets(check, &table);
        }
    }
    for _ in 0..20_000 {
        let tiny = tiny::Jobs::random(&mut check.random);
        let answer = budgets(check, &tiny.table());
        let agree = match tiny.normal().map(|normal| normal.scheduled()) {
            None => matches!(answer.number, 7 | 8),
            Some((None, openings)) => (answer.number, answer.openings) == (10, openings),
            Some((Some(output), openings)) => answer == Answer { number: 0, output, openings },
        };
        if !agree || (answer.number == 0) != tiny.feasible() {
            check.stop(&tiny.table(), "not the schedule that brute force gives");
        }
    }
}

/// A table under a budget at, one below or one above its openings, or the largest; its answer at the largest.
fn budgets(check: &mut Check, table: &[u8]) -> Answer {
    let answer = (check.call.second)(table, u32::MAX, usize::MAX);
    let [below, above] = [answer.openings.saturating_sub(1), answer.openings + 1];
    let budget = check.random.pick(&[below, answer.openings, above, u32::MAX]);
    check.rooms(table, budget);
    answer
}
