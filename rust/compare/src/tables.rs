//! Tables to compare on: sound ones, damaged ones, and the shapes at the limits.

use crate::random::Random;
use second::records::{flow, job, link, pass, Record};

/// The values at which a limit turns, in a 16-bit field and in a number's byte.
const EDGES: [u16; 14] = [0, 1, 23, 24, 47, 48, 49, 940, 960, 47_999, 48_000, 48_001, 65_534, 65_535];
const NUMBERS: [u8; 7] = [0, 1, 23, 24, 47, 48, 200];

/// Periods with a small cycle; now and then the number of jobs or the cycle is near its limit.
fn periods(r: &mut Random) -> Vec<i64> {
    if r.once_in(12) {
        let base = r.between(1, 1000);
        return vec![base, base * r.between(45, 50)];
    }
    if r.once_in(40) {
        return vec![r.between(47_999, 48_001)];
    }
    let multiples: &[i64] =
        r.pick(&[&[1][..], &[1, 2], &[2, 3, 3], &[1, 2, 4], &[6, 6, 4, 3], &[5, 7], &[12, 8, 3]]);
    let base = r.between(1, 1500);
    (0..r.between(0, 24)).map(|_| base * r.pick(multiples)).collect()
}

/// A pass table that reads and is judged well; some of them are too large.
pub fn passes(r: &mut Random) -> Vec<Record> {
    let periods = periods(r);
    let numbers = r.numbers(24, periods.len());
    let mut table = Vec::new();
    for (&number, period) in numbers.iter().zip(periods) {
        let phase = if r.once_in(2) { 0 } else { r.between(0, period) };
        let finish = if r.once_in(2) { period - phase } else { r.between(0, period - phase) };
        table.push(pass(number, r.between(1, 65_535), period, phase, finish));
    }
    if numbers.len() > 1 {
        let most = r.pick(&[4, 16, 64, 66]);
        for _ in 0..r.between(most / 2, most) {
            let at = r.place(numbers.len());
            let other = (at + r.between(1, numbers.len() as i64 - 1) as usize) % numbers.len();
            table.push(flow(numbers[at], numbers[other], r.between(0, 48_000)));
        }
    }
    r.shuffle(&mut table);
    table
}

/// A job table built around planned starts, half of the time one job after another, so that its windows
/// and links are just possible; now and then they are just not, or the links form a ring.
pub fn jobs(r: &mut Random, most: i64, span: i64, longest: i64) -> Vec<Record> {
    let count = r.between(0, most);
    let numbers = r.numbers(48, count as usize);
    let costs: Vec<i64> = numbers.iter().map(|_| r.between(1, longest)).collect();
    let mut starts: Vec<i64> = numbers.iter().map(|_| r.between(0, span)).collect();
    starts.sort();
    if r.once_in(2) {
        (1..starts.len()).for_each(|i| starts[i] = starts[i].max(starts[i - 1] + costs[i - 1]));
    }
    let slack = r.pick(&[0, 1, 4, span]);
    let mut table = Vec::new();
    for i in 0..numbers.len() {
        let release = starts[i] - r.between(0, slack).min(starts[i]);
        let deadline = starts[i] + costs[i] + r.between(0, slack) - i64::from(r.once_in(100));
        table.push(job(numbers[i], costs[i], release, deadline));
    }
    if count > 1 && r.once_in(20) {
        table.push(link(numbers[1], numbers[0], 0));
        table.push(link(numbers[0], numbers[1], 0));
    }
    let many = r.between(0, 3);
    for j in 0..numbers.len() {
        for i in (0..j).filter(|&i| starts[i] + costs[i] <= starts[j]) {
            if r.between(0, 3) < many {
                let spare = starts[j] - starts[i] - costs[i];
                let latency = if r.once_in(2) { spare } else { r.between(0, spare) };
                table.push(link(numbers[i], numbers[j], latency + i64::from(r.once_in(200))));
                if r.once_in(5) {
                    table.push(link(numbers[i], numbers[j], r.between(0, latency)));
                }
            }
        }
    }
    r.shuffle(&mut table);
    table
}

/// Wide jobs around two narrow ones with hardly a tick to spare: the search has to go back often.
pub fn knot(r: &mut Random) -> Vec<Record> {
    let jobs: Vec<(u8, i64)> = r.numbers(48, 7).into_iter().map(|number| (number, r.between(1, 4))).collect();
    let jobs = &jobs[..r.between(4, 7) as usize];
    let end = jobs.iter().map(|(_, cost)| cost).sum::<i64>() + r.between(0, 2);
    let narrow = |r: &mut Random, (number, cost)| {
        let release = r.between(0, end - cost);
        job(number, cost, release, end.min(release + cost + r.between(0, 2)))
    };
    let mut table = vec![narrow(r, jobs[0]), narrow(r, jobs[1])];
    table.extend(jobs[2..].iter().map(|&(number, cost)| job(number, cost, 0, end)));
    if r.once_in(3) {
        table.push(link(jobs[2].0, jobs[3].0, r.between(0, 3)));
    }
    table
}

/// 48 jobs in one long chain.
pub fn chain(r: &mut Random) -> Vec<Record> {
    let step = r.between(1, 999);
    let wide = (0..48).map(|number| job(number, 1, 0, 48_000));
    wide.chain((1..48).map(|to| link(to - 1, to, step - 1))).collect()
}

/// 48 jobs in a dense order: all 1,128 links, earlier jobs first in a shuffled order of numbers.
pub fn dense(r: &mut Random, longest: i64) -> Vec<Record> {
    let numbers = r.numbers(48, 48);
    let mut table: Vec<Record> = numbers.iter().map(|&n| job(n, r.between(1, 20), 0, 48_000)).collect();
    for j in 0..48 {
        table.extend((0..j).map(|i| link(numbers[i], numbers[j], r.between(0, longest))));
    }
    table
}

/// 48 jobs and 4,048 links, most of them repeated, along a shuffled order of numbers.
pub fn full(r: &mut Random) -> Vec<Record> {
    let numbers = r.numbers(48, 48);
    let mut table: Vec<Record> = numbers.iter().map(|&n| job(n, 1, 0, 48_000)).collect();
    for _ in 0..4048 {
        let j = r.place(47) + 1;
        table.push(link(numbers[r.place(j)], numbers[j], r.between(0, 900)));
    }
    table
}

/// A table made longer, to so many records, by repeating its first or its last one by kind.
pub fn lengthen(r: &mut Random, mut table: Vec<Record>, count: usize) -> Vec<Record> {
    table.sort();
    let again = if r.once_in(2) { table.first() } else { table.last() };
    let again = again.copied().unwrap_or([0; 12]);
    table.resize(count, again);
    table
}

/// One to three damages: a flipped bit, an edge value, a cut or repeated record, a cut byte.
pub fn damage(r: &mut Random, table: &mut Vec<u8>) {
    for _ in 0..r.between(1, 3) {
        let records = table.len() / 12;
        if records == 0 {
            table.push(r.pick(b"PFJLS"));
            continue;
        }
        let at = 12 * r.place(records);
        match r.between(0, 9) {
            0 => table[at + r.place(12)] ^= 1 << r.place(8),
            1..=4 => {
                let field = at + r.pick(&[2, 4, 4, 6, 8]);
                table[field..field + 2].copy_from_slice(&r.pick(&EDGES).to_le_bytes());
            }
            5 | 6 => table[at + r.pick(&[1, 1, 2])] = r.pick(&NUMBERS),
            7 => table.extend_from_within(at..at + 12),
            8 => drop(table.drain(at..at + 12)),
            _ => table.truncate(table.len() - r.pick(&[1, 6, 11, 12])),
        }
    }
}
