//! The records of 12 bytes: how they are written, read and judged.

use crate::Refusal;

pub type Record = [u8; 12];

#[derive(Clone, Copy, Debug)]
pub struct Pass {
    pub number: u8,
    pub cost: i64,
    pub period: i64,
    pub phase: i64,
    pub finish: i64,
}

#[derive(Clone, Copy, Debug)]
pub struct Job {
    pub number: u8,
    pub cost: i64,
    pub release: i64,
    pub deadline: i64,
}

/// A link between two jobs, or a flow between two passes.
#[derive(Clone, Copy, Debug)]
pub struct Link {
    pub from: u8,
    pub to: u8,
    pub latency: i64,
}

/// A record of a kind with its first byte and the 16-bit numbers at their places.
fn lay(kind: u8, first: u8, numbers: &[(usize, i64)]) -> Record {
    let mut record = [0; 12];
    record[0] = kind;
    record[1] = first;
    for &(at, number) in numbers {
        let number = u16::try_from(number).expect("a 16-bit number");
        record[at..at + 2].copy_from_slice(&number.to_le_bytes());
    }
    record
}

/// A flow or link: the second number stands right after the first.
fn lay_link(kind: u8, from: u8, to: u8, latency: i64) -> Record {
    let mut record = lay(kind, from, &[(4, latency)]);
    record[2] = to;
    record
}

pub fn pass(number: u8, cost: i64, period: i64, phase: i64, finish: i64) -> Record {
    lay(b'P', number, &[(2, cost), (4, period), (6, phase), (8, finish)])
}

pub fn flow(from: u8, to: u8, latency: i64) -> Record {
    lay_link(b'F', from, to, latency)
}

pub fn job(number: u8, cost: i64, release: i64, deadline: i64) -> Record {
    lay(b'J', number, &[(2, cost), (4, release), (6, deadline)])
}

pub fn link(from: u8, to: u8, latency: i64) -> Record {
    lay_link(b'L', from, to, latency)
}

pub fn slot(job: u8, start: i64, end: i64) -> Record {
    lay(b'S', job, &[(2, start), (4, end)])
}

/// The table cut into records, or refusal 1.
fn cut(table: &[u8]) -> Result<std::slice::ChunksExact<'_, u8>, Refusal> {
    if table.len() % 12 != 0 || table.len() > 49_152 {
        return Err(1);
    }
    Ok(table.chunks_exact(12))
}

/// The 16-bit number at a place, low byte first.
fn number(record: &[u8], at: usize) -> i64 {
    i64::from(record[at]) + 256 * i64::from(record[at + 1])
}

fn zero(bytes: &[u8]) -> bool {
    bytes.iter().all(|&byte| byte == 0)
}

/// A flow or link whose z bytes are zero.
fn read_link(record: &[u8]) -> Result<Link, Refusal> {
    if record[3] != 0 || !zero(&record[6..]) {
        return Err(2);
    }
    Ok(Link { from: record[1], to: record[2], latency: number(record, 4) })
}

fn read_pass(record: &[u8]) -> Result<Pass, Refusal> {
    if !zero(&record[10..]) {
        return Err(2);
    }
    let [cost, period, phase, finish] = [2, 4, 6, 8].map(|at| number(record, at));
    Ok(Pass { number: record[1], cost, period, phase, finish })
}

fn read_job(record: &[u8]) -> Result<Job, Refusal> {
    if !zero(&record[8..]) {
        return Err(2);
    }
    let [cost, release, deadline] = [2, 4, 6].map(|at| number(record, at));
    Ok(Job { number: record[1], cost, release, deadline })
}

/// The lowest of 3, 4 and 5 that holds, given whether a pass or job has a bad value.
fn judge(mut numbers: Vec<u8>, largest: u8, bad: bool, links: &[Link]) -> Result<(), Refusal> {
    numbers.sort();
    if numbers.iter().any(|&n| n > largest) || numbers.windows(2).any(|pair| pair[0] == pair[1]) {
        return Err(3);
    }
    if bad || links.iter().any(|link| link.latency > 48_000) {
        return Err(4);
    }
    let missing = |number| numbers.binary_search(&number).is_err();
    if links.iter().any(|link| link.from == link.to || missing(link.from) || missing(link.to)) {
        return Err(5);
    }
    Ok(())
}

/// A sound pass table's passes by number and its flows as they stand, or refusal 1 to 5.
pub fn read_passes(table: &[u8]) -> Result<(Vec<Pass>, Vec<Link>), Refusal> {
    let (mut passes, mut flows) = (Vec::new(), Vec::new());
    for record in cut(table)? {
        match record[0] {
            b'P' => passes.push(read_pass(record)?),
            b'F' => flows.push(read_link(record)?),
            _ => return Err(2),
        }
    }
    let bad = |p: &Pass| p.cost == 0 || p.period == 0 || p.phase + p.finish > p.period;
    let numbers = passes.iter().map(|p| p.number).collect();
    judge(numbers, 23, passes.iter().any(bad), &flows)?;
    passes.sort_by_key(|p| p.number);
    Ok((passes, flows))
}

/// A sound job table's jobs by number and its links as they stand, or refusal 1 to 5.
pub fn read_jobs(table: &[u8]) -> Result<(Vec<Job>, Vec<Link>), Refusal> {
    let (mut jobs, mut links) = (Vec::new(), Vec::new());
    for record in cut(table)? {
        match record[0] {
            b'J' => jobs.push(read_job(record)?),
            b'L' => links.push(read_link(record)?),
            _ => return Err(2),
        }
    }
    let bad = |j: &Job| j.cost == 0 || j.deadline > 48_000;
    let numbers = jobs.iter().map(|j| j.number).collect();
    judge(numbers, 47, jobs.iter().any(bad), &links)?;
    jobs.sort_by_key(|j| j.number);
    Ok((jobs, links))
}
