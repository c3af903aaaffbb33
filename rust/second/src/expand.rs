//! From passes to jobs.

use crate::records::{job, link, read_passes, Pass, Record};
use crate::{Answer, Refusal};

/// Expands a pass table into a job table, for an output of so many bytes.
pub fn expand(passes: &[u8], room: usize) -> Answer {
    Answer::of(expanded(passes), room)
}

fn expanded(table: &[u8]) -> Result<Vec<Record>, Refusal> {
    let (passes, flows) = read_passes(table)?;
    let cycle = cycle(&passes)?;
    let total: i64 = passes.iter().map(|pass| cycle / pass.period).sum();
    if total > 48 || flows.len() > 64 {
        return Err(6);
    }
    // A place in this list is a job number: passes stand by number, instances rise from 1.
    let instances = |pass: &Pass| (1..=cycle / pass.period).collect::<Vec<_>>();
    let jobs: Vec<(Pass, i64)> =
        passes.iter().flat_map(|p| instances(p).into_iter().map(move |k| (*p, k))).collect();
    let mut records: Vec<Record> = (0u8..).zip(&jobs).map(|(n, (p, k))| instance(n, p, *k)).collect();
    for flow in flows {
        for (from, (source, i)) in (0u8..).zip(&jobs).filter(|(_, (p, _))| p.number == flow.from) {
            for (to, (target, j)) in (0u8..).zip(&jobs).filter(|(_, (p, _))| p.number == flow.to) {
                if (i - 1) * source.period == (j - 1) * target.period {
                    records.push(link(from, to, flow.latency));
                }
            }
        }
    }
    Ok(records)
}

/// The job record of a pass's instance k.
fn instance(number: u8, pass: &Pass, k: i64) -> Record {
    let release = (k - 1) * pass.period + pass.phase;
    job(number, pass.cost, release, release + pass.finish)
}

/// The least common multiple of all periods, 1 for no passes; 6 as soon as it is over 48,000.
fn cycle(passes: &[Pass]) -> Result<i64, Refusal> {
    let mut cycle = 1;
    for pass in passes {
        cycle = cycle / divisor(cycle, pass.period) * pass.period;
        if cycle > 48_000 {
            return Err(6);
        }
    }
    Ok(cycle)
}

/// The greatest common divisor, by Euclid.
fn divisor(a: i64, b: i64) -> i64 {
    if b == 0 {
        a
    } else {
        divisor(b, a % b)
    }
}
