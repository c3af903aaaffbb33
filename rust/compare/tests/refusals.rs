//! Both sides of each refusal, asked of the second program and of every library call that is switched on.
//! Every expected number is written by hand.

use compare::calls::{EXPAND, NORMALISE, SCHEDULE};
use compare::check::agreed;
use second::records::{flow, job, link, pass, Record};

/// The number that expanding gives where there is room.
fn expand(table: &[u8]) -> u32 {
    agreed(EXPAND, table, 0, 49_152).number
}

/// The number that normalising gives where there is room; scheduling gives it too, or finds its schedule.
fn normalise(table: &[u8]) -> u32 {
    let number = agreed(NORMALISE, table, 0, 49_152).number;
    assert_eq!(agreed(SCHEDULE, table, 1000, 49_152).number, number);
    number
}

/// The first records of a table, to tell it by.
fn head(table: &[Record]) -> &[Record] {
    &table[..table.len().min(6)]
}

#[test]
fn expanding() {
    let p = |number| pass(number, 1, 1, 0, 1);
    let flows = |count| [&[p(0), p(1)][..], &vec![flow(1, 0, 3); count]].concat();
    let named = |from, to, latency| vec![p(0), flow(from, to, latency), p(1)];
    let primes = [43, 41, 37, 31].map(|period| pass(period as u8 - 30, 1, period, 0, 1));
    for (table, number) in [
        (flows(4094), 6),
        (flows(4095), 1),
        (vec![p(23)], 0),
        (vec![p(24)], 3),
        (vec![p(5), p(6)], 0),
        (vec![p(5), p(5)], 3),
        (vec![pass(0, 65_535, 48_000, 48_000, 0)], 0),
        (vec![pass(0, 0, 1, 0, 1)], 4),
        (vec![pass(0, 1, 0, 0, 0)], 4),
        (vec![pass(0, 1, 1, 65_535, 1)], 4),
        (vec![pass(0, 1, 65_535, 65_535, 65_535)], 4),
        (named(0, 1, 48_000), 0),
        (named(0, 1, 48_001), 4),
        (named(0, 0, 0), 5),
        (named(0, 2, 0), 5),
        (named(255, 1, 0), 5),
        (flows(64), 0),
        (flows(65), 6),
        (primes.to_vec(), 6),
        (vec![pass(24, 0, 0, 0, 0), [b'X'; 12]], 2),
        (vec![flow(0, 0, 0), pass(0, 0, 1, 0, 0), pass(24, 1, 1, 0, 0)], 3),
        (vec![flow(0, 0, 0), pass(0, 0, 1, 0, 0)], 4),
        (vec![flow(0, 7, 0), pass(0, 1, 48_001, 0, 0)], 5),
    ] {
        assert_eq!(expand(&table.concat()), number, "{:?}", head(&table));
    }
}

#[test]
fn normalising_and_scheduling() {
    let j = |number| job(number, 1, 0, 9);
    let named = |from, to, latency| vec![j(0), link(from, to, latency), j(1)];
    let many = |count| [&[j(0), j(1)][..], &vec![link(1, 0, 3); count]].concat();
    let three = |links: &[Record]| [&[j(0), j(1), j(2)], links].concat();
    for (table, number) in [
        (many(4094), 0),
        (many(4095), 1),
        (vec![j(5), j(6)], 0),
        (vec![j(5), j(5)], 3),
        (vec![job(0, 1, 47_999, 48_000)], 0),
        (vec![job(0, 1, 0, 48_001)], 4),
        (vec![job(0, 0, 0, 9)], 4),
        (vec![job(0, 1, 65_535, 48_000)], 8),
        (vec![job(0, 1, 0, 0)], 8),
        (named(0, 1, 48_000), 8),
        (named(0, 1, 48_001), 4),
        (named(1, 1, 0), 5),
        (named(2, 0, 0), 5),
        (three(&[link(0, 1, 0), link(1, 2, 0), link(0, 2, 0)]), 0),
        (three(&[link(0, 1, 0), link(1, 2, 0), link(2, 0, 0)]), 7),
        (three(&[link(0, 1, 3), link(1, 2, 3)]), 0),
        (three(&[link(0, 1, 3), link(1, 2, 4)]), 8),
        (vec![link(0, 1, 0), link(1, 0, 0), job(0, 9, 0, 1), j(1)], 7),
    ] {
        assert_eq!(normalise(&table.concat()), number, "{:?}", head(&table));
    }
}

#[test]
fn room_comes_last_but_for_the_search() {
    let passes = [pass(0, 1, 1, 0, 1), pass(1, 1, 1, 0, 1), flow(0, 1, 0)].concat();
    let jobs = [job(0, 1, 0, 9), job(1, 1, 0, 9), link(0, 1, 0)].concat();
    let pair = [job(0, 2, 0, 3), job(1, 2, 0, 3)].concat();
    for (call, table, budget, room, number) in [
        (EXPAND, &passes[..], 0, 36, 0),
        (EXPAND, &passes, 0, 35, 9),
        (EXPAND, &pass(0, 1, 48_001, 0, 0), 0, 0, 6),
        (NORMALISE, &jobs, 0, 36, 0),
        (NORMALISE, &jobs, 0, 35, 9),
        (NORMALISE, &job(0, 2, 0, 1), 0, 0, 8),
        (SCHEDULE, &jobs, 3, 24, 0),
        (SCHEDULE, &jobs, 2, 24, 11),
        (SCHEDULE, &jobs, 2, 23, 9),
        (SCHEDULE, &pair, 0, 24, 10),
        (SCHEDULE, &pair, 0, 23, 9),
    ] {
        assert_eq!(agreed(call, table, budget, room).number, number, "{} at {room}", call.name);
    }
}

/// A record with one byte changed.
fn with(mut record: Record, at: usize, byte: u8) -> Record {
    record[at] = byte;
    record
}

#[test]
fn reading_a_record() {
    let passes = [pass(0, 1, 1, 0, 1), pass(1, 1, 1, 0, 1), flow(0, 1, 0)];
    let jobs = [job(0, 1, 0, 9), job(1, 1, 0, 9), link(0, 1, 0)];
    for kind in 0..=255 {
        assert_eq!(expand(&with(pass(0, 0, 1, 0, 0), 0, kind)) == 2, !b"PF".contains(&kind));
        assert_eq!(normalise(&with(job(0, 0, 0, 0), 0, kind)) == 2, !b"JL".contains(&kind));
    }
    // The z bytes: 10 and 11 of a pass, 8 to 11 of a job, 3 and 6 to 11 of a flow or link.
    for at in 3..12 {
        let flows = [passes[0], passes[1], with(passes[2], at, 1)].concat();
        let links = [jobs[0], jobs[1], with(jobs[2], at, 1)].concat();
        assert_eq!(expand(&with(passes[0], at, 1)) == 2, at >= 10);
        assert_eq!(normalise(&with(jobs[0], at, 1)) == 2, at >= 8);
        assert_eq!(expand(&flows) == 2, at == 3 || at >= 6);
        assert_eq!(normalise(&links) == 2, at == 3 || at >= 6);
    }
    for length in [1, 11, 13, 23] {
        assert_eq!(expand(&passes.concat()[..length]), 1);
        assert_eq!(normalise(&jobs.concat()[..length]), 1);
    }
}
