//! The cases A to L and the rows that tell misreadings apart, asked of the second program and of every
//! library call that is switched on. Every expected value is written by hand.

use compare::calls::{EXPAND, NORMALISE, SCHEDULE};
use compare::check::agreed;
use second::records::{flow, job, link, pass, slot, Record};
use second::Answer;

const ROOM: usize = 49_152;
const BUDGET: u32 = 100_000;

fn expand(table: &[u8], room: usize) -> Answer {
    agreed(EXPAND, table, 0, room)
}

fn normalise(table: &[u8], room: usize) -> Answer {
    agreed(NORMALISE, table, 0, room)
}

fn schedule(table: &[u8], budget: u32, room: usize) -> Answer {
    agreed(SCHEDULE, table, budget, room)
}

fn done(records: &[Record], openings: u32) -> Answer {
    Answer { number: 0, output: records.concat(), openings }
}

fn refused(number: u32, openings: u32) -> Answer {
    Answer { number, output: Vec::new(), openings }
}

/// The passes expand to these records.
fn expands(passes: &[Record], records: &[Record]) {
    assert_eq!(expand(&passes.concat(), ROOM), done(records, 0));
}

/// The jobs have this normal form.
fn normal(jobs: &[Record], records: &[Record]) {
    assert_eq!(normalise(&jobs.concat(), ROOM), done(records, 0));
}

/// The jobs have this schedule; the budget is enough at its openings and spent one below.
fn runs(jobs: &[Record], slots: &[Record], openings: u32) {
    let table = jobs.concat();
    assert_eq!(schedule(&table, BUDGET, ROOM), done(slots, openings));
    assert_eq!(schedule(&table, openings, ROOM), done(slots, openings));
    assert_eq!(schedule(&table, openings - 1, ROOM), refused(11, openings - 1));
}

/// Expanding is refused with a number.
fn refuses_passes(passes: &[Record], number: u32) {
    assert_eq!(expand(&passes.concat(), ROOM), refused(number, 0));
}

/// Normalising and scheduling are both refused with a number.
fn refuses_jobs(jobs: &[Record], number: u32) {
    assert_eq!(normalise(&jobs.concat(), ROOM), refused(number, 0));
    assert_eq!(schedule(&jobs.concat(), BUDGET, ROOM), refused(number, 0));
}

fn example() -> [Record; 4] {
    [job(0, 300, 0, 1000), job(1, 100, 0, 500), job(2, 100, 500, 1000), link(0, 1, 50)]
}

#[test]
fn records_stand_as_01_lays_them() {
    assert_eq!(pass(1, 300, 1000, 7, 993), *b"P\x01\x2c\x01\xe8\x03\x07\x00\xe1\x03\0\0");
    assert_eq!(flow(2, 3, 300), *b"F\x02\x03\0\x2c\x01\0\0\0\0\0\0");
    assert_eq!(job(47, 300, 7, 1000), *b"J\x2f\x2c\x01\x07\0\xe8\x03\0\0\0\0");
    assert_eq!(link(2, 3, 300), *b"L\x02\x03\0\x2c\x01\0\0\0\0\0\0");
    assert_eq!(slot(5, 300, 1000), *b"S\x05\x2c\x01\xe8\x03\0\0\0\0\0\0");
}

#[test]
fn example_expands() {
    expands(&[pass(0, 300, 1000, 0, 1000), pass(1, 100, 500, 0, 500), flow(0, 1, 50)], &example());
}

#[test]
fn case_a_no_records() {
    expands(&[], &[]);
    normal(&[], &[]);
    runs(&[], &[], 1);
    assert_eq!(schedule(&[], 0, 0), refused(11, 0));
}

#[test]
fn case_b_example() {
    let windows = [job(0, 300, 0, 350), job(1, 100, 350, 500), job(2, 100, 500, 1000)];
    normal(&example(), &[windows[0], windows[1], windows[2], link(0, 1, 50)]);
    runs(&example(), &[slot(0, 0, 300), slot(1, 350, 450), slot(2, 500, 600)], 4);
}

#[test]
fn case_c_window_of_one_job() {
    normal(&[job(0, 3, 0, 3)], &[job(0, 3, 0, 3)]);
    runs(&[job(0, 3, 0, 3)], &[slot(0, 0, 3)], 2);
    refuses_jobs(&[job(0, 4, 0, 3)], 8);
}

#[test]
fn case_d_core_must_idle() {
    runs(&[job(0, 10, 0, 100), job(1, 2, 1, 3)], &[slot(1, 1, 3), slot(0, 3, 13)], 3);
}

#[test]
fn case_e_nothing_to_open() {
    let table = [job(0, 2, 0, 3), job(1, 2, 0, 3)].concat();
    assert_eq!(schedule(&table, BUDGET, 24), refused(10, 0));
    assert_eq!(schedule(&table, 0, 24), refused(10, 0));
    assert_eq!(schedule(&table, 0, 23), refused(9, 0));
}

#[test]
fn case_f_one_opening() {
    let table = [job(0, 2, 0, 3), job(1, 2, 0, 3), job(2, 1, 10, 20)].concat();
    assert_eq!(schedule(&table, BUDGET, ROOM), refused(10, 1));
    assert_eq!(schedule(&table, 1, ROOM), refused(10, 1));
    assert_eq!(schedule(&table, 0, ROOM), refused(11, 0));
}

#[test]
fn cases_g_and_h_windows_imply_the_link() {
    let form = [job(0, 1, 0, 1), job(1, 1, 3, 4)];
    normal(&[job(0, 1, 0, 10), job(1, 1, 0, 4), link(0, 1, 2)], &form);
    refuses_jobs(&[job(0, 1, 0, 10), job(1, 1, 0, 4), link(0, 1, 3)], 8);
    normal(&form, &form);
}

#[test]
fn case_i_chain_of_three() {
    let wide = [0, 1, 2].map(|number| job(number, 1, 0, 100));
    let with = |more: &[Record]| [&wide[..], &[link(0, 1, 0), link(1, 2, 0)], more].concat();
    let windows = [job(0, 1, 0, 98), job(1, 1, 1, 99), job(2, 1, 2, 100)];
    let form = [&windows[..], &[link(0, 1, 0), link(0, 2, 1), link(1, 2, 0)]].concat();
    normal(&with(&[]), &form);
    normal(&with(&[link(0, 2, 1)]), &form);
    let windows = [job(0, 1, 0, 97), job(1, 1, 1, 99), job(2, 1, 3, 100)];
    let other = [&windows[..], &[link(0, 1, 0), link(0, 2, 2), link(1, 2, 0)]].concat();
    normal(&with(&[link(0, 2, 2)]), &other);
}

#[test]
fn case_j_rings() {
    let jobs = [job(0, 1, 0, 100), job(1, 1, 0, 100)];
    refuses_jobs(&[jobs[0], jobs[1], link(0, 1, 0), link(1, 0, 0)], 7);
    refuses_jobs(&[jobs[0], jobs[1], link(0, 0, 0)], 5);
}

#[test]
fn case_k_cycles() {
    expands(&[pass(0, 1, 48_000, 0, 1)], &[job(0, 1, 0, 1)]);
    refuses_passes(&[pass(0, 1, 48_001, 0, 1)], 6);
    let mut jobs = vec![job(0, 1, 0, 1)];
    jobs.extend((0..47).map(|k| job(1 + k, 1, 20 * i64::from(k), 20 * i64::from(k) + 1)));
    expands(&[pass(0, 1, 940, 0, 1), pass(1, 1, 20, 0, 1)], &jobs);
    refuses_passes(&[pass(0, 1, 960, 0, 1), pass(1, 1, 20, 0, 1)], 6);
}

#[test]
fn case_l_limits() {
    expands(&[pass(0, 1, 1000, 400, 600)], &[job(0, 1, 400, 1000)]);
    refuses_passes(&[pass(0, 1, 1000, 400, 601)], 4);
    assert_eq!(expand(&[0; 11], ROOM), refused(1, 0));
    assert_eq!(normalise(&[0; 11], ROOM), refused(1, 0));
    normal(&[job(47, 1, 0, 1)], &[job(47, 1, 0, 1)]);
    refuses_jobs(&[job(48, 1, 0, 1)], 3);
    refuses_jobs(&[job(0, 1, 0, 1), link(0, 200, 0)], 5);
}

#[test]
fn search_goes_back_from_an_open_child() {
    let jobs = [job(0, 1, 0, 4), job(1, 2, 0, 4), job(2, 1, 2, 3)];
    runs(&jobs, &[slot(1, 0, 2), slot(2, 2, 3), slot(0, 3, 4)], 5);
}

#[test]
fn live_looks_at_the_tightened_window() {
    let table = [job(0, 2, 0, 4), job(1, 1, 0, 1), job(2, 1, 0, 3), link(0, 2, 0)].concat();
    assert_eq!(schedule(&table, BUDGET, ROOM), refused(10, 0));
    let jobs = [job(0, 1, 1, 2), job(1, 1, 0, 3), link(1, 0, 0)];
    runs(&jobs, &[slot(1, 0, 1), slot(0, 1, 2)], 3);
}

#[test]
fn strongest_of_repeated_links_counts() {
    let jobs = [job(0, 1, 0, 100), job(1, 1, 0, 100)];
    let form = [job(0, 1, 0, 96), job(1, 1, 4, 100), link(0, 1, 3)];
    normal(&[jobs[0], jobs[1], link(0, 1, 3)], &form);
    normal(&[jobs[0], jobs[1], link(0, 1, 3), link(0, 1, 1)], &form);
    normal(&[jobs[0], jobs[1], link(0, 1, 1), link(0, 1, 3)], &form);
}

#[test]
fn links_stand_by_from_and_then_to() {
    let wide = [0, 1, 2, 3].map(|number| job(number, 1, 0, 100));
    let windows = [job(0, 1, 0, 99), job(1, 1, 0, 99), job(2, 1, 1, 100), job(3, 1, 1, 100)];
    let form = [&windows[..], &[link(0, 3, 0), link(1, 2, 0)]].concat();
    normal(&[&wide[..], &[link(1, 2, 0), link(0, 3, 0)]].concat(), &form);
}

#[test]
fn jobs_are_numbered_by_rising_pass() {
    let jobs = [job(0, 2, 0, 3), job(1, 2, 5, 8), job(2, 1, 0, 10), link(2, 0, 4)];
    expands(&[pass(9, 1, 10, 0, 10), pass(4, 2, 5, 0, 3), flow(9, 4, 4)], &jobs);
}

#[test]
fn instances_link_at_equal_times() {
    let passes = [pass(0, 1, 1, 0, 1), pass(1, 1, 2, 0, 2), pass(2, 1, 4, 0, 4)];
    let jobs = [job(0, 1, 0, 1), job(1, 1, 1, 2), job(2, 1, 2, 3), job(3, 1, 3, 4)];
    let rest = [job(4, 1, 0, 2), job(5, 1, 2, 4), job(6, 1, 0, 4)];
    let there = [link(0, 4, 7), link(2, 5, 7)];
    let back = [link(4, 0, 8), link(5, 2, 8)];
    let both = [&passes[..], &[flow(0, 1, 7), flow(1, 0, 8)]].concat();
    expands(&both, &[&jobs[..], &rest, &there, &back].concat());
    let repeated = [&passes[..], &[flow(1, 0, 8), flow(0, 1, 7), flow(1, 0, 8)]].concat();
    expands(&repeated, &[&jobs[..], &rest, &back, &there, &back].concat());
}

#[test]
fn deadline_counts_from_the_phase() {
    expands(&[pass(0, 9, 10, 3, 4)], &[job(0, 9, 3, 7)]);
}
