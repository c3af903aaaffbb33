//! The search for the first open sequence that holds all jobs.

use crate::normalise::{normal_form, Normal};
use crate::records::{slot, Record};
use crate::Answer;

/// Schedules a job table under a budget, for an output of so many bytes.
pub fn schedule(jobs: &[u8], budget: u32, room: usize) -> Answer {
    let normal = match normal_form(jobs) {
        Ok(normal) => normal,
        Err(number) => return Answer::refused(number, 0),
    };
    if 12 * normal.jobs.len() > room {
        return Answer::refused(9, 0);
    }
    let mut search = Search::over(&normal, budget);
    match search.open() {
        Err(Spent) => Answer::refused(11, budget),
        Ok(false) => Answer::refused(10, search.openings),
        Ok(true) => Answer::done(&search.slots(), search.openings),
    }
}

/// The openings would exceed the budget.
struct Spent;

/// A sequence by places in the normal form, the ends of its jobs, and the openings so far.
struct Search<'a> {
    normal: &'a Normal,
    /// For each job its linked predecessors with the latency.
    before: Vec<Vec<(usize, i64)>>,
    sequence: Vec<usize>,
    ends: Vec<Option<i64>>,
    budget: u32,
    openings: u32,
}

impl Search<'_> {
    fn over(normal: &Normal, budget: u32) -> Search<'_> {
        let place = |number| normal.jobs.iter().position(|job| job.number == number).expect("a job");
        let mut before = vec![Vec::new(); normal.jobs.len()];
        for link in &normal.links {
            before[place(link.to)].push((place(link.from), link.latency));
        }
        let ends = vec![None; normal.jobs.len()];
        Search { normal, before, sequence: Vec::new(), ends, budget, openings: 0 }
    }

    /// Opens the sequence if it is live, then its extensions in order; true at the first full one.
    fn open(&mut self) -> Result<bool, Spent> {
        if !self.live() {
            return Ok(false);
        }
        if self.openings == self.budget {
            return Err(Spent);
        }
        self.openings += 1;
        if self.sequence.len() == self.normal.jobs.len() {
            return Ok(true);
        }
        for job in 0..self.normal.jobs.len() {
            let Some(start) = self.start(job) else { continue };
            self.sequence.push(job);
            self.ends[job] = Some(start + self.normal.jobs[job].cost);
            if self.open()? {
                return Ok(true);
            }
            self.sequence.pop();
            self.ends[job] = None;
        }
        Ok(false)
    }

    /// The end of the last job, 0 for none.
    fn free(&self) -> i64 {
        self.sequence.last().map_or(0, |&last| self.ends[last].expect("has run"))
    }

    /// When a job would start next; none if it has run or a linked predecessor has not.
    fn start(&self, job: usize) -> Option<i64> {
        if self.ends[job].is_some() {
            return None;
        }
        let mut start = self.free().max(self.normal.jobs[job].release);
        for &(before, latency) in &self.before[job] {
            start = start.max(self.ends[before]? + latency);
        }
        Some(start)
    }

    /// The three conditions. Every beginning is live, so of the jobs that ran only the last is tested.
    fn live(&self) -> bool {
        let t = self.free();
        let jobs = &self.normal.jobs;
        if self.sequence.last().is_some_and(|&last| t > jobs[last].deadline) {
            return false;
        }
        let remaining = || jobs.iter().zip(&self.ends).filter(|(_, end)| end.is_none()).map(|(job, _)| job);
        let costs: i64 = remaining().map(|job| job.cost).sum();
        let last = remaining().map(|job| job.deadline).max();
        remaining().all(|job| t.max(job.release) + job.cost <= job.deadline)
            && last.is_none_or(|last| t + costs <= last)
    }

    /// The slot records in running order.
    fn slots(&self) -> Vec<Record> {
        let slot_of = |&place: &usize| {
            let (job, end) = (&self.normal.jobs[place], self.ends[place].expect("has run"));
            slot(job.number, end - job.cost, end)
        };
        self.sequence.iter().map(slot_of).collect()
    }
}
