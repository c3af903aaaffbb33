//! Permitted starts and the normal form.

use crate::records::{job, link, read_jobs, Job, Link, Record};
use crate::{Answer, Refusal};
use std::rc::Rc;

/// A normal form: tightened jobs by number, links by from and then to.
#[derive(Clone, Debug)]
pub struct Normal {
    pub jobs: Vec<Job>,
    pub links: Vec<Link>,
}

/// The gaps from one job to every job by place; none where no chain leads.
type Gaps = Rc<[Option<i64>]>;

/// Normalises a job table, for an output of so many bytes.
pub fn normalise(jobs: &[u8], room: usize) -> Answer {
    Answer::of(normal_form(jobs).map(|normal| written(&normal)), room)
}

fn written(normal: &Normal) -> Vec<Record> {
    let jobs = normal.jobs.iter().map(|j| job(j.number, j.cost, j.release, j.deadline));
    jobs.chain(normal.links.iter().map(|l| link(l.from, l.to, l.latency))).collect()
}

/// The normal form of a job table, or refusal 1 to 8.
pub fn normal_form(table: &[u8]) -> Result<Normal, Refusal> {
    let (jobs, links) = read_jobs(table)?;
    let gaps = Chains::over(&jobs, links).all_gaps()?;
    let earliest: Vec<i64> = (0..jobs.len()).map(|j| earliest(&jobs, &gaps, j)).collect();
    let late = |(job, start): (&Job, &i64)| start + job.cost > job.deadline;
    if jobs.iter().zip(&earliest).any(late) {
        return Err(8);
    }
    let latest: Vec<i64> = (0..jobs.len()).map(|i| latest(&jobs, &gaps, i)).collect();
    let mut links = Vec::new();
    for (i, from) in jobs.iter().enumerate() {
        for (j, to) in jobs.iter().enumerate() {
            if let Some(gap) = gaps[i][j].filter(|gap| *gap > earliest[j] - latest[i]) {
                links.push(Link { from: from.number, to: to.number, latency: gap - from.cost });
            }
        }
    }
    let tightened =
        |(i, job): (usize, &Job)| Job { release: earliest[i], deadline: latest[i] + job.cost, ..*job };
    Ok(Normal { jobs: jobs.iter().enumerate().map(tightened).collect(), links })
}

/// The earliest start: no sooner than any release before it plus the gap.
fn earliest(jobs: &[Job], gaps: &[Gaps], j: usize) -> i64 {
    let after = |i: usize| gaps[i][j].map(|gap| jobs[i].release + gap);
    (0..jobs.len()).filter_map(after).fold(jobs[j].release, i64::max)
}

/// The latest start: early enough for every job after it to end by its deadline.
fn latest(jobs: &[Job], gaps: &[Gaps], i: usize) -> i64 {
    let last = |j: usize| jobs[j].deadline - jobs[j].cost;
    let before = |j: usize| gaps[i][j].map(|gap| last(j) - gap);
    (0..jobs.len()).filter_map(before).fold(last(i), i64::min)
}

/// What is known of a job's gaps while chains are followed depth first.
#[derive(Clone)]
enum Mark {
    Unseen,
    Followed,
    Known(Gaps),
}

/// The walk along the links: for each job its next jobs with cost + latency, and its mark.
struct Chains {
    next: Vec<Vec<(usize, i64)>>,
    marks: Vec<Mark>,
}

impl Chains {
    fn over(jobs: &[Job], links: Vec<Link>) -> Chains {
        let mut next = vec![Vec::new(); jobs.len()];
        let place = |number| jobs.iter().position(|job| job.number == number).expect("a job");
        for link in strongest(links) {
            let from = place(link.from);
            next[from].push((place(link.to), jobs[from].cost + link.latency));
        }
        Chains { next, marks: vec![Mark::Unseen; jobs.len()] }
    }

    /// Every job's gaps, or 7.
    fn all_gaps(mut self) -> Result<Vec<Gaps>, Refusal> {
        (0..self.next.len()).map(|i| self.gaps_from(i)).collect()
    }

    /// The largest sums along any chain from job i: a job met while it is followed closes a ring.
    fn gaps_from(&mut self, i: usize) -> Result<Gaps, Refusal> {
        match &self.marks[i] {
            Mark::Followed => return Err(7),
            Mark::Known(gaps) => return Ok(gaps.clone()),
            Mark::Unseen => self.marks[i] = Mark::Followed,
        }
        let mut gaps = vec![None; self.next.len()];
        for (k, step) in self.next[i].clone() {
            let beyond = self.gaps_from(k)?;
            for (gap, more) in gaps.iter_mut().zip(beyond.iter()) {
                *gap = (*gap).max(more.map(|more| step + more));
            }
            gaps[k] = gaps[k].max(Some(step));
        }
        let gaps = Gaps::from(gaps);
        self.marks[i] = Mark::Known(gaps.clone());
        Ok(gaps)
    }
}

/// Of repeated links the one with the largest latency.
fn strongest(mut links: Vec<Link>) -> Vec<Link> {
    links.sort_by_key(|link| (link.from, link.to, -link.latency));
    links.dedup_by_key(|link| (link.from, link.to));
    links
}
