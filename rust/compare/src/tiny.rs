//! A third opinion on tiny job tables, by brute force over all permitted starts and all lists of jobs.
//! It shares nothing with the second program but how a record is written.

use crate::random::Random;
use second::records::{job, link, slot};

/// Jobs 0, 1, 2 ... as cost, release, deadline; links as from, to, latency.
pub struct Jobs {
    jobs: Vec<[i64; 3]>,
    links: Vec<(usize, usize, i64)>,
}

impl Jobs {
    pub fn random(r: &mut Random) -> Jobs {
        let wide = r.between(1, 5);
        let one = |r: &mut Random| {
            let (cost, release) = (r.between(1, 3), r.between(0, 4));
            [cost, release, release + cost + r.between(0, wide) - i64::from(r.once_in(20))]
        };
        let jobs: Vec<_> = (0..r.between(0, 4)).map(|_| one(r)).collect();
        let mut links = Vec::new();
        for _ in 0..r.between(0, jobs.len() as i64) {
            let (a, b) = (r.place(jobs.len()), r.place(jobs.len()));
            let (from, to) = if r.once_in(4) { (a, b) } else { (a.max(b), a.min(b)) };
            links.push((from, to, r.between(0, 2)));
        }
        links.retain(|(from, to, _)| from != to);
        Jobs { jobs, links }
    }

    pub fn table(&self) -> Vec<u8> {
        let jobs =
            (0..).zip(&self.jobs).map(|(n, &[cost, release, deadline])| job(n, cost, release, deadline));
        let links = self.links.iter().map(|&(from, to, latency)| link(from as u8, to as u8, latency));
        jobs.chain(links).collect::<Vec<_>>().concat()
    }

    /// All permitted starts, overlap allowed.
    fn permitted(&self) -> Vec<Vec<i64>> {
        let mut all = vec![Vec::new()];
        for &[cost, release, deadline] in &self.jobs {
            let with = |starts: &Vec<i64>| {
                (release..=deadline - cost).map(|start| [&starts[..], &[start]].concat()).collect::<Vec<_>>()
            };
            all = all.iter().flat_map(with).collect();
        }
        let kept = |s: &[i64], (i, j, latency): (usize, usize, i64)| s[j] >= s[i] + self.jobs[i][0] + latency;
        all.retain(|starts| self.links.iter().all(|&link| kept(starts, link)));
        all
    }

    /// Whether some permitted starts let no two jobs overlap.
    pub fn feasible(&self) -> bool {
        let apart = |s: &[i64], i: usize, j: usize| s[i] + self.jobs[i][0] <= s[j];
        let alone = |s: &[i64], i: usize, j: usize| i == j || apart(s, i, j) || apart(s, j, i);
        let every = 0..self.jobs.len();
        self.permitted().iter().any(|s| every.clone().all(|i| every.clone().all(|j| alone(s, i, j))))
    }

    /// The normal form read off the permitted starts; none if there are none. The least that one
    /// job starts after another is the gap or what the windows say, and the gap only where it is more.
    pub fn normal(&self) -> Option<Jobs> {
        let all = self.permitted();
        let least = |value: &dyn Fn(&Vec<i64>) -> i64| all.iter().map(value).min();
        let every = 0..self.jobs.len();
        let earliest: Vec<i64> = every.clone().map(|j| least(&|s| s[j])).collect::<Option<_>>()?;
        let latest: Vec<i64> = every.clone().map(|i| least(&|s| -s[i]).map(|x| -x)).collect::<Option<_>>()?;
        let mut links = Vec::new();
        for i in every.clone() {
            for j in every.clone().filter(|&j| j != i) {
                let lead = least(&|s| s[j] - s[i])?;
                if lead > earliest[j] - latest[i] {
                    links.push((i, j, lead - self.jobs[i][0]));
                }
            }
        }
        let job = |i: usize| [self.jobs[i][0], earliest[i], latest[i] + self.jobs[i][0]];
        Some(Jobs { jobs: every.map(job).collect(), links })
    }

    /// Of a normal form: the first open sequence with all jobs, if any, and the openings.
    pub fn scheduled(&self) -> (Option<Vec<u8>>, u32) {
        let mut lists: Vec<Vec<usize>> = vec![Vec::new()];
        for at in 0.. {
            let Some(list) = lists.get(at).cloned() else { break };
            let more = (0..self.jobs.len()).filter(|job| !list.contains(job));
            lists.extend(more.map(|job| [&list[..], &[job]].concat()));
        }
        lists.sort();
        lists.retain(|list| (0..=list.len()).all(|cut| self.live(&list[..cut])));
        let Some(at) = lists.iter().position(|list| list.len() == self.jobs.len()) else {
            return (None, lists.len() as u32);
        };
        let ends = self.ends(&lists[at]).unwrap_or_default();
        let slots = lists[at].iter().zip(ends).map(|(&j, end)| slot(j as u8, end - self.jobs[j][0], end));
        (Some(slots.collect::<Vec<_>>().concat()), at as u32 + 1)
    }

    /// The ends of a list run as early as possible; none if it is no sequence.
    fn ends(&self, list: &[usize]) -> Option<Vec<i64>> {
        let mut ends = Vec::new();
        for &job in list {
            let [cost, release, _] = self.jobs[job];
            let mut start = release.max(ends.last().copied().unwrap_or(0));
            for &(from, _, latency) in self.links.iter().filter(|link| link.1 == job) {
                let before = list[..ends.len()].iter().position(|&earlier| earlier == from)?;
                start = start.max(ends[before] + latency);
            }
            ends.push(start + cost);
        }
        Some(ends)
    }

    fn live(&self, list: &[usize]) -> bool {
        let Some(ends) = self.ends(list) else { return false };
        let t = ends.last().copied().unwrap_or(0);
        let left = || (0..self.jobs.len()).filter(|job| !list.contains(job)).map(|job| self.jobs[job]);
        let costs: i64 = left().map(|[cost, _, _]| cost).sum();
        list.iter().zip(&ends).all(|(&job, &end)| end <= self.jobs[job][2])
            && left().all(|[cost, release, deadline]| t.max(release) + cost <= deadline)
            && left().map(|[_, _, deadline]| deadline).max().is_none_or(|last| t + costs <= last)
    }
}
