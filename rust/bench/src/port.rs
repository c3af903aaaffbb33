//! A plain port of the pruned search to Rust arrays: the state goes on by value, call by call.

use second::records::Job;
use second::Normal;
use std::array::from_fn;

const MOST: usize = 48;

/// A normal form in arrays by place; `before[j][i]` is the latency of the link from i to j.
pub struct Port {
    count: usize,
    cost: [u32; MOST],
    release: [u32; MOST],
    deadline: [u32; MOST],
    before: [[Option<u32>; MOST]; MOST],
    budget: u32,
    pub openings: u32,
}

#[derive(Clone, Copy)]
struct State {
    placed: [bool; MOST],
    order: [u8; MOST],
    ends: [u32; MOST],
    depth: usize,
    free: u32,
}

enum Found {
    All(State),
    None,
    Spent,
}

impl Port {
    pub fn over(normal: &Normal, budget: u32) -> Port {
        let each = |part: fn(&Job) -> i64| from_fn(|i| normal.jobs.get(i).map_or(0, |job| part(job) as u32));
        let place = |number| normal.jobs.iter().position(|job| job.number == number).expect("a job");
        let mut before = [[None; MOST]; MOST];
        for link in &normal.links {
            before[place(link.to)][place(link.from)] = Some(link.latency as u32);
        }
        let (cost, release, deadline) =
            (each(|job| job.cost), each(|job| job.release), each(|job| job.deadline));
        Port { count: normal.jobs.len(), cost, release, deadline, before, budget, openings: 0 }
    }

    /// The search's number, and the last job of the schedule if there is one.
    pub fn run(&mut self) -> (u32, u8) {
        let empty = State { placed: [false; MOST], order: [0; MOST], ends: [0; MOST], depth: 0, free: 0 };
        match self.open(empty) {
            Found::All(state) => (0, state.order[state.depth.saturating_sub(1)]),
            Found::None => (10, 0),
            Found::Spent => (11, 0),
        }
    }

    fn open(&mut self, state: State) -> Found {
        if !self.live(&state) {
            return Found::None;
        }
        if self.openings == self.budget {
            return Found::Spent;
        }
        self.openings += 1;
        if state.depth == self.count {
            return Found::All(state);
        }
        for job in 0..self.count {
            if let Some(next) = self.place(state, job) {
                match self.open(next) {
                    Found::None => {}
                    found => return found,
                }
            }
        }
        Found::None
    }

    /// The state with a job run next; none if it has run, waits for another one or would end late.
    fn place(&self, mut state: State, job: usize) -> Option<State> {
        if state.placed[job] {
            return None;
        }
        let mut start = state.free.max(self.release[job]);
        for i in 0..self.count {
            if let Some(latency) = self.before[job][i] {
                if !state.placed[i] {
                    return None;
                }
                start = start.max(state.ends[i] + latency);
            }
        }
        state.free = start + self.cost[job];
        state.placed[job] = true;
        state.order[state.depth] = job as u8;
        state.ends[job] = state.free;
        state.depth += 1;
        (state.free <= self.deadline[job]).then_some(state)
    }

    fn live(&self, state: &State) -> bool {
        let (mut costs, mut last) = (0, None);
        for job in (0..self.count).filter(|&job| !state.placed[job]) {
            if state.free.max(self.release[job]) + self.cost[job] > self.deadline[job] {
                return false;
            }
            costs += self.cost[job];
            last = last.max(Some(self.deadline[job]));
        }
        last.is_none_or(|last| state.free + costs <= last)
    }
}
