//! One call, both sides, every byte.

use crate::calls::{Call, Seen};
use crate::random::Random;
use second::Answer;
use std::hint::black_box;

/// Bytes around the lent output that no call may touch; odd, so that the output is not aligned.
const GUARD: usize = 13;

/// A call under comparison: its random source and how many tables gave each number.
pub struct Check {
    pub call: Call,
    pub random: Random,
    tables: usize,
    tally: [usize; 12],
}

impl Check {
    pub fn new(call: Call, seed: u64) -> Check {
        Check { call, random: Random(seed), tables: 0, tally: [0; 12] }
    }

    /// Holds the library's answer and every byte around it to what is expected.
    pub fn at(&mut self, table: &[u8], budget: u32, room: usize, expected: &Answer) {
        let salt = self.random.place(256);
        let before: Vec<u8> = (0..room + 2 * GUARD).map(|i| (i * 29 + salt) as u8).collect();
        let (lent, mut output) = (table.to_vec(), before.clone());
        let seen = self.call.ask(&lent, budget, &mut output[GUARD..GUARD + room]);
        let mut after = before;
        after[GUARD..GUARD + expected.output.len()].copy_from_slice(&expected.output);
        if seen != Seen::from(expected.clone()) || output != after || *black_box(&lent) != table {
            let what = if output == after { "bytes as expected" } else { "other bytes" };
            self.stop(table, &format!("budget {budget}, room {room}: {seen:?}, {what}, not {expected:?}"));
        }
    }

    /// Compares a table where the room is exact or longer, and one byte short; a refused one at any room.
    pub fn rooms(&mut self, table: &[u8], budget: u32) -> Answer {
        let answer = (self.call.second)(table, budget, usize::MAX);
        self.tables += 1;
        self.tally[answer.number as usize] += 1;
        let needed = match answer.number {
            0 => answer.output.len(),
            10 | 11 => 12 * table.chunks(12).filter(|record| record[0] == b'J').count(),
            _ => self.random.place(2000),
        };
        let more = if self.random.once_in(2) { 0 } else { self.random.place(100) };
        self.at(table, budget, needed + more, &answer);
        if needed > 0 && matches!(answer.number, 0 | 10 | 11) {
            self.tally[9] += 1;
            let short = (self.call.second)(table, budget, needed - 1);
            self.at(table, budget, needed - 1, &short);
        }
        answer
    }

    /// Ends the run with the table in hex and what is wrong with its answer.
    pub fn stop(&self, table: &[u8], what: &str) -> ! {
        let hex = |record: &[u8]| record.iter().map(|byte| format!("{byte:02x}")).collect::<String>();
        let records: Vec<String> = table.chunks(12).map(hex).collect();
        panic!("{}: {what}; the table:\n{}", self.call.name, records.join("\n"));
    }

    /// Prints the tally; ends the run if some number was seen too seldom.
    pub fn close(self) {
        let each: Vec<_> = self.call.numbers.iter().map(|&number| (number, self.tally[number])).collect();
        println!("{}: {} tables agree; number and how many: {:?}", self.call.name, self.tables, each);
        if let Some((number, _)) = each.into_iter().find(|&(_, count)| count < 1000) {
            panic!("{}: number {number} came fewer than 1000 times", self.call.name);
        }
    }
}

/// The answer on which the second program and the library agree.
pub fn agreed(call: Call, table: &[u8], budget: u32, room: usize) -> Answer {
    let answer = (call.second)(table, budget, room);
    Check::new(call, 1).at(table, budget, room, &answer);
    answer
}
