//! How many calls were compared, and how often each refusal number came.

use std::collections::BTreeMap;
use std::fmt;

#[derive(Default)]
pub struct Tally {
    answers: BTreeMap<u32, u64>,
    errors: u64,
}

impl Tally {
    /// 0 is an accepted call.
    pub fn count(&mut self, answer: u32) {
        *self.answers.entry(answer).or_default() += 1;
    }

    /// A single error read; they are so many that their answers would hide the others.
    pub fn count_error(&mut self) {
        self.errors += 1;
    }
}

impl fmt::Display for Tally {
    fn fmt(&self, f: &mut fmt::Formatter) -> fmt::Result {
        write!(
            f,
            "{} calls: the same answers, tables and stores\n0 is an accepted call:",
            self.answers.values().sum::<u64>()
        )?;
        self.answers.iter().try_for_each(|(number, times)| write!(f, " {number}: {times}"))?;
        write!(f, "\n{} single errors: the same answers", self.errors)
    }
}
