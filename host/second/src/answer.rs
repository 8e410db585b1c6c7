//! What is answered: a number, 0 for success, a place in the file and a count.

use crate::number;

impl Answer {
    pub fn success(count: u64) -> Self {
        Answer { number: number::SUCCESS, place: 0, count }
    }

    pub fn refusal(number: u64, place: u64) -> Self {
        Answer { number, place, count: 0 }
    }
}

#[derive(Clone, Copy, Debug, PartialEq, Eq)]
pub struct Answer {
    pub number: u64,
    pub place: u64,
    pub count: u64,
}
