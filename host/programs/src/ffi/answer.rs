//! What the functions of the interface answer.

/// A number, 0 for success, a place in the file and a count.
#[derive(Clone, Copy, Debug, PartialEq, Eq)]
pub struct Answer {
    pub number: u64,
    pub place: u64,
    pub count: u64,
}

impl Answer {
    pub fn success(count: u64) -> Self {
        Answer { number: super::number::SUCCESS, place: 0, count }
    }

    pub fn refusal(number: u64, place: u64) -> Self {
        Answer { number, place, count: 0 }
    }
}
