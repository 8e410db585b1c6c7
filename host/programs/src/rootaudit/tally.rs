//! How many files there were, and what became of them: the last line, and the exit status.

use super::json;
use super::stamp::Stamp;
use super::{FAILED, PASSED, REFUSED};
use std::collections::BTreeSet;

#[derive(Debug, Default)]
pub struct Tally {
    /// How many files passed, were refused, and were not read or not audited: by exit status.
    counts: [u64; 3],
    /// The device and inode of each file that was opened.
    seen: BTreeSet<(u64, u64)>,
    /// How many files were named more than once.
    repeated: u64,
    /// How many were named, and how many different ones there should be.
    named: u64,
    expected: Option<u64>,
}

impl Tally {
    pub fn new(named: usize, expected: Option<u64>) -> Self {
        Tally { named: named as u64, expected, ..Tally::default() }
    }

    /// Counts a file with this exit status. Of one that could be opened there is a stamp.
    pub fn add(&mut self, status: u8, stamp: Option<Stamp>) {
        self.counts[usize::from(status.min(FAILED))] += 1;
        if let Some(stamp) = stamp {
            self.repeated += u64::from(!self.seen.insert((stamp.device, stamp.inode)));
        }
    }

    /// Counts a file that had passed as not read.
    pub fn withdraw(&mut self) {
        self.counts[usize::from(PASSED)] -= 1;
        self.counts[usize::from(FAILED)] += 1;
    }

    fn files(&self) -> u64 {
        self.counts.iter().sum()
    }

    /// Whether each file that was named is counted, and they are as many as there should be. One that was named twice
    /// stands for one.
    fn is_complete(&self) -> bool {
        let are_expected = self.expected.is_none_or(|expected| self.files() - self.repeated == expected);
        self.files() == self.named && are_expected
    }

    pub fn status(&self) -> u8 {
        match self.counts {
            // All passed, and there was one.
            [passed, 0, 0] if passed > 0 && self.is_complete() => PASSED,
            [_, refused, 0] if refused > 0 && self.is_complete() => REFUSED,
            _ => FAILED,
        }
    }

    /// What it comes to.
    fn advice(&self) -> &'static str {
        if self.status() == PASSED {
            "all passed"
        } else {
            "do not clear the disk"
        }
    }

    pub fn line(&self) -> String {
        let (files, [passed, refused, failed]) = (self.files(), self.counts);
        let plural = if files == 1 { "" } else { "s" };
        let mut line = format!("{files} file{plural}: {passed} passed, {refused} refused, {failed} not read");
        if self.repeated > 0 {
            line += &format!("; {} named more than once", self.repeated);
        }
        if let Some(expected) = self.expected {
            line += &format!("; {expected} expected");
        }
        format!("{line}: {}\n", self.advice())
    }

    pub fn json(&self) -> String {
        let (files, [passed, refused, failed]) = (self.files(), self.counts);
        let (repeated, expected) = (self.repeated, json::number(self.expected));
        format!(
            "{{\"files\":{files},\"passed\":{passed},\"refused\":{refused},\"not_read\":{failed},\
             \"repeated\":{repeated},\"expected\":{expected},\"words\":{}}}\n",
            json::string(self.advice())
        )
    }
}
