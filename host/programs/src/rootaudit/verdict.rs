//! The audit of one file, with tables of the size that it needs.

use super::header;
use super::pieces::BEGIN;
use super::{Audit, FAILED, PASSED, REFUSED};
use crate::ffi::{number, part, Answer};

/// What became of a file.
#[derive(Debug, PartialEq, Eq)]
pub enum Verdict {
    Passed(Tables),
    Refused(Refusal),
    /// It was not audited, and why.
    Failed(String),
}

impl Verdict {
    /// The exit status for this file alone.
    pub fn status(&self) -> u8 {
        match self {
            Verdict::Passed(_) => PASSED,
            Verdict::Refused(_) => REFUSED,
            Verdict::Failed(_) => FAILED,
        }
    }

    /// What the library answered, of a file that was audited.
    pub fn answer(&self) -> Option<Answer> {
        match self {
            Verdict::Passed(tables) => Some(Answer::success(tables.start.len() as u64)),
            Verdict::Refused(refusal) => Some(refusal.answer),
            Verdict::Failed(_) => None,
        }
    }
}

#[derive(Clone, Copy, Debug, PartialEq, Eq)]
pub struct Refusal {
    pub answer: Answer,
    /// Of a file that is longer than END.
    pub first_end: Option<FirstEnd>,
}

/// What would be answered for the first END bytes by themselves. It is no pass of the file, whatever it is.
#[derive(Clone, Copy, Debug, PartialEq, Eq)]
pub struct FirstEnd {
    pub bytes: u64,
    pub answer: Answer,
}

impl FirstEnd {
    pub fn would_pass(&self) -> bool {
        self.answer.number == number::SUCCESS
    }
}

impl From<Answer> for Refusal {
    fn from(answer: Answer) -> Self {
        Refusal { answer, first_end: None }
    }
}

/// Three tables of one length, and where the file ends.
#[derive(Debug, PartialEq, Eq)]
pub struct Tables {
    pub start: Vec<u64>,
    pub part: Vec<u64>,
    pub owner: Vec<u64>,
    pub end: usize,
}

impl Tables {
    /// None if there is no memory for so many rows.
    fn new(room: usize, end: usize) -> Option<Self> {
        Some(Tables { start: zeros(room)?, part: zeros(room)?, owner: zeros(room)?, end })
    }

    fn lent(&mut self) -> [&mut [u64]; 3] {
        [&mut self.start, &mut self.part, &mut self.owner]
    }

    /// The first rows alone, if a pass can have them: every part is one, and the starts rise from 100 to below END.
    fn take(mut self, rows: usize) -> Option<Self> {
        for table in [&mut self.start, &mut self.part, &mut self.owner] {
            table.truncate(rows);
        }
        let lie_within = self.start.first() == Some(&BEGIN) && self.start.last() < Some(&(self.end as u64));
        let rise = self.start.windows(2).all(|pair| pair[0] < pair[1]);
        let are_parts = self.part.iter().all(|&part| part < part::NAMES.len() as u64);
        (lie_within && rise && are_parts).then_some(self)
    }
}

fn zeros(len: usize) -> Option<Vec<u64>> {
    let mut table = Vec::new();
    table.try_reserve_exact(len).ok()?;
    table.resize(len, 0);
    Some(table)
}

/// Rows to begin with: one for each kilobyte, which is more than most files need, but at most 2^20, 24 MiB
/// of tables, since an audit clears all that it is lent.
pub fn first_room(len: usize) -> usize {
    (len / 1024).clamp(1 << 10, 1 << 20)
}

/// No piece is smaller.
const LEAST_PIECE: usize = 4;

/// Audits a file. Of one that is longer than END the first END bytes are audited too.
pub fn examine(file: &[u8], audit: Audit) -> Verdict {
    match audited(file, audit) {
        Verdict::Refused(Refusal { answer, .. }) if answer.number == number::BOUNDS => {
            Verdict::Refused(Refusal { answer, first_end: first_end(file, audit) })
        }
        verdict => verdict,
    }
}

/// None where the file is not longer, or these bytes could not be audited.
fn first_end(file: &[u8], audit: Audit) -> Option<FirstEnd> {
    let first = header::first_end(file)?;
    Some(FirstEnd { bytes: first.len() as u64, answer: audited(first, audit).answer()? })
}

/// Audits a file, and once again if there were too few rows: an unfinished answer tells how many it
/// takes. An audit that is unfinished with that many rows too has failed, and is never a pass.
fn audited(file: &[u8], audit: Audit) -> Verdict {
    let room = first_room(file.len());
    match attempt(file, room, audit) {
        Attempt::Decided(verdict) => verdict,
        Attempt::Unfinished(pieces) => match rows_for(pieces, room, file.len()) {
            None => unfinished(pieces, room),
            Some(more) => match attempt(file, more, audit) {
                Attempt::Decided(verdict) => verdict,
                Attempt::Unfinished(pieces) => unfinished(pieces, more),
            },
        },
    }
}

/// As many rows as there are pieces, if that is more than there were and as many can be.
fn rows_for(pieces: u64, room: usize, len: usize) -> Option<usize> {
    usize::try_from(pieces).ok().filter(|&rows| room < rows && rows <= len / LEAST_PIECE)
}

fn unfinished(pieces: u64, room: usize) -> Verdict {
    Verdict::Failed(format!("not audited to its end: {pieces} pieces, and tables of {room} rows"))
}

/// One audit.
enum Attempt {
    Decided(Verdict),
    /// There are more pieces than rows: how many.
    Unfinished(u64),
}

fn attempt(file: &[u8], room: usize, audit: Audit) -> Attempt {
    let Some(mut tables) = Tables::new(room, file.len()) else {
        return Attempt::Decided(Verdict::Failed(format!("not audited: no memory for tables of {room} rows")));
    };
    let answer = audit(file, tables.lent());
    Attempt::Decided(match answer.number {
        number::UNFINISHED => return Attempt::Unfinished(answer.count),
        0 if (1..=room as u64).contains(&answer.count) => tables.take(answer.count as usize).map_or_else(
            || Verdict::Failed("not audited: the library answered rows of no file".into()),
            Verdict::Passed,
        ),
        number::SHORT..=number::TWICE => Verdict::Refused(answer.into()),
        _ => Verdict::Failed(format!("not audited: the library answered {answer:?}")),
    })
}
