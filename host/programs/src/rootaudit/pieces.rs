//! The pieces of a file one by one, and what the keys of its records say.

use super::header;
use super::verdict::Tables;
use crate::ffi::{self, number, part, Answer};

/// Where the first piece of a file stands.
pub const BEGIN: u64 = 100;

/// What a piece is: a part, or a record of which no more is known.
pub const KINDS: [&str; RECORD + 1] = {
    let [gap, head, free, info, keys, listed, dir, unlisted] = part::NAMES;
    [gap, head, free, info, keys, listed, dir, unlisted, "record"]
};
pub const GAP: usize = part::GAP as usize;
pub const RECORD: usize = part::NAMES.len();

#[derive(Clone, Copy, Debug)]
pub struct Piece {
    pub start: u64,
    pub size: u64,
    /// Its index in `KINDS`.
    pub kind: usize,
    pub owner: u64,
}

impl Piece {
    pub fn end(&self) -> u64 {
        self.start + self.size
    }

    pub fn kind_name(&self) -> &'static str {
        KINDS.get(self.kind).unwrap_or(&"?")
    }
}

/// What a record's key says.
pub struct Key<'a> {
    pub class: &'a [u8],
    pub name: &'a [u8],
    pub cycle: i16,
    pub datime: u32,
}

/// The rows of a pass.
pub fn of_pass(tables: &Tables) -> impl Iterator<Item = Piece> + '_ {
    let ends = tables.start.iter().copied().skip(1).chain([tables.end as u64]);
    let columns = tables.start.iter().zip(ends).zip(&tables.part).zip(&tables.owner);
    columns.map(|(((&start, end), &part), &owner)| Piece {
        start,
        size: end.saturating_sub(start),
        kind: usize::try_from(part).unwrap_or(usize::MAX),
        owner,
    })
}

/// The pieces of a refused file that its chain has, no verdict: up to END where the file is longer, and none where
/// its header is that of no ROOT file.
pub fn of_refusal<'a>(answer: &Answer, file: &'a [u8]) -> Walk<'a> {
    Walk::new(if answer.number < number::BOUNDS { &[] } else { header::up_to_end(file) })
}

/// The key of the record at a place; none of a gap.
pub fn key_at(file: &[u8], at: u64) -> Option<Key<'_>> {
    let (mut fields, mut place, mut size) = ([0; 15], 0, 0);
    let number = ffi::read_piece(file, at, &mut fields, &mut place, &mut size);
    (number == 0 && fields[ffi::KIND] == ffi::RECORD).then(|| Key {
        class: ffi::string(file, &fields, ffi::CLASS),
        name: ffi::string(file, &fields, ffi::NAME),
        cycle: fields[ffi::CYCLE] as u16 as i16,
        datime: fields[ffi::DATIME] as u32,
    })
}

/// The pieces from byte 100 on, up to the end or the first that is refused. To walk is not to audit.
pub struct Walk<'a> {
    file: &'a [u8],
    at: u64,
    /// The number and place of the refusal at which it stopped.
    pub stopped: Option<(u64, u64)>,
}

impl<'a> Walk<'a> {
    pub fn new(file: &'a [u8]) -> Self {
        Walk { file, at: BEGIN, stopped: None }
    }
}

impl Iterator for Walk<'_> {
    type Item = Piece;

    fn next(&mut self) -> Option<Piece> {
        if self.stopped.is_some() || self.at >= self.file.len() as u64 {
            return None;
        }
        let (mut fields, mut place, mut size) = ([0; 15], 0, 0);
        let number = ffi::read_piece(self.file, self.at, &mut fields, &mut place, &mut size);
        if number != 0 {
            self.stopped = Some((number, place));
            return None;
        }
        let kind = if fields[ffi::KIND] == ffi::RECORD { RECORD } else { GAP };
        let piece = Piece { start: self.at, size, kind, owner: 0 };
        self.at += size;
        Some(piece)
    }
}
