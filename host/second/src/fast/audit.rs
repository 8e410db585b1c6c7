//! The audit, straight into the lent tables.

use super::key::{be16, be32, offset, piece, string, width, Key, Piece};
use super::key::{FIXED, LEAST_KEY, MOST_NARROW, MOST_VERSION, NARROW, WIDE};
use crate::{number, part, Answer, Mode};
use std::cmp::Reverse;
use std::collections::BinaryHeap;

pub(super) const BEGIN: usize = 100;
/// Of a file with four-byte offsets: its greatest version, its greatest END, and where its last segment ends.
const MOST_NARROW_FILE: u32 = 999_999;
const MOST_END: u64 = 1_999_999_999;
const FREE_END: u64 = 2_000_000_000;

/// What the walk over the pieces keeps of a key, a bit each. A gap has none.
mod is {
    pub const PLAIN: u8 = 1;
    pub const UNPACKED: u8 = 2;
    pub const OF_FILE: u8 = 4;
    pub const OF_DIRECTORY: u8 = 8;
}

/// Audits a file into the tables start, part and owner.
pub fn audit(file: &[u8], tables: [&mut [u64]; 3]) -> Answer {
    audit_in(Mode::Compared, file, tables)
}

/// Either audit.
pub fn audit_in(mode: Mode, file: &[u8], tables: [&mut [u64]; 3]) -> Answer {
    let [start, part, owner] = tables;
    let room = start.len().min(part.len()).min(owner.len());
    let found = pieces_of(mode, file, [&mut start[..room], &mut part[..room], &mut owner[..room]]);
    // Behind the rows of a pass, and everywhere on a refusal, there are zeros.
    let used = *found.as_ref().unwrap_or(&0);
    for table in [start, part, owner] {
        table[used..].fill(0);
    }
    match found {
        Ok(pieces) => Answer::success(pieces as u64),
        Err(answer) => answer,
    }
}

/// How many pieces there are, and their rows. The tables are of one length.
fn pieces_of(mode: Mode, file: &[u8], tables: [&mut [u64]; 3]) -> Result<usize, Answer> {
    let header = header(file).map_err(|number| Answer::refusal(number, 0))?;
    let mut audit = walk(mode, file, tables)?;
    let head = audit.head(&header).ok_or(Answer::refusal(number::HEAD, BEGIN as u64))?;
    audit.free(&header).ok_or(Answer::refusal(number::FREE, header.seek_free))?;
    audit.info(&header).ok_or(Answer::refusal(number::INFO, header.seek_info))?;
    audit.list(BEGIN as u64, &head)?;
    audit.directories()?;
    Ok(audit.start.len())
}

/// What the audit needs of a good file header.
pub(super) struct Header {
    /// The bytes of its offsets.
    width: usize,
    seek_free: u64,
    nbytes_free: u32,
    nfree: u32,
    nbytes_name: u32,
    seek_info: u64,
    nbytes_info: u32,
}

/// The bytes of an offset in a file header of this version.
#[inline(always)]
pub(super) fn file_width(version: u32) -> usize {
    if version > MOST_NARROW_FILE {
        WIDE
    } else {
        NARROW
    }
}

/// The file header, or the number of the refusal.
pub(super) fn header(file: &[u8]) -> Result<Header, u64> {
    let bytes = file.first_chunk::<BEGIN>().ok_or(number::SHORT)?;
    let w = file_width(be32(bytes, 4));
    let offset = |at: usize| offset(bytes, at, w).ok_or(number::SHORT);
    if !bytes.starts_with(b"root") {
        return Err(number::MAGIC);
    }
    if usize::from(bytes[24 + 2 * w]) != w {
        return Err(number::WIDE);
    }
    let end = offset(12)?;
    if be32(bytes, 8) as usize != BEGIN || end != file.len() as u64 || w == NARROW && end > MOST_END {
        return Err(number::BOUNDS);
    }
    Ok(Header {
        width: w,
        seek_free: offset(12 + w)?,
        nbytes_free: be32(bytes, 12 + 2 * w),
        nfree: be32(bytes, 16 + 2 * w),
        nbytes_name: be32(bytes, 20 + 2 * w),
        seek_info: offset(29 + 2 * w)?,
        nbytes_info: be32(bytes, 29 + 3 * w),
    })
}

/// Goes from piece to piece, once. What it finds stands in the tables, each record unlisted as yet.
fn walk<'a>(mode: Mode, file: &'a [u8], tables: [&'a mut [u64]; 3]) -> Result<Audit<'a>, Answer> {
    let [start, part, owner] = tables;
    let room = start.len();
    let mut kept = Vec::with_capacity(room);
    let mut gaps = Vec::new();
    let (mut at, mut pieces) = (BEGIN, 0);
    while at < file.len() {
        let (size, given, bits) = match piece(file, at).map_err(|number| Answer::refusal(number, at as u64))? {
            Piece::Record(record, key) => (record.len(), part::UNLISTED, bits_of(&key)),
            Piece::Gap(size) => {
                gaps.push([at as u64, (at + size - 1) as u64]);
                (size, part::GAP, 0)
            }
        };
        if pieces < room {
            (start[pieces], part[pieces], owner[pieces]) = (at as u64, given, 0);
            kept.push(bits);
        }
        pieces += 1;
        at += size;
    }
    if pieces > room {
        return Err(Answer { number: number::UNFINISHED, place: 0, count: pieces as u64 });
    }
    let start = &start[..pieces];
    let low = (file.len() <= u32::MAX as usize).then(|| start.iter().map(|&start| start as u32).collect());
    Ok(Audit { mode, file, start, low, part, owner, kept, gaps, waiting: BinaryHeap::new(), next: 0 })
}

#[inline]
fn bits_of(key: &Key) -> u8 {
    let class = match key.class {
        b"TFile" => is::OF_FILE,
        b"TDirectory" => is::OF_DIRECTORY,
        _ => 0,
    };
    class | if key.plain { is::PLAIN } else { 0 } | if key.unpacked { is::UNPACKED } else { 0 }
}

/// The list that a directory has.
struct Directory {
    seek_keys: u64,
    nbytes_keys: u32,
}

/// A directory's header at the start of these bytes, if it says that it stands at `place`, in `parent`, and has
/// a name of `named` bytes.
fn directory(bytes: &[u8], place: u64, parent: u64, named: usize) -> Option<Directory> {
    let fixed = bytes.first_chunk::<FIXED>()?;
    let version = be16(fixed, 0);
    let w = width(version);
    let seek_keys = offset(bytes, 18 + 2 * w, w)?;
    let good = version <= MOST_VERSION
        && be32(fixed, 14) as usize == named
        && offset(bytes, 18, w)? == place
        && offset(bytes, 18 + w, w)? == parent;
    good.then(|| Directory { seek_keys, nbytes_keys: be32(fixed, 10) })
}

struct Audit<'a> {
    mode: Mode,
    file: &'a [u8],
    start: &'a [u64],
    /// The low half of each start, where it tells all.
    low: Option<Vec<u32>>,
    part: &'a mut [u64],
    owner: &'a mut [u64],
    /// The bits of each piece.
    kept: Vec<u8>,
    /// The first and last byte of each gap.
    gaps: Vec<[u64; 2]>,
    /// The rows of the directories found and not done. Rows rise with places.
    waiting: BinaryHeap<Reverse<usize>>,
    /// The row after the one that was last looked up.
    next: usize,
}

impl<'a> Audit<'a> {
    /// The row of the piece at `place`. Most often it stands behind the last one.
    #[inline]
    fn row(&mut self, place: u64) -> Option<usize> {
        let row = match self.start.get(self.next) {
            Some(&start) if start == place => self.next,
            _ => self.search(place)?,
        };
        self.next = row + 1;
        Some(row)
    }

    #[inline(never)]
    fn search(&self, place: u64) -> Option<usize> {
        match &self.low {
            // Half the memory.
            Some(low) => low.binary_search(&u32::try_from(place).ok()?).ok(),
            None => self.start.binary_search(&place).ok(),
        }
    }

    /// The row of the record at `place` that has all these bits, and what the file holds from there on.
    #[inline]
    fn record(&mut self, place: u64, bits: u8) -> Option<(usize, &'a [u8])> {
        let row = self.row(place)?;
        (self.kept[row] & bits == bits).then(|| (row, &self.file[place as usize..]))
    }

    /// Gives a part to a record that has none yet.
    #[inline]
    fn give(&mut self, row: usize, part: u64, owner: u64) -> Option<()> {
        if self.part[row] != part::UNLISTED {
            return None;
        }
        (self.part[row], self.owner[row]) = (part, owner);
        Some(())
    }

    fn head(&mut self, header: &Header) -> Option<Directory> {
        let (row, bytes) = self.record(BEGIN as u64, is::PLAIN | is::UNPACKED | is::OF_FILE)?;
        let (keylen, record) = keylen_and_record(bytes)?;
        let (_name, rest) = string(&record[keylen..])?;
        let (_title, rest) = string(rest)?;
        let named = record.len() - rest.len();
        let head = directory(rest, BEGIN as u64, 0, named)?;
        if header.nbytes_name as usize != named {
            return None;
        }
        self.give(row, part::HEAD, 0)?;
        Some(head)
    }

    fn free(&mut self, header: &Header) -> Option<()> {
        let (row, bytes) = self.record(header.seek_free, is::PLAIN | is::UNPACKED | is::OF_FILE)?;
        let (keylen, record) = keylen_and_record(bytes)?;
        let others = header.nfree.checked_sub(1)? as usize;
        let is_compared = self.mode == Mode::Compared;
        if record.len() != header.nbytes_free as usize || is_compared && others != self.gaps.len() {
            return None;
        }
        let mut rest = &record[keylen..];
        for nth in 0..others {
            let (found, after) = segment(rest, header.width)?;
            if is_compared && found != self.gaps[nth] {
                return None;
            }
            rest = after;
        }
        let ([first, last], rest) = segment(rest, header.width)?;
        let end = self.file.len() as u64;
        let good_last = if header.width == WIDE { last > end } else { last == FREE_END };
        let good = first == end && good_last && rest.is_empty();
        good.then(|| self.give(row, part::FREE, 0)).flatten()
    }

    fn info(&mut self, header: &Header) -> Option<()> {
        let (place, nbytes) = (header.seek_info, header.nbytes_info);
        if (place, nbytes) == (0, 0) {
            return Some(());
        }
        let row = self.row(place)?;
        let Ok(Piece::Record(record, key)) = piece(self.file, place as usize) else {
            return None;
        };
        let good = key.plain && record.len() == nbytes as usize && key.class == b"TList" && key.name == b"StreamerInfo";
        good.then(|| self.give(row, part::INFO, 0)).flatten()
    }

    /// Takes the lowest directory of those that wait, until none does.
    fn directories(&mut self) -> Result<(), Answer> {
        while let Some(Reverse(row)) = self.waiting.pop() {
            let place = self.start[row];
            let found = self.subdirectory(row, place).ok_or(Answer::refusal(number::DIRECTORY, place))?;
            self.list(place, &found)?;
        }
        Ok(())
    }

    fn subdirectory(&self, row: usize, place: u64) -> Option<Directory> {
        let (keylen, record) = keylen_and_record(&self.file[place as usize..])?;
        let found = directory(&record[keylen..], place, self.owner[row], keylen)?;
        (self.kept[row] & is::UNPACKED != 0).then_some(found)
    }

    /// The keys list of the directory at `place`. The directories that it lists then wait.
    fn list(&mut self, place: u64, directory: &Directory) -> Result<(), Answer> {
        if (directory.seek_keys, directory.nbytes_keys) == (0, 0) {
            return Ok(());
        }
        let bad = Answer::refusal(number::KEYS, directory.seek_keys);
        let (row, data) = self.list_data(place, directory).ok_or(bad)?;
        self.give(row, part::KEYS, place).ok_or(Answer::refusal(number::TWICE, place))?;
        let end = directory.seek_keys + u64::from(directory.nbytes_keys);
        let (nkeys, mut rest) = data.split_first_chunk().ok_or(bad)?;
        for _ in 0..u32::from_be_bytes(*nkeys) {
            let at = end - rest.len() as u64;
            let (row, keylen) = self.copied(place, rest).ok_or_else(|| copy_fault(rest, at, bad))?;
            let is_directory = self.kept[row] & is::OF_DIRECTORY != 0;
            let part = if is_directory { part::DIR } else { part::LISTED };
            self.give(row, part, place).ok_or(Answer::refusal(number::TWICE, at))?;
            if is_directory {
                self.waiting.push(Reverse(row));
            }
            rest = &rest[keylen..];
        }
        if rest.is_empty() {
            Ok(())
        } else {
            Err(bad)
        }
    }

    /// The row of the list record of the directory at `place`, and its data.
    fn list_data(&mut self, place: u64, directory: &Directory) -> Option<(usize, &'a [u8])> {
        let (row, bytes) = self.record(directory.seek_keys, is::PLAIN | is::UNPACKED)?;
        let (keylen, record) = keylen_and_record(bytes)?;
        let (_, _, seek_pdir) = keylen_and_offsets(bytes)?;
        let good = self.kept[row] & (is::OF_FILE | is::OF_DIRECTORY) != 0
            && record.len() == directory.nbytes_keys as usize
            && seek_pdir == place;
        good.then(|| (row, &record[keylen..]))
    }

    /// The row and KeyLen of the plain record that the copy at the start of `rest` copies. Bytes equal to a
    /// plain header are a plain header: it need not be taken apart.
    #[inline]
    fn copied(&mut self, place: u64, rest: &[u8]) -> Option<(usize, usize)> {
        let (keylen, seek_key, seek_pdir) = keylen_and_offsets(rest)?;
        if keylen < LEAST_KEY || seek_pdir != place {
            return None;
        }
        let (row, _) = self.record(seek_key, is::PLAIN)?;
        let original = self.file[seek_key as usize..].get(..keylen)?;
        (rest.get(..keylen)? == original).then_some((row, keylen))
    }
}

/// KeyLen and the bytes of the record that these begin with.
#[inline]
fn keylen_and_record(bytes: &[u8]) -> Option<(usize, &[u8])> {
    let fixed = bytes.first_chunk::<FIXED>()?;
    Some((be16(fixed, 14).into(), bytes.get(..be32(fixed, 0) as usize)?))
}

/// KeyLen, SeekKey and SeekPdir of the key header that these bytes begin with.
#[inline(always)]
fn keylen_and_offsets(bytes: &[u8]) -> Option<(usize, u64, u64)> {
    let fixed = bytes.first_chunk::<FIXED>()?;
    let w = width(be16(fixed, 4));
    Some((be16(fixed, 14).into(), offset(fixed, 18, w)?, offset(bytes, 18 + w, w)?))
}

/// The first and last byte of the free segment that these bytes begin with, and what follows it. It is one of a file
/// with offsets of `file_width` bytes.
fn segment(bytes: &[u8], file_width: usize) -> Option<([u64; 2], &[u8])> {
    let version = u16::from_be_bytes(*bytes.first_chunk()?);
    let w = width(version);
    let segment = [offset(bytes, 2, w)?, offset(bytes, 2 + w, w)?];
    let most = if file_width == WIDE { MOST_VERSION } else { MOST_NARROW };
    (version <= most).then(|| (segment, &bytes[2 + 2 * w..]))
}

/// What is wrong with a copy that is none of a plain record of its directory.
#[cold]
fn copy_fault(rest: &[u8], at: u64, bad_list: Answer) -> Answer {
    match Key::read(rest) {
        Some(key) if key.plain => Answer::refusal(number::ENTRY, at),
        _ => bad_list,
    }
}
