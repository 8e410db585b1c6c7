//! The audit of a whole file: its rows, or the first refusal.

use super::bytes::Cursor;
use super::key::{self, Key, Piece};
use super::{number, part, width, Answer, Mode};
use std::collections::BTreeMap;
use std::ops::Range;

/// The bytes before the first piece, and the place of the head.
pub const BEGIN: usize = 100;
/// The greatest END of a file with four-byte offsets.
const MOST_END: u64 = 1_999_999_999;
/// Where the final free segment of such a file ends.
pub const FREE_END: u64 = 2_000_000_000;

/// A row of the three tables.
#[derive(Clone, Copy, Debug, PartialEq, Eq)]
pub struct Row {
    pub start: u64,
    pub part: u64,
    pub owner: u64,
}

/// The audit with tables of `room` rows: its answer, and the rows of a pass.
pub fn audit(file: &[u8], room: usize) -> (Answer, Vec<Row>) {
    audit_in(Mode::Compared, file, room)
}

/// Either audit.
pub fn audit_in(mode: Mode, file: &[u8], room: usize) -> (Answer, Vec<Row>) {
    match rows_or_refusal(mode, file, room) {
        Ok(rows) => (Answer::success(rows.len() as u64), rows),
        Err(answer) => (answer, Vec::new()),
    }
}

fn rows_or_refusal(mode: Mode, file: &[u8], room: usize) -> Result<Vec<Row>, Answer> {
    let header = Header::good(file).map_err(|number| Answer::refusal(number, 0))?;
    let rows = chain(file, BEGIN as u64)?;
    if rows.len() > room {
        return Err(Answer { number: number::UNFINISHED, place: 0, count: rows.len() as u64 });
    }
    let mut audit = Audit { mode, file, rows };
    let directory = audit.head(&header).ok_or(Answer::refusal(number::HEAD, BEGIN as u64))?;
    audit.free(&header).ok_or(Answer::refusal(number::FREE, header.seek_free))?;
    audit.info(&header).ok_or(Answer::refusal(number::INFO, header.seek_info))?;
    audit.directories(directory)?;
    Ok(audit.rows)
}

/// How many pieces fill the file from 100 on, if they do.
pub fn pieces(file: &[u8]) -> Option<usize> {
    chain(file, BEGIN as u64).ok().map(|rows| rows.len())
}

/// The fields of the file header, but for Compress.
pub(crate) struct Header {
    version: u32,
    begin: u32,
    end: u64,
    seek_free: u64,
    nbytes_free: u32,
    nfree: u32,
    nbytes_name: u32,
    units: u8,
    seek_info: u64,
    nbytes_info: u32,
}

impl Header {
    fn read(file: &[u8]) -> Option<Self> {
        let mut cursor = Cursor::new(file.get(..BEGIN)?, 4);
        let [version, begin] = [cursor.u32()?, cursor.u32()?];
        let width = width::of_file(version);
        let [end, seek_free] = [cursor.offset(width)?, cursor.offset(width)?];
        let [nbytes_free, nfree, nbytes_name] = [cursor.u32()?, cursor.u32()?, cursor.u32()?];
        let units = cursor.u8()?;
        let _compress = cursor.u32()?;
        let (seek_info, nbytes_info) = (cursor.offset(width)?, cursor.u32()?);
        Some(Header { version, begin, end, seek_free, nbytes_free, nfree, nbytes_name, units, seek_info, nbytes_info })
    }

    /// The header of a file if it is good, or the number of the refusal.
    pub(crate) fn good(file: &[u8]) -> Result<Self, u64> {
        let header = Header::read(file).ok_or(number::SHORT)?;
        if !file.starts_with(b"root") {
            return Err(number::MAGIC);
        }
        if usize::from(header.units) != width::of_file(header.version) {
            return Err(number::WIDE);
        }
        let too_long = !header.is_wide() && header.end > MOST_END;
        if header.begin as usize != BEGIN || header.end != file.len() as u64 || too_long {
            return Err(number::BOUNDS);
        }
        Ok(header)
    }

    fn is_wide(&self) -> bool {
        self.version >= width::LEAST_WIDE_FILE
    }

    /// The greatest version of a free segment.
    fn most_segment(&self) -> u32 {
        if self.is_wide() {
            width::MOST
        } else {
            width::MOST_NARROW
        }
    }

    /// Whether this is the final segment: what follows the file.
    fn is_final(&self, segment: Segment) -> bool {
        let good_last = if self.is_wide() { segment.last > self.end } else { segment.last == FREE_END };
        segment.first == self.end && good_last
    }
}

/// The pieces from a place to the end, each record unlisted as yet.
pub(crate) fn chain(file: &[u8], from: u64) -> Result<Vec<Row>, Answer> {
    let mut rows = Vec::new();
    let mut at = from;
    while at < file.len() as u64 {
        let piece = key::read_piece(file, at).map_err(|number| Answer::refusal(number, at))?;
        let part = match piece {
            Piece::Record(_) => part::UNLISTED,
            Piece::Gap(_) => part::GAP,
        };
        rows.push(Row { start: at, part, owner: 0 });
        at += piece.size();
    }
    Ok(rows)
}

/// The header of a directory, but for its dates.
struct Directory {
    version: u32,
    nbytes_keys: u32,
    nbytes_name: u32,
    seek_dir: u64,
    seek_parent: u64,
    seek_keys: u64,
}

impl Directory {
    /// The header from `at` on, if the record that ends at `end` holds it.
    fn read(file: &[u8], at: usize, end: usize) -> Option<Self> {
        let mut cursor = Cursor::new(&file[..end], at);
        let version = cursor.u16()?.into();
        let width = width::of(version);
        let [_created, _modified] = [cursor.u32()?, cursor.u32()?];
        Some(Directory {
            version,
            nbytes_keys: cursor.u32()?,
            nbytes_name: cursor.u32()?,
            seek_dir: cursor.offset(width)?,
            seek_parent: cursor.offset(width)?,
            seek_keys: cursor.offset(width)?,
        })
    }

    fn is_at(&self, place: u64, parent: u64, nbytes_name: usize) -> bool {
        self.version <= width::MOST
            && self.seek_dir == place
            && self.seek_parent == parent
            && self.nbytes_name as usize == nbytes_name
    }
}

/// The first and the last byte of free space.
#[derive(Clone, Copy, PartialEq, Eq)]
struct Segment {
    first: u64,
    last: u64,
}

impl Segment {
    /// The next segment, if its version is at most `most_version`.
    fn read(cursor: &mut Cursor, most_version: u32) -> Option<Self> {
        let version = u32::from(cursor.u16()?);
        let width = width::of(version);
        let segment = Segment { first: cursor.offset(width)?, last: cursor.offset(width)? };
        (version <= most_version).then_some(segment)
    }
}

/// A record of the chain: its row, its key and where it ends.
struct Record {
    row: usize,
    key: Key,
    end: usize,
}

impl Record {
    fn data(&self) -> Range<usize> {
        self.key.seek_key as usize + usize::from(self.key.keylen)..self.end
    }
}

struct Audit<'a> {
    mode: Mode,
    file: &'a [u8],
    rows: Vec<Row>,
}

impl Audit<'_> {
    /// The record of the chain that starts at `place`.
    fn record(&self, place: u64) -> Option<Record> {
        let row = self.rows.binary_search_by_key(&place, |row| row.start).ok()?;
        let Ok(Piece::Record(key)) = key::read_piece(self.file, place) else {
            return None;
        };
        let end = place as usize + key.nbytes as usize;
        Some(Record { row, key, end })
    }

    /// The same, if it is plain and `nbytes` long.
    fn plain_record(&self, place: u64, nbytes: u32) -> Option<Record> {
        self.record(place).filter(|record| record.key.is_plain() && record.key.nbytes == nbytes)
    }

    fn text(&self, range: &Range<usize>) -> &[u8] {
        &self.file[range.clone()]
    }

    /// Gives a part to a record that has none yet.
    fn give(&mut self, row: usize, part: u64, owner: u64) -> Option<()> {
        let row = &mut self.rows[row];
        if row.part != part::UNLISTED {
            return None;
        }
        (row.part, row.owner) = (part, owner);
        Some(())
    }

    fn head(&mut self, header: &Header) -> Option<Directory> {
        let record = self.record(BEGIN as u64)?;
        let good = record.key.is_plain() && record.key.is_unpacked() && self.text(&record.key.class) == b"TFile";
        let mut cursor = Cursor::new(&self.file[..record.end], record.data().start);
        let [_name, _title] = [cursor.string()?, cursor.string()?];
        let named = cursor.at() - BEGIN;
        let directory = Directory::read(self.file, cursor.at(), record.end)?;
        if !good || !directory.is_at(BEGIN as u64, 0, named) || header.nbytes_name as usize != named {
            return None;
        }
        self.give(record.row, part::HEAD, 0)?;
        Some(directory)
    }

    fn free(&mut self, header: &Header) -> Option<()> {
        let record = self.plain_record(header.seek_free, header.nbytes_free)?;
        let data = record.data();
        let mut cursor = Cursor::new(&self.file[..data.end], data.start);
        let mut segments = Vec::new();
        while cursor.at() < data.end {
            segments.push(Segment::read(&mut cursor, header.most_segment())?);
        }
        let good = record.key.is_unpacked()
            && self.text(&record.key.class) == b"TFile"
            && segments.len() as u64 == u64::from(header.nfree)
            && header.is_final(segments.pop()?)
            && (self.mode == Mode::Apart || segments == self.gaps());
        good.then(|| self.give(record.row, part::FREE, 0)).flatten()
    }

    fn gaps(&self) -> Vec<Segment> {
        let ends = self.rows.iter().skip(1).map(|row| row.start).chain([self.file.len() as u64]);
        let gaps = self.rows.iter().zip(ends).filter(|(row, _)| row.part == part::GAP);
        gaps.map(|(row, end)| Segment { first: row.start, last: end - 1 }).collect()
    }

    fn info(&mut self, header: &Header) -> Option<()> {
        if (header.seek_info, header.nbytes_info) == (0, 0) {
            return Some(());
        }
        let record = self.plain_record(header.seek_info, header.nbytes_info)?;
        if self.text(&record.key.class) != b"TList" || self.text(&record.key.name) != b"StreamerInfo" {
            return None;
        }
        self.give(record.row, part::INFO, 0)
    }

    /// Takes the lowest directory of those found and not done, until none is left.
    fn directories(&mut self, head: Directory) -> Result<(), Answer> {
        // Where a directory stands, and where the one that lists it does.
        let mut found = BTreeMap::new();
        self.list(BEGIN as u64, &head, &mut found)?;
        while let Some((place, parent)) = found.pop_first() {
            let directory = self.subdirectory(place, parent).ok_or(Answer::refusal(number::DIRECTORY, place))?;
            self.list(place, &directory, &mut found)?;
        }
        Ok(())
    }

    fn subdirectory(&self, place: u64, parent: u64) -> Option<Directory> {
        let record = self.record(place)?;
        let directory = Directory::read(self.file, record.data().start, record.end)?;
        let good = record.key.is_unpacked() && directory.is_at(place, parent, record.key.keylen.into());
        good.then_some(directory)
    }

    /// The keys list of the directory at `place`. The directories that it lists are found.
    fn list(&mut self, place: u64, directory: &Directory, found: &mut BTreeMap<u64, u64>) -> Result<(), Answer> {
        if (directory.seek_keys, directory.nbytes_keys) == (0, 0) {
            return Ok(());
        }
        let bad_list = Answer::refusal(number::KEYS, directory.seek_keys);
        let list = self.list_record(place, directory).ok_or(bad_list)?;
        self.give(list.row, part::KEYS, place).ok_or(Answer::refusal(number::TWICE, place))?;
        let data = list.data();
        let mut cursor = Cursor::new(&self.file[..data.end], data.start);
        let nkeys = cursor.u32().ok_or(bad_list)?;
        let mut at = cursor.at();
        for _ in 0..nkeys {
            let copy = key::read_key(&self.file[..data.end], at).filter(Key::is_plain).ok_or(bad_list)?;
            let row = self.copied(place, at, &copy).ok_or(Answer::refusal(number::ENTRY, at as u64))?;
            let is_directory = self.text(&copy.class) == b"TDirectory";
            let part = if is_directory { part::DIR } else { part::LISTED };
            self.give(row, part, place).ok_or(Answer::refusal(number::TWICE, at as u64))?;
            if is_directory {
                found.insert(copy.seek_key, place);
            }
            at += copy.sum();
        }
        if at == data.end {
            Ok(())
        } else {
            Err(bad_list)
        }
    }

    fn list_record(&self, place: u64, directory: &Directory) -> Option<Record> {
        let record = self.plain_record(directory.seek_keys, directory.nbytes_keys)?;
        let good = record.key.is_unpacked()
            && [&b"TFile"[..], b"TDirectory"].contains(&self.text(&record.key.class))
            && record.key.seek_pdir == place;
        good.then_some(record)
    }

    /// The row of the record that the copy at `at` copies for the directory at `place`.
    fn copied(&self, place: u64, at: usize, copy: &Key) -> Option<usize> {
        let record = self.record(copy.seek_key)?;
        let original = self.file.get(copy.seek_key as usize..)?.get(..copy.sum())?;
        let good = original == &self.file[at..at + copy.sum()] && copy.seek_pdir == place;
        good.then_some(record.row)
    }
}
