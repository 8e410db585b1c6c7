//! The rules for a pass as statements over the bytes, the partition (document 01: cut) and an assignment (giving). They
//! are checked for every set of directories that could be, without any order: slow, and for small files only.

use super::audit::Row;
use super::{part, Mode};
use std::collections::{HashMap, HashSet};

/// Sets of more directories than this are not tried.
const MOST_DIRECTORIES: usize = 12;

/// Every assignment that meets the rules, as rows. There should never be two.
pub fn assignments(file: &[u8]) -> Vec<Vec<Row>> {
    assignments_in(Mode::Compared, file)
}

/// The same of the rules of either audit.
pub fn assignments_in(mode: Mode, file: &[u8]) -> Vec<Vec<Row>> {
    let Some((header, partition)) = header(file).zip(partition(file, 100)) else {
        return Vec::new();
    };
    let mut rules = Rules { mode, file, header, partition, lists: HashMap::new() };
    if !(rules.head_holds() && rules.free_holds() && rules.info_holds()) {
        return Vec::new();
    }
    rules.lists = rules.could_be_directories().map(|at| (at, rules.list(at))).collect();
    let copied: HashSet<usize> =
        rules.lists.values().flatten().flat_map(|(_, copies)| copies.iter().map(|copy| copy.seek_key)).collect();
    // A directory other than the head is listed, so there is a copy of it.
    let could_be: Vec<usize> = rules.could_be_directories().filter(|at| *at != 100 && copied.contains(at)).collect();
    assert!(could_be.len() <= MOST_DIRECTORIES, "too many directories to try every set of them");
    let with_head = subsets(&could_be).map(|set| [&[100], &set[..]].concat());
    with_head.filter_map(|set| rules.assignment(&set)).collect()
}

fn subsets(items: &[usize]) -> impl Iterator<Item = Vec<usize>> + '_ {
    (0..1u32 << items.len()).map(|bits| (0..items.len()).filter(|&i| bits >> i & 1 == 1).map(|i| items[i]).collect())
}

/// The number of `width` bytes at `at`, if it ends at or before `end`.
fn number(file: &[u8], at: usize, width: usize, end: usize) -> Option<usize> {
    let fits = at + width <= end && end <= file.len();
    fits.then(|| (at..at + width).fold(0, |number, i| number * 256 + usize::from(file[i])))
}

/// The bytes of an offset in a key, a directory header or a free segment of a version.
fn width(version: usize) -> usize {
    if version > 1000 {
        8
    } else {
        4
    }
}

/// The string whose first length byte is at `at`, and where it ends.
fn string(file: &[u8], at: usize, end: usize) -> Option<(&[u8], usize)> {
    let first = number(file, at, 1, end)?;
    let long = first == 255;
    let (start, len) = if long { (at + 5, number(file, at + 1, 4, end)?) } else { (at + 1, first) };
    let next = start + len;
    (long == (len >= 255) && next <= end).then(|| (&file[start..next], next))
}

#[derive(Clone, Copy)]
struct Key<'a> {
    nbytes: usize,
    keylen: usize,
    plain: bool,
    unpacked: bool,
    seek_key: usize,
    seek_pdir: usize,
    class: &'a [u8],
    name: &'a [u8],
}

/// The well-formed key header at `at`, read within `end`.
fn key(file: &[u8], at: usize, end: usize) -> Option<Key<'_>> {
    let field = |offset, width| number(file, at + offset, width, end);
    let version = field(4, 2)?;
    let w = width(version);
    let (class, next) = string(file, at + 18 + 2 * w, end)?;
    let (name, next) = string(file, next, end)?;
    let (_, next) = string(file, next, end)?;
    let sum = next - at;
    let (nbytes, objlen, keylen) = (field(0, 4)?, field(6, 4)?, field(14, 2)?);
    let (plain, unpacked) = (keylen == sum, objlen + keylen == nbytes);
    let small = objlen < 1 << 31 && nbytes < 1 << 31 && (1..=2000).contains(&version);
    let (seek_key, seek_pdir) = (field(18, w)?, field(18 + w, w)?);
    let well_formed = small && sum <= keylen && keylen <= 32_767 && keylen <= nbytes;
    well_formed.then_some(Key { nbytes, keylen, plain, unpacked, seek_key, seek_pdir, class, name })
}

/// The fields of the file header that the rules speak of.
struct Header {
    wide: bool,
    seek_free: usize,
    nbytes_free: usize,
    nfree: usize,
    nbytes_name: usize,
    seek_info: usize,
    nbytes_info: usize,
}

/// The file header, if it keeps its rule.
fn header(file: &[u8]) -> Option<Header> {
    let field = |at, width| number(file, at, width, 100);
    let wide = field(4, 4)? >= 1_000_000;
    let w = if wide { 8 } else { 4 };
    let holds = &file[..4] == b"root"
        && field(24 + 2 * w, 1)? == w
        && field(8, 4)? == 100
        && field(12, w)? == file.len()
        && (wide || file.len() <= 1_999_999_999);
    holds.then_some(Header {
        wide,
        seek_free: field(12 + w, w)?,
        nbytes_free: field(12 + 2 * w, 4)?,
        nfree: field(16 + 2 * w, 4)?,
        nbytes_name: field(20 + 2 * w, 4)?,
        seek_info: field(29 + 2 * w, w)?,
        nbytes_info: field(29 + 3 * w, 4)?,
    })
}

/// Where the pieces start that fill the file from `at` on, and whether each is a record.
fn partition(file: &[u8], at: usize) -> Option<Vec<(usize, bool)>> {
    let mut pieces = Vec::new();
    let mut at = at;
    while at != file.len() {
        let n = number(file, at, 4, file.len())?;
        let is_record = n < 1 << 31;
        let size = if is_record { n } else { (1 << 32) - n };
        if size < 4 || at + size > file.len() {
            return None;
        }
        if is_record && key(file, at, at + size)?.seek_key != at {
            return None;
        }
        pieces.push((at, is_record));
        at += size;
    }
    Some(pieces)
}

/// A directory header.
struct Directory {
    nbytes_keys: usize,
    nbytes_name: usize,
    seek_dir: usize,
    seek_parent: usize,
    seek_keys: usize,
}

fn directory(file: &[u8], at: usize, end: usize) -> Option<Directory> {
    let field = |offset, width| number(file, at + offset, width, end);
    let w = field(0, 2).filter(|&version| version <= 2000).map(width)?;
    Some(Directory {
        nbytes_keys: field(10, 4)?,
        nbytes_name: field(14, 4)?,
        seek_dir: field(18, w)?,
        seek_parent: field(18 + w, w)?,
        seek_keys: field(18 + 2 * w, w)?,
    })
}

/// The free segments that fill a free list's data, each its first and last. None if they do not.
fn segments(data: &[u8], most_version: usize) -> Option<Vec<(usize, usize)>> {
    let mut segments = Vec::new();
    let mut at = 0;
    while at != data.len() {
        let field = |offset, width| number(data, at + offset, width, data.len());
        let w = field(0, 2).filter(|&version| version <= most_version).map(width)?;
        segments.push((field(2, w)?, field(2 + w, w)?));
        at += 2 + 2 * w;
    }
    Some(segments)
}

/// Where the keys list of a directory stands, or 0, and its copies.
type List<'a> = (usize, Vec<Key<'a>>);

struct Rules<'a> {
    mode: Mode,
    file: &'a [u8],
    header: Header,
    partition: Vec<(usize, bool)>,
    /// For each record that could be a directory, its list if that and its copies keep their rules.
    lists: HashMap<usize, Option<List<'a>>>,
}

impl<'a> Rules<'a> {
    /// The key of the record of the partition at `at`.
    fn record(&self, at: usize) -> Option<Key<'a>> {
        self.partition.contains(&(at, true)).then(|| {
            let end = at + number(self.file, at, 4, self.file.len()).unwrap();
            key(self.file, at, end).unwrap()
        })
    }

    /// The head, and the records of class TDirectory.
    fn could_be_directories(&self) -> impl Iterator<Item = usize> + '_ {
        let is_directory = |key: Key| key.class == b"TDirectory";
        self.partition
            .iter()
            .map(|&(at, _)| at)
            .filter(move |&at| at == 100 || self.record(at).is_some_and(is_directory))
    }

    /// After the head's two strings.
    fn after_names(&self) -> Option<usize> {
        let head = self.record(100)?;
        let (_, next) = string(self.file, 100 + head.keylen, 100 + head.nbytes)?;
        let (_, next) = string(self.file, next, 100 + head.nbytes)?;
        Some(next)
    }

    /// The header of the directory at `at`.
    fn directory(&self, at: usize) -> Option<Directory> {
        let key = self.record(at)?;
        let start = if at == 100 { self.after_names()? } else { at + key.keylen };
        directory(self.file, start, at + key.nbytes)
    }

    fn head_holds(&self) -> bool {
        let (Some(key), Some(names), Some(directory)) = (self.record(100), self.after_names(), self.directory(100))
        else {
            return false;
        };
        key.plain
            && key.unpacked
            && key.class == b"TFile"
            && directory.seek_dir == 100
            && directory.seek_parent == 0
            && directory.nbytes_name == names - 100
            && self.header.nbytes_name == names - 100
    }

    fn free_holds(&self) -> bool {
        let Header { wide, seek_free, nbytes_free, nfree, .. } = self.header;
        let Some(key) = self.record(seek_free) else {
            return false;
        };
        let data = &self.file[seek_free + key.keylen..seek_free + key.nbytes];
        let Some(segments) = segments(data, if wide { 2000 } else { 1000 }) else {
            return false;
        };
        seek_free != 100
            && key.plain
            && key.unpacked
            && key.class == b"TFile"
            && key.nbytes == nbytes_free
            && nfree >= 1
            && segments.len() == nfree
            && (self.mode == Mode::Apart || segments[..nfree - 1] == self.gaps())
            && self.is_final(segments[nfree - 1])
    }

    /// The first and last byte of each gap.
    fn gaps(&self) -> Vec<(usize, usize)> {
        let after = |i: usize| self.partition.get(i + 1).map_or(self.file.len(), |&(at, _)| at);
        let gaps = self.partition.iter().enumerate().filter(|(_, (_, is_record))| !is_record);
        gaps.map(|(i, &(at, _))| (at, after(i) - 1)).collect()
    }

    fn is_final(&self, (first, last): (usize, usize)) -> bool {
        let end = self.file.len();
        first == end && if self.header.wide { last > end } else { last == 2_000_000_000 }
    }

    fn info_holds(&self) -> bool {
        let Header { seek_info, nbytes_info, .. } = self.header;
        let is_info =
            |key: Key| key.plain && key.nbytes == nbytes_info && key.class == b"TList" && key.name == b"StreamerInfo";
        (seek_info, nbytes_info) == (0, 0) || self.record(seek_info).is_some_and(is_info)
    }

    /// The assignment whose directories are exactly `set`, if it meets the rules.
    fn assignment(&self, set: &[usize]) -> Option<Vec<Row>> {
        let mut rows = Vec::new();
        for &(at, is_record) in &self.partition {
            let roles = self.roles(at, is_record, set)?;
            if roles.len() > 1 {
                return None;
            }
            let (part, owner) = roles.first().copied().unwrap_or((part::UNLISTED, 0));
            rows.push(Row { start: at as u64, part, owner: owner as u64 });
        }
        let is_set = rows.iter().all(|row| {
            let is_directory = row.part == part::HEAD || row.part == part::DIR;
            is_directory == set.contains(&(row.start as usize))
        });
        let headers_hold = rows.iter().all(|row| row.part != part::DIR || self.subdirectory_holds(row));
        let lead_to_head = rows.iter().all(|row| !is_listed(row) || leads_to_head(&rows, row));
        (is_set && headers_hold && lead_to_head).then_some(rows)
    }

    /// Each part and owner that the piece at `at` has. None if a list or a copy breaks its rule.
    fn roles(&self, at: usize, is_record: bool, set: &[usize]) -> Option<Vec<(u64, usize)>> {
        let mut roles = Vec::new();
        if !is_record {
            roles.push((part::GAP, 0));
        }
        if at == 100 {
            roles.push((part::HEAD, 0));
        }
        if at == self.header.seek_free {
            roles.push((part::FREE, 0));
        }
        if at == self.header.seek_info {
            roles.push((part::INFO, 0));
        }
        for &owner in set {
            let (seek_keys, copies) = self.lists[&owner].as_ref()?;
            if *seek_keys == at {
                roles.push((part::KEYS, owner));
            }
            roles.extend(copies.iter().filter(|copy| copy.seek_key == at).map(|copy| {
                let part = if copy.class == b"TDirectory" { part::DIR } else { part::LISTED };
                (part, owner)
            }));
        }
        Some(roles)
    }

    /// The list of the directory at `at`, if list and copies keep their rules.
    fn list(&self, at: usize) -> Option<List<'a>> {
        let directory = self.directory(at)?;
        let list = directory.seek_keys;
        if (list, directory.nbytes_keys) == (0, 0) {
            return Some((0, Vec::new()));
        }
        let key_of_list = self.record(list)?;
        let holds = key_of_list.plain
            && key_of_list.unpacked
            && key_of_list.nbytes == directory.nbytes_keys
            && (key_of_list.class == b"TFile" || key_of_list.class == b"TDirectory")
            && key_of_list.seek_pdir == at;
        let (start, end) = (list + key_of_list.keylen, list + key_of_list.nbytes);
        let nkeys = number(self.file, start, 4, end)?;
        let mut copies = Vec::new();
        let mut next = start + 4;
        while copies.len() < nkeys {
            let copy = key(self.file, next, end).filter(|copy| copy.plain)?;
            let bytes = &self.file[next..next + copy.keylen];
            self.record(copy.seek_key)?;
            if !self.file[copy.seek_key..].starts_with(bytes) || copy.seek_pdir != at {
                return None;
            }
            copies.push(copy);
            next += copy.keylen;
        }
        (holds && next == end).then_some((list, copies))
    }

    fn subdirectory_holds(&self, row: &Row) -> bool {
        let at = row.start as usize;
        let (Some(key), Some(directory)) = (self.record(at), self.directory(at)) else {
            return false;
        };
        key.unpacked
            && directory.seek_dir == at
            && directory.seek_parent == row.owner as usize
            && directory.nbytes_name == key.keylen
    }
}

fn is_listed(row: &Row) -> bool {
    row.part == part::LISTED || row.part == part::DIR
}

/// Whether taking the owner again and again arrives at 100.
fn leads_to_head(rows: &[Row], row: &Row) -> bool {
    let mut at = row.owner;
    for _ in rows {
        at = match rows.iter().find(|row| row.start == at) {
            Some(row) if row.start != 100 => row.owner,
            _ => break,
        };
    }
    at == 100
}
