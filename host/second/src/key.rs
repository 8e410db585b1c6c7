//! Key headers, the pieces of a file, and the key writer.

use super::bytes::{length_bytes, stored, Cursor};
use super::{number, width, Answer};
use std::ops::Range;

/// The greatest ObjLen and Nbytes.
const MOST_BYTES: u64 = 2_147_483_647;
/// The greatest KeyLen.
const MOST_KEYLEN: usize = 32_767;

/// The bytes of a key header before its strings.
fn fixed(version: u32) -> usize {
    18 + 2 * width::of(version)
}

/// What a key header of a version takes, with strings of these lengths.
fn sum_of(version: u32, lengths: [usize; 3]) -> usize {
    lengths.into_iter().fold(fixed(version), |sum, len| sum.saturating_add(stored(len)))
}

/// The key header of a record. A string is its range of bytes in the file.
#[derive(Clone, Debug, PartialEq, Eq)]
pub struct Key {
    pub nbytes: u32,
    pub version: u16,
    pub objlen: u32,
    pub datime: u32,
    pub keylen: u16,
    pub cycle: i16,
    pub seek_key: u64,
    pub seek_pdir: u64,
    pub class: Range<usize>,
    pub name: Range<usize>,
    pub title: Range<usize>,
}

impl Key {
    /// What its header takes.
    pub fn sum(&self) -> usize {
        sum_of(self.version.into(), [&self.class, &self.name, &self.title].map(Range::len))
    }

    /// Whether nothing stands between the header and KeyLen.
    pub fn is_plain(&self) -> bool {
        usize::from(self.keylen) == self.sum()
    }

    /// Whether its record's data are not compressed.
    pub fn is_unpacked(&self) -> bool {
        self.objlen == self.nbytes - u32::from(self.keylen)
    }
}

/// A record with its key, or a gap of a size.
#[derive(Clone, Debug, PartialEq, Eq)]
pub enum Piece {
    Record(Key),
    Gap(u64),
}

impl Piece {
    pub fn size(&self) -> u64 {
        match self {
            Piece::Record(key) => key.nbytes.into(),
            Piece::Gap(size) => *size,
        }
    }
}

/// The piece at `at`, or the number of the refusal there.
pub fn read_piece(file: &[u8], at: u64) -> Result<Piece, u64> {
    let start = usize::try_from(at).map_err(|_| number::CHAIN)?;
    let n = Cursor::new(file, start).i32().ok_or(number::CHAIN)?;
    let size = n.unsigned_abs() as usize;
    if size < 4 || size > file.len() - start {
        return Err(number::CHAIN);
    }
    if n < 0 {
        return Ok(Piece::Gap(size as u64));
    }
    match read_key(&file[..start + size], start) {
        Some(key) if key.seek_key == at => Ok(Piece::Record(key)),
        _ => Err(number::KEY),
    }
}

/// The well-formed key header from `start` on, read up to the end of `bytes`.
pub fn read_key(bytes: &[u8], start: usize) -> Option<Key> {
    let mut cursor = Cursor::new(bytes, start);
    let (nbytes, version) = (cursor.u32()?, cursor.u16()?);
    let width = width::of(version.into());
    let key = Key {
        nbytes,
        version,
        objlen: cursor.u32()?,
        datime: cursor.u32()?,
        keylen: cursor.u16()?,
        cycle: cursor.i16()?,
        seek_key: cursor.offset(width)?,
        seek_pdir: cursor.offset(width)?,
        class: cursor.string()?,
        name: cursor.string()?,
        title: cursor.string()?,
    };
    let sum = cursor.at() - start;
    let fits = well_formed(key.nbytes, version.into(), key.objlen, key.keylen.into(), sum);
    fits.then_some(key)
}

/// Whether a header with strings in their right form is well formed. `sum` is what it takes.
fn well_formed(nbytes: u32, version: u32, objlen: u32, keylen: usize, sum: usize) -> bool {
    (1..=width::MOST).contains(&version)
        && u64::from(objlen) <= MOST_BYTES
        && u64::from(nbytes) <= MOST_BYTES
        && sum <= keylen
        && keylen <= MOST_KEYLEN
        && keylen as u64 <= u64::from(nbytes)
}

/// What the key writer takes: a header's fields but KeyLen, wider than they are stored.
#[derive(Clone, Copy, Debug, PartialEq, Eq)]
pub struct NewKey<'a> {
    pub nbytes: u32,
    pub version: u32,
    pub objlen: u32,
    pub datime: u32,
    pub cycle: i32,
    pub seek_key: u64,
    pub seek_pdir: u64,
    pub class: &'a [u8],
    pub name: &'a [u8],
    pub title: &'a [u8],
}

impl NewKey<'_> {
    /// What its header takes.
    pub fn sum(&self) -> usize {
        sum_of(self.version, [self.class, self.name, self.title].map(<[u8]>::len))
    }
}

/// Writes a plain key header into `buf` at its SeekKey.
pub fn write_key(key: &NewKey, buf: &mut [u8]) -> Answer {
    if key.sum() > MOST_KEYLEN {
        return Answer::refusal(number::NAME, 0);
    }
    let Some(header) = encode(key) else {
        return Answer::refusal(number::FIELD, 0);
    };
    if key.seek_key.checked_add(key.nbytes.into()).is_none_or(|end| end > buf.len() as u64) {
        return Answer::refusal(number::ROOM, 0);
    }
    buf[key.seek_key as usize..][..header.len()].copy_from_slice(&header);
    Answer::success(header.len() as u64)
}

/// The bytes of a plain header, if it is well formed and each value fits its field.
fn encode(key: &NewKey) -> Option<Vec<u8>> {
    let sum = key.sum();
    if !well_formed(key.nbytes, key.version, key.objlen, sum, sum) {
        return None;
    }
    let mut header = Vec::with_capacity(sum);
    header.extend(key.nbytes.to_be_bytes());
    header.extend(u16::try_from(key.version).ok()?.to_be_bytes());
    header.extend(key.objlen.to_be_bytes());
    header.extend(key.datime.to_be_bytes());
    header.extend(u16::try_from(sum).ok()?.to_be_bytes());
    header.extend(i16::try_from(key.cycle).ok()?.to_be_bytes());
    for offset in [key.seek_key, key.seek_pdir] {
        header.extend(offset_bytes(offset, width::of(key.version))?);
    }
    for string in [key.class, key.name, key.title] {
        header.extend(length_bytes(u32::try_from(string.len()).ok()?));
        header.extend(string);
    }
    Some(header)
}

/// An offset in `width` bytes, if it fits them.
fn offset_bytes(offset: u64, width: usize) -> Option<Vec<u8>> {
    let bytes = offset.to_be_bytes();
    let (above, bytes) = bytes.split_at(bytes.len() - width);
    above.iter().all(|&byte| byte == 0).then(|| bytes.to_vec())
}
