//! Key headers and pieces.

use crate::number;

/// The bytes of a key header before its strings, with four-byte offsets.
pub const FIXED: usize = 26;
/// The least KeyLen: three empty strings.
pub const LEAST_KEY: usize = FIXED + 3;
/// The greatest version of a key, a directory header or a free segment, and the greatest with four-byte offsets.
pub const MOST_VERSION: u16 = 2000;
pub const MOST_NARROW: u16 = 1000;
const LEAST_PIECE: usize = 4;
/// The bytes of an offset.
pub const NARROW: usize = 4;
pub const WIDE: usize = 8;
const MOST_BYTES: u32 = i32::MAX as u32;
const MOST_KEYLEN: u16 = 32_767;
/// The least length in four bytes, and the byte before these.
const LONG: u8 = 255;

#[inline(always)]
pub fn be16<const N: usize>(bytes: &[u8; N], at: usize) -> u16 {
    u16::from_be_bytes([bytes[at], bytes[at + 1]])
}

#[inline(always)]
pub fn be32<const N: usize>(bytes: &[u8; N], at: usize) -> u32 {
    u32::from_be_bytes([bytes[at], bytes[at + 1], bytes[at + 2], bytes[at + 3]])
}

/// The bytes of an offset in a key, a directory header or a free segment of this version.
#[inline(always)]
pub fn width(version: u16) -> usize {
    if version > MOST_NARROW {
        WIDE
    } else {
        NARROW
    }
}

/// The offset of `width` bytes at `at`.
#[inline(always)]
pub fn offset(bytes: &[u8], at: usize, width: usize) -> Option<u64> {
    let bytes = bytes.get(at..)?;
    if width == WIDE {
        bytes.first_chunk().map(|bytes| u64::from_be_bytes(*bytes))
    } else {
        bytes.first_chunk().map(|bytes| u32::from_be_bytes(*bytes).into())
    }
}

/// A well-formed key header.
pub struct Key<'a> {
    pub seek_key: u64,
    pub keylen: usize,
    pub plain: bool,
    pub unpacked: bool,
    pub class: &'a [u8],
    pub name: &'a [u8],
}

impl<'a> Key<'a> {
    /// The header that these bytes begin with, read within them.
    #[inline(always)]
    pub fn read(bytes: &'a [u8]) -> Option<Self> {
        let (fixed, rest) = bytes.split_first_chunk::<FIXED>()?;
        let version = be16(fixed, 4);
        let width = width(version);
        let strings = if width == WIDE { rest.get(2 * (WIDE - NARROW)..)? } else { rest };
        let (class, rest) = string(strings)?;
        let (name, rest) = string(rest)?;
        let (_title, rest) = string(rest)?;
        let sum = bytes.len() - rest.len();
        let [nbytes, objlen] = [be32(fixed, 0), be32(fixed, 6)];
        let keylen = be16(fixed, 14);
        let well_formed = (1..=MOST_VERSION).contains(&version)
            && objlen <= MOST_BYTES
            && nbytes <= MOST_BYTES
            && sum <= usize::from(keylen)
            && keylen <= MOST_KEYLEN
            && u32::from(keylen) <= nbytes;
        if !well_formed {
            return None;
        }
        Some(Key {
            seek_key: offset(fixed, 18, width)?,
            keylen: keylen.into(),
            plain: sum == usize::from(keylen),
            unpacked: objlen == nbytes - u32::from(keylen),
            class,
            name,
        })
    }
}

/// The string that these bytes begin with, after its length, and what follows it.
#[inline]
pub fn string(bytes: &[u8]) -> Option<(&[u8], &[u8])> {
    match bytes.split_first()? {
        (&LONG, _) => long_string(bytes),
        (&len, rest) => rest.split_at_checked(len.into()),
    }
}

/// The same in the long form.
#[cold]
fn long_string(bytes: &[u8]) -> Option<(&[u8], &[u8])> {
    let (before, len) = long_length(bytes)?;
    bytes[before..].split_at_checked(len)
}

/// The bytes of a length in the long form, and the length.
#[cold]
fn long_length(bytes: &[u8]) -> Option<(usize, usize)> {
    let len = u32::from_be_bytes(*bytes.get(1..)?.first_chunk()?);
    (len >= LONG.into()).then_some((5, len as usize))
}

/// What the string that these bytes begin with takes, with its length.
#[inline(always)]
pub fn string_size(bytes: &[u8]) -> Option<usize> {
    let (before, len) = match *bytes.first()? {
        LONG => long_length(bytes)?,
        len => (1, len.into()),
    };
    (len <= bytes.len() - before).then_some(before + len)
}

/// What stands at a place. A record has its bytes and its key.
pub enum Piece<'a> {
    Gap(usize),
    Record(&'a [u8], Key<'a>),
}

/// The piece at `at`, or the number of the refusal.
#[inline(always)]
pub fn piece(file: &[u8], at: usize) -> Result<Piece<'_>, u64> {
    let (is_gap, bytes) = gap_or_record(file, at).ok_or(number::CHAIN)?;
    if is_gap {
        return Ok(Piece::Gap(bytes.len()));
    }
    let key = record_key(bytes, at).ok_or(number::KEY)?;
    Ok(Piece::Record(bytes, key))
}

/// The size of the piece at `at`, if there is one.
#[inline(always)]
pub fn piece_size(file: &[u8], at: usize) -> Option<usize> {
    let (is_gap, bytes) = gap_or_record(file, at)?;
    (is_gap || is_record(bytes, at)).then_some(bytes.len())
}

/// Whether a gap or a record should stand at `at`, and its bytes, if it has a possible size.
#[inline(always)]
fn gap_or_record(file: &[u8], at: usize) -> Option<(bool, &[u8])> {
    let rest = file.get(at..)?;
    let n = i32::from_be_bytes(*rest.first_chunk()?);
    let size = n.unsigned_abs() as usize;
    let bytes = rest.get(..size)?;
    (size >= LEAST_PIECE).then_some((n < 0, bytes))
}

/// The key of the record at `at`, if it is one.
#[inline(always)]
fn record_key(record: &[u8], at: usize) -> Option<Key<'_>> {
    Key::read(record).filter(|key| key.seek_key == at as u64)
}

#[inline(never)]
fn is_record(record: &[u8], at: usize) -> bool {
    record_key(record, at).is_some()
}
