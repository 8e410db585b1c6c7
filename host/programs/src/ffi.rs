//! The C interface of the proved library (`include/rootmap.h`), and safe functions over it.
//!
//! A reference gives what the interface asks of a pointer: it is not null, even for an empty slice,
//! it is aligned, and what is lent as `&mut` overlaps nothing else in the call.

mod answer;
pub mod audit;
mod c;
pub mod card;
pub mod info;
pub mod number;
pub mod part;
pub mod salvage;
pub mod version;
pub mod view;

pub use answer::Answer;

/// Indices into the fields of `read_piece`.
pub const KIND: usize = 0;
pub const NBYTES: usize = 1;
pub const VERSION: usize = 2;
pub const OBJLEN: usize = 3;
pub const DATIME: usize = 4;
pub const KEYLEN: usize = 5;
pub const CYCLE: usize = 6;
pub const SEEK_KEY: usize = 7;
pub const SEEK_PDIR: usize = 8;
/// A string is two fields, its start and its length.
pub const CLASS: usize = 9;
pub const NAME: usize = 11;
pub const TITLE: usize = 13;
pub const FIELDS: usize = 15;

/// Values of the field `KIND`.
pub const RECORD: u64 = 1;
pub const GAP: u64 = 2;

/// `date` is year, month, day, hour, minute, second.
pub fn pack_date(date: [u32; 6], place: &mut u64, count: &mut u64) -> u64 {
    let [year, month, day, hour, minute, second] = date;
    // SAFETY: place and count are two distinct cells.
    unsafe { c::rootmap_pack_date(year, month, day, hour, minute, second, place, count) }
}

pub fn unpack_date(packed: u32, date: &mut [u32; 6]) {
    // SAFETY: date has six numbers.
    unsafe { c::rootmap_unpack_date(packed, date.as_mut_ptr()) }
}

pub fn read_piece(file: &[u8], at: u64, fields: &mut [u64; FIELDS], place: &mut u64, count: &mut u64) -> u64 {
    // SAFETY: the pointer and length of one slice; fields has fifteen numbers; no overlap.
    unsafe { c::rootmap_read_piece(file.as_ptr(), file.len(), at, fields.as_mut_ptr(), place, count) }
}

/// What the key writer takes, in the order of the call.
pub struct NewKey<'a> {
    /// Nbytes, Version, ObjLen and Datime.
    pub numbers: [u32; 4],
    pub cycle: i32,
    /// SeekKey and SeekPdir.
    pub seeks: [u64; 2],
    /// Class, name and title.
    pub strings: [&'a [u8]; 3],
}

pub fn write_key(key: &NewKey, buf: &mut [u8], place: &mut u64, count: &mut u64) -> u64 {
    let [nbytes, version, objlen, datime] = key.numbers;
    let [seek_key, seek_pdir] = key.seeks;
    let [class, name, title] = key.strings;
    // SAFETY: each pointer goes with its slice's length; buf, place and count overlap nothing.
    unsafe {
        c::rootmap_write_key(
            nbytes,
            version,
            objlen,
            datime,
            key.cycle,
            seek_key,
            seek_pdir,
            class.as_ptr(),
            class.len(),
            name.as_ptr(),
            name.len(),
            title.as_ptr(),
            title.len(),
            buf.as_mut_ptr(),
            buf.len(),
            place,
            count,
        )
    }
}

/// The bytes of one of the strings of a record that `read_piece` took: `CLASS`, `NAME` or `TITLE`.
pub fn string<'a>(file: &'a [u8], fields: &[u64; FIELDS], which: usize) -> &'a [u8] {
    let start = fields[which] as usize;
    &file[start..start + fields[which + 1] as usize]
}

/// The pointers and lengths of the tables start, part and owner.
fn lent(tables: [&mut [u64]; 3]) -> [(*mut u64, usize); 3] {
    tables.map(|table| (table.as_mut_ptr(), table.len()))
}
