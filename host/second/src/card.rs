//! The transfer card: a file in blocks of 512 bytes, each with its number, 504 bytes of the file and a check.

use super::audit::{self, Row, BEGIN};
use super::bytes::Cursor;
use super::{number, width, Answer};

/// The bytes of a block: its number, those of the file, and its check, which is of all before it.
pub const BLOCK: usize = 512;
pub const NUMBER: usize = 4;
pub const DATA: usize = 504;
pub const CHECKED: usize = NUMBER + DATA;
/// A number of four bytes tells no more of them apart.
const MOST_BLOCKS: usize = 1 << 32;

/// It starts at 0, and for each byte becomes three times itself plus the byte.
pub fn check(bytes: &[u8]) -> u32 {
    bytes.iter().fold(0, |check: u32, &byte| check.wrapping_mul(3).wrapping_add(byte.into()))
}

/// The card of a file of at least one byte.
pub fn card_of(file: &[u8]) -> Vec<u8> {
    file.chunks(DATA).zip(0..=u32::MAX).flat_map(|(data, number)| block_of(number, data)).collect()
}

/// A block of this number, padded with zeros.
fn block_of(number: u32, data: &[u8]) -> Vec<u8> {
    let mut block = [&number.to_be_bytes(), data].concat();
    block.resize(CHECKED, 0);
    block.extend(check(&block).to_be_bytes());
    block
}

/// What a function makes in an output: its answer, and the bytes at the output's front. None on a refusal.
pub type Made = (Answer, Vec<u8>);

/// The card of a file that passes the audit with tables of `rows` rows, in an output of `room` bytes; and the audit's rows.
pub fn write(file: &[u8], rows: usize, room: usize) -> (Made, Vec<Row>) {
    let (answer, rows) = audit::audit(file, rows);
    if answer.number != number::SUCCESS {
        return ((answer, Vec::new()), Vec::new());
    }
    let blocks = file.len().div_ceil(DATA);
    if blocks > MOST_BLOCKS || blocks * BLOCK > room {
        return (made(Err(number::ROOM)), Vec::new());
    }
    (made(Ok(card_of(file))), rows)
}

/// The file of a card, in an output of `room` bytes.
pub fn read(card: &[u8], room: usize) -> Made {
    made(file_of(card).and_then(|file| if file.len() > room { Err(number::ROOM) } else { Ok(file) }))
}

/// The bytes, of which count is the number, or the number of the refusal.
fn made(bytes: Result<Vec<u8>, u64>) -> Made {
    match bytes {
        Ok(bytes) => (Answer::success(bytes.len() as u64), bytes),
        Err(number) => (Answer::refusal(number, 0), Vec::new()),
    }
}

/// The file of a card, or the number of the refusal.
fn file_of(card: &[u8]) -> Result<Vec<u8>, u64> {
    let end = end_of(data_at(card, 0)?);
    let blocks = end.div_ceil(DATA as u64).max(1);
    let mut file = Vec::new();
    for number in 0..blocks {
        file.extend(data_at(card, number)?);
    }
    // So many bytes were read at least.
    let padding = file.split_off(end as usize);
    let is_last = card.len() as u64 == blocks * BLOCK as u64;
    if end < BEGIN as u64 || !is_last || padding.iter().any(|&byte| byte != 0) {
        return Err(number::TAIL);
    }
    Ok(file)
}

/// The bytes of the file in a block of a card, or the number of the refusal.
fn data_at(card: &[u8], number: u64) -> Result<&[u8], u64> {
    let block = card.chunks_exact(BLOCK).nth(number as usize).ok_or(number::MISSING)?;
    let stored = |at| Cursor::new(block, at).u32();
    if stored(0).map(u64::from) != Some(number) {
        return Err(number::ORDER);
    }
    if stored(CHECKED) != Some(check(&block[..CHECKED])) {
        return Err(number::CHECK);
    }
    Ok(&block[NUMBER..CHECKED])
}

/// END, as the file header in the first block has it: its Version says how wide it is.
fn end_of(first: &[u8]) -> u64 {
    let mut cursor = Cursor::new(first, 4);
    let [version, _begin] = [cursor.u32(), cursor.u32()].map(Option::unwrap_or_default);
    cursor.offset(width::of_file(version)).unwrap_or_default()
}
