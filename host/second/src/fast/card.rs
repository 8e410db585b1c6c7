//! The transfer card. A block is checked as five fifths side by side, so that none waits for another.

use super::audit::{audit, file_width, BEGIN};
use super::key::{be32, offset};
use crate::{number, Answer};

/// The bytes of a block: its number, those of the file, and its check.
const BLOCK: usize = 512;
const NUMBER: usize = 4;
const DATA: usize = 504;
const CHECKED: usize = NUMBER + DATA;
const MOST_BLOCKS: usize = 1 << 32;

/// A fifth of what is checked, three bytes left, and 3 to as many.
const FIFTH: usize = CHECKED / 5;
const FACTOR: u32 = 3u32.wrapping_pow(FIFTH as u32);

/// Audits a file into the tables start, part and owner, and writes its card to the front of an output.
pub fn write(file: &[u8], card: &mut [u8], tables: [&mut [u64]; 3]) -> Answer {
    let [start, part, owner] = tables;
    let answer = audit(file, [&mut *start, &mut *part, &mut *owner]);
    if answer.number != number::SUCCESS {
        return answer;
    }
    let blocks = file.len().div_ceil(DATA);
    if blocks > MOST_BLOCKS || blocks * BLOCK > card.len() {
        for table in [start, part, owner] {
            table.fill(0);
        }
        return Answer::refusal(number::ROOM, 0);
    }
    let mut left = card;
    for (number, data) in file.chunks(DATA).enumerate() {
        let Some((block, rest)) = left.split_first_chunk_mut() else { break };
        put_block(block, number as u32, data);
        left = rest;
    }
    Answer::success((blocks * BLOCK) as u64)
}

#[inline(always)]
fn put_block(block: &mut [u8; BLOCK], number: u32, data: &[u8]) {
    block[..NUMBER].copy_from_slice(&number.to_be_bytes());
    let (bytes, padding) = block[NUMBER..CHECKED].split_at_mut(data.len());
    bytes.copy_from_slice(data);
    padding.fill(0);
    let check = check(block);
    block[CHECKED..].copy_from_slice(&check.to_be_bytes());
}

/// Reads the file of a card to the front of an output.
pub fn read(card: &[u8], out: &mut [u8]) -> Answer {
    match end_of(card, out.len()) {
        Ok(end) => {
            for (block, part) in card.chunks_exact(BLOCK).zip(out[..end].chunks_mut(DATA)) {
                part.copy_from_slice(&block[NUMBER..NUMBER + part.len()]);
            }
            Answer::success(end as u64)
        }
        Err(number) => Answer::refusal(number, 0),
    }
}

/// END of a card without a fault whose file has room, or the number of the refusal.
fn end_of(card: &[u8], room: usize) -> Result<usize, u64> {
    let first = card.first_chunk::<BLOCK>().ok_or(number::MISSING)?;
    let width = file_width(be32(first, NUMBER + 4));
    let end = offset(first, NUMBER + 12, width).ok_or(number::MISSING)? as usize;
    let blocks = end.div_ceil(DATA).max(1);
    let mut left = card;
    for number in 0..blocks {
        let (block, rest) = left.split_first_chunk().ok_or(number::MISSING)?;
        look_at(block, number)?;
        left = rest;
    }
    let before = blocks - 1;
    let padding = &card[before * BLOCK..][..CHECKED][NUMBER + end - before * DATA..];
    if end < BEGIN || !left.is_empty() || padding.iter().any(|&byte| byte != 0) {
        return Err(number::TAIL);
    }
    if room < end {
        return Err(number::ROOM);
    }
    Ok(end)
}

#[inline(always)]
fn look_at(block: &[u8; BLOCK], number: usize) -> Result<(), u64> {
    if be32(block, 0) as usize != number {
        return Err(number::ORDER);
    }
    if be32(block, CHECKED) != check(block) {
        return Err(number::CHECK);
    }
    Ok(())
}

#[inline(always)]
fn check(block: &[u8; BLOCK]) -> u32 {
    let mut fifths = [0; 5];
    for i in 0..FIFTH {
        for (nth, check) in fifths.iter_mut().enumerate() {
            *check = more(*check, block[nth * FIFTH + i]);
        }
    }
    let front = fifths.into_iter().fold(0u32, |check, next| check.wrapping_mul(FACTOR).wrapping_add(next));
    block[5 * FIFTH..CHECKED].iter().fold(front, |check, &byte| more(check, byte))
}

#[inline(always)]
fn more(check: u32, byte: u8) -> u32 {
    check.wrapping_mul(3).wrapping_add(byte.into())
}
