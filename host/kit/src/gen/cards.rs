//! Files for a transfer card, and cards to be changed.

use super::broken::open;
use super::fields::HeaderAt;
use super::files::{one_root_plan, wide_root_plan};
use super::Rng;
use second::card::{card_of, check, BLOCK, CHECKED, NUMBER};
use second::width;

/// Lengths round those that fill blocks, from the least END on.
pub const LENGTHS: [usize; 16] =
    [100, 101, 502, 503, 504, 505, 506, 1007, 1008, 1009, 1010, 1511, 1512, 1513, 5_040, 5_041];

/// A file of so many bytes that says its length, 100 or more, and holds anything else.
pub fn any_file(rng: &mut Rng, len: usize, is_wide: bool) -> Vec<u8> {
    let mut file = rng.bytes(len);
    open(&mut file, is_wide);
    file
}

/// one.root, or its wide form, with so much data in "x" that it has so many bytes, 432 or more. It passes.
pub fn passing(rng: &mut Rng, len: usize, is_wide: bool) -> Vec<u8> {
    let mut plan = if is_wide { wide_root_plan() } else { one_root_plan() };
    let x = &mut plan.items[1].data;
    *x = rng.bytes(x.len() + len - if is_wide { 432 } else { 364 });
    plan.build().bytes
}

/// Where a block of a card begins.
pub fn start(nth: usize) -> usize {
    nth * BLOCK
}

/// Writes the check that a block should have.
pub fn seal(card: &mut [u8], nth: usize) {
    let block = &mut card[start(nth)..][..BLOCK];
    let check = check(&block[..CHECKED]);
    block[CHECKED..].copy_from_slice(&check.to_be_bytes());
}

/// Gives a block a number, and leaves its check as it is.
pub fn put_number(card: &mut [u8], nth: usize, number: u32) {
    card[start(nth)..][..NUMBER].copy_from_slice(&number.to_be_bytes());
}

/// Numbers the blocks from 0 on and seals each.
pub fn seal_all(card: &mut [u8]) {
    for nth in 0..card.len() / BLOCK {
        put_number(card, nth, nth as u32);
        seal(card, nth);
    }
}

/// Puts END into the header in block 0, as wide as its Version says, and seals the block.
pub fn put_end(card: &mut [u8], end: u64) {
    let version = HeaderAt::VERSION.get(&card[NUMBER..]);
    let field = HeaderAt { width: width::of_file(version as u32) }.end();
    field.put(&mut card[NUMBER..], end);
    seal(card, 0);
}

/// A card of these bytes, whole blocks, with a header of this Version and END.
pub fn headed(mut card: Vec<u8>, version: u32, end: u64) -> Vec<u8> {
    HeaderAt::VERSION.put(&mut card[NUMBER..], version.into());
    put_end(&mut card, end);
    seal_all(&mut card);
    card
}

/// The card of any file, with a fault, with several or with none.
pub fn with_faults(rng: &mut Rng) -> Vec<u8> {
    let len = rng.pick(&LENGTHS);
    let is_wide = rng.once_in(2);
    let mut card = card_of(&any_file(rng, len, is_wide));
    for _ in 0..rng.below(4) {
        let blocks = card.len() / BLOCK;
        if blocks == 0 {
            break;
        }
        let nth = rng.below(blocks);
        let at = start(nth) + rng.below(BLOCK);
        match rng.below(8) {
            0 => card[at] = rng.u64() as u8,
            1 => {
                card[at] = rng.u64() as u8;
                seal(&mut card, nth);
            }
            2 => put_number(&mut card, nth, rng.pick(&[0, 1, blocks as u32, u32::MAX])),
            3 => card.truncate(at),
            4 => card.extend_from_slice(&[0; BLOCK + 1][..1 + rng.below(BLOCK + 1)]),
            5 => put_end(&mut card, (len + 3).wrapping_sub(rng.below(7)) as u64),
            6 => put_end(&mut card, rng.offset(8)),
            _ => card.copy_within(start(nth)..start(nth + 1), start(blocks - 1)),
        }
    }
    card
}
