//! Salvage, with a mark for each place that was tried, as far as the scratch goes: none of these is read twice.

use super::audit::{header, BEGIN};
use super::key::piece_size;
use crate::{number, Answer};
use std::iter::successors;

/// The least gap, and the greatest.
const LEAST_GAP: usize = 4;
const MOST_GAP: usize = 1 << 31;

/// Writes a gap at the first fault of the chain. `seen` is a scratch of any length, a bit for each place behind the
/// fault: it costs time where it is short, and it holds zeros afterwards.
pub fn salvage(file: &mut [u8], seen: &mut [u8]) -> Answer {
    seen.fill(0);
    let answer = match fault_and_gap_end(file, seen) {
        Ok((fault, end)) => {
            write_gap(file, fault, end);
            Answer { number: number::SUCCESS, place: fault as u64, count: end as u64 }
        }
        Err(answer) => answer,
    };
    seen.fill(0);
    answer
}

/// The first fault of the chain, and where a gap over it ends; both END where there is no fault.
fn fault_and_gap_end(file: &[u8], seen: &mut [u8]) -> Result<(usize, usize), Answer> {
    header(file).map_err(|number| Answer::refusal(number, 0))?;
    let end = file.len();
    let fault = follow(file, BEGIN, |_| false);
    if fault == end {
        return Ok((end, end));
    }
    let first = fault + LEAST_GAP;
    let last = end.min(fault + MOST_GAP);
    let fills = |&place: &usize| follow(file, place, |at| is_seen(seen, at - first)) == end;
    let places = successors(Some(past_zeros(file, first)), |place| Some(past_zeros(file, place + 1)));
    let found = places.take_while(|&place| place <= last).find(fills);
    found.map(|place| (fault, place)).ok_or(Answer::refusal(number::SALVAGE, fault as u64))
}

/// The first place from here on that eight zeros do not rule out: no piece begins at the first five of them.
#[inline(always)]
fn past_zeros(file: &[u8], from: usize) -> usize {
    let mut place = from;
    while file.get(place..).and_then(<[u8]>::first_chunk) == Some(&[0; 8]) {
        place += 5;
    }
    place
}

/// Goes from piece to piece, up to END, to where no piece stands, or to a place that is known: where it stops.
#[inline(always)]
fn follow(file: &[u8], from: usize, mut is_known: impl FnMut(usize) -> bool) -> usize {
    let mut at = from;
    while !is_known(at) {
        let Some(size) = piece_size(file, at) else { break };
        at += size;
    }
    at
}

/// Whether a place was seen before, if there is a bit for it. Now it is.
#[inline(always)]
fn is_seen(seen: &mut [u8], nth: usize) -> bool {
    let Some(byte) = seen.get_mut(nth / 8) else { return false };
    let bit = 1 << (nth % 8);
    let was = *byte & bit != 0;
    *byte |= bit;
    was
}

/// Nothing where both are END.
fn write_gap(file: &mut [u8], from: usize, to: usize) {
    if from < to {
        let size = (to - from) as u32;
        file[from..from + LEAST_GAP].copy_from_slice(&size.wrapping_neg().to_be_bytes());
    }
}
