//! Salvage: a gap over what breaks the chain, up to where pieces fill the file to its end again.

use super::audit::{chain, Header, BEGIN};
use super::{number, Answer};

/// The least gap, and the greatest.
const LEAST_GAP: u64 = 4;
const MOST_GAP: u64 = 2_147_483_648;

/// Writes a gap at the first fault of the chain. Place is the fault, and count where the gap ends: both END where there
/// is no fault.
pub fn salvage(file: &mut [u8]) -> Answer {
    if let Err(number) = Header::good(file) {
        return Answer::refusal(number, 0);
    }
    let end = file.len() as u64;
    let Err(fault) = chain(file, BEGIN as u64) else {
        return Answer { number: number::SUCCESS, place: end, count: end };
    };
    let place = fault.place;
    let Some(count) = gap_end(file, place) else {
        return Answer::refusal(number::SALVAGE, place);
    };
    let size = (count - place) as u32;
    file[place as usize..][..4].copy_from_slice(&size.wrapping_neg().to_be_bytes());
    Answer { number: number::SUCCESS, place, count }
}

/// The lowest place behind the fault from which pieces fill the file to its end, if one gap reaches it.
fn gap_end(file: &[u8], fault: u64) -> Option<u64> {
    let fills = |place: &u64| chain(file, *place).is_ok();
    let lowest = (fault + LEAST_GAP..=file.len() as u64).find(fills);
    lowest.filter(|place| place - fault <= MOST_GAP)
}
