//! The programs that the benchmarks compare, each called in the same way.

use programs::ffi;
use second::{audit, card, fast, salvage, streamer, Answer};
use std::hint::black_box;

#[derive(Clone, Copy, Debug, PartialEq, Eq)]
pub enum Program {
    /// The proved library through the C call.
    Library,
    /// The second program.
    Second,
    /// The fast program.
    Fast,
}

impl Program {
    pub const ALL: [Program; 3] = [Program::Library, Program::Second, Program::Fast];

    pub fn name(self) -> &'static str {
        ["library", "second", "fast"][self as usize]
    }

    /// Audits a file. The second program has rows of its own, the others write the tables start, part and owner.
    pub fn audit(self, file: &[u8], tables: [&mut [u64]; 3]) -> Answer {
        match self {
            Program::Library => answered(|place, count| ffi::audit::audit(file, tables, place, count)),
            Program::Second => black_box(audit::audit(file, tables[0].len())).0,
            Program::Fast => fast::audit::audit(file, tables),
        }
    }

    /// Salvages a file. The second program takes no scratch.
    pub fn salvage(self, file: &mut [u8], seen: &mut [u8]) -> Answer {
        match self {
            Program::Library => answered(|place, count| ffi::salvage::salvage(file, seen, place, count)),
            Program::Second => salvage::salvage(file),
            Program::Fast => fast::salvage::salvage(file, seen),
        }
    }

    /// Writes the card of a file. The second program has rows and a card of its own, the others write what is lent.
    pub fn write_card(self, file: &[u8], out: &mut [u8], tables: [&mut [u64]; 3]) -> Answer {
        match self {
            Program::Library => answered(|place, count| ffi::card::write(file, out, tables, place, count)),
            Program::Second => black_box(card::write(file, tables[0].len(), out.len())).0 .0,
            Program::Fast => fast::card::write(file, out, tables),
        }
    }

    /// Reads the file of a card, in the same way.
    pub fn read_card(self, card: &[u8], out: &mut [u8]) -> Answer {
        match self {
            Program::Library => answered(|place, count| ffi::card::read(card, out, place, count)),
            Program::Second => black_box(card::read(card, out.len())).0,
            Program::Fast => fast::card::read(card, out),
        }
    }

    /// Reads the StreamerInfo record at 0.
    pub fn read_info(self, file: &[u8], table: &mut [u32]) -> Answer {
        match self {
            Program::Library => answered(|place, count| ffi::info::read_info(file, 0, table, place, count)),
            Program::Second => black_box(streamer::read_info(file, 0, table.len())).0,
            Program::Fast => fast::info::read_info(file, 0, table),
        }
    }
}

/// What a call of the library answers.
fn answered(call: impl FnOnce(&mut u64, &mut u64) -> u64) -> Answer {
    let (mut place, mut count) = (0, 0);
    let number = call(&mut place, &mut count);
    Answer { number, place, count }
}
