//! Salvage of one file by the proved library, by the fast program and by the model.

use super::table::{dump, Table};
use super::{answer_of, Tally};
use programs::ffi;
use second::{fast, salvage, Answer};

/// Salvages a file with a scratch.
type Run<'a> = &'a dyn Fn(&mut [u8], &mut [u8]) -> Answer;

/// A scratch of so many bytes has a bit for each place of the file.
pub fn enough(file: &[u8]) -> usize {
    file.len() / 8 + 1
}

/// Salvages copies of the file, with a scratch of no byte, of one, short, exact and long. The answer, and what the buffer
/// then holds.
pub fn salvage(tally: &mut Tally, file: &[u8]) -> (Answer, Vec<u8>) {
    let mut after = file.to_vec();
    let answer = salvage::salvage(&mut after);
    let exact = (file.len() as u64).saturating_sub(answer.place + 4).div_ceil(8) as usize;
    for len in [0, 1, exact / 2, exact, enough(file) + 9] {
        agree(tally, file, len, (answer, &after));
    }
    (answer, after)
}

/// The library with these scratches against the fast program alone: on a large file the model takes too long.
pub fn salvage_large(tally: &mut Tally, file: &[u8], lengths: &[usize]) -> (Answer, Vec<u8>) {
    let mut after = file.to_vec();
    let answer = fast::salvage::salvage(&mut after, &mut vec![0; enough(file)]);
    for &len in lengths {
        agree(tally, file, len, (answer, &after));
    }
    (answer, after)
}

/// Fails unless both programs answer this and leave these bytes, and zeros in the scratch, which held anything before.
fn agree(tally: &mut Tally, file: &[u8], len: usize, expected: (Answer, &[u8])) {
    let garbage = tally.garbage();
    let fill = [0xff, garbage as u8, 0, 1][tally.inputs as usize / 5 % 4];
    let library = |buf: &mut [u8], seen: &mut [u8]| {
        answer_of(garbage, |place, count| ffi::salvage::salvage(buf, seen, place, count))
    };
    let programs: [(&str, Run); 2] = [("library", &library), ("fast program", &fast::salvage::salvage)];
    let (answer, after) = expected;
    for (program, run) in programs {
        let mut buffer = Table::of(file, garbage as u8);
        let mut seen = Table::new(len, fill, garbage as u8);
        let got = run(buffer.lent(), seen.lent());
        let same = [buffer.holds(after.iter().copied()), seen.holds([].into_iter())];
        assert!(
            got == answer && same == [true; 2],
            "salvage with a scratch of {len} full of {fill}\n {program} {got:?}, buffer and scratch as they should be: \
             {same:?}\n   model {answer:?}\n{}",
            dump(file)
        );
    }
    tally.add(answer.number);
}
