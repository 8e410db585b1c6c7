//! A StreamerInfo record read by the proved library, by the fast program and by the model.

use super::table::{dump, Table};
use super::{answer_of, small_copy, Tally};
use programs::ffi;
use second::fast;
use second::streamer::{self, Row};
use second::Answer;

/// A reader of the record at hand into a table.
type Run<'a> = &'a dyn Fn(&mut [u32]) -> Answer;

/// Reads the record at `at` with a table of `len` numbers. The answer, and the rows of a success.
pub fn read_info(tally: &mut Tally, file: &[u8], at: u64, len: usize) -> (Answer, Vec<Row>) {
    let (answer, rows) = streamer::read_info(file, at, len);
    let numbers = rows.concat();
    let copy = small_copy(file);
    let garbage = tally.garbage();
    let library =
        |table: &mut [u32]| answer_of(garbage, |place, count| ffi::info::read_info(file, at, table, place, count));
    let fast = |table: &mut [u32]| fast::info::read_info(file, at, table);
    let programs: [(&str, Run); 2] = [("library", &library), ("fast program", &fast)];
    for (program, read) in programs {
        let mut table = Table::new(len, garbage as u32, garbage as u32);
        let got = read(table.lent());
        if got != answer || !table.holds(numbers.iter().copied()) {
            let table: Vec<u32> = table.lent().iter().take(60).copied().collect();
            panic!(
                "read_info at {at} with a table of {len}\n {program} {got:?} {table:?}\n   model {answer:?} {rows:?}\n{}",
                dump(file)
            );
        }
    }
    assert!(copy.is_none_or(|copy| copy == file), "read_info changed the file");
    tally.add(answer.number);
    (answer, rows)
}
