//! The transfer card by the proved library, by the fast program and by the model.

use super::audit::{lengths, numbers};
use super::table::{dump, first, hold, Table};
use super::{answer_of, small_copy, Tally};
use programs::ffi;
use second::{card, fast, Answer};

/// Reads the card at hand into an output.
type Read<'a> = &'a dyn Fn(&mut [u8]) -> Answer;

/// Writes the file at hand into an output, and its rows into three tables.
type Write<'a> = &'a dyn Fn(&mut [u8], [&mut [u64]; 3]) -> Answer;

/// Reads a card into an output of so many bytes, which behind the file, and after a refusal, is as it was. The answer, and
/// the file.
pub fn read(tally: &mut Tally, card: &[u8], room: usize) -> (Answer, Vec<u8>) {
    let (answer, file) = card::read(card, room);
    let copy = small_copy(card);
    let garbage = tally.garbage();
    let fill = garbage as u8;
    let library = |out: &mut [u8]| answer_of(garbage, |place, count| ffi::card::read(card, out, place, count));
    let fast = |out: &mut [u8]| fast::card::read(card, out);
    let programs: [(&str, Read); 2] = [("library", &library), ("fast program", &fast)];
    for (program, run) in programs {
        let mut out = Table::new(room, fill, !fill);
        let got = run(out.lent());
        let same = out.holds_before(file.iter().copied(), fill);
        assert!(
            got == answer && same,
            "card to an output of {room} bytes\n {program} {got:?}, output as it should be: {same}\n   model {answer:?}\n{}",
            dump(card)
        );
    }
    assert!(copy.is_none_or(|copy| copy == card), "the reader changed the card");
    tally.add(answer.number);
    (answer, file)
}

/// Writes the card of a file into an output of so many bytes, with tables that have room for every piece. The answer, and
/// the card.
pub fn write(tally: &mut Tally, file: &[u8], room: usize) -> (Answer, Vec<u8>) {
    write_with(tally, file, room, lengths(tally, file, 0))
}

/// The same with tables of these lengths.
pub fn write_with(tally: &mut Tally, file: &[u8], room: usize, lengths: [usize; 3]) -> (Answer, Vec<u8>) {
    let [start_len, part_len, owner_len] = lengths;
    let ((answer, card), rows) = card::write(file, start_len.min(part_len).min(owner_len), room);
    let copy = small_copy(file);
    let garbage = tally.garbage();
    let fill = garbage as u8;
    let library = |out: &mut [u8], tables: [&mut [u64]; 3]| {
        answer_of(garbage, |place, count| ffi::card::write(file, out, tables, place, count))
    };
    let fast = |out: &mut [u8], tables: [&mut [u64]; 3]| fast::card::write(file, out, tables);
    let programs: [(&str, Write); 2] = [("library", &library), ("fast program", &fast)];
    for (program, run) in programs {
        let mut out = Table::new(room, fill, !fill);
        let mut tables = lengths.map(|len| Table::new(len, tally.fill(), garbage));
        let got = run(out.lent(), tables.each_mut().map(Table::lent));
        let same = out.holds_before(card.iter().copied(), fill);
        if got != answer || !same || !hold(&mut tables, rows.iter().map(numbers)) {
            panic!(
                "file to a card of {room} bytes with tables of {lengths:?}\n {program} {got:?} {:?}, card as it should be: \
                 {same}\n   model {answer:?} {rows:?}\n{}",
                first(&mut tables),
                dump(file)
            );
        }
    }
    assert!(copy.is_none_or(|copy| copy == file), "the writer changed the file");
    tally.add(answer.number);
    (answer, card)
}
