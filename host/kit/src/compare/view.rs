//! The audit with a list for a viewer, by the proved library and by the model.

use super::table::{dump, first, hold, Table};
use super::{answer_of, small_copy, Tally};
use programs::ffi;
use programs::ffi::view::Row;
use second::Answer;
use second::{audit, view};

/// Audits with tables and a list of these lengths, start, part, owner and list, all full of garbage before. The answer,
/// and the records of a pass.
pub fn view(tally: &mut Tally, file: &[u8], lengths: [usize; 4]) -> (Answer, Vec<Row>) {
    let (answer, rows) = view::view(file, lengths.into_iter().min().unwrap());
    let rows: Vec<Row> = rows.iter().map(record_of).collect();
    let copy = small_copy(file);
    let garbage = tally.garbage();
    let fill = tally.fill();
    let [start_len, part_len, owner_len, list_len] = lengths;
    let mut tables = [start_len, part_len, owner_len].map(|len| Table::new(len, fill, garbage));
    let record = |number| Row { start: number, size: number ^ 1, part: number, owner: number ^ 2 };
    let mut list = Table::new(list_len, record(fill), record(garbage));
    let lent = tables.each_mut().map(Table::lent);
    let got = answer_of(garbage, |place, count| ffi::view::view(file, lent, list.lent(), place, count));
    let rows_hold = hold(&mut tables, rows.iter().map(|row| [row.start, row.part, row.owner]));
    if got != answer || !rows_hold || !list.holds(rows.iter().copied()) {
        let tables = first(&mut tables);
        let list = list.lent().iter().take(40).collect::<Vec<_>>();
        panic!(
            "view with lengths {lengths:?}\n library {got:?} {tables:?} {list:?}\n   model {answer:?} {rows:?}\n{}",
            dump(file)
        );
    }
    assert!(copy.is_none_or(|copy| copy == file), "the view changed the file");
    tally.add(answer.number);
    (answer, rows)
}

/// The second program's record in the numbers of the C interface.
fn record_of(record: &view::Row) -> Row {
    let audit::Row { start, part, owner } = record.row;
    Row { start, size: record.size, part, owner }
}

/// Views with room for every piece and `more`, each of the four in turn the shortest; and, where there are pieces, with
/// each of them in turn too short by one. The answer of the first, and its records.
pub fn view_in_turn(tally: &mut Tally, file: &[u8], more: usize) -> (Answer, Vec<Row>) {
    let pieces = audit::pieces(file).unwrap_or(3);
    let first = view(tally, file, [pieces + more; 4]);
    for shortest in 0..4 {
        let mut lengths = [3, 1, 7, [2, 9][more % 2]].map(|surplus| pieces + more + surplus);
        lengths[shortest] = pieces + more;
        assert_eq!(view(tally, file, lengths), first, "{lengths:?}");
        if pieces > 0 {
            lengths[shortest] = pieces - 1;
            view(tally, file, lengths);
        }
    }
    first
}
