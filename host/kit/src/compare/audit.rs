//! The audit of one file by the proved library, by the fast program and by the model.

use super::table::{dump, first, hold, Table};
use super::{answer_of, small_copy, Tally};
use programs::ffi;
use second::audit::{self, Row};
use second::fast;
use second::{number, rules, Answer, Mode};

/// An audit of the file at hand into three tables.
type Run<'a> = &'a dyn Fn([&mut [u64]; 3]) -> Answer;

/// The library's audit in each mode.
fn of_library(mode: Mode) -> fn(&[u8], [&mut [u64]; 3], &mut u64, &mut u64) -> u64 {
    match mode {
        Mode::Compared => ffi::audit::audit,
        Mode::Apart => ffi::audit::audit_salvaged,
    }
}

/// Audits with tables of these lengths. The answer, and the rows of a pass.
pub fn audit(tally: &mut Tally, file: &[u8], lengths: [usize; 3]) -> (Answer, Vec<Row>) {
    audit_in(Mode::Compared, tally, file, lengths)
}

/// The same by either audit.
pub fn audit_in(mode: Mode, tally: &mut Tally, file: &[u8], lengths: [usize; 3]) -> (Answer, Vec<Row>) {
    let [start_len, part_len, owner_len] = lengths;
    let (answer, rows) = audit::audit_in(mode, file, start_len.min(part_len).min(owner_len));
    let copy = small_copy(file);
    let garbage = tally.garbage();
    let fill = tally.fill();
    let library =
        |tables: [&mut [u64]; 3]| answer_of(garbage, |place, count| of_library(mode)(file, tables, place, count));
    let fast = |tables: [&mut [u64]; 3]| fast::audit::audit_in(mode, file, tables);
    let programs: [(&str, Run); 2] = [("library", &library), ("fast program", &fast)];
    for (program, run) in programs {
        let mut tables = lengths.map(|len| Table::new(len, fill, garbage));
        let got = run(tables.each_mut().map(Table::lent));
        expect(&format!("{program}, {mode:?}"), file, (got, tables), (answer, &rows));
    }
    assert!(copy.is_none_or(|copy| copy == file), "the audit changed the file");
    tally.add(answer.number);
    (answer, rows)
}

/// Fails unless a program answered and wrote what the model has.
fn expect(program: &str, file: &[u8], got: (Answer, [Table<u64>; 3]), model: (Answer, &[Row])) {
    let (got, mut tables) = got;
    let (answer, rows) = model;
    if got != answer || !hold(&mut tables, rows.iter().map(numbers)) {
        let lengths = tables.each_mut().map(|table| table.lent().len());
        let tables = first(&mut tables);
        panic!(
            "audit with tables of {lengths:?}\n {program} {got:?} {tables:?}\n   model {answer:?} {rows:?}\n{}",
            dump(file)
        );
    }
}

/// What the tables hold of a row.
pub(super) fn numbers(row: &Row) -> [u64; 3] {
    [row.start, row.part, row.owner]
}

/// Audits with tables that have room for every piece, the shortest of them `more` than needed.
pub fn audit_with_room(tally: &mut Tally, file: &[u8], more: usize) -> (Answer, Vec<Row>) {
    audit_with_room_in(Mode::Compared, tally, file, more)
}

fn audit_with_room_in(mode: Mode, tally: &mut Tally, file: &[u8], more: usize) -> (Answer, Vec<Row>) {
    audit_in(mode, tally, file, lengths(tally, file, more))
}

/// Those of tables that have room for every piece, the shortest of them `more` than needed.
pub(super) fn lengths(tally: &Tally, file: &[u8], more: usize) -> [usize; 3] {
    let pieces = audit::pieces(file).unwrap_or(3) + more;
    match tally.inputs % 3 {
        0 => [pieces, pieces + 1, pieces + 5],
        1 => [pieces + 2, pieces, pieces],
        _ => [pieces + 3, pieces + 1, pieces],
    }
}

/// By both audits, the answer of each. They differ only where the first one answers 9 and the other goes on.
pub fn both_audits(tally: &mut Tally, file: &[u8]) -> [Answer; 2] {
    both(tally, file, |mode, tally, file| audit_with_room_in(mode, tally, file, 0))
}

/// The same by the rules too. A small file only.
pub fn both_by_rules(tally: &mut Tally, file: &[u8]) -> [Answer; 2] {
    both(tally, file, audit_by_rules_in)
}

type Audited = (Answer, Vec<Row>);

fn both(tally: &mut Tally, file: &[u8], audit: impl Fn(Mode, &mut Tally, &[u8]) -> Audited) -> [Answer; 2] {
    let [compared, apart] = Mode::BOTH.map(|mode| audit(mode, tally, file));
    let differ = compared.0.number == number::FREE && apart.0.number != number::FREE;
    assert!(differ || compared == apart, "{compared:?} {apart:?}\n{}", dump(file));
    assert!(!differ || apart.0.number == number::SUCCESS || apart.0.number > number::FREE);
    [compared.0, apart.0]
}

/// The same, and the file passes exactly if one assignment meets the rules, and has its rows. A small
/// file only.
pub fn audit_by_rules(tally: &mut Tally, file: &[u8]) -> (Answer, Vec<Row>) {
    audit_by_rules_in(Mode::Compared, tally, file)
}

fn audit_by_rules_in(mode: Mode, tally: &mut Tally, file: &[u8]) -> (Answer, Vec<Row>) {
    let (answer, rows) = audit_with_room_in(mode, tally, file, 0);
    let assignments = rules::assignments_in(mode, file);
    let expected = if answer.number == 0 { vec![rows.clone()] } else { Vec::new() };
    assert!(assignments == expected, "{answer:?} {rows:?}\n rules {assignments:?}\n{}", dump(file));
    (answer, rows)
}
