//! The audit through the C interface beside the two Rust programs, on the same files in one run. Arguments name
//! shapes; without any all are measured.

use kit::gen::shapes::{self, Shape};
use kit::rivals::Program;
use kit::timing::{best_used, is_long, print, print_bar, quotient, Line};
use programs::ffi::view::{self, Row as ListRow};
use second::audit::{self, Row, BEGIN};
use std::env;
use std::time::Duration;

const PIECES: [usize; 3] = [1_000, 20_000, 200_000];
/// How often each size has its turn, and for what has no bar.
const TURNS: usize = 30;
const FEW_TURNS: usize = 8;
/// Runs of a program in one turn: after the first it finds the file in the cache as the others do.
const RUNS: usize = 3;
/// The shapes with bars: files as they would be written, with narrow offsets and with wide ones.
const WITH_BARS: [&str; 2] = ["tree", "wide"];
/// Of the library's time to the second program's, and of the time for 200,000 pieces to that for 20,000.
const MOST_RATIO: f64 = 1.5;
const MOST_GROWTH: f64 = 15.0;

fn main() {
    let names: Vec<String> = env::args().skip(1).collect();
    let is_chosen = |shape: &&Shape| names.is_empty() || names.iter().any(|name| name == shape.name);
    for shape in shapes::ALL.iter().filter(is_chosen) {
        let has_bars = WITH_BARS.contains(&shape.name);
        let (lines, views, walks) = measure(shape, if has_bars { TURNS } else { FEW_TURNS });
        print(&format!("audit, {}", shape.name), "pieces", &lines);
        if has_bars {
            print_bars(&lines);
        }
        print_views(&lines, &views);
        print_walks(&walks);
    }
}

fn print_bars(lines: &[Line; 3]) {
    for line in lines {
        print_bar(&format!("library/second, {} pieces", line.items), line.ratio(Program::Second), MOST_RATIO);
    }
    let [before, last] = [1, 2].map(|line: usize| lines[line].times[Program::Library as usize]);
    print_bar("growth of the library, 200000/20000", quotient(last, before), MOST_GROWTH);
}

/// The audit with a list for a viewer, beside the audit without.
fn print_views(lines: &[Line; 3], views: &[Duration; 3]) {
    let ratios = [0, 1, 2].map(|nth: usize| quotient(views[nth], lines[nth].times[Program::Library as usize]));
    let [first, second, third] = views;
    println!("with a list for a viewer: {first:.1?}, {second:.1?}, {third:.1?}, {ratios:.2?} of the library's");
}

/// What grows faster than the pieces here is the cost of memory, not of the audit.
fn print_walks(walks: &[Duration; 3]) {
    let [first, second, third] = walks;
    let growth = quotient(*third, *second);
    println!("to follow the sizes alone: {first:.1?}, {second:.1?}, {third:.1?}, growth 200000/20000: {growth:.2}");
    println!();
}

/// A file, and the tables to audit it into: start, part and owner; and the viewer's list.
struct Case {
    file: Vec<u8>,
    tables: [Vec<u64>; 3],
    list: Vec<ListRow>,
}

impl Case {
    fn new(shape: &Shape, pieces: usize) -> Self {
        let file = (shape.plan)(pieces).build().bytes;
        let mut case = Case { file, tables: [0; 3].map(|_| vec![0; pieces]), list: vec![ListRow::default(); pieces] };
        assert_eq!(case.walk(), pieces, "{}", shape.name);
        case.check();
        case
    }

    /// All three give the same rows.
    fn check(&mut self) {
        let (_, rows) = audit::audit(&self.file, self.pieces());
        let column = |field: fn(&Row) -> u64| rows.iter().map(field).collect::<Vec<u64>>();
        let expected = [column(|row| row.start), column(|row| row.part), column(|row| row.owner)];
        for program in [Program::Library, Program::Fast] {
            self.clear();
            self.audit(program);
            assert!(self.tables == expected, "other rows of {}", program.name());
        }
    }

    fn pieces(&self) -> usize {
        self.tables[0].len()
    }

    fn audit(&mut self, program: Program) {
        let answer = program.audit(&self.file, self.tables.each_mut().map(Vec::as_mut_slice));
        assert_eq!((answer.number, answer.count), (0, self.pieces() as u64), "{}", program.name());
    }

    fn view(&mut self) {
        let (mut place, mut count) = (0, 0);
        let tables = self.tables.each_mut().map(Vec::as_mut_slice);
        let number = view::view(&self.file, tables, &mut self.list, &mut place, &mut count);
        assert_eq!((number, count), (0, self.pieces() as u64), "view");
    }

    /// Follows the sizes from piece to piece: how many there are.
    fn walk(&self) -> usize {
        let (mut at, mut pieces) = (BEGIN, 0);
        while let Some(size) = self.file.get(at..).and_then(|rest| rest.first_chunk()) {
            at += i32::from_be_bytes(*size).unsigned_abs() as usize;
            pieces += 1;
        }
        pieces
    }

    fn clear(&mut self) {
        for table in &mut self.tables {
            table.fill(0);
        }
    }

    fn clear_all(&mut self) {
        self.clear();
        self.list.fill(ListRow::default());
    }

    /// One turn: the shortest times so far of all programs, of the view and of the walk.
    fn turn(&mut self, times: &mut [Duration; 3], view: &mut Duration, walk: &mut Duration) {
        for program in Program::ALL {
            let time = &mut times[program as usize];
            if !is_long(*time) {
                *time = (*time).min(best_used(RUNS, self, Case::clear, |case| case.audit(program)));
            }
        }
        *view = (*view).min(best_used(RUNS, self, Case::clear_all, |case| case.view()));
        *walk = (*walk).min(best_used(RUNS, self, Case::clear, |case| case.walk()));
    }
}

/// All sizes in turn: a line for each, the time with a list, and that to follow the sizes alone.
fn measure(shape: &Shape, turns: usize) -> ([Line; 3], [Duration; 3], [Duration; 3]) {
    let mut cases = PIECES.map(|pieces| Case::new(shape, pieces));
    let mut times = [[Duration::MAX; 3]; 3];
    let mut views = [Duration::MAX; 3];
    let mut walks = [Duration::MAX; 3];
    for _ in 0..turns {
        for (nth, case) in cases.iter_mut().enumerate() {
            case.turn(&mut times[nth], &mut views[nth], &mut walks[nth]);
        }
    }
    let line = |nth: usize| Line { items: cases[nth].pieces(), bytes: cases[nth].file.len(), times: times[nth] };
    ([0, 1, 2].map(line), views, walks)
}
