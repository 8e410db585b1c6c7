//! The StreamerInfo reader through the C interface beside the two Rust readers, on the same records in one run:
//! large ones, without options and with them, and a small one in which every class is new.

use kit::gen::infos::{of_elements, of_options, of_tags, Info};
use kit::rivals::Program;
use kit::timing::{best_used, print, print_one_of, shorter, Line};
use second::streamer;
use std::hint::black_box;
use std::time::Duration;

const ELEMENTS: [usize; 3] = [1_000, 10_000, 100_000];
/// How often each program has its turn, and its runs in one.
const TURNS: usize = 10;
const RUNS: usize = 3;
/// How often the small record is read in a run.
const READS: usize = 10_000;

fn main() {
    let lines = ELEMENTS.map(|elements| measure(&of_elements(elements), 1));
    print("read_info, all ten kinds, 20 elements to a class", "elements", &lines);
    let lines = ELEMENTS.map(|elements| measure(&of_options(elements), 1));
    print("read_info, 2 elements to a class, an option after each", "elements", &lines);
    let line = measure(&of_tags(), READS);
    print_one_of(READS, "read_info, all twelve new tags, the time for one record", "elements", &[line]);
}

/// The times of so many reads of a record.
fn measure(info: &Info, reads: usize) -> Line {
    let elements = info.rows.len();
    let mut table = vec![1; 6 * elements];
    let read = |program: Program, table: &mut Vec<u32>| {
        let answer = program.read_info(black_box(&info.bytes), table);
        assert_eq!((answer.number, answer.count), (0, elements as u64), "{}", program.name());
    };
    for program in [Program::Library, Program::Fast] {
        table.fill(1);
        read(program, &mut table);
        assert!(table == info.rows.concat(), "other rows of {}", program.name());
    }
    assert!(streamer::read_info(&info.bytes, 0, table.len()).1 == info.rows, "other rows of the second program");
    let run = |program: Program, table: &mut Vec<u32>| (0..reads).for_each(|_| read(program, black_box(table)));
    let turn = |table: &mut Vec<u32>| {
        Program::ALL.map(|program| best_used(RUNS, table, |table| table.fill(0), |table| run(program, table)))
    };
    let times = (0..TURNS).fold([Duration::MAX; 3], |times, _| shorter(times, turn(&mut table)));
    Line { items: elements, bytes: info.bytes.len(), times }
}
