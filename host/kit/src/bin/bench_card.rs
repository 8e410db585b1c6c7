//! The transfer card through the C interface beside the fast program, and a plain copy of as many bytes, on the same files
//! in one run. The files have five pieces, so that hardly any of the writer's time is the audit's.

use kit::gen::cards::passing;
use kit::gen::Rng;
use kit::rivals::Program;
use kit::timing::{best_used, print_bar, quotient, shorter};
use second::card::card_of;
use second::Answer;
use std::time::Duration;

const BYTES: [usize; 2] = [1_000_000, 100_000_000];
const PROGRAMS: [Program; 2] = [Program::Library, Program::Fast];
/// How often each program has its turn, and its runs in one.
const TURNS: usize = 10;
const RUNS: usize = 3;
/// Of the library's time to the fast program's.
const MOST_RATIO: f64 = 1.1;

fn main() {
    for len in BYTES {
        let mut case = Case::new(len);
        let times = (0..TURNS).fold([Duration::MAX; 5], |times, _| shorter(times, case.turn()));
        let [write, fast_write, read, fast_read, copy] = times;
        println!("card, a file of {len} bytes; of these a second, and a plain copy {}", case.rate(copy));
        for (what, library, fast) in [("write", write, fast_write), ("read", read, fast_read)] {
            let rates = [library, fast].map(|time| case.rate(time));
            let words = format!("{what}: library {library:.1?}, {}, fast {fast:.1?}, {}, ratio", rates[0], rates[1]);
            print_bar(&words, quotient(library, fast), MOST_RATIO);
        }
        println!();
    }
}

/// A file, its card, and room for both and for the audit's rows.
struct Case {
    file: Vec<u8>,
    card: Vec<u8>,
    to_card: Vec<u8>,
    to_file: Vec<u8>,
    tables: [Vec<u64>; 3],
}

impl Case {
    fn new(len: usize) -> Self {
        let file = passing(&mut Rng::new(1), len, false);
        let card = card_of(&file);
        let (to_card, to_file) = (vec![1; card.len()], vec![1; file.len()]);
        Case { file, card, to_card, to_file, tables: [0; 3].map(|_| vec![0; 5]) }
    }

    /// Times of the writer and of the reader, of the library and of the fast program each, and of a copy.
    fn turn(&mut self) -> [Duration; 5] {
        let [write, fast_write] = PROGRAMS.map(|program| {
            let time = best_used(RUNS, self, Case::clear, |case| case.write(program));
            assert!(self.to_card == self.card, "{}", program.name());
            self.to_card.fill(1);
            time
        });
        let [read, fast_read] = PROGRAMS.map(|program| {
            let time = best_used(RUNS, self, |_| (), |case| case.read(program));
            assert!(self.to_file == self.file, "{}", program.name());
            self.to_file.fill(1);
            time
        });
        let copy = best_used(RUNS, self, |_| (), |case| case.to_file.copy_from_slice(&case.file));
        [write, fast_write, read, fast_read, copy]
    }

    fn clear(&mut self) {
        self.tables.iter_mut().for_each(|table| table.fill(0));
    }

    fn write(&mut self, program: Program) {
        let tables = self.tables.each_mut().map(Vec::as_mut_slice);
        let answer = program.write_card(&self.file, &mut self.to_card, tables);
        assert_eq!(answer, Answer::success(self.card.len() as u64));
    }

    fn read(&mut self, program: Program) {
        let answer = program.read_card(&self.card, &mut self.to_file);
        assert_eq!(answer, Answer::success(self.file.len() as u64));
    }

    fn rate(&self, time: Duration) -> String {
        format!("{:.2} GB/s", self.file.len() as f64 / time.as_secs_f64() / 1e9)
    }
}
