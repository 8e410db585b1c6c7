//! Salvage through the C interface beside the fast program, on the same files in one run. Arguments name shapes;
//! without any all are measured. The second program tries each place by a walk of its own, and is not measured.

use kit::compare::salvage::enough;
use kit::gen::broken::{Shape, ALL};
use kit::rivals::Program;
use kit::timing::{best_used, print_bar, quotient, shorter};
use second::Answer;
use std::env;
use std::time::Duration;

const BYTES: [usize; 3] = [100_000, 1_000_000, 10_000_000];
const PROGRAMS: [Program; 2] = [Program::Library, Program::Fast];
/// How often each program has its turn, and its runs in one.
const TURNS: usize = 10;
const RUNS: usize = 3;
/// Of the library's time to the fast program's, and of its time for ten times the bytes.
const MOST_RATIO: f64 = 1.3;
const MOST_GROWTH: f64 = 14.0;

fn main() {
    let names: Vec<String> = env::args().skip(1).collect();
    let is_chosen = |shape: &&Shape| names.is_empty() || names.iter().any(|name| name == shape.name);
    for shape in ALL.iter().filter(is_chosen) {
        println!("salvage, {}", shape.name);
        let times = BYTES.map(|len| measure((shape.bytes)(len)));
        for [library, fast] in times {
            print_bar(&format!("library {library:.1?}, fast {fast:.1?}, ratio"), quotient(library, fast), MOST_RATIO);
        }
        for [small, large] in [[0, 1], [1, 2]] {
            let growth = quotient(times[large][0], times[small][0]);
            print_bar(&format!("growth of the library, {}/{} bytes", BYTES[large], BYTES[small]), growth, MOST_GROWTH);
        }
        println!();
    }
}

/// A file, a scratch, and what stands where the gap is written.
struct Case {
    file: Vec<u8>,
    seen: Vec<u8>,
    answer: Answer,
    before: Vec<u8>,
}

impl Case {
    fn new(mut file: Vec<u8>) -> Self {
        let whole = file.clone();
        let mut seen = vec![0; enough(&file)];
        let answer = Program::Fast.salvage(&mut file, &mut seen);
        let before = whole[answer.place as usize..].iter().take(4).copied().collect();
        Case { file, seen, answer, before }
    }

    /// As it was before the gap was written.
    fn restore(&mut self) {
        self.file[self.answer.place as usize..][..self.before.len()].copy_from_slice(&self.before);
    }

    fn salvage(&mut self, program: Program) {
        let answer = program.salvage(&mut self.file, &mut self.seen);
        assert_eq!(answer, self.answer, "{}", program.name());
    }
}

/// The shortest times of both programs.
fn measure(file: Vec<u8>) -> [Duration; 2] {
    let mut case = Case::new(file);
    let turn =
        |case: &mut Case| PROGRAMS.map(|program| best_used(RUNS, case, Case::restore, |case| case.salvage(program)));
    (0..TURNS).fold([Duration::MAX; 2], |times, _| shorter(times, turn(&mut case)))
}
