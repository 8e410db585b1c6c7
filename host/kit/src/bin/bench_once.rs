//! One program, once, on one file: for counting its instructions, as `host/run-counts` does.
//!
//!     bench_once make WHAT ITEMS FILE
//!     bench_once run PROGRAM WHAT ITEMS FILE
//!
//! WHAT is a shape of file to audit, or to salvage; `info`, a StreamerInfo record; `options`, one of small classes with
//! options; or `tags`, the smallest such record with all twelve new tags. ITEMS are the pieces, of a file to salvage about
//! the bytes, the elements, or how many times `tags` is read.
//! PROGRAM is library, second, fast, or none, which only reads the file.

use kit::compare::salvage::enough;
use kit::gen::{broken, infos, shapes};
use kit::rivals::Program;
use second::streamer::KINDS;
use second::{number, Answer};
use std::hint::black_box;
use std::{env, fs, process};

const INFO: &str = "info";
const OPTIONS: &str = "options";
const TAGS: &str = "tags";

fn main() {
    let arguments: Vec<String> = env::args().skip(1).collect();
    let arguments: Vec<&str> = arguments.iter().map(String::as_str).collect();
    let done = match arguments[..] {
        ["make", what, items, path] => number(items).and_then(|items| make(what, items, path)),
        ["run", program, what, items, path] => number(items).and_then(|items| run(program, what, items, path)),
        _ => Err("make WHAT ITEMS FILE, or run PROGRAM WHAT ITEMS FILE".into()),
    };
    if let Err(message) = done {
        eprintln!("bench_once: {message}");
        process::exit(2);
    }
}

fn number(text: &str) -> Result<usize, String> {
    text.parse().map_err(|_| format!("{text} is no number"))
}

/// The shape of a file to salvage of this name.
fn to_salvage(what: &str) -> Option<&'static broken::Shape> {
    broken::ALL.iter().find(|shape| shape.name == what)
}

fn make(what: &str, items: usize, path: &str) -> Result<(), String> {
    let to_audit = shapes::ALL.iter().find(|shape| shape.name == what);
    let bytes = match (to_audit, to_salvage(what)) {
        (Some(shape), _) => (shape.plan)(items).build().bytes,
        (_, Some(shape)) => (shape.bytes)(items),
        _ if what == INFO => infos::of_elements(items).bytes,
        _ if what == OPTIONS => infos::of_options(items).bytes,
        _ if what == TAGS => infos::of_tags().bytes,
        _ => return Err(format!("no shape {what}")),
    };
    fs::write(path, bytes).map_err(|error| format!("{path}: {error}"))
}

fn run(program: &str, what: &str, items: usize, path: &str) -> Result<(), String> {
    let mut file = fs::read(path).map_err(|error| format!("{path}: {error}"))?;
    let Some(program) = Program::ALL.into_iter().find(|known| known.name() == program) else {
        return if program == "none" { Ok(()) } else { Err(format!("no program {program}")) };
    };
    let (answer, count) = match what {
        INFO | OPTIONS => (read(program, &file, items, 1), items),
        TAGS => (read(program, &file, KINDS.len(), items), KINDS.len()),
        _ if to_salvage(what).is_some() => return salvage(program, &mut file),
        _ => (audit(program, &file, items), items),
    };
    let expected = Answer::success(count as u64);
    (answer == expected).then_some(()).ok_or_else(|| format!("{path}: {answer:?}"))
}

fn salvage(program: Program, file: &mut [u8]) -> Result<(), String> {
    let mut seen = vec![0; enough(file)];
    let answer = program.salvage(file, &mut seen);
    (answer.number == number::SUCCESS).then_some(()).ok_or_else(|| format!("{answer:?}"))
}

fn audit(program: Program, file: &[u8], pieces: usize) -> Answer {
    let mut tables = [0; 3].map(|_| vec![0; pieces]);
    program.audit(file, tables.each_mut().map(Vec::as_mut_slice))
}

/// Reads a record this many times, at least once: the last answer.
fn read(program: Program, file: &[u8], elements: usize, reads: usize) -> Answer {
    let mut table = vec![0; 6 * elements];
    for _ in 1..reads {
        program.read_info(black_box(file), black_box(&mut table));
    }
    program.read_info(file, &mut table)
}
