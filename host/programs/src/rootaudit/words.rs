//! What is printed of a file.

use super::escape;
use super::header::{self, Header};
use super::pieces::{self, Piece};
use super::verdict::{FirstEnd, Refusal, Verdict};
use crate::ffi::{number, Answer};
use std::ffi::OsStr;
use std::io::{self, Write};

/// A file's name on one line.
pub fn name(path: &OsStr) -> String {
    escape::text(path.as_encoded_bytes())
}

/// A line about a file.
pub fn line(name: &str, words: &str) -> String {
    format!("{name}: {words}\n")
}

/// What a line says of a file, after its name.
pub fn said(verdict: &Verdict, file: &[u8]) -> String {
    match verdict {
        Verdict::Passed(tables) => format!("passed {}", tables.start.len()),
        Verdict::Refused(refused) => {
            let ((what, next), answer) = (told(refused, file), refused.answer);
            format!("refused {} at {}: {what}; now: {next}", answer.number, answer.place)
        }
        Verdict::Failed(why) => why.clone(),
    }
}

/// What to do next.
pub const AGAIN: &str = "copy it again; if that is refused too, keep both and call an analyst";
pub const LOOK: &str = "see what it is; if it should be a ROOT file, copy it again, and keep both";
pub const WAIT: &str = "if the recorder still writes it, wait; else copy it again, and keep both";
pub const KEEP: &str = "if the recorder still writes it, wait; else keep it as it is and call an analyst";

/// A refusal in words, with what is known of the first END bytes.
pub fn told(refused: &Refusal, file: &[u8]) -> (String, &'static str) {
    let (what, next) = refusal(&refused.answer, file);
    match refused.first_end {
        None => (what, next),
        Some(first) => {
            (format!("{what}: {}", by_themselves(&first, file)), if first.would_pass() { next } else { WAIT })
        }
    }
}

/// The first END bytes, and those behind them.
fn by_themselves(first: &FirstEnd, file: &[u8]) -> String {
    let (bytes, behind) = (grouped(first.bytes), file.len() as u64 - first.bytes);
    let stand = if behind == 1 { "byte stands" } else { "bytes stand" };
    let (would, why) = if first.would_pass() {
        ("pass".into(), ", as an append that was cut off leaves them")
    } else {
        (format!("be refused with {} at {}", first.answer.number, first.answer.place), "")
    };
    format!("its first {bytes} bytes by themselves would {would}, and {} {stand} behind them{why}", grouped(behind))
}

/// A refusal in words: what is wrong, and what to do next. "Here" is the place that stands before them.
pub fn refusal(answer: &Answer, file: &[u8]) -> (String, &'static str) {
    let (what, next) = match answer.number {
        number::SHORT => ("shorter than the header of a ROOT file, 100 bytes", AGAIN),
        number::MAGIC => ("no ROOT file: it does not begin with \"root\"", LOOK),
        number::WIDE => ("Version and Units in its header disagree", AGAIN),
        number::BOUNDS => return (bounds(file), if header::first_end(file).is_some() { KEEP } else { WAIT }),
        number::CHAIN => ("no record and no gap of a possible size stands here", AGAIN),
        number::KEY => ("the record here has a damaged key, or says that it stands elsewhere", AGAIN),
        number::HEAD => ("the record of the file itself, which stands here, is damaged", AGAIN),
        number::FREE => {
            ("the list of free space, which should stand here, is damaged or is not that of the gaps", AGAIN)
        }
        number::INFO => ("the StreamerInfo record, which should stand here, is damaged or missing", AGAIN),
        number::DIRECTORY => ("the directory here has a damaged header", AGAIN),
        number::KEYS => ("the list of a directory's keys, which should stand here, is damaged or missing", AGAIN),
        number::ENTRY => ("the entry here in a list of keys is not that of a record of its directory", AGAIN),
        number::TWICE => {
            ("the directory, or the entry of a list, that stands here claims a record a second time", AGAIN)
        }
        _ => ("a number that the audit does not give", AGAIN),
    };
    (what.into(), next)
}

/// What is wrong with the bounds in the file header.
fn bounds(file: &[u8]) -> String {
    let len = file.len() as u64;
    let Header { begin, end } = Header::of(file).unwrap_or(Header { begin: 0, end: 0 });
    if end != len {
        format!("its header says {} bytes, it has {}", grouped(end), grouped(len))
    } else if begin != pieces::BEGIN {
        format!("its header says that its records begin at byte {}, and not at 100", grouped(begin))
    } else {
        format!("it has {} bytes, and a file with four-byte offsets has at most 1,999,999,999", grouped(len))
    }
}

/// A number with a comma after each three digits.
pub fn grouped(number: u64) -> String {
    let digits = number.to_string();
    let mut text = String::new();
    for (nth, digit) in digits.chars().enumerate() {
        if nth > 0 && (digits.len() - nth) % 3 == 0 {
            text.push(',');
        }
        text.push(digit);
    }
    text
}

/// A line a piece. Those of a pass begin as the program `rootmap` prints them, with place, size, part and owner;
/// behind tabs follow a record's class, and its name and cycle. Those of a refused file are marked.
pub fn write_rows(out: &mut dyn Write, verdict: &Verdict, file: &[u8]) -> io::Result<()> {
    match verdict {
        Verdict::Passed(tables) => pieces::of_pass(tables).try_for_each(|piece| {
            write!(out, "{} {} {} {}", piece.start, piece.size, piece.kind_name(), piece.owner)?;
            write_key(out, &piece, file)
        }),
        Verdict::Refused(refused) => pieces::of_refusal(&refused.answer, file).try_for_each(|piece| {
            write!(out, "no verdict: {} {} {}", piece.start, piece.size, piece.kind_name())?;
            write_key(out, &piece, file)
        }),
        Verdict::Failed(_) => Ok(()),
    }
}

/// Whether the chain of pieces is broken at the refusal's place.
pub fn is_break(answer: &Answer) -> bool {
    [number::CHAIN, number::KEY].contains(&answer.number)
}

/// The rest of a piece's line.
fn write_key(out: &mut dyn Write, piece: &Piece, file: &[u8]) -> io::Result<()> {
    if let Some(key) = pieces::key_at(file, piece.start) {
        write!(out, "\t{}\t{};{}", escape::text(key.class), escape::text(key.name), key.cycle)?;
    }
    writeln!(out)
}
