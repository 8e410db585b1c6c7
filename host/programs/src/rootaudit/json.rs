//! The same as objects of JSON, one a line.

use super::facts::Facts;
use super::pieces::{self, Piece};
use super::verdict::{FirstEnd, Refusal, Verdict};
use super::{escape, version};
use crate::ffi::Answer;
use std::ffi::OsStr;
use std::io::{self, Write};

/// A text as a string of JSON. What is not seen, or changes how other characters are shown, is escaped.
pub fn string(text: &str) -> String {
    let mut quoted = String::from("\"");
    for c in text.chars() {
        match c {
            '"' | '\\' => quoted.extend(['\\', c]),
            ' '..='~' => quoted.push(c),
            _ if escape::is_plain(c) => quoted.push(c),
            _ => push_units(&mut quoted, c),
        }
    }
    quoted.push('"');
    quoted
}

/// A character as JSON escapes it: one or two units of UTF-16.
fn push_units(quoted: &mut String, c: char) {
    for unit in c.encode_utf16(&mut [0; 2]) {
        quoted.push_str(&format!("\\u{unit:04x}"));
    }
}

/// A number, or null.
pub fn number(value: Option<u64>) -> String {
    value.map_or("null".into(), |value| value.to_string())
}

/// A text as a string, or null.
fn text(value: Option<&str>) -> String {
    value.map_or("null".into(), string)
}

/// The line of a file: an object.
pub fn object(path: &OsStr, verdict: &Verdict, facts: &Facts, words: &str) -> String {
    let (told, first_end) = match verdict {
        Verdict::Passed(_) => ("passed", None),
        Verdict::Refused(Refusal { first_end, .. }) => ("refused", *first_end),
        Verdict::Failed(_) => ("not read", None),
    };
    let answer = verdict.answer();
    let [code, place, count] =
        [|a: Answer| a.number, |a: Answer| a.place, |a: Answer| a.count].map(|field| number(answer.map(field)));
    let [read, fetched] = [facts.read, facts.fetched].map(|fact| fact.to_string());
    let fields = [
        ("name", string(&escape::ascii(path.as_encoded_bytes()))),
        ("verdict", string(told)),
        ("number", code),
        ("place", place),
        ("count", count),
        ("bytes", number(facts.bytes())),
        ("words", string(words)),
        ("path", text(path.to_str())),
        ("modified", text(facts.modified().as_deref())),
        ("changed", text(facts.changed().as_deref())),
        ("time", string(&facts.time())),
        ("read", read),
        ("fetched", fetched),
        ("version", string(&version::line())),
        ("first_end", first_end.map_or("null".into(), |first| first_bytes(&first))),
    ];
    let fields = fields.map(|(name, value)| format!("\"{name}\":{value}")).join(",");
    format!("{{{fields}}}\n")
}

/// What the first END bytes would be. Number and place are those of a refusal alone: a line that is no pass has
/// nowhere the number of one.
fn first_bytes(first: &FirstEnd) -> String {
    let refusal = Some(first.answer).filter(|_| !first.would_pass());
    let [code, place] = [|a: Answer| a.number, |a: Answer| a.place].map(|field| number(refusal.map(field)));
    let (bytes, count) = (first.bytes, first.answer.count);
    format!("{{\"bytes\":{bytes},\"number\":{code},\"place\":{place},\"count\":{count}}}")
}

/// A line a piece, behind that of its file: the rows of a pass, or the pieces of a refused file, which are no verdict.
pub fn write_rows(out: &mut dyn Write, verdict: &Verdict, file: &[u8]) -> io::Result<()> {
    match verdict {
        Verdict::Passed(tables) => {
            let owner = |piece: &Piece| format!(",\"owner\":{}", piece.owner);
            write_pieces(out, "row", pieces::of_pass(tables), file, owner)
        }
        Verdict::Refused(refused) => {
            write_pieces(out, "no_verdict", pieces::of_refusal(&refused.answer, file), file, |_| String::new())
        }
        Verdict::Failed(_) => Ok(()),
    }
}

fn write_pieces(
    out: &mut dyn Write,
    kind: &str,
    pieces: impl Iterator<Item = Piece>,
    file: &[u8],
    owner: impl Fn(&Piece) -> String,
) -> io::Result<()> {
    for (nth, piece) in pieces.enumerate() {
        let (start, size, part) = (piece.start, piece.size, piece.kind_name());
        write!(out, "{{\"{kind}\":{nth},\"place\":{start},\"size\":{size},\"part\":\"{part}\"{}", owner(&piece))?;
        if let Some(key) = pieces::key_at(file, start) {
            let [class, name] = [key.class, key.name].map(|bytes| string(&escape::ascii(bytes)));
            write!(out, ",\"class\":{class},\"name\":{name},\"cycle\":{}", key.cycle)?;
        }
        out.write_all(b"}\n")?;
    }
    Ok(())
}
