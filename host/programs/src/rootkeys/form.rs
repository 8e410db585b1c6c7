//! What is printed of a file: lines of text, or of JSON. Nothing of it is a verdict.

use crate::ffi;
use crate::rootaudit::pieces::{key_at, Piece};
use crate::rootaudit::{escape, json, words};
use std::ffi::OsStr;

#[derive(Clone, Copy)]
pub enum Form {
    Text,
    Json,
}

/// How far the list of a file came: how many pieces, and the number and place of the refusal that ended it.
pub struct End {
    pub pieces: u64,
    pub refusal: Option<(u64, u64)>,
}

impl End {
    fn words(&self) -> String {
        let end = match self.refusal {
            None => "to its end".into(),
            Some((number, place)) => format!("then refused {number} at {place}"),
        };
        format!("no verdict: {} pieces, {end}", self.pieces)
    }
}

impl Form {
    /// A piece.
    pub fn piece(self, path: &OsStr, piece: &Piece, file: &[u8]) -> String {
        let (place, size, kind) = (piece.start, piece.size, piece.kind_name());
        let key = key_at(file, place);
        match self {
            Form::Text => {
                let more = key.map_or(String::new(), |key| {
                    let [class, name] = [key.class, key.name].map(escape::text);
                    format!("\t{class}\t{name};{}\t{}", key.cycle, date(key.datime))
                });
                format!("{place}\t{size}\t{kind}{more}\n")
            }
            Form::Json => {
                let more = key.map_or(String::new(), |key| {
                    let [class, name] = [key.class, key.name].map(ascii);
                    let (cycle, date) = (key.cycle, date(key.datime));
                    format!(",\"class\":{class},\"name\":{name},\"cycle\":{cycle},\"date\":\"{date}\"")
                });
                format!("{},\"place\":{place},\"size\":{size},\"part\":\"{kind}\"{more}}}\n", begin(path))
            }
        }
    }

    /// The end of a file's list.
    pub fn end(self, path: &OsStr, end: &End) -> String {
        match self {
            Form::Text => words::line(&words::name(path), &end.words()),
            Form::Json => {
                let [number, place] = [end.refusal.map(|refusal| refusal.0), end.refusal.map(|refusal| refusal.1)];
                object(path, Some(end.pieces), [number, place], &end.words())
            }
        }
    }

    /// The end of a file that could not be listed. As text standard error alone has it.
    pub fn failed(self, path: &OsStr, why: &str) -> String {
        match self {
            Form::Text => String::new(),
            Form::Json => object(path, None, [None; 2], &format!("no verdict: {why}")),
        }
    }

    /// The end of the command at a file that can no longer be read.
    pub fn stopped(self, path: &OsStr, why: &str) -> String {
        match self {
            Form::Text => words::line(&words::name(path), why),
            Form::Json => self.failed(path, why),
        }
    }
}

/// The begin of an object.
fn begin(path: &OsStr) -> String {
    format!("{{\"file\":{}", ascii(path.as_encoded_bytes()))
}

fn object(path: &OsStr, pieces: Option<u64>, refusal: [Option<u64>; 2], words: &str) -> String {
    let [pieces, number, place] = [pieces, refusal[0], refusal[1]].map(json::number);
    format!(
        "{},\"verdict\":\"no verdict\",\"pieces\":{pieces},\"number\":{number},\"place\":{place},\"words\":{}}}\n",
        begin(path),
        json::string(words)
    )
}

fn ascii(bytes: &[u8]) -> String {
    json::string(&escape::ascii(bytes))
}

fn date(packed: u32) -> String {
    let mut date = [0; 6];
    ffi::unpack_date(packed, &mut date);
    let [year, month, day, hour, minute, second] = date;
    format!("{year}-{month:02}-{day:02} {hour:02}:{minute:02}:{second:02}")
}
