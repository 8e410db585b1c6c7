//! A page about one file: self-contained HTML, with the file as a drawing to scale, and no script.
//!
//! - `bar`: the drawing.
//! - `tables`: totals by part, pieces, and those around a fault.
//! - `tree`: the directories.

use super::facts::Facts;
use super::pieces::{self, Piece};
use super::verdict::Verdict;
use super::words::{self, grouped};
use super::{escape, version};
use std::io::{self, Write};

mod bar;
mod tables;
mod tree;

const STYLE: &str = include_str!("page/style.css");

/// What the page is about. Without a pass `pieces` are those that the chain has up to its first fault.
struct Subject<'a> {
    verdict: &'a Verdict,
    file: &'a [u8],
    pieces: Vec<Piece>,
    /// Where the chain of a refused file breaks off.
    broken: Option<u64>,
}

impl<'a> Subject<'a> {
    fn new(verdict: &'a Verdict, file: &'a [u8]) -> io::Result<Self> {
        let (pieces, broken) = match verdict {
            Verdict::Passed(tables) => (collect(&mut pieces::of_pass(tables))?, None),
            Verdict::Refused(refused) => {
                let mut walk = pieces::of_refusal(&refused.answer, file);
                (collect(&mut walk)?, walk.stopped.map(|(_, place)| place))
            }
            Verdict::Failed(_) => (Vec::new(), None),
        };
        Ok(Subject { verdict, file, pieces, broken })
    }

    fn len(&self) -> u64 {
        self.file.len() as u64
    }

    /// Where the part of the file ends that was reached: the header's end where there is no piece.
    fn reached(&self) -> u64 {
        self.pieces.last().map_or(pieces::BEGIN, Piece::end).min(self.len())
    }

    /// The number and place of a refusal.
    fn fault(&self) -> Option<(u64, u64)> {
        match self.verdict {
            Verdict::Refused(refused) => Some((refused.answer.number, refused.answer.place)),
            _ => None,
        }
    }
}

/// All pieces, unless there is no memory for them.
fn collect(pieces: &mut dyn Iterator<Item = Piece>) -> io::Result<Vec<Piece>> {
    let mut all = Vec::new();
    for piece in pieces {
        all.try_reserve(1).map_err(|_| io::ErrorKind::OutOfMemory)?;
        all.push(piece);
    }
    Ok(all)
}

/// The page of a file that was audited.
pub fn write(
    out: &mut dyn Write,
    name: &str,
    verdict: &Verdict,
    facts: &Facts,
    words: &str,
    file: &[u8],
) -> io::Result<()> {
    let subject = Subject::new(verdict, file)?;
    write_top(out, name, verdict, words)?;
    write_verdict(out, name, &subject)?;
    write_facts(out, facts)?;
    write_unsaid(out, verdict)?;
    bar::write(out, &subject)?;
    tables::write_around(out, &subject)?;
    tables::write_totals(out, &subject)?;
    tree::write(out, &subject)?;
    tables::write_pieces(out, &subject)?;
    write_end(out)
}

/// The page of a file that was not.
pub fn failed(name: &str, facts: &Facts, why: &str) -> Vec<u8> {
    let mut page = Vec::new();
    let verdict = Verdict::Failed(why.into());
    let written = write_top(&mut page, name, &verdict, why)
        .and_then(|()| write_box(&mut page, &["NOT AUDITED", why, "Do not clear the disk."], name, "bad"))
        .and_then(|()| write_facts(&mut page, facts))
        .and_then(|()| write_end(&mut page));
    // A vector takes all that is written.
    debug_assert!(written.is_ok());
    page
}

/// A text in HTML.
fn html(text: &str) -> String {
    text.replace('&', "&amp;").replace('<', "&lt;").replace('>', "&gt;").replace('"', "&quot;")
}

/// Bytes of the file as a text in HTML.
fn name_of(bytes: &[u8]) -> String {
    html(&escape::text(bytes))
}

fn write_top(out: &mut dyn Write, name: &str, verdict: &Verdict, words: &str) -> io::Result<()> {
    let passed = matches!(verdict, Verdict::Passed(_));
    let title = if passed { "passed" } else { "NO PASS" };
    writeln!(
        out,
        "<!DOCTYPE html>\n<html lang=\"en\">\n<head>\n<meta charset=\"utf-8\">\n\
         <meta name=\"viewport\" content=\"width=device-width, initial-scale=1\">\n\
         <meta http-equiv=\"Content-Security-Policy\" content=\"default-src 'none'; style-src 'unsafe-inline'\">\n\
         <title>{title}: {}</title>\n<meta name=\"description\" content=\"{}\">\n<style>\n{STYLE}</style>\n</head>\n<body>",
        html(name),
        html(words)
    )
}

/// The verdict in words, red unless it is a pass.
fn write_verdict(out: &mut dyn Write, name: &str, subject: &Subject) -> io::Result<()> {
    match subject.verdict {
        Verdict::Passed(tables) => {
            let count = format!("PASSED: {} pieces", grouped(tables.start.len() as u64));
            write_box(out, &[&count, "Every piece of the file keeps every rule."], name, "good")
        }
        Verdict::Refused(refused) => {
            let ((what, next), answer) = (words::told(refused, subject.file), refused.answer);
            let number = format!("REFUSED: {} at byte {}", answer.number, grouped(answer.place));
            let next = format!("Now: {next}.");
            write_box(out, &[&number, &what, &next, "Do not clear the disk."], name, "bad")
        }
        Verdict::Failed(why) => write_box(out, &["NOT AUDITED", why, "Do not clear the disk."], name, "bad"),
    }
}

/// A heading and lines, about the file of this name.
fn write_box(out: &mut dyn Write, lines: &[&str], name: &str, class: &str) -> io::Result<()> {
    writeln!(out, "<header class=\"{class}\">\n<p class=\"name\">{}</p>", html(name))?;
    for (nth, line) in lines.iter().enumerate() {
        let tag = if nth == 0 { "h1" } else { "p" };
        writeln!(out, "<{tag}>{}</{tag}>", html(line))?;
    }
    writeln!(out, "</header>")
}

/// When it was made, and of which file.
fn write_facts(out: &mut dyn Write, facts: &Facts) -> io::Result<()> {
    let known = |fact: Option<String>| fact.unwrap_or("not known".into());
    let read = match (facts.read, facts.fetched) {
        (true, true) => "given: every byte was fetched",
        (true, false) => "given, but not every byte was fetched",
        (false, _) => "not given: the data of objects need not have been fetched",
    };
    writeln!(out, "<section>\n<h2>This audit</h2>\n<dl>")?;
    for (label, fact) in [
        ("made", facts.time()),
        ("length of the file", known(facts.bytes().map(|bytes| grouped(bytes) + " bytes"))),
        ("its content changed last (mtime)", known(facts.modified())),
        ("its entry changed last (ctime)", known(facts.changed())),
        ("--read", read.into()),
    ] {
        writeln!(out, "<dt>{label}</dt><dd>{fact}</dd>")?;
    }
    writeln!(out, "</dl>\n</section>")
}

const PASS_UNSAID: [&str; 3] = [
    "It is no checksum: the data of objects are not unpacked or looked into, so a wrong byte there goes unseen. Without \
     --read they need not be fetched, so a bad sector there may go unseen too.",
    "A record that no directory lists is no fault.",
    "It speaks of the file as it was when it was read.",
];

const REFUSAL_UNSAID: [&str; 3] = [
    "Only the first rule that is broken is told, in a fixed order. There may be more.",
    "What is drawn and listed below is no verdict: it is what could be read, one piece after another.",
    "It speaks of the file as it was when it was read.",
];

fn write_unsaid(out: &mut dyn Write, verdict: &Verdict) -> io::Result<()> {
    let lines = match verdict {
        Verdict::Passed(_) => PASS_UNSAID,
        Verdict::Refused(_) => REFUSAL_UNSAID,
        Verdict::Failed(_) => return Ok(()),
    };
    writeln!(out, "<section>\n<h2>What this does not say</h2>\n<ul>")?;
    for line in lines {
        writeln!(out, "<li>{line}</li>")?;
    }
    writeln!(out, "</ul>\n</section>")
}

fn write_end(out: &mut dyn Write) -> io::Result<()> {
    writeln!(out, "<footer>{}</footer>\n</body>\n</html>", html(&version::line()))
}
