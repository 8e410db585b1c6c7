//! All that is to be told of one file. Its verdict and its page are made while it is mapped; then it is looked whether
//! the file is still the same, and only then anything is told. Rows may be many: they are told as they are made, and
//! the file is looked at again behind them.

use super::buffer::{Buffer, Lines};
use super::facts::Facts;
use super::mapped::Mapped;
use super::message::{Hear, Message, CHUNK};
use super::options::Options;
use super::shared::Step;
use super::verdict::{self, Verdict};
use super::{json, page, words, Audit, PASSED};
use std::ffi::OsStr;
use std::io::{self, Write};

pub struct Finding {
    pub verdict: Verdict,
    facts: Facts,
    /// What its line says.
    words: String,
    /// Its page, if it is wanted.
    pub page: Vec<u8>,
}

/// How one file is looked at: the audit, and who hears how many bytes each step has done.
pub struct Look<'a> {
    pub audit: Audit<'a>,
    pub step: &'a dyn Fn(Step, u64),
}

/// What is said of a file that is no longer the one that was opened.
const CHANGED: &str = "not audited: it was changed, replaced or removed meanwhile";

/// Maps a file, audits it, and makes what is to be told of it.
pub fn of(path: &OsStr, options: &Options, audit: Audit) -> Finding {
    let found = find(path, options, &Look { audit, step: &|_, _| () });
    found.map_or_else(|why| Finding::failed(path, options, why), |(finding, _)| finding)
}

/// The same, and tells it.
pub fn tell(path: &OsStr, options: &Options, look: &Look, hear: Hear) -> io::Result<()> {
    match find(path, options, look) {
        Ok((finding, file)) => finding.tell(path, options, Some(&file), look, hear),
        Err(why) => Finding::failed(path, options, why).tell(path, options, None, look, hear),
    }
}

fn find(path: &OsStr, options: &Options, look: &Look) -> Result<(Finding, Mapped), String> {
    let unread = |why| format!("could not be read: {why}");
    let file = Mapped::open(path).map_err(unread)?;
    file.advise();
    let mut verdict = verdict::examine(file.bytes(), look.audit);
    (look.step)(Step::Reached, file.bytes().len() as u64);
    // What is no pass needs no more bytes.
    let fetched = options.read && verdict.status() == PASSED;
    if fetched {
        file.read_all(&|bytes| (look.step)(Step::Fetched, bytes)).map_err(unread)?;
        verdict = verdict::examine(file.bytes(), look.audit);
    }
    let finding =
        Finding::new(path, options, verdict, fetched, &file).map_err(|error| format!("not audited: {error}"))?;
    if !file.is_unchanged(path) {
        return Err(CHANGED.into());
    }
    Ok((finding, file))
}

impl Finding {
    fn new(path: &OsStr, options: &Options, verdict: Verdict, fetched: bool, file: &Mapped) -> io::Result<Self> {
        let bytes = file.bytes();
        let words = words::said(&verdict, bytes);
        let facts = Facts::now(Some(file.stamp()), options.read, fetched);
        let mut page = Buffer::default();
        if options.html.is_some() {
            page::write(&mut page, &words::name(path), &verdict, &facts, &words, bytes)?;
        }
        Ok(Finding { verdict, facts, words, page: page.0 })
    }

    /// A file that was not audited, and why.
    pub fn failed(path: &OsStr, options: &Options, why: String) -> Self {
        let facts = Facts::now(None, options.read, false);
        let page = if options.html.is_some() { page::failed(&words::name(path), &facts, &why) } else { Vec::new() };
        Finding { verdict: Verdict::Failed(why.clone()), facts, words: why, page }
    }

    pub fn status(&self) -> u8 {
        self.verdict.status()
    }

    fn line(&self, path: &OsStr, json: bool) -> String {
        if json {
            json::object(path, &self.verdict, &self.facts, &self.words)
        } else {
            words::line(&words::name(path), &self.words)
        }
    }

    /// Its line without rows.
    pub fn write(&self, out: &mut dyn Write, path: &OsStr, json: bool) -> io::Result<()> {
        out.write_all(self.line(path, json).as_bytes())
    }

    /// What follows its line.
    fn write_rows(&self, out: &mut dyn Write, options: &Options, file: &[u8]) -> io::Result<()> {
        match (options.rows, options.json) {
            (true, true) => json::write_rows(out, &self.verdict, file),
            (true, false) => words::write_rows(out, &self.verdict, file),
            (false, _) => Ok(()),
        }
    }

    /// Counts the rows of a pass that go out, as a share of the file's bytes.
    fn told<'a>(&self, bytes: u64, look: &'a Look) -> impl FnMut(&Message) + 'a {
        let all = if let Verdict::Passed(tables) = &self.verdict { tables.start.len() as u128 } else { 0 };
        let mut rows = 0;
        move |message| {
            if let (Message::Rows(lines), 1..) = (message, all) {
                rows += lines.iter().filter(|&&byte| byte == b'\n').count() as u128;
                (look.step)(Step::Told, (u128::from(bytes) * rows / all) as u64);
            }
        }
    }

    fn tell(&self, path: &OsStr, options: &Options, file: Option<&Mapped>, look: &Look, hear: Hear) -> io::Result<()> {
        let (status, stamp) = (self.status(), self.facts.stamp);
        let is_shown = !(options.quiet && status == PASSED);
        let line = if is_shown { self.line(path, options.json) } else { String::new() };
        hear(Message::Found { status, stamp, line: line.as_bytes() })?;
        self.page.chunks(CHUNK).try_for_each(|page| hear(Message::Page(page)))?;
        if !is_shown {
            return hear(Message::Done);
        }
        let bytes = file.map_or(&[][..], Mapped::bytes);
        let mut told = self.told(bytes.len() as u64, look);
        let mut hear_rows = |message: Message| {
            told(&message);
            hear(message)
        };
        let mut rows = Lines::new(&mut hear_rows);
        let written = self.write_rows(&mut rows, options, bytes);
        match written.and_then(|()| rows.finish()) {
            // It is said elsewhere.
            Err(error) if rows.is_broken => Err(error),
            Err(error) => hear(Message::Lost(&format!("not audited: its rows: {error}"))),
            Ok(()) if options.rows && file.is_some_and(|file| !file.is_unchanged(path)) => hear(Message::Lost(CHANGED)),
            Ok(()) => hear(Message::Done),
        }
    }
}
