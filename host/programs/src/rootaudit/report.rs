//! What is told of all files, in the order of their names: their lines, their rows and a page, then the last line and
//! the exit status.

use super::buffer::Buffer;
use super::finding::Finding;
use super::message::Message;
use super::newfile;
use super::options::Options;
use super::screen::Screen;
use super::stamp::Stamp;
use super::tally::Tally;
use super::{FAILED, PASSED};
use std::ffi::OsString;
use std::io::{self, Write};

pub struct Report<'a> {
    files: &'a [OsString],
    options: &'a Options,
    pub screen: Screen<'a>,
    tally: Tally,
    /// The files that passed.
    passed: Vec<(usize, Stamp)>,
    page: Buffer,
    /// What was found of the file that is told.
    found: Option<(u8, Option<Stamp>)>,
}

/// What is said of a file that passed and is no longer what it was when all are done.
const LATE: &str = "it was changed, replaced or removed after it was audited";

/// What is said of a file of which a message did not come.
const UNTOLD: &str = "not audited: nothing was found of it";

impl<'a> Report<'a> {
    pub fn new(files: &'a [OsString], options: &'a Options, screen: Screen<'a>) -> Self {
        let tally = Tally::new(files.len(), options.expect);
        Report { files, options, screen, tally, passed: Vec::new(), page: Buffer::default(), found: None }
    }

    /// A message about a file, which no earlier file comes after.
    pub fn hear(&mut self, nth: usize, message: Message) -> io::Result<()> {
        match message {
            Message::Found { status, stamp, line } => {
                self.found = Some((status, stamp));
                self.screen.write_all(line)
            }
            Message::Page(bytes) => self.page.write_all(bytes).map_err(page_error),
            Message::Rows(bytes) => self.screen.write_all(bytes),
            Message::Done => self.settle(nth),
            Message::Lost(why) => self.lose(nth, why),
        }
    }

    /// A file was told to its end.
    fn settle(&mut self, nth: usize) -> io::Result<()> {
        match self.found {
            None | Some((PASSED, None)) => return self.lose(nth, UNTOLD),
            Some((PASSED, Some(stamp))) => self.passed.push((nth, stamp)),
            Some(_) => (),
        }
        if let Some((status, stamp)) = self.found.take() {
            self.tally.add(status, stamp);
        }
        Ok(())
    }

    /// A file was not told to its end. What was said of it does not hold.
    fn lose(&mut self, nth: usize, why: &str) -> io::Result<()> {
        let found = self.found.take();
        self.tally.add(FAILED, found.and_then(|(_, stamp)| stamp));
        match found {
            Some((PASSED, _)) => self.take_back(nth, why.split_once(": ").map_or(why, |(_, why)| why)),
            _ => self.deny(nth, why.into()),
        }
    }

    fn take_back(&mut self, nth: usize, why: &str) -> io::Result<()> {
        self.deny(nth, format!("no pass any more: {why}"))
    }

    /// Says that a file is no pass, on its page too.
    fn deny(&mut self, nth: usize, words: String) -> io::Result<()> {
        let path = &self.files[nth];
        let finding = Finding::failed(path, self.options, words);
        self.screen.end_line()?;
        finding.write(&mut self.screen, path, self.options.json)?;
        self.page = Buffer(finding.page);
        Ok(())
    }

    /// All files are told: what is said at the end, and the exit status.
    pub fn finish(mut self) -> io::Result<u8> {
        let mut is_pass = !self.passed.is_empty();
        // The first may have changed while the others were audited.
        for (nth, stamp) in std::mem::take(&mut self.passed) {
            if !stamp.is_at(&self.files[nth]) {
                is_pass = false;
                self.tally.withdraw();
                self.take_back(nth, LATE)?;
            }
        }
        let status = self.tally.status();
        self.write_last_line()?;
        self.screen.flush()?;
        if let Some(page) = &self.options.html {
            // The page of a pass stands for a command that ends with one.
            if is_pass && status != PASSED {
                let words = format!("no pass of this command: {}", self.tally.line().trim_end());
                self.page = Buffer(Finding::failed(&self.files[0], self.options, words).page);
            }
            newfile::write(page, &self.page.0).map_err(page_error)?;
        }
        Ok(status)
    }

    /// A line at the end, where it says more than the one before it.
    fn write_last_line(&mut self) -> io::Result<()> {
        let is_wanted = self.files.len() != 1 || self.options.quiet || self.options.expect.is_some();
        let line = match (is_wanted, self.options.json) {
            (false, _) => return Ok(()),
            (true, false) => self.tally.line(),
            (true, true) => self.tally.json(),
        };
        self.screen.write_all(line.as_bytes())
    }
}

pub fn page_error(why: io::Error) -> io::Error {
    io::Error::other(format!("the page: {why}"))
}
