//! The command line.

use super::about::PROGRAM;
use super::version;
use crate::usage::line::{self, Asked, Line};
use crate::usage::Usage;
use std::ffi::OsString;

pub const USAGE: Usage = Usage(&PROGRAM);

/// The most files that are audited at once.
const MOST_JOBS: u64 = 1024;

/// What is wrong with the names of files.
pub const NO_FILE: &str = "no file is named";
pub const ONE_FILE: &str = "--html is for one file";
const BESIDES: &str = "--files0-from names all files: name no file and no folder besides";

/// What the command line asks for.
#[derive(Debug, PartialEq, Eq)]
pub enum Request {
    Audit(Options),
    Print(String),
    /// It is wrong, and how.
    Wrong(String),
}

#[derive(Debug, PartialEq, Eq)]
pub struct Options {
    pub rows: bool,
    pub json: bool,
    pub quiet: bool,
    pub read: bool,
    pub expect: Option<u64>,
    pub html: Option<OsString>,
    /// How many files are audited at once, at least 1.
    pub jobs: usize,
    /// The files that are named; `named` has all.
    pub files: Vec<OsString>,
    /// Where the names of all files stand; `-` is standard input.
    pub files0_from: Option<OsString>,
    /// The folders whose files are audited.
    pub below: Vec<OsString>,
}

impl Default for Options {
    fn default() -> Self {
        Options {
            rows: false,
            json: false,
            quiet: false,
            read: false,
            expect: None,
            html: None,
            jobs: 1,
            files: Vec::new(),
            files0_from: None,
            below: Vec::new(),
        }
    }
}

/// Takes the arguments, without the name of the program.
pub fn parse(arguments: impl IntoIterator<Item = OsString>) -> Request {
    let request = line::read(&PROGRAM, arguments.into_iter().collect()).and_then(|asked| {
        Ok(match asked {
            Asked::Help => Request::Print(PROGRAM.help()),
            Asked::Version => Request::Print(version::text()),
            Asked::Work(line) => Request::Audit(checked(options(line)?)?),
        })
    });
    request.unwrap_or_else(Request::Wrong)
}

fn options(mut line: Line) -> Result<Options, String> {
    Ok(Options {
        rows: line.has("--rows"),
        json: line.has("--json"),
        quiet: line.has("--quiet"),
        read: line.has("--read"),
        expect: line.once("--expect", "a number of files", line::number)?,
        html: line.once("--html", "the name of a page", line::name)?,
        jobs: line.once("-j", "a number of files, 1 to 1024", jobs)?.unwrap_or(1),
        files0_from: line.once("--files0-from", "the name of a list, or -", line::name)?,
        below: line.every("-r", "a folder", line::name)?,
        files: line.files()?,
    })
}

/// Refuses what is wrong whatever the list and the folders have.
fn checked(options: Options) -> Result<Options, String> {
    let is_listed = options.files0_from.is_some();
    match (options.files.len(), options.below.len()) {
        (0, 0) if !is_listed => Err(NO_FILE.into()),
        (1.., _) | (_, 1..) if is_listed => Err(BESIDES.into()),
        (2.., _) if options.html.is_some() => Err(ONE_FILE.into()),
        _ => Ok(options),
    }
}

fn jobs(value: OsString) -> Option<usize> {
    line::number(value).filter(|jobs| (1..=MOST_JOBS).contains(jobs))?.try_into().ok()
}
