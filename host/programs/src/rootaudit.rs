//! The command `rootaudit`: whole files audited through the C interface, a line a file.
//!
//! - `options`: the command line; `about`: what the command says of itself, and which options there are.
//! - `named`: the names of all files.
//! - `version`: what the program is made of; `numbers`: what the numbers mean.
//! - `mapped`, `stamp`: a file as bytes, and how a change of it is seen; `advice`: how the system is to fetch it.
//! - `verdict`: the audit of one file, with tables of the size that it needs.
//! - `finding`: all that is to be told of one file; `message`: how it is told.
//! - `facts`: when an audit was made, and of which file; `header`: where a file says that its records end.
//! - `apart`: files audited in processes of their own; `process`, `shared`, `reach`: what that takes.
//! - `report`: what is told of all files, in the order of their names.
//! - `pieces`: the pieces of a file, and what their keys say.
//! - `words`, `json`, `page`: what is told, as lines, as JSON and as a page; `escape`: names in them.
//! - `tally`: the last line and the exit status.
//! - `output`, `buffer`: standard output with every step checked, and text that is kept until it may go there.
//! - `own`: whether the output would go into a file that is audited.
//! - `newfile`: a page that is there whole or not at all.
//! - `screen`, `progress`: standard output, and a line for a terminal while audits take long.
//! - `fault`: the end of a process whose file can no longer be read.
//!
//! The audit is a parameter, so that the tests can put another in its place.

use crate::ffi::version::HEADER;
use crate::ffi::Answer;
use finding::Look;
use options::{Options, Request};
use own::Obstacle;
use report::Report;
use screen::Screen;
use std::ffi::{OsStr, OsString};
use std::io::{self, Write};
use verdict::Verdict;

pub mod about;
pub mod advice;
mod apart;
mod buffer;
pub mod escape;
pub mod facts;
pub mod fault;
mod finding;
mod header;
pub mod json;
pub mod mapped;
pub mod message;
mod named;
pub mod newfile;
pub mod numbers;
pub mod options;
pub mod output;
pub mod own;
mod page;
pub mod pieces;
mod process;
pub mod progress;
pub mod reach;
mod report;
mod screen;
pub mod shared;
pub mod stamp;
pub mod tally;
pub mod verdict;
pub mod version;
pub mod words;

/// Exit statuses. The greatest of all files counts.
pub const PASSED: u8 = 0;
pub const REFUSED: u8 = 1;
pub const FAILED: u8 = 2;

/// An audit of a whole file into three tables of one length: start, part and owner.
pub type Audit<'a> = &'a dyn Fn(&[u8], [&mut [u64]; 3]) -> Answer;

/// The audit of the proved library.
pub use crate::ffi::audit::answer as library;

/// Where the command writes. `terminal` is standard error, if that is a terminal.
pub struct Console<'a> {
    pub out: &'a mut dyn Write,
    pub errors: &'a mut dyn Write,
    pub terminal: Option<&'a mut (dyn Write + Send)>,
}

/// Where the files are audited.
#[derive(Clone, Copy, Debug, PartialEq, Eq)]
enum Way {
    /// In this process, one after the other.
    Here,
    /// In processes of their own, where there is no other thread.
    Apart,
}

/// The whole command over a library of this version, in this process alone: its exit status.
pub fn run_with(
    version: u64,
    arguments: impl IntoIterator<Item = OsString>,
    audit: Audit,
    console: &mut Console,
) -> u8 {
    run_by(Way::Here, version, arguments, audit, console)
}

/// The same over a library of the right version.
pub fn run(arguments: impl IntoIterator<Item = OsString>, audit: Audit, console: &mut Console) -> u8 {
    run_with(HEADER, arguments, audit, console)
}

/// The command over the library, as a program that writes to its standard output and has no other thread: other
/// processes audit the files.
pub fn run_apart(arguments: impl IntoIterator<Item = OsString>, console: &mut Console) -> u8 {
    run_by(Way::Apart, crate::ffi::version::library(), arguments, &library, console)
}

fn run_by(
    way: Way,
    version: u64,
    arguments: impl IntoIterator<Item = OsString>,
    audit: Audit,
    console: &mut Console,
) -> u8 {
    if let Some(message) = version::mismatch(version) {
        return fail(console.errors, &message);
    }
    let done = match options::parse(arguments) {
        Request::Audit(options) => match named::all(&options) {
            Ok(files) => audit_all(way, &files, &options, audit, console),
            Err(why) => return fail(console.errors, &why),
        },
        Request::Print(text) => print(console.out, text.as_bytes()).map(|()| PASSED),
        Request::Wrong(message) => return fail(console.errors, &format!("{message}\n{}", options::USAGE)),
    };
    done.unwrap_or_else(|error| fail(console.errors, &format!("output: {error}")))
}

fn print(out: &mut dyn Write, text: &[u8]) -> io::Result<()> {
    out.write_all(text)?;
    out.flush()
}

fn fail(errors: &mut dyn Write, message: &str) -> u8 {
    // There is nowhere else to say it.
    let _ = writeln!(errors, "rootaudit: {message}");
    FAILED
}

fn audit_all(way: Way, files: &[OsString], options: &Options, audit: Audit, console: &mut Console) -> io::Result<u8> {
    if way == Way::Apart {
        match own::check(files) {
            Ok(()) => (),
            Err(Obstacle::Output(why)) => return Err(io::Error::other(why)),
            Err(Obstacle::Errors) => return Ok(FAILED),
        }
    }
    if let Some(page) = &options.html {
        newfile::check(page).map_err(report::page_error)?;
    }
    let terminal = console.terminal.as_mut().map(|terminal| &mut **terminal as &mut (dyn Write + Send));
    let mut report = Report::new(files, options, Screen::new(console.out, terminal));
    match way {
        Way::Here => audit_here(files, options, audit, &mut report)?,
        Way::Apart => apart::audit(&apart::Task { files, options, audit }, options.jobs, &mut report)?,
    }
    report.finish()
}

fn audit_here(files: &[OsString], options: &Options, audit: Audit, report: &mut Report) -> io::Result<()> {
    let look = Look { audit, step: &|_, _| () };
    files.iter().enumerate().try_for_each(|(nth, path)| {
        finding::tell(path, options, &look, &mut |message| report.hear(nth, message))?;
        // Whatever becomes of the next file, this line is out.
        report.screen.flush()
    })
}

/// Maps a file and audits it.
pub fn audit_file(path: &OsStr, audit: Audit) -> Verdict {
    finding::of(path, &Options::default(), audit).verdict
}
