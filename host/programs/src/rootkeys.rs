//! The command `rootkeys`: lists the pieces of ROOT files from byte 100 on, through the C interface.
//!
//! It lists and does NOT audit: the file header, directories, keys lists and the free list are not
//! looked at, so exit status 0 is no pass.
//!
//! - `about`: what the command says of itself, and which options there are.
//! - `form`: what is printed, as lines and as JSON.

use crate::ffi;
use crate::rootaudit::mapped::Mapped;
use crate::rootaudit::own::{self, Obstacle};
use crate::rootaudit::pieces::{Walk, BEGIN};
use crate::rootaudit::{fault, version};
use crate::usage::line::{self, Asked};
use crate::usage::Usage;
use about::PROGRAM;
use form::{End, Form};
use std::ffi::{OsStr, OsString};
use std::io::{self, Write};

pub mod about;
mod form;

const WALKED: u8 = 0;
const REFUSED: u8 = 1;
const FAILED: u8 = 2;

/// Where the command writes.
pub struct Console<'a> {
    pub out: &'a mut dyn Write,
    pub errors: &'a mut dyn Write,
}

/// The whole command: its exit status.
pub fn run(arguments: impl IntoIterator<Item = OsString>, console: &mut Console) -> u8 {
    if let Some(message) = version::mismatch(ffi::version::library()) {
        return console.fail(&message);
    }
    let done = match line::read(&PROGRAM, arguments.into_iter().collect()) {
        Ok(Asked::Help) => console.print(PROGRAM.help().as_bytes()),
        Ok(Asked::Version) => console.print(version::text().replacen("rootaudit", PROGRAM.name, 1).as_bytes()),
        Ok(Asked::Work(mut line)) => {
            let form = if line.has("--json") { Form::Json } else { Form::Text };
            match line.files() {
                Ok(files) if files.is_empty() => return console.wrong("no file is named"),
                Ok(files) => list_files(&files, form, console),
                Err(wrong) => return console.wrong(&wrong),
            }
        }
        Err(wrong) => return console.wrong(&wrong),
    };
    done.unwrap_or_else(|error| console.fail(&format!("output: {error}")))
}

impl Console<'_> {
    fn print(&mut self, text: &[u8]) -> io::Result<u8> {
        self.out.write_all(text)?;
        self.out.flush()?;
        Ok(WALKED)
    }

    fn fail(&mut self, message: &str) -> u8 {
        // There is nowhere else to say it.
        let _ = writeln!(self.errors, "{}: {message}", PROGRAM.name);
        FAILED
    }

    fn wrong(&mut self, message: &str) -> u8 {
        self.fail(&format!("{message}\n{}", Usage(&PROGRAM)))
    }
}

fn list_files(files: &[OsString], form: Form, console: &mut Console) -> io::Result<u8> {
    match own::check(files) {
        Ok(()) => (),
        Err(Obstacle::Output(why)) => return Err(io::Error::other(why)),
        Err(Obstacle::Errors) => return Ok(FAILED),
    }
    files.iter().try_fold(WALKED, |status, path| Ok(status.max(list_file(path, form, console)?)))
}

/// Prints the list of a file: its exit status.
fn list_file(path: &OsStr, form: Form, console: &mut Console) -> io::Result<u8> {
    let _text = fault::expect(form.stopped(path, fault::STOPPED).into());
    let listed = match Mapped::open(path) {
        Ok(file) if (file.bytes().len() as u64) < BEGIN => {
            Err(format!("could not be read: shorter than {BEGIN} bytes"))
        }
        Ok(file) => {
            let status = list(path, file.bytes(), form, console.out)?;
            file.is_unchanged(path).then_some(status).ok_or("it was changed, replaced or removed meanwhile".into())
        }
        Err(why) => Err(format!("could not be read: {why}")),
    };
    let status = match listed {
        Ok(status) => status,
        Err(why) => {
            console.out.write_all(form.failed(path, &why).as_bytes())?;
            console.fail(&format!("{}: {why}", crate::rootaudit::words::name(path)))
        }
    };
    console.out.flush()?;
    Ok(status)
}

/// Prints each piece in turn, up to the end of the file or the first refusal, and which of the two it was.
fn list(path: &OsStr, file: &[u8], form: Form, out: &mut dyn Write) -> io::Result<u8> {
    let mut walk = Walk::new(file);
    let mut pieces = 0;
    for piece in walk.by_ref() {
        out.write_all(form.piece(path, &piece, file).as_bytes())?;
        pieces += 1;
    }
    let end = End { pieces, refusal: walk.stopped };
    out.write_all(form.end(path, &end).as_bytes())?;
    Ok(if end.refusal.is_some() { REFUSED } else { WALKED })
}
