//! The command line, taken by a program's table of options: `--name VALUE` and `--name=VALUE`, `-x VALUE` and
//! `-xVALUE`, options and files in any order, and files alone after `--`. What could be meant in another way is
//! refused: an option that is also the name of a file here, which `*` may have named.

use super::{Argument, Program, Switch, END, HELP};
use std::ffi::{OsStr, OsString};
use std::os::unix::ffi::OsStrExt;
use std::{fs, mem};

/// What a command line asks for.
pub enum Asked {
    Help,
    Version,
    Work(Line),
}

/// Options and files.
pub struct Line {
    options: &'static [Switch],
    /// Each option by its flag, and the value that it has.
    given: Vec<(&'static str, Option<OsString>)>,
    files: Vec<OsString>,
    /// The arguments that were taken for something else than a file.
    taken: Vec<OsString>,
}

const VERSION: &str = "--version";
const STANDARD_INPUT: &str = "standard input cannot be audited or listed: it is no file that could be looked at \
                              again; a file named - is ./-";

/// Whether it stands alone: beside anything else it would leave files out.
pub fn is_alone(option: &Switch) -> bool {
    [HELP.flag(), VERSION].contains(&option.flag())
}

/// Takes the arguments, without the name of the program.
pub fn read(program: &Program, arguments: Vec<OsString>) -> Result<Asked, String> {
    match alone(program, &arguments) {
        Some(asked) => refuse_files(&arguments, &[]).map(|()| asked),
        None => together(program, arguments).map(Asked::Work),
    }
}

/// What an option asks for that stands alone.
fn alone(program: &Program, arguments: &[OsString]) -> Option<Asked> {
    let [argument] = arguments else { return None };
    match found(program, argument)? {
        (option, None) if option.flag() == HELP.flag() => Some(Asked::Help),
        (option, None) if option.flag() == VERSION => Some(Asked::Version),
        _ => None,
    }
}

/// The arguments in turn.
fn together(program: &Program, arguments: Vec<OsString>) -> Result<Line, String> {
    let mut line = Line { options: program.options, given: Vec::new(), files: Vec::new(), taken: Vec::new() };
    let mut arguments = arguments.into_iter().peekable();
    while let Some(argument) = arguments.next() {
        if argument == END.flag() {
            line.files.extend(arguments.by_ref());
        } else if argument == "-" {
            return Err(STANDARD_INPUT.into());
        } else if is_option(&argument) {
            let (option, joined) = known(program, &argument)?;
            let next = || arguments.next_if(|next| option.argument != Argument::None && !is_option(next));
            let value = joined.map(OsStr::to_owned).or_else(next);
            // A number that stands by itself may be meant as the name of a file.
            if joined.is_none() && matches!(option.argument, Argument::Number(_)) {
                line.taken.extend(value.clone());
            }
            line.given.push((option.flag(), value));
        } else {
            line.files.push(argument);
            continue;
        }
        line.taken.push(argument);
    }
    refuse_files(&line.taken, &line.files)?;
    Ok(line)
}

/// An option that does not stand alone, and the value that is joined to it.
fn known<'a>(program: &Program, argument: &'a OsStr) -> Result<(&'static Switch, Option<&'a OsStr>), String> {
    match found(program, argument) {
        None => Err(format!("unknown option {argument:?}; for a file write ./ before its name")),
        Some((option, _)) if is_alone(option) => Err(format!("{argument:?} stands alone, or it is a file")),
        Some((option, Some(_))) if option.argument == Argument::None => {
            Err(format!("{} takes no value", option.flag()))
        }
        Some(known) => Ok(known),
    }
}

/// The option that an argument is, and the value that is joined to it.
fn found<'a>(program: &Program, argument: &'a OsStr) -> Option<(&'static Switch, Option<&'a OsStr>)> {
    let bytes = argument.as_bytes();
    let (flag, value) = if bytes.starts_with(b"--") {
        let mut parts = bytes.splitn(2, |&byte| byte == b'=');
        (parts.next()?, parts.next())
    } else {
        let (flag, value) = bytes.split_at_checked(2)?;
        (flag, Some(value).filter(|value| !value.is_empty()))
    };
    let option = program.options.iter().find(|option| option.flags.iter().any(|name| name.as_bytes() == flag))?;
    Some((option, value.map(OsStr::from_bytes)))
}

/// Refuses an argument that was taken for something else and is a file here that is not named.
fn refuse_files(taken: &[OsString], files: &[OsString]) -> Result<(), String> {
    let is_named = |name: &OsStr| files.iter().any(|file| file == name || here(file) == Some(name.as_bytes()));
    let Some(name) = taken.iter().find(|name| fs::symlink_metadata(name).is_ok() && !is_named(name)) else {
        return Ok(());
    };
    let advice = match is_option(name) {
        true if *name == END.flag() => "and ./-- for this one",
        true => "or `--` before them",
        false => "or join a number to its option, as --expect=19 does",
    };
    Err(format!("{name:?} is also the name of a file here: write ./ before the names of files, as ./* does, {advice}"))
}

/// The name of a file after `./`.
fn here(file: &OsStr) -> Option<&[u8]> {
    file.as_bytes().strip_prefix(b"./")
}

/// A lone `-` is none.
fn is_option(argument: &OsStr) -> bool {
    let bytes = argument.as_encoded_bytes();
    bytes.starts_with(b"-") && bytes.len() > 1
}

/// A number is digits alone.
pub fn number(value: OsString) -> Option<u64> {
    let digits = value.to_str()?;
    digits.bytes().all(|byte| byte.is_ascii_digit()).then(|| digits.parse().ok())?
}

/// The name of a file or a folder.
pub fn name(value: OsString) -> Option<OsString> {
    Some(value).filter(|name| !name.is_empty())
}

impl Line {
    /// Whether an option was given. What was asked for is done with.
    pub fn has(&mut self, flag: &str) -> bool {
        !self.take(flag).is_empty()
    }

    /// The values of an option, and what it wants for a message.
    pub fn every<T>(
        &mut self,
        flag: &str,
        wants: &str,
        read: impl Fn(OsString) -> Option<T>,
    ) -> Result<Vec<T>, String> {
        let values = self.take(flag).into_iter().map(|value| value.and_then(&read));
        values.collect::<Option<Vec<T>>>().ok_or_else(|| format!("{flag} wants {wants}"))
    }

    /// The value of an option that may be said once.
    pub fn once<T>(
        &mut self,
        flag: &str,
        wants: &str,
        read: impl Fn(OsString) -> Option<T>,
    ) -> Result<Option<T>, String> {
        let mut values = self.every(flag, wants, read)?;
        match values.len() {
            0 | 1 => Ok(values.pop()),
            _ => Err(format!("{flag} is said twice")),
        }
    }

    /// The files, when every option was asked for.
    pub fn files(self) -> Result<Vec<OsString>, String> {
        match self.given.first() {
            None => Ok(self.files),
            Some((flag, _)) => Err(format!("{flag} is not carried out")),
        }
    }

    fn take(&mut self, flag: &str) -> Vec<Option<OsString>> {
        debug_assert!(self.options.iter().any(|option| option.flag() == flag), "{flag} is not in the table");
        let (taken, left): (Vec<_>, Vec<_>) = mem::take(&mut self.given).into_iter().partition(|given| given.0 == flag);
        self.given = left;
        taken.into_iter().map(|(_, value)| value).collect()
    }
}
