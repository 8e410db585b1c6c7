//! What a program says of itself, as data: one table from which its help, its manual, README's table and the
//! completions of three shells are made, and by which its command line is taken.
//!
//! - `line`: the command line.
//! - `help`, `manual`, `markdown`, `shells`: what is made of the table.
//!
//! In texts a word between backquotes is written as it stands. The first clause of an option's text stands for the
//! whole where there is little room.

use std::fmt::{self, Display, Formatter};

mod help;
pub mod line;
mod manual;
pub mod markdown;
mod shells;

pub struct Program {
    pub name: &'static str,
    /// What it does, in a few words.
    pub about: &'static str,
    /// What stands after the options.
    pub operands: &'static str,
    /// For the help and for the manual.
    pub description: &'static [Block],
    pub options: &'static [Switch],
    pub statuses: &'static [(u8, &'static str)],
    /// For the manual alone.
    pub sections: &'static [Section],
}

/// An option of the command line.
#[derive(Debug, PartialEq, Eq)]
pub struct Switch {
    /// All ways to write it; the last is the one by which a program asks for it.
    pub flags: &'static [&'static str],
    pub argument: Argument,
    pub help: &'static str,
}

/// What an option wants, by the name that the help has for it.
#[derive(Clone, Copy, Debug, PartialEq, Eq)]
pub enum Argument {
    None,
    Number(&'static str),
    File(&'static str),
    Folder(&'static str),
}

pub struct Section {
    pub title: &'static str,
    pub blocks: &'static [Block],
}

pub enum Block {
    /// Sentences.
    Text(&'static str),
    /// Lines that are written as they stand.
    Lines(&'static str),
    /// Words, each with sentences about it.
    Terms(fn() -> Vec<(String, String)>),
}

/// What every program has.
pub const HELP: Switch =
    Switch { flags: &["-h", "--help"], argument: Argument::None, help: "print the help. It stands alone" };
pub const END: Switch = Switch { flags: &["--"], argument: Argument::None, help: "what follows are files" };

impl Argument {
    pub fn name(self) -> Option<&'static str> {
        match self {
            Argument::None => None,
            Argument::Number(name) | Argument::File(name) | Argument::Folder(name) => Some(name),
        }
    }
}

impl Switch {
    /// The way to write it by which a program asks for it.
    pub fn flag(&self) -> &'static str {
        self.flags.last().unwrap_or(&"")
    }

    /// Its flags and its argument, each flag written by `flag` and the argument by `argument`.
    fn label(&self, flag: impl Fn(&str) -> String, argument: impl Fn(&str) -> String) -> String {
        let flags: Vec<String> = self.flags.iter().map(|name| flag(name)).collect();
        let argument = self.argument.name().map_or(String::new(), |name| format!(" {}", argument(name)));
        flags.join(", ") + &argument
    }

    /// The first clause of its text, without backquotes.
    fn brief(&self) -> String {
        let end = [". ", ": ", "; "].iter().filter_map(|end| self.help.find(end)).min();
        self.help[..end.unwrap_or(self.help.len())].replace('`', "")
    }
}

impl Program {
    /// The options that do not stand alone, but for `--`.
    fn together(&self) -> impl Iterator<Item = &'static Switch> {
        self.options.iter().filter(|option| !line::is_alone(option) && option.flag() != END.flag())
    }

    /// The options that stand alone.
    fn alone(&self) -> impl Iterator<Item = &'static Switch> {
        self.options.iter().filter(|option| line::is_alone(option))
    }
}

/// How a program is used, for the end of a message.
pub struct Usage(pub &'static Program);

impl Display for Usage {
    fn fmt(&self, out: &mut Formatter) -> fmt::Result {
        out.write_str(&self.0.usage())
    }
}

/// Words in lines of up to `width` characters.
pub fn wrapped(text: &str, width: usize) -> Vec<String> {
    let mut lines: Vec<String> = Vec::new();
    for word in text.split_whitespace() {
        match lines.last_mut() {
            Some(line) if line.chars().count() + 1 + word.chars().count() <= width => {
                line.push(' ');
                line.push_str(word);
            }
            _ => lines.push(word.into()),
        }
    }
    lines
}
