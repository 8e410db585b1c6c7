//! The help, and how a program is used.

use super::{wrapped, Block, Program, Switch};

/// How wide the help is, and by how much it is indented.
const WIDTH: usize = 88;
const INDENT: &str = "    ";
/// The greatest width of an option; the text of a wider one begins on the next line.
const LABEL: usize = 16;

impl Program {
    /// A line of use, the description, the options and the exit statuses.
    pub fn help(&self) -> String {
        let mut text = format!("usage: {} [OPTION...] {}\n", self.name, self.operands);
        for block in self.description {
            text += &format!("\n{}", self::block(block));
        }
        text.push('\n');
        let width = self.options.iter().map(|option| label(option).len()).filter(|&len| len <= LABEL).max();
        for option in self.options {
            text += &entry(&label(option), option.help, width.unwrap_or(LABEL));
        }
        text.push_str("\nExit status:\n");
        for (status, words) in self.statuses {
            text += &entry(&status.to_string(), words, 1);
        }
        text
    }

    /// All options on a few lines.
    pub fn usage(&self) -> String {
        let begin = format!("usage: {} ", self.name);
        let options: String =
            self.together().map(|option| format!("[{}] ", label(option).replace(' ', "\0"))).collect();
        let lines = wrapped(&(options + self.operands), WIDTH - begin.len());
        begin.clone() + &lines.join(&format!("\n{}", " ".repeat(begin.len()))).replace('\0', " ")
    }
}

fn label(option: &Switch) -> String {
    option.label(str::to_owned, str::to_owned)
}

fn block(block: &Block) -> String {
    match block {
        Block::Text(text) => wrapped(text, WIDTH).join("\n") + "\n",
        Block::Lines(lines) => lines.lines().map(|line| format!("{INDENT}{line}\n")).collect(),
        Block::Terms(terms) => terms().iter().map(|(term, text)| entry(term, text, LABEL)).collect(),
    }
}

/// A word in a column of this width, and a text beside it.
fn entry(word: &str, text: &str, width: usize) -> String {
    let indent = " ".repeat(width + 4);
    let lines = wrapped(text, WIDTH - indent.len()).join(&format!("\n{indent}"));
    let gap = if word.len() > width { format!("\n{indent}") } else { " ".repeat(width + 2 - word.len()) };
    format!("  {word}{gap}{lines}\n")
}
