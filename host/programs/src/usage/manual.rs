//! The manual page, for `man`.

use super::{wrapped, Block, Program, Switch};

/// How wide the lines of the source are.
const WIDTH: usize = 110;
const FIRST: &str = ".\\\" Made by host/run-docs.\n";

impl Program {
    pub fn manual(&self) -> String {
        let mut text = String::from(FIRST);
        text += &format!(".TH {} 1 \"\" \"Kirovadzun\" \"User commands\"\n", self.name.to_uppercase());
        text += &format!(".SH NAME\n{} \\- {}\n", roff(self.name), roff(self.about));
        text += &self.synopsis();
        text += &section("DESCRIPTION", self.description);
        text += ".SH OPTIONS\n";
        for option in self.options {
            text += &format!(".TP\n{}\n{}", label(option), sentences(&sentence(option.help)));
        }
        text += ".SH EXIT STATUS\n";
        for (status, words) in self.statuses {
            text += &term(&status.to_string(), &sentence(words));
        }
        text + &self.sections.iter().map(|part| section(part.title, part.blocks)).collect::<String>()
    }

    fn synopsis(&self) -> String {
        let mut text = format!(".SH SYNOPSIS\n.B {}\n", roff(self.name));
        for option in self.together() {
            text += &format!("[{}]\n", label(option));
        }
        text += &format!("{}\n.br\n.B {}\n", roff(self.operands), roff(self.name));
        let alone: Vec<String> = self.alone().map(|option| bold(option.flag())).collect();
        text + &alone.join(" |\n") + "\n"
    }
}

/// A text of the table as a sentence.
fn sentence(text: &str) -> String {
    capital(text) + "."
}

/// A text with a capital first letter.
fn capital(text: &str) -> String {
    let mut chars = text.chars();
    let first = chars.next().map_or(String::new(), |first| first.to_uppercase().to_string());
    first + chars.as_str()
}

fn section(title: &str, blocks: &[Block]) -> String {
    let mut text = format!(".SH {}\n", roff(&title.to_uppercase()));
    for (nth, part) in blocks.iter().enumerate() {
        if nth > 0 {
            text += ".PP\n";
        }
        text += &block(part);
    }
    text
}

fn block(block: &Block) -> String {
    match block {
        Block::Text(text) => sentences(text),
        Block::Lines(lines) => format!(".RS 4\n.nf\n{}.fi\n.RE\n", lines.lines().map(as_it_stands).collect::<String>()),
        Block::Terms(terms) => terms().iter().map(|(word, text)| term(word, &capital(text))).collect(),
    }
}

fn term(word: &str, text: &str) -> String {
    format!(".TP\n{}\n{}", bold(word), sentences(text))
}

fn label(option: &Switch) -> String {
    option.label(bold, |argument| format!("\\fI{}\\fR", roff(argument)))
}

fn bold(word: &str) -> String {
    format!("\\fB{}\\fR", roff(word))
}

/// Filled text; what stands between backquotes is bold.
fn sentences(text: &str) -> String {
    let mut is_bold = false;
    let mut marked = String::new();
    for part in roff(&wrapped(text, WIDTH).join("\n")).split_inclusive("\\(ga") {
        match part.strip_suffix("\\(ga") {
            Some(before) => {
                is_bold = !is_bold;
                marked += &format!("{before}{}", if is_bold { "\\fB" } else { "\\fR" });
            }
            None => marked += part,
        }
    }
    marked + "\n"
}

/// A line that is not filled.
fn as_it_stands(line: &str) -> String {
    roff(line) + "\n"
}

/// Text with nothing in it that means something to roff.
fn roff(text: &str) -> String {
    let mut safe = String::new();
    let mut is_first = true;
    for c in text.chars() {
        match c {
            '\\' => safe.push_str("\\e"),
            '-' => safe.push_str("\\-"),
            '`' => safe.push_str("\\(ga"),
            '\'' => safe.push_str("\\(aq"),
            '"' => safe.push_str("\\(dq"),
            '^' => safe.push_str("\\(ha"),
            '~' => safe.push_str("\\(ti"),
            // At the start of a line a dot begins a request.
            '.' if is_first => safe.push_str("\\&."),
            _ => safe.push(c),
        }
        is_first = c.is_whitespace();
    }
    safe
}
