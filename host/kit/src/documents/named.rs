//! The names that a document has in back-quotes, each with the files that it is said to stand in.
//!
//! A row of a table is read alone, and so is a paragraph or an item of a list. In it a name in brackets behind a file
//! stands in that file: `file` (`name`). Any other name stands in one of the next files of its clause, else in one of
//! the last files before it, else in one of the next. A clause ends at `;` and at the cell's end.

/// A name, and the files that it may stand in; none where the block names none.
pub struct Named<'a> {
    pub name: &'a str,
    pub files: Vec<&'a str>,
}

pub struct Block<'a> {
    pub text: &'a str,
    pub files: Vec<&'a str>,
    pub names: Vec<Named<'a>>,
}

/// What stands in back-quotes, and where.
struct Quoted<'a> {
    text: &'a str,
    clause: usize,
    /// The file whose brackets it stands in.
    of: Option<&'a str>,
}

/// The part of a document below a heading, to the next heading.
pub fn section<'a>(document: &'a str, heading: &str) -> &'a str {
    let rest = document.split_once(&format!("\n## {heading}\n")).map_or("", |(_, rest)| rest);
    rest.split("\n## ").next().unwrap_or_default()
}

pub fn blocks(document: &str) -> Vec<Block<'_>> {
    let mut blocks = Vec::new();
    let mut from = 0;
    let mut at = 0;
    for line in document.split_inclusive('\n') {
        let bare = line.trim_start();
        let is_first = bare.starts_with(['|', '-', '#']) || bare.starts_with(|c: char| c.is_ascii_digit());
        if is_first || bare.is_empty() {
            blocks.push(block(&document[from..at]));
            from = at;
        }
        at += line.len();
    }
    blocks.push(block(&document[from..]));
    blocks.retain(|block| !block.files.is_empty() || !block.names.is_empty());
    blocks
}

fn block(text: &str) -> Block<'_> {
    let quoted = quoted(text);
    let files = quoted.iter().map(|one| one.text).filter(|text| is_file(text)).collect();
    let names = (0..quoted.len()).filter(|&i| is_name(quoted[i].text));
    let names = names.map(|i| Named { name: quoted[i].text, files: said(&quoted, i) }).collect();
    Block { text, files, names }
}

fn quoted(text: &str) -> Vec<Quoted<'_>> {
    let mut found: Vec<Quoted> = Vec::new();
    let mut clause = 0;
    let mut of = None;
    for (i, part) in text.split('`').enumerate() {
        if i % 2 == 1 {
            found.push(Quoted { text: part, clause, of });
            continue;
        }
        clause += part.matches([';', '|']).count();
        if part.contains(')') {
            of = None;
        }
        if part.ends_with('(') {
            of = found.last().map(|last| last.text).filter(|text| part == " (" && is_file(text));
        }
    }
    found
}

/// The files that the name at a place is said to stand in.
fn said<'a>(quoted: &[Quoted<'a>], at: usize) -> Vec<&'a str> {
    if let Some(file) = quoted[at].of {
        return vec![file];
    }
    let clause = quoted[at].clause;
    let after = || quoted[at..].iter();
    let tries = [
        run(after().take_while(|one| one.clause == clause)),
        run(quoted[..at].iter().rev()),
        run(after().skip_while(|one| one.clause == clause)),
    ];
    tries.into_iter().find(|files| !files.is_empty()).unwrap_or_default()
}

/// The first files that come, without those between that stand in brackets.
fn run<'a: 'b, 'b>(quoted: impl Iterator<Item = &'b Quoted<'a>>) -> Vec<&'a str> {
    let free = quoted.filter(|one| one.of.is_none()).map(|one| one.text);
    free.skip_while(|text| !is_file(text)).take_while(|text| is_file(text)).collect()
}

/// A path, or a file's name.
pub fn is_file(text: &str) -> bool {
    let is_path = text.chars().all(|c| c.is_alphanumeric() || "_-./*".contains(c));
    is_path
        && (text.contains('/') || [".rs", ".rt", ".antt", ".md", ".txt"].iter().any(|ending| text.ends_with(ending)))
}

/// A name of a definition, a function or a crate; `Record.field` too.
fn is_name(text: &str) -> bool {
    !is_file(text) && text.chars().all(|c| c.is_alphanumeric() || "_-.'".contains(c))
}
