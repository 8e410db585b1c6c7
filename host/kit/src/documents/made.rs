//! The documents that are made, by their paths below the repository's root: manuals, completions and README's tables
//! from the table of options, docs/CONTRACTS.md from the crates.

use programs::rootaudit::numbers::TABLE;
use programs::usage::{markdown, Program};
use programs::{rootaudit, rootkeys};
use std::path::Path;
use std::{fs, io};

/// The programs that are installed.
pub const PROGRAMS: [&Program; 2] = [&rootaudit::about::PROGRAM, &rootkeys::about::PROGRAM];

/// A document, and what it should be; or why it cannot be made.
pub type Document = (String, Result<String, String>);

const README: &str = "README.md";
const CONTRACTS: &str = "docs/CONTRACTS.md";
/// What stands around a part that is made.
const BEGIN: &str = "<!-- ";
const END: &str = "<!-- end -->\n";

/// All documents, for the repository at a path.
pub fn all(root: &Path) -> Vec<Document> {
    let mut all: Vec<Document> = PROGRAMS.iter().flat_map(|program| of(program)).collect();
    all.push((README.into(), readme(root)));
    all.push((CONTRACTS.into(), super::contracts(root).map_err(|why| why.to_string())));
    all
}

/// The manual of a program, and its completions.
fn of(program: &Program) -> [Document; 4] {
    let name = program.name;
    [
        (format!("man/{name}.1"), Ok(program.manual())),
        (format!("completions/{name}.bash"), Ok(program.bash())),
        (format!("completions/_{name}"), Ok(program.zsh())),
        (format!("completions/{name}.fish"), Ok(program.fish())),
    ]
}

/// README as it is, with its tables made anew.
fn readme(root: &Path) -> Result<String, String> {
    let mut text = fs::read_to_string(root.join(README)).map_err(|why| why.to_string())?;
    for program in PROGRAMS {
        text = with(&text, &format!("usage of {}", program.name), &program.readme_usage())?;
        text = with(&text, &format!("options of {}", program.name), &program.readme_table())?;
    }
    with(&text, "numbers", &numbers())
}

/// A text with another between two marks. Nothing but the old one is lost: there is no mark between.
fn with(text: &str, mark: &str, between: &str) -> Result<String, String> {
    let mark = format!("{BEGIN}{mark} -->\n");
    let parts = text.split_once(&mark).and_then(|(before, rest)| {
        let (old, after) = rest.split_once(END)?;
        (!old.contains(BEGIN)).then_some((before, after))
    });
    let (before, after) = parts.ok_or_else(|| format!("{}, or the end of it, is missing", mark.trim_end()))?;
    Ok(format!("{before}{mark}\n{between}\n{END}{after}"))
}

/// What the numbers mean.
fn numbers() -> String {
    let rows = TABLE
        .iter()
        .map(|row| [row.number.to_string(), row.wrong.into(), row.place.into(), row.because.into(), row.now.into()]);
    markdown::table(&["number", "what is wrong", "the place", "often because", "now"], rows)
}

/// The documents that are not what they should be, each with a word about it.
pub fn stale(root: &Path) -> Vec<(String, String)> {
    let word = |path: &str, made: Result<String, String>| match made {
        Err(why) => Some(why),
        Ok(text) => match fs::read_to_string(root.join(path)) {
            Ok(found) if found == text => None,
            Ok(_) => Some("it is stale".into()),
            Err(why) => Some(why.to_string()),
        },
    };
    all(root).into_iter().filter_map(|(path, made)| word(&path, made).map(|word| (path, word))).collect()
}

/// Writes all documents that are stale: their paths.
pub fn renew(root: &Path) -> io::Result<Vec<String>> {
    let stale = stale(root);
    let made = all(root).into_iter().filter(|(path, _)| stale.iter().any(|(name, _)| name == path));
    made.map(|(path, made)| {
        let text = made.map_err(|why| io::Error::other(format!("{path}: {why}")))?;
        let whole = root.join(&path);
        whole.parent().map_or(Ok(()), fs::create_dir_all)?;
        fs::write(whole, text).map(|()| path)
    })
    .collect()
}
