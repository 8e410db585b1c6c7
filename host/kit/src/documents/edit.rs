//! Edits that the prover refuses: a line that says what they break, the file, the line as it is and the line as it
//! would be; or several lines, as where an import is needed, too.

use super::{listed, stem, text, wrong};
use std::io;
use std::path::Path;

pub struct Edit {
    pub name: String,
    pub says: String,
    /// Each line as it is, with its file below the crate, as `src/lib.rt`.
    pub old: Vec<(String, String)>,
}

pub fn read(folder: &Path) -> io::Result<Vec<Edit>> {
    listed(folder, "edit")?.iter().map(|path| parse(path, &text(path)?)).collect()
}

fn parse(path: &Path, text: &str) -> io::Result<Edit> {
    let find = |before: &str| {
        let line = text.lines().find_map(|line| line.strip_prefix(before));
        line.map(str::to_owned).ok_or_else(|| wrong(path, &format!("no line begins with '{before}'")))
    };
    let (mut file, mut old) = (find("file: ")?, Vec::new());
    find("old: ")?;
    for line in text.lines() {
        if let Some(name) = line.strip_prefix("file: ") {
            file = name.to_owned();
        } else if let Some(text) = line.strip_prefix("old: ") {
            old.push((file.clone(), text.to_owned()));
        }
    }
    Ok(Edit { name: stem(path), says: find("# ")?, old })
}
