//! Functions and their promises. `rt fmt` lays the text out: a function begins at the margin, or a step from it in an
//! `impl` block, and ends with a brace below its beginning.

use super::theory::{taken, Use};
use super::{listed, stem, text};
use std::io;
use std::path::Path;

pub struct Source {
    /// The module; empty for that of the crate.
    pub module: String,
    /// Definitions that promises cite.
    pub uses: Vec<Use>,
    /// What is taken from other modules and crates, a path each.
    pub imports: Vec<String>,
    pub functions: Vec<Function>,
    pub text: String,
}

pub struct Function {
    pub name: String,
    /// The type whose method it is; empty for none.
    pub of: String,
    /// That of a trait is, too.
    pub is_public: bool,
    /// Whether C calls it.
    pub is_c: bool,
    pub parameters: Vec<String>,
    /// What stands above it; for one of a trait else above its block.
    pub comment: String,
    pub requires: Option<String>,
    pub ensures: Option<String>,
    pub text: String,
}

/// The modules of a crate, its own first.
pub fn read(folder: &Path) -> io::Result<Vec<Source>> {
    let mut sources = Vec::new();
    for path in listed(folder, "rt")? {
        let stem = stem(&path);
        let module = if stem == "lib" { String::new() } else { stem };
        sources.push(parse(module, &text(&path)?));
    }
    sources.sort_by(|a, b| a.module.cmp(&b.module));
    Ok(sources)
}

fn parse(module: String, text: &str) -> Source {
    let lines: Vec<&str> = text.lines().collect();
    let starts = (0..lines.len()).filter(|&i| head(lines[i].trim_start()).is_some());
    Source {
        module,
        uses: lines.iter().filter_map(|line| taken(line)).collect(),
        imports: imports(&lines),
        functions: starts.map(|i| function(&lines, i)).collect(),
        text: text.to_owned(),
    }
}

/// The paths that `use` takes, of `a::{b, c}` each; a list of them may have lines of its own.
fn imports(lines: &[&str]) -> Vec<String> {
    let starts = (0..lines.len()).filter(|&i| lines[i].starts_with("use "));
    let whole = starts.filter_map(|start| {
        let end = lines[start..].iter().position(|line| line.ends_with(';'))?;
        let text: String = lines[start..=start + end].iter().map(|line| line.trim()).collect();
        Some(text.strip_prefix("use ")?.strip_suffix(';')?.to_owned())
    });
    whole
        .flat_map(|text| match text.split_once("::{") {
            Some((path, names)) => {
                let names = names.trim_end_matches('}').split(',').map(str::trim).filter(|name| !name.is_empty());
                names.map(|name| format!("{path}::{name}")).collect()
            }
            None => vec![text],
        })
        .collect()
}

/// Whether a function that begins in this line is public, and its name with what follows.
fn head(line: &str) -> Option<(bool, &str)> {
    for (before, is_public) in
        [("pub fn ", true), ("pub extern \"C\" fn ", true), ("pub(crate) fn ", false), ("fn ", false)]
    {
        if let Some(rest) = line.strip_prefix(before) {
            return Some((is_public, rest));
        }
    }
    None
}

/// What stands in an `impl` block above a function, with the line that opens it.
fn block<'a, 'b>(lines: &'a [&'b str], start: usize) -> Option<&'a [&'b str]> {
    let open = lines[..start].iter().rposition(|line| line.starts_with("impl"))?;
    let above = &lines[open..start];
    (lines[start].starts_with(' ') && !above.contains(&"}")).then_some(above)
}

/// The type of a block that opens with this line, and whether it is of a trait: `impl Type {`, `impl Trait for Type {`.
fn implemented(line: &str) -> Option<(&str, bool)> {
    let of = line.split_once(" for ");
    let (_, rest) = of.or(line.split_once(' '))?;
    Some((rest.split(['<', ' ']).next()?, of.is_some()))
}

fn function(lines: &[&str], start: usize) -> Function {
    let line = lines[start].trim_start();
    let (is_public, rest) = head(line).unwrap_or_default();
    let name = rest.split(['(', '<']).next().unwrap_or_default();
    let block = block(lines, start).unwrap_or_default();
    let (of, is_of_trait) = block.first().and_then(|line| implemented(line)).unwrap_or_default();
    let end = lines[start].replace(line, "}");
    let length = lines[start..].iter().position(|&line| line == end).map_or(lines.len() - start, |i| i + 1);
    let all = &lines[start..start + length];
    let is_body = |line: &&str| line.ends_with('{') && keyword(line).is_none();
    let contract = &all[..all.iter().position(is_body).unwrap_or(all.len())];
    let text = all.join("\n");
    let mut said = comment(&lines[..start]);
    if said.is_empty() && is_of_trait {
        said = comment(&lines[..start - block.len()]);
    }
    let parameters = text.split_once('(').and_then(|(_, rest)| rest.split_once(')')).map_or("", |(inside, _)| inside);
    Function {
        name: name.to_owned(),
        of: of.to_owned(),
        is_public: is_public || is_of_trait,
        is_c: line.contains("extern \"C\""),
        parameters: parameters.split(',').filter_map(|one| parameter(one.trim())).map(str::to_owned).collect(),
        comment: said,
        requires: clauses(contract, "requires"),
        ensures: clauses(contract, "ensures").or_else(|| given(block, name)),
        text,
    }
}

/// The name of a parameter, `self` too.
fn parameter(one: &str) -> Option<&str> {
    one.split_once(':').map(|(name, _)| name).or(one.ends_with("self").then_some("self"))
}

/// The comment that ends the lines, whatever attributes stand below it; one of these may have several lines.
fn comment(above: &[&str]) -> String {
    let mut end = above.len();
    while let Some(start) = above[..end].iter().rposition(|line| line.trim_start().starts_with("#[")) {
        if !above[start..end].last().is_some_and(|line| line.ends_with(']')) || above[start..end].contains(&"") {
            break;
        }
        end = start;
    }
    let mut lines: Vec<&str> =
        above[..end].iter().rev().map_while(|line| line.trim_start().strip_prefix("// ")).collect();
    lines.reverse();
    lines.join(" ")
}

/// The word with which a clause begins in this line, whatever its name: `ensures { .. }`, `ensures low { .. }`.
fn keyword(line: &str) -> Option<&'static str> {
    let rest = line.trim_start();
    let is_first = |word: &&str| rest.strip_prefix(word).is_some_and(|rest| rest.starts_with([' ', '*']));
    ["requires", "ensures", "ghost"].into_iter().find(is_first)
}

/// All clauses of a contract with this word.
fn clauses(contract: &[&str], wanted: &str) -> Option<String> {
    let mut open = None;
    let mut lines: Vec<&str> = Vec::new();
    for line in contract {
        open = keyword(line).or(open);
        if open == Some(wanted) {
            lines.push(line);
        }
    }
    (!lines.is_empty()).then(|| lines.join("\n"))
}

/// What a trait's function promises in a block: its member `ghost NAME_gives = { .. };`.
fn given(block: &[&str], name: &str) -> Option<String> {
    let start = block.iter().position(|line| line.trim_start().starts_with(&format!("ghost {name}_gives ")))?;
    let end = block[start..].iter().position(|line| line.ends_with(';'))?;
    Some(block[start..=start + end].join("\n"))
}

impl Source {
    /// The functions that a change of this text concerns: the one that has it, or those of the module that use the
    /// constant that has it.
    pub fn changed(&self, text: &str) -> Option<(String, Vec<&Function>)> {
        if let Some(one) = self.functions.iter().find(|one| one.text.contains(text)) {
            return Some((one.name.clone(), vec![one]));
        }
        let end = self.text.find(text)? + text.len();
        let (_, constant) = self.text[..end].rsplit_once("const ")?;
        let name = constant.split(':').next()?;
        Some((name.to_owned(), self.functions.iter().filter(|one| one.text.contains(name)).collect()))
    }

    /// The function as it is called from outside the crate.
    pub fn path(&self, function: &Function) -> String {
        let parts = [&self.module, &function.of, &function.name].map(String::as_str);
        parts.into_iter().filter(|part| !part.is_empty()).collect::<Vec<_>>().join("::")
    }
}
