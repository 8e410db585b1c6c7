//! Definitions and theorems: `name : type` and equations, records with fields, data types with constructors. The
//! layout says where each ends: what is indented further belongs to a record or a data type.

use super::{listed, stem, text};
use std::io;
use std::path::Path;

pub struct Theory {
    pub file: String,
    pub uses: Vec<Use>,
    pub definitions: Vec<Definition>,
}

pub struct Definition {
    pub name: String,
    /// Of a record.
    pub fields: Vec<String>,
    /// Of a data type.
    pub constructors: Vec<String>,
    /// Its type, with what the modules round it take; all of a record or a data type.
    pub signature: String,
    /// All of it.
    pub text: String,
}

/// Names that a file takes from another, of the specs of a crate.
pub struct Use {
    pub of: String,
    pub file: String,
    pub names: Taken,
}

pub enum Taken {
    These(Vec<String>),
    /// All, with this before the dot.
    As(String),
}

impl Definition {
    /// Whether it is meant by a name that stands alone, or by an operator's sign.
    pub fn is_called(&self, name: &str) -> bool {
        sign(&self.name) == sign(name) || self.constructors.iter().any(|one| one == name)
    }

    pub fn has(&self, name: &str) -> bool {
        self.is_called(name) || self.fields.iter().any(|field| field == name)
    }
}

#[derive(Clone, Copy, PartialEq)]
enum Kind {
    Equations,
    Record,
    Data,
}

/// The theories of a folder, `Lib.antt` left out, which has none.
pub fn read(folder: &Path) -> io::Result<Vec<Theory>> {
    let paths = listed(folder, "antt")?.into_iter().filter(|path| stem(path) != "Lib");
    paths.map(|path| Ok(parse(stem(&path), &text(&path)?))).collect()
}

/// What a line begins with that belongs to no definition.
const NONE: [&str; 5] = ["--", "use ", "infix ", "infixl ", "infixr "];

fn parse(file: String, text: &str) -> Theory {
    let mut definitions: Vec<Definition> = Vec::new();
    let mut modules: Vec<(usize, &str)> = Vec::new();
    let mut open: Option<Open> = None;
    for line in text.lines() {
        let bare = line.trim_start();
        let indent = line.len() - bare.len();
        if bare.is_empty() || NONE.iter().any(|before| bare.starts_with(before)) {
            continue;
        }
        if let (Some(open), Some(last)) = (&mut open, definitions.last_mut()) {
            if open.take(last, line, indent, bare) {
                continue;
            }
        }
        modules.retain(|&(outer, _)| outer < indent);
        if bare.starts_with("module ") {
            modules.push((indent, line));
            open = None;
        } else if let Some((head, kind)) = start(bare) {
            let round: String = modules.iter().map(|(_, line)| format!("{line}\n")).collect();
            let name = word(head).to_owned();
            let text = format!("{round}{line}\n");
            let [fields, constructors] = [Vec::new(), Vec::new()];
            definitions.push(Definition { name, fields, constructors, signature: text.clone(), text });
            open = Some(Open { indent, kind, is_signature: true });
        }
    }
    Theory { file, uses: text.lines().filter_map(taken).collect(), definitions }
}

/// A definition whose lines are being read.
struct Open {
    indent: usize,
    kind: Kind,
    is_signature: bool,
}

impl Open {
    /// Takes a line, if it belongs to the definition.
    fn take(&mut self, to: &mut Definition, line: &str, indent: usize, bare: &str) -> bool {
        let is_deeper = self.indent < indent;
        if !is_deeper && (self.kind != Kind::Equations || start(bare).is_some() || bare.starts_with("module ")) {
            return false;
        }
        match self.kind {
            Kind::Equations => self.is_signature &= is_deeper,
            Kind::Record => to.fields.extend(member(bare)),
            Kind::Data => to.constructors.extend(member(bare)),
        }
        to.text += &format!("{line}\n");
        if self.is_signature {
            to.signature += &format!("{line}\n");
        }
        true
    }
}

/// What follows the words before a definition's name, and what it is.
fn start(bare: &str) -> Option<(&str, Kind)> {
    let mut rest = bare;
    for before in ["abbrev ", "unfoldable ", "opaque ", "pub "] {
        rest = rest.strip_prefix(before).unwrap_or(rest);
    }
    for (block, kind) in [("record ", Kind::Record), ("data ", Kind::Data)] {
        if let Some(rest) = rest.strip_prefix(block) {
            return Some((rest, kind));
        }
    }
    let is_definition = rest.len() < bare.len() || rest.split_whitespace().nth(1) == Some(":");
    (is_definition && !rest.starts_with("mod ")).then_some((rest, Kind::Equations))
}

/// The field or the constructor that a line of a block begins with.
fn member(bare: &str) -> Option<String> {
    let rest = bare.strip_prefix("pub ").unwrap_or(bare);
    (rest.split_whitespace().nth(1) == Some(":")).then(|| word(rest).to_owned())
}

fn word(text: &str) -> &str {
    text.split_whitespace().next().unwrap_or_default()
}

/// `use Rattle.CRATE.specs.FILE.{names}`, in code with `ghost` before it and `;` after it, or `as name`.
pub fn taken(line: &str) -> Option<Use> {
    let rest = line.trim().trim_end_matches(';');
    let rest = rest.strip_prefix("ghost ").unwrap_or(rest).strip_prefix("use Rattle.")?;
    let (of, rest) = rest.split_once(".specs.")?;
    let of = of.to_owned();
    if let Some((file, name)) = rest.split_once(" as ").filter(|(file, _)| !file.contains('.')) {
        return Some(Use { of, file: file.to_owned(), names: Taken::As(name.to_owned()) });
    }
    let (file, names) = rest.split_once(".{")?;
    let names = names.trim_end_matches('}').split(", ").map(str::to_owned).collect();
    (!file.contains('.')).then(|| Use { of, file: file.to_owned(), names: Taken::These(names) })
}

/// What an operator is between its operands: `>>=` of `◌>>=◌`. Another name is as it is.
pub fn sign(name: &str) -> &str {
    name.trim_matches('◌')
}

/// The words of a text, with those before and after a dot as one: `held.Bad`; and the signs of its operators, with that
/// which joins the lines below `do`.
pub fn words(text: &str) -> impl Iterator<Item = &str> {
    let is_part = |c: char| c.is_alphanumeric() || "_-'.".contains(c);
    let words = text.split(move |c| !is_part(c)).map(|word| word.trim_matches('.')).filter(|word| !word.is_empty());
    let signs = text.split_whitespace().filter(move |word| !word.contains(is_part));
    words.map(|word| if word == "do" { ">>=" } else { word }).chain(signs)
}
