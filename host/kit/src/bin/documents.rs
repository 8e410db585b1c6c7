//! Writes the documents that are made, for the repository in whose root it is run; with --check it says
//! which of them are stale, and fails if one is. `host/run-docs` runs it.

use kit::documents::made::{renew, stale};
use std::env;
use std::path::Path;
use std::process::ExitCode;

fn main() -> ExitCode {
    let root = Path::new(".");
    let arguments: Vec<String> = env::args_os().skip(1).map(|word| word.to_string_lossy().into_owned()).collect();
    match arguments.iter().map(String::as_str).collect::<Vec<_>>()[..] {
        [] => write(root),
        ["--check"] => check(root),
        _ => {
            eprintln!("usage: documents [--check]");
            ExitCode::from(2)
        }
    }
}

fn write(root: &Path) -> ExitCode {
    match renew(root) {
        Ok(paths) => {
            paths.iter().for_each(|path| println!("{path}"));
            ExitCode::SUCCESS
        }
        Err(why) => {
            eprintln!("documents: {why}");
            ExitCode::FAILURE
        }
    }
}

fn check(root: &Path) -> ExitCode {
    let stale = stale(root);
    for (path, word) in &stale {
        eprintln!("{path}: {word}: host/run-docs renews it");
    }
    if stale.is_empty() {
        ExitCode::SUCCESS
    } else {
        ExitCode::FAILURE
    }
}
