//! Links the proved static library. ROOTMAP_LIB_DIR names another folder that holds a libcapi.a. Notes the
//! commit and the toolchain for `rootaudit --version`.

use std::env;
use std::path::{Path, PathBuf};
use std::process::Command;

fn main() {
    println!("cargo::rerun-if-env-changed=ROOTMAP_LIB_DIR");
    let package = PathBuf::from(env::var_os("CARGO_MANIFEST_DIR").expect("cargo sets CARGO_MANIFEST_DIR"));
    let root = package.join("../..");
    let other = env::var_os("ROOTMAP_LIB_DIR").map(PathBuf::from);
    link(other.as_deref().unwrap_or(&root.join("crates/capi/out")));
    println!("cargo::rustc-env=ROOTAUDIT_COMMIT={}", commit(&root).unwrap_or("unknown".into()));
    // Of a library that was built elsewhere nothing is known.
    let toolchain = if other.is_none() { said(Command::new("rt").arg("version")) } else { None };
    let toolchain = toolchain.filter(|name| !name.is_empty()).unwrap_or("unknown".into());
    println!("cargo::rustc-env=ROOTAUDIT_TOOLCHAIN={toolchain}");
}

fn link(folder: &Path) {
    let archive = folder.join("libcapi.a");
    println!("cargo::rerun-if-changed={}", archive.display());
    if !archive.is_file() {
        println!("cargo::error={} is missing: run `rt lib` in crates/capi", archive.display());
        return;
    }
    println!("cargo::rustc-link-search=native={}", folder.display());
    println!("cargo::rustc-link-lib=static=capi");
    // The C programs of the tests link the same archive.
    println!("cargo::metadata=archive={}", archive.display());
}

/// What the programs are made of, below the repository's root.
const SOURCES: [&str; 6] = ["crates", "crates.txt", "include", "host/Cargo.toml", "host/Cargo.lock", "host/programs"];

/// The commit, with a word if the sources differ from it. None outside a checkout.
fn commit(root: &Path) -> Option<String> {
    let git = |arguments: &[&str]| {
        let mut git = Command::new("git");
        // They are set where git itself starts a build, and may name another checkout.
        for name in ["GIT_DIR", "GIT_WORK_TREE", "GIT_INDEX_FILE"] {
            git.env_remove(name);
        }
        said(git.arg("-C").arg(root).args(arguments))
    };
    let top = git(&["rev-parse", "--show-toplevel"])?;
    // The sources may stand in a checkout of something else.
    if Path::new(&top).canonicalize().ok()? != root.canonicalize().ok()? {
        return None;
    }
    let watched = ["HEAD", "refs", "packed-refs"];
    let watched = watched.into_iter().filter_map(|name| git(&["rev-parse", "--git-path", name]));
    let sources = SOURCES.map(|name| root.join(name)).into_iter().filter(|path| !path.ends_with("crates"));
    for path in watched.map(|path| root.join(path)).chain(sources).chain(in_crates(root)) {
        if path.exists() {
            println!("cargo::rerun-if-changed={}", path.display());
        }
    }
    let commit = git(&["rev-parse", "HEAD"])?;
    let changes = git(&[["--no-optional-locks", "status", "--porcelain", "--"].as_slice(), &SOURCES].concat())?;
    let more = if changes.is_empty() { "" } else { ", with changes that are not committed" };
    Some(commit + more)
}

/// All that stands in the folders of the crates, but for what is built there.
fn in_crates(root: &Path) -> impl Iterator<Item = PathBuf> {
    let inside = |folder: PathBuf| folder.read_dir().into_iter().flatten().flatten().map(|entry| entry.path());
    inside(root.join("crates")).flat_map(inside).filter(|path| !path.ends_with("out"))
}

/// The first line that a command prints. None if it fails.
fn said(command: &mut Command) -> Option<String> {
    let output = command.output().ok().filter(|output| output.status.success())?;
    let text = String::from_utf8(output.stdout).ok()?;
    Some(text.lines().next().unwrap_or_default().to_owned())
}
