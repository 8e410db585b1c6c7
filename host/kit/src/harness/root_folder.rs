//! Files written by ROOT. They are not part of the repository: ROOT_FILES names their folder.

use second::Answer;
use std::path::{Path, PathBuf};
use std::{env, fs};

/// What is answered for some of them, by the audit or by the info reader.
const KNOWN: [(&str, Answer); 4] = [
    ("basic_lz4.info", Answer { number: 0, place: 0, count: 78 }),
    ("advanced_zlib.root", Answer { number: 0, place: 0, count: 18 }),
    ("basic_lz4.root", Answer { number: 0, place: 0, count: 9 }),
    ("broken_basic.root", Answer { number: 4, place: 0, count: 0 }),
];

/// The *.root files, in the order of their names; the known ones are among them. None, and a word about it, if there
/// is no folder.
pub fn root_files() -> Option<Vec<PathBuf>> {
    files_of("root")
}

/// The same of the *.info files: StreamerInfo records at place 0, unpacked.
pub fn info_files() -> Option<Vec<PathBuf>> {
    files_of("info")
}

fn files_of(kind: &str) -> Option<Vec<PathBuf>> {
    let Some(folder) = env::var_os("ROOT_FILES").map(PathBuf::from) else {
        println!("skipped: ROOT_FILES names no folder of *.{kind} files");
        return None;
    };
    let mut paths: Vec<PathBuf> = fs::read_dir(&folder).unwrap().map(|entry| entry.unwrap().path()).collect();
    paths.retain(|path| path.extension().is_some_and(|extension| extension == kind));
    paths.sort();
    for (known, _) in KNOWN.iter().filter(|(known, _)| known.ends_with(kind)) {
        assert!(paths.iter().any(|path| path.ends_with(known)), "no {known} in {folder:?}");
    }
    Some(paths)
}

/// Prints the answer for a file. Fails if it is known and another.
pub fn expect_known(path: &Path, answer: Answer) {
    let name = path.file_name().unwrap_or_default().to_string_lossy();
    println!("{name}: {answer:?}");
    if let Some((_, known)) = KNOWN.iter().find(|(known, _)| *known == name) {
        assert_eq!(answer, *known, "{name}");
    }
}
