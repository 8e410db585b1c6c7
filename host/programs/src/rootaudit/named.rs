//! The names of all files that are to be audited, in a fixed order. Nothing is left out unseen: what cannot be read is
//! a name too, of which the audit says why.

use super::options::{Options, NO_FILE, ONE_FILE};
use std::ffi::{OsStr, OsString};
use std::fs::{self, DirEntry};
use std::io::{self, Read};
use std::os::unix::ffi::OsStringExt;
use std::path::{Path, PathBuf};

/// Every name: those of the list; or else those of the command line, then those below each folder.
pub fn all(options: &Options) -> Result<Vec<OsString>, String> {
    let mut names = match &options.files0_from {
        Some(list) => listed(list)?,
        None => options.files.clone(),
    };
    for folder in &options.below {
        names.extend(below(folder)?);
    }
    match (names.len(), &options.html) {
        (0, _) => Err(NO_FILE.into()),
        (2.., Some(_)) => Err(ONE_FILE.into()),
        _ => Ok(names),
    }
}

/// The names of a list.
fn listed(list: &OsStr) -> Result<Vec<OsString>, String> {
    let bytes = if list == "-" { standard_input() } else { fs::read(list) };
    let mut bytes = bytes.map_err(|why| format!("the list of files {list:?} could not be read: {why}"))?;
    if bytes.is_empty() {
        return Err(format!("no file is named: the list {list:?} is empty"));
    }
    // A NUL ends the last name, or it has none.
    if bytes.last() == Some(&0) {
        bytes.pop();
    }
    let names = bytes.split(|&byte| byte == 0).map(|name| OsString::from_vec(name.to_vec()));
    let names: Vec<OsString> = names.collect();
    match names.iter().position(|name| name.is_empty()) {
        Some(nth) => Err(format!("name {} of the list {list:?} is empty", nth + 1)),
        None => Ok(names),
    }
}

fn standard_input() -> io::Result<Vec<u8>> {
    let mut bytes = Vec::new();
    io::stdin().lock().read_to_end(&mut bytes)?;
    Ok(bytes)
}

/// All that stands below a folder and is no folder itself, in the order of the bytes of the paths. Links are names and
/// are not followed to folders, so that there is an end. What is no folder stands for itself.
fn below(folder: &OsStr) -> Result<Vec<OsString>, String> {
    if !fs::metadata(folder).is_ok_and(|found| found.is_dir()) {
        return Ok(vec![folder.to_owned()]);
    }
    let mut names = Vec::new();
    let mut waiting = vec![PathBuf::from(folder)];
    while let Some(folder) = waiting.pop() {
        let Ok(entries) = entries(&folder) else {
            names.push(folder.into_os_string());
            continue;
        };
        let (folders, others): (Vec<&DirEntry>, Vec<&DirEntry>) = entries.iter().partition(|entry| is_folder(entry));
        waiting.extend(folders.iter().map(|entry| entry.path()));
        names.extend(others.iter().map(|entry| entry.path().into_os_string()));
    }
    names.sort_by(|a, b| a.as_encoded_bytes().cmp(b.as_encoded_bytes()));
    if names.is_empty() {
        return Err(format!("no file is below {folder:?}"));
    }
    Ok(names)
}

/// What stands in a folder; all of it or nothing.
fn entries(folder: &Path) -> io::Result<Vec<DirEntry>> {
    fs::read_dir(folder)?.collect()
}

/// A link to a folder is none.
fn is_folder(entry: &DirEntry) -> bool {
    entry.file_type().is_ok_and(|kind| kind.is_dir())
}
