//! What the program was made of. The build script asks for commit and toolchain.

use crate::ffi::version::HEADER;

/// The requests to document 01 that are in and change verdicts.
const REQUESTS: &str = "01, 02, 04";

pub fn text() -> String {
    format!(
        "rootaudit {}\nrequests: {REQUESTS}\ncommit: {}\ntoolchain: {}\n",
        env!("CARGO_PKG_VERSION"),
        env!("ROOTAUDIT_COMMIT"),
        env!("ROOTAUDIT_TOOLCHAIN")
    )
}

/// The same on one line, for a page.
pub fn line() -> String {
    text().trim_end().replace('\n', "; ")
}

/// Why nothing is audited with a library of this version, if it is not the one that the program is written for.
pub fn mismatch(library: u64) -> Option<String> {
    let words = || format!("the library in it has version {library} and not {HEADER}, so nothing was done");
    (library != HEADER).then(words)
}
