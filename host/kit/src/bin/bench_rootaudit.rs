//! `rootaudit` on a file of 500 MB and 200,000 pieces that is in the page cache, beside a plain sum of its
//! bytes. Both open and map the file anew in each run.

use kit::gen::files::end;
use kit::gen::{nested, Rng};
use kit::timing::{best, print_bar, quotient, shorter};
use programs::rootaudit::mapped::Mapped;
use programs::rootaudit::verdict::Verdict;
use programs::rootaudit::{audit_file, library};
use std::fs::File;
use std::os::unix::fs::FileExt;
use std::path::{Path, PathBuf};
use std::time::Duration;
use std::{env, fs, io, process};

const PIECES: usize = 200_000;
const BYTES: usize = 500_000_000;
const RUNS: usize = 9;
/// Of the audit's time to the sum's.
const MOST_RATIO: f64 = 1.0;

fn main() -> io::Result<()> {
    let file = TempFile::new("bench_rootaudit.root");
    let bytes = write(&file.0)?;
    // The first run of each reads the file into the page cache.
    check(&file.0, bytes);
    let turn = || [best(1, &mut (), |()| {}, |()| check(&file.0, bytes)), best(1, &mut (), |()| {}, |()| sum(&file.0))];
    let [audit, sum] = (0..RUNS).fold([Duration::MAX; 2], |shortest, _| shorter(shortest, turn()));
    println!("rootaudit, {PIECES} pieces, {bytes} bytes in the page cache");
    println!("audit {audit:.1?}, sum of the bytes {sum:.1?}");
    print_bar("audit/sum", quotient(audit, sum), MOST_RATIO);
    println!();
    Ok(())
}

/// Writes the file: how many bytes it has. The data of its objects are holes.
fn write(path: &Path) -> io::Result<usize> {
    let tree = |zeros: usize| nested::plan(&mut Rng::new(1), PIECES, zeros);
    let bare = tree(0);
    let objects = bare.items.iter().filter(|item| item.zeros > 0).count();
    let zeros = BYTES.saturating_sub(end(&bare.sites())).div_ceil(objects);
    let plan = tree(zeros);
    let sites = plan.sites();
    let file = File::create(path)?;
    file.set_len(end(&sites) as u64)?;
    for (at, bytes) in plan.laid(&sites) {
        file.write_all_at(&bytes, at as u64)?;
    }
    Ok(end(&sites))
}

/// Audits the file, which passes.
fn check(path: &Path, bytes: usize) {
    match audit_file(path.as_os_str(), &library) {
        Verdict::Passed(tables) => assert_eq!((tables.start.len(), tables.end), (PIECES, bytes)),
        other => panic!("{other:?}"),
    }
}

fn sum(path: &Path) -> u64 {
    let file = Mapped::open(path.as_os_str()).unwrap_or_else(|why| panic!("{why}"));
    file.bytes().iter().map(|&byte| u64::from(byte)).sum()
}

/// A file in the folder for temporary files (TMPDIR) that is removed at the end.
struct TempFile(PathBuf);

impl TempFile {
    fn new(name: &str) -> Self {
        TempFile(env::temp_dir().join(format!("{}-{name}", process::id())))
    }
}

impl Drop for TempFile {
    fn drop(&mut self) {
        // Nothing is to be done if it is gone.
        let _ = fs::remove_file(&self.0);
    }
}
