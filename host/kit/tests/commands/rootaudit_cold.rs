//! Files that are not in memory: of large pieces little more is fetched than their headers, and small ones are
//! read ahead.

use kit::gen::files::end;
use kit::gen::{nested, one_root, Rng};
use kit::harness::command::{rootaudit, PASSED};
use kit::harness::sparse::Sparse;
use programs::rootaudit::advice::Advice::{Normal, Random};
use programs::rootaudit::advice::{follow, of, Advice, LARGE, RUN, SPARE};
use programs::rootaudit::mapped::Mapped;
use std::ffi::{c_int, c_void};
use std::fs::File;
use std::os::fd::AsRawFd;
use std::path::Path;

mod c {
    use super::{c_int, c_void};

    extern "C" {
        pub fn getpagesize() -> c_int;
        pub fn mincore(start: *mut c_void, len: usize, pages: *mut u8) -> c_int;
        pub fn posix_fadvise(file: c_int, offset: i64, len: i64, advice: c_int) -> c_int;
    }
}

const POSIX_FADV_DONTNEED: c_int = 4;

const MEGABYTE: usize = 1 << 20;
const MANY: usize = SPARE as usize + 1000;

/// A file of gaps of these sizes, each so many times, whose header tells its length.
fn gaps(sizes: &[(usize, usize)]) -> Vec<u8> {
    let mut file = one_root()[..100].to_vec();
    for &(times, size) in sizes {
        for _ in 0..times {
            let end = file.len() + size;
            file.extend((-(size as i32)).to_be_bytes());
            file.resize(end, 0);
        }
    }
    with_end(file)
}

/// The same with its length as END.
fn with_end(mut file: Vec<u8>) -> Vec<u8> {
    let len = file.len() as u32;
    file[12..16].copy_from_slice(&len.to_be_bytes());
    file
}

/// What is advised for a file, one after another.
fn advised(file: &[u8]) -> Vec<Advice> {
    let mut given = Vec::new();
    follow(file, |advice| given.push(advice));
    given.dedup();
    given
}

#[test]
fn by_the_mean_size() {
    for (size, advice) in [(4, Normal), (200, Normal), (LARGE - 1, Normal), (LARGE, Random), (1 << 31, Random)] {
        assert_eq!(of(&[size; RUN]), advice, "{size}");
    }
    let mut sizes = [200; RUN];
    sizes[7] = RUN as u64 * LARGE;
    assert_eq!(of(&sizes), Random);
}

#[test]
fn files_of_one_size() {
    assert_eq!(advised(&gaps(&[(20_000, 200)])), [Random, Normal]);
    assert_eq!(advised(&gaps(&[(MANY, 4096)])), [Random, Normal]);
    assert_eq!(advised(&gaps(&[(32, MEGABYTE)])), [Random]);
    // Too short for a run of large pieces.
    let least = RUN * LARGE as usize;
    assert_eq!(advised(&gaps(&[(1, least - 101)])), []);
    assert_eq!(advised(&gaps(&[(1, least - 100)])), [Random]);
    assert_eq!(advised(&[]), []);
}

/// The advice changes with the sizes, and what was not looked at is read ahead.
#[test]
fn files_of_two_sizes() {
    let (small, large) = (4096, MEGABYTE);
    assert_eq!(advised(&gaps(&[(20, large), (MANY, small)])), [Random, Normal]);
    assert_eq!(advised(&gaps(&[(1000, small), (20, large)])), [Random, Normal, Random]);
    assert_eq!(advised(&gaps(&[(MANY, small), (20, large)])), [Random, Normal]);
    assert_eq!(advised(&gaps(&[(1000, small), (4, large), (MANY, small)])), [Random, Normal, Random, Normal]);
}

/// Where the chain breaks, or the header tells of another length, the file is read ahead.
#[test]
fn bad_files() {
    let good = gaps(&[(32, MEGABYTE)]);
    assert_eq!(advised(&good), [Random]);
    assert_eq!(advised(&with_end([&one_root()[..100], &[0; 3 * MEGABYTE]].concat())), [Random, Normal]);
    assert_eq!(advised(&with_end([&good[..], &[0; 8]].concat())), [Random, Normal]);
    assert_eq!(advised(&good[..good.len() - 1]), [Random, Normal]);
    assert_eq!(advised(&vec![0xff; 3 * MEGABYTE]), [Random, Normal]);
}

/// How many bytes of a file are in memory, if the system tells it.
fn in_memory(path: &Path) -> Option<usize> {
    let file = Mapped::open(path.as_os_str()).unwrap();
    let bytes = file.bytes();
    // SAFETY: the call has no arguments.
    let page = unsafe { c::getpagesize() } as usize;
    let mut pages = vec![0; bytes.len().div_ceil(page)];
    // SAFETY: the bytes are mapped from the start of a page on, and there is room for each page.
    let status = unsafe { c::mincore(bytes.as_ptr().cast_mut().cast(), bytes.len(), pages.as_mut_ptr()) };
    (status == 0).then(|| pages.iter().filter(|&&flags| flags & 1 == 1).count() * page)
}

/// Drops a file from memory. False, and a word about it, where the system keeps it.
fn is_dropped(path: &Path) -> bool {
    let file = File::open(path).unwrap();
    file.sync_all().unwrap();
    // SAFETY: the call takes numbers alone.
    unsafe { c::posix_fadvise(file.as_raw_fd(), 0, 0, POSIX_FADV_DONTNEED) };
    let is_dropped = in_memory(path) == Some(0);
    if !is_dropped {
        println!("skipped: the system does not drop a file from memory, or does not tell");
    }
    is_dropped
}

/// 65 MB, of which an audit needs a page for each piece. Less is allowed than the least read-ahead that is common
/// would fetch, 128 KiB for each large piece.
#[test]
fn a_cold_file_of_large_pieces() {
    const PIECES: usize = 80;
    const MOST: usize = PIECES << 16;
    let plan = nested::plan(&mut Rng::new(1), PIECES, MEGABYTE);
    let sites = plan.sites();
    let Some(file) = Sparse::new("cold_large.root", end(&sites), plan.laid(&sites)) else { return };
    if !is_dropped(&file.path) {
        return;
    }
    let (status, out, _) = rootaudit(&[&file.path]);
    assert!(status == PASSED && out.ends_with(&format!(": passed {PIECES}\n")), "{out}");
    let fetched = in_memory(&file.path).unwrap();
    println!("{fetched} bytes of {} fetched", end(&sites));
    assert!(fetched <= MOST, "{fetched} bytes fetched, and at most {MOST} are allowed");
}
