//! Ten times the files ask for about ten times the memory: no step looks at all files again. It is counted in bytes, so
//! that it does not depend on load.

use kit::gen::one_root;
use kit::harness::command::{folder, PASSED};
use programs::rootaudit::{library, run, Console};
use std::alloc::{GlobalAlloc, Layout, System};
use std::cell::Cell;
use std::ffi::OsString;
use std::fs;

/// The system's memory; what each thread asks for is counted.
struct Counting;

#[global_allocator]
static MEMORY: Counting = Counting;

thread_local! {
    static ASKED: Cell<u64> = const { Cell::new(0) };
}

fn count(bytes: usize) {
    // A thread that ends is not counted.
    let _ = ASKED.try_with(|asked| asked.set(asked.get() + bytes as u64));
}

// SAFETY: all is handed on to the system's memory.
unsafe impl GlobalAlloc for Counting {
    unsafe fn alloc(&self, layout: Layout) -> *mut u8 {
        count(layout.size());
        System.alloc(layout)
    }

    unsafe fn alloc_zeroed(&self, layout: Layout) -> *mut u8 {
        count(layout.size());
        System.alloc_zeroed(layout)
    }

    unsafe fn realloc(&self, start: *mut u8, layout: Layout, size: usize) -> *mut u8 {
        count(size);
        System.realloc(start, layout, size)
    }

    unsafe fn dealloc(&self, start: *mut u8, layout: Layout) {
        System.dealloc(start, layout);
    }
}

/// How many bytes the command asks for that audits so many files.
fn asked(files: usize) -> u64 {
    let folder = folder(&format!("growth_{files}"));
    let file = one_root();
    let path = |nth| {
        let path = folder.join(format!("{nth}.root"));
        fs::write(&path, &file).unwrap();
        path.into()
    };
    let arguments: Vec<OsString> = ["--quiet".into()].into_iter().chain((0..files).map(path)).collect();
    let (mut out, mut errors) = (Vec::new(), Vec::new());
    let mut console = Console { out: &mut out, errors: &mut errors, terminal: None };
    let before = ASKED.get();
    let status = run(arguments, &library, &mut console);
    let asked = ASKED.get() - before;
    assert_eq!(i32::from(status), PASSED, "{}", String::from_utf8_lossy(&errors));
    fs::remove_dir_all(folder).unwrap();
    asked
}

#[test]
fn in_the_number_of_files() {
    let [few, many] = [400, 4_000].map(asked);
    println!("bytes asked for: {few} for 400 files, {many} for 4,000");
    assert!(many <= 12 * few, "{few} for 400 files, {many} for 4,000");
}
