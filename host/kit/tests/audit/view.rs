//! The viewer's list: the rows of the tables as records, each with the size of its piece.

use kit::compare::view::{view, view_in_turn};
use kit::compare::Tally;
use kit::gen::faults::{self, Target};
use kit::gen::files::{plan, LARGE, RICH};
use kit::gen::gaps::Gapped;
use kit::gen::{one_root, shapes, wide_root, Rng};
use kit::harness::zeros::Zeros;
use programs::ffi::view::Row;
use second::{number, part, Answer};
use std::fs;

/// The records stand side by side from 100 to the end.
fn check_sizes(rows: &[Row], file: &[u8]) {
    let mut at = 100;
    for row in rows {
        assert_eq!(row.start, at);
        at += row.size;
    }
    assert_eq!(at, file.len() as u64);
}

/// Every length of the list from none to more than enough, with tables that are shorter, longer and of each length.
#[test]
fn every_length() {
    let mut tally = Tally::new("view, one.root with every length of list and tables");
    let sizes = [[68, 50, 79, 12, 55], [88, 58, 95, 12, 79]];
    for (file, sizes) in [one_root(), wide_root()].into_iter().zip(sizes) {
        let (answer, rows) = view_in_turn(&mut tally, &file, 0);
        assert_eq!(answer, Answer::success(5));
        assert_eq!(rows.iter().map(|row| row.size).collect::<Vec<_>>(), sizes);
        let parts = [part::HEAD, part::LISTED, part::KEYS, part::GAP, part::FREE];
        assert_eq!(rows.iter().map(|row| row.part).collect::<Vec<_>>(), parts);
        check_sizes(&rows, &file);
        for lengths in (0..8 * 8 * 8 * 8).map(|n: usize| [n / 512, n / 64 % 8, n / 8 % 8, n % 8]) {
            let (answer, _) = view(&mut tally, &file, lengths);
            let unfinished = Answer { number: number::UNFINISHED, place: 0, count: 5 };
            let enough = lengths.iter().all(|&length| length >= 5);
            assert_eq!(answer, if enough { Answer::success(5) } else { unfinished });
        }
    }
    tally.finish(2 * 4_096, &[number::SUCCESS, number::UNFINISHED]);
}

/// Any file, good and with any rule broken.
#[test]
fn any_file() {
    let mut tally = Tally::new("view, any file, good or with a rule broken");
    let mut rng = Rng::new(270);
    for round in 0..60 {
        let plan = plan(&mut rng, RICH).of_width(round % 2 == 0);
        let built = plan.build();
        let (answer, rows) = view_in_turn(&mut tally, &built.bytes, round % 4);
        assert_eq!(answer, Answer::success(plan.items.len() as u64));
        check_sizes(&rows, &built.bytes);
        for fault in faults::all() {
            let target = Target::pick(&mut rng, &plan);
            let built = faults::build(&mut rng, &plan, &[(&fault, target)]);
            let (answer, _) = view_in_turn(&mut tally, &built.bytes, round % 3);
            assert_eq!(answer.number, fault.number, "{}", fault.name);
        }
    }
    tally.finish(60_000, &[0, 1, 2, 3, 4, 5, 6, 7, 8, 9, 10, 11, 12, 13, 14]);
}

/// Large files, and the shapes of the benchmarks.
#[test]
fn large_files() {
    let mut tally = Tally::new("view, large files and the shapes of the benchmarks");
    let mut rng = Rng::new(271);
    for _ in 0..20 {
        let file = plan(&mut rng, LARGE).build().bytes;
        check_sizes(&view_in_turn(&mut tally, &file, 0).1, &file);
    }
    for shape in shapes::ALL {
        let file = (shape.plan)(2_000).build().bytes;
        let (answer, rows) = view_in_turn(&mut tally, &file, 1);
        assert_eq!(answer, Answer::success(2_000), "{}", shape.name);
        check_sizes(&rows, &file);
    }
    tally.finish(31 * 9, &[number::SUCCESS, number::UNFINISHED]);
}

/// The greatest gap has 2^31 bytes; behind two of them pieces stand past 2^32.
#[test]
fn greatest_gaps() {
    let Some(mut zeros) = Zeros::new() else { return };
    let mut tally = Tally::new("view, gaps of 2^31 bytes, and pieces past 2^32");
    for sizes in [&[(1 << 31) - 1][..], &[1 << 31], &[1 << 31, 1 << 31]] {
        let file = Gapped::wide(sizes, &[]);
        for (at, bytes) in &file.stretches {
            zeros.put(*at, bytes);
        }
        let bytes = &zeros.bytes()[..file.end];
        let (answer, rows) = view_in_turn(&mut tally, bytes, 1);
        assert_eq!(answer, Answer::success(4 + sizes.len() as u64));
        check_sizes(&rows, bytes);
        let gaps = rows.iter().filter(|row| row.part == part::GAP);
        assert!(gaps.map(|row| row.size as usize).eq(sizes.iter().copied()));
    }
    tally.finish(3 * 9, &[number::SUCCESS, number::UNFINISHED]);
}

/// Bytes that are no file: each start of one, and bytes at random.
#[test]
fn any_bytes() {
    let mut tally = Tally::new("view, starts of a file and bytes at random");
    for file in [one_root(), wide_root()] {
        for end in 0..file.len() {
            view_in_turn(&mut tally, &file[..end], end % 3);
        }
    }
    let mut rng = Rng::new(272);
    for _ in 0..500 {
        let len = rng.below(600);
        let bytes: Vec<u8> = (0..len).map(|_| rng.below(256) as u8).collect();
        view(&mut tally, &bytes, [0; 4].map(|_| rng.below(5)));
    }
    tally.finish(4_000, &[1, 2, 4]);
}

/// Files that ROOT wrote.
#[test]
fn root_files() {
    let Some(paths) = kit::harness::root_folder::root_files() else { return };
    let mut tally = Tally::new("view, files written by ROOT");
    for path in &paths {
        let file = fs::read(path).unwrap();
        let (answer, rows) = view_in_turn(&mut tally, &file, 0);
        kit::harness::root_folder::expect_known(path, answer);
        if answer.number == number::SUCCESS {
            check_sizes(&rows, &file);
        }
    }
    tally.finish(paths.len() as u64, &[]);
}
