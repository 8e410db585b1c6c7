//! Large gaps through the command: holes of a sparse file, which take no room on the disk.

use kit::gen::gaps::Gapped;
use kit::harness::command::{line, rootaudit, PASSED, REFUSED};
use kit::harness::sparse::Sparse;
use std::path::Path;

const MOST_END: usize = 1_999_999_999;

fn written(name: &str, file: &Gapped) -> Option<Sparse> {
    Sparse::new(name, file.end, file.stretches.clone())
}

/// What a line says of a refusal, without the name and what to do now.
fn refused(path: &Path) -> String {
    let (status, out, _) = rootaudit(&[path]);
    assert_eq!(status, REFUSED, "{out}");
    let words = out.strip_prefix(&format!("{}: ", path.display())).unwrap();
    words.split_once("; now: ").unwrap().0.into()
}

/// A file passes if the last byte of each gap is listed, and is 9 with the byte after or the byte before.
fn expect_last_bytes(file: &Gapped, sparse: &Sparse) {
    let passed = format!("passed {}", 4 + file.gaps.len());
    assert_eq!(rootaudit(&[&sparse.path]), (PASSED, line(&sparse.path, &passed), String::new()));
    for (nth, gap) in file.gaps.iter().enumerate() {
        for last in [gap[1] + 1, gap[1] - 1] {
            sparse.put(file.segment(nth)[1], last as u64);
            let words = refused(&sparse.path);
            assert!(words.starts_with(&format!("refused 9 at {}: ", file.seek_free)), "{words}");
        }
        sparse.put(file.segment(nth)[1], gap[1] as u64);
        assert_eq!(rootaudit(&[&sparse.path]).0, PASSED);
    }
}

/// Up to the greatest END.
#[test]
fn as_large_as_a_file_may_be() {
    for (name, sizes) in [
        ("gaps_one.root", vec![MOST_END - 55 - 297]),
        ("gaps_two.root", vec![1 << 30, MOST_END - (1 << 30) - 65 - 297]),
        ("gaps_small.root", vec![4; 3]),
    ] {
        let file = Gapped::new(&sizes, &[]);
        let Some(sparse) = written(name, &file) else { continue };
        expect_last_bytes(&file, &sparse);
    }
}

/// A gap of 2^31 bytes, the greatest there is, makes a file longer than one with four-byte offsets may be.
#[test]
fn greatest_gap() {
    let Some(sparse) = written("gaps_greatest.root", &Gapped::new(&[1 << 31], &[])) else { return };
    let words = "refused 4 at 0: it has 2,147,484,000 bytes, \
                 and a file with four-byte offsets has at most 1,999,999,999";
    assert_eq!(refused(&sparse.path), words);
}

/// A file with eight-byte offsets has as many of them as it likes.
#[test]
fn greatest_gaps_of_a_wide_file() {
    for (name, before, after) in [
        ("gaps_wide_one.root", vec![1 << 31], vec![]),
        ("gaps_wide_two.root", vec![1 << 31; 2], vec![]),
        ("gaps_wide_three.root", vec![1 << 31; 2], vec![1 << 31]),
        ("gaps_wide_small.root", vec![4; 3], vec![4]),
    ] {
        let file = Gapped::wide(&before, &after);
        let Some(sparse) = written(name, &file) else { continue };
        expect_last_bytes(&file, &sparse);
    }
}
