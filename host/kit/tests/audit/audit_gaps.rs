//! Gaps as ROOT lists them, first and last byte, and every segment that is not that of its gap.

use kit::compare::audit::{audit, audit_by_rules};
use kit::compare::Tally;
use kit::gen::fields::Field;
use kit::gen::gaps::{Form, Gapped};
use kit::gen::Rng;
use second::{number, part, Answer};

/// Sizes of gaps before the free list, and after it. None, one, adjacent ones, those of 4 bytes, one at the end.
const SIZES: [(&[usize], &[usize]); 14] = [
    (&[], &[]),
    (&[4], &[]),
    (&[5], &[]),
    (&[12], &[]),
    (&[4, 4], &[]),
    (&[12, 4, 30], &[]),
    (&[4; 40], &[]),
    (&[255, 256, 257], &[]),
    (&[65_535, 65_536], &[]),
    (&[], &[4]),
    (&[], &[4, 4]),
    (&[4], &[4]),
    (&[7, 4], &[4, 9]),
    (&[1 << 20], &[1 << 20]),
];

/// The forms of the file, with narrow and with wide offsets.
const FORMS: [Form; 2] = [Gapped::new, Gapped::wide];

/// Every size in every form.
fn forms_and_sizes() -> impl Iterator<Item = (usize, &'static [usize], &'static [usize])> {
    SIZES.into_iter().flat_map(|(before, after)| [0, 1].map(|form| (form, before, after)))
}

fn refused(file: &Gapped) -> Answer {
    Answer::refusal(number::FREE, file.seek_free as u64)
}

#[test]
fn as_root_writes_them() {
    let mut tally = Tally::new("audit, gaps as ROOT lists them");
    for (form, before, after) in forms_and_sizes() {
        let file = FORMS[form](before, after);
        let (answer, rows) = audit_by_rules(&mut tally, &file.bytes());
        assert_eq!(answer, Answer::success(4 + file.gaps.len() as u64), "{form} {before:?} {after:?}");
        let gaps: Vec<usize> = rows.iter().filter(|row| row.part == part::GAP).map(|row| row.start as usize).collect();
        assert_eq!(gaps, file.gaps.iter().map(|gap| gap[0]).collect::<Vec<_>>());
    }
    tally.finish(28, &[0]);
}

/// Each number of each segment, the final one too, is changed. A gap's last and 1 is document 004's. In the wide form
/// the final one ends anywhere behind END.
#[test]
fn every_other_first_and_last() {
    let mut tally = Tally::new("audit, firsts and lasts near those of gaps");
    for (form, before, after) in forms_and_sizes() {
        let file = FORMS[form](before, after);
        let final_last = file.segment(file.gaps.len())[1];
        for field in (0..=file.gaps.len()).flat_map(|nth| file.segment(nth)) {
            for by in [1, -1, 2, -2, 4, -4, 12, -12, 1 << 31, 1 << 63] {
                // Half of a narrow number's range would not move it.
                let by = if field.width == 4 && by == i64::MIN { 1 << 30 } else { by };
                let mut bytes = file.bytes();
                field.add(&mut bytes, by);
                let (answer, _) = audit(&mut tally, &bytes, [64; 3]);
                let passes = form == 1 && field == final_last;
                let expected = if passes { Answer::success(4 + file.gaps.len() as u64) } else { refused(&file) };
                assert_eq!(answer, expected, "{form} {before:?} {after:?}: {field:?} by {by}");
            }
        }
    }
    tally.finish(2_000, &[0, number::FREE]);
}

/// The file with these numbers in the first segments.
fn with_segments(file: &Gapped, segments: &[[usize; 2]]) -> Vec<u8> {
    let mut bytes = file.bytes();
    for (nth, segment) in segments.iter().enumerate() {
        for (field, &number) in file.segment(nth).into_iter().zip(segment) {
            field.put(&mut bytes, number as u64);
        }
    }
    bytes
}

/// Two gaps side by side are two segments: neither one for both, nor one that ends where the next begins.
#[test]
fn adjacent_gaps() {
    let mut tally = Tally::new("audit, adjacent gaps");
    let sizes = [(4, 4), (4, 12), (12, 4), (100, 100)];
    for (form, (a, b)) in FORMS.into_iter().flat_map(|form| sizes.map(|sizes| (form, sizes))) {
        let file = form(&[a, b], &[]);
        let first = file.gaps[0][0];
        let [next, after] = [first + a, first + a + b];
        let good = [[first, next - 1], [next, after - 1]];
        for (segments, passes) in [
            (good, true),
            ([good[1], good[0]], false),
            ([good[0], good[0]], false),
            ([[first, next], good[1]], false),
            ([[first, next], [next, after]], false),
            ([good[0], [next, after]], false),
            ([good[0], [next - 1, after - 1]], false),
            ([[first, after - 1], good[1]], false),
            ([[first, after - 1], [after, after]], false),
        ] {
            let bytes = with_segments(&file, &segments);
            let expected = if passes { Answer::success(6) } else { refused(&file) };
            assert_eq!(audit_by_rules(&mut tally, &bytes).0, expected, "{segments:?}");
        }
        // One gap that is listed as two, and two that are listed as one.
        for (listed, sizes) in [(vec![a, b], vec![a + b]), (vec![a + b], vec![a, b])] {
            let file = form(&listed, &[]);
            let mut bytes = file.bytes();
            let mut at = first;
            for size in sizes {
                Field { at, width: 4 }.put(&mut bytes, (size as u64).wrapping_neg());
                at += size;
            }
            assert_eq!(audit_by_rules(&mut tally, &bytes).0, refused(&file), "{listed:?}");
        }
    }
    tally.finish(88, &[0, number::FREE]);
}

/// Gaps of any sizes, and the same with some of the segments' bytes changed.
#[test]
fn any_gaps() {
    let mut tally = Tally::new("audit, any gaps");
    let mut rng = Rng::new(0x9a9);
    for _ in 0..4_000 {
        let mut sizes = |most| (0..rng.below(most)).map(|_| 4 + rng.below(40)).collect::<Vec<_>>();
        let sizes = [sizes(5), sizes(3)];
        let file = rng.pick(&FORMS)(&sizes[0], &sizes[1]);
        let mut bytes = file.bytes();
        assert_eq!(audit_by_rules(&mut tally, &bytes).0, Answer::success(4 + file.gaps.len() as u64));
        for _ in 0..=rng.below(2) {
            let nth = rng.below(file.gaps.len() + 1);
            let field = rng.pick(&file.segment(nth));
            let last = field.at + field.width - 1;
            bytes[last] = bytes[last].wrapping_add(rng.pick(&[1, 255, 4, 252, 128]));
        }
        audit_by_rules(&mut tally, &bytes);
    }
    tally.finish(8_000, &[0, number::FREE]);
}
