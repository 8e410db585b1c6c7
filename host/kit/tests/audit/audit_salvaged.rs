//! The audit of a salvaged file beside the audit: they differ only where segments are not those of the gaps.

use kit::compare::audit::{both_audits, both_by_rules};
use kit::compare::Tally;
use kit::gen::faults::{self, Target};
use kit::gen::files::{one_root_plan, plan, segment_bytes, Role, LARGE, RICH, SMALL};
use kit::gen::gaps::{Form, Gapped};
use kit::gen::{damage, one_root, wide_root, Rng};
use second::audit::FREE_END;
use second::{number, Answer};

#[test]
fn every_byte() {
    let mut tally = Tally::new("both audits, each byte of one.root changed");
    for file in [one_root(), wide_root()] {
        for (at, by) in (0..file.len()).flat_map(|at| [1, 2, 4, 0x10, 0x80, 0xff].map(|by| (at, by))) {
            let mut changed = file.clone();
            changed[at] ^= by;
            both_by_rules(&mut tally, &changed);
        }
    }
    tally.finish(9_000, &[0, 2, 3, 4, 5, 6, 8, 9, 10, 12, 13]);
}

/// Every rule broken by itself: where only the gaps are not the segments, the second audit passes.
#[test]
fn every_fault() {
    let mut tally = Tally::new("both audits, each rule broken");
    let mut rng = Rng::new(1010);
    let mut apart = 0;
    for _ in 0..40 {
        let plan = plan(&mut rng, RICH);
        for fault in faults::all() {
            let target = Target::pick(&mut rng, &plan);
            let built = faults::build(&mut rng, &plan, &[(&fault, target)]);
            let [first, second] = both_by_rules(&mut tally, &built.bytes);
            assert_eq!(first.number, fault.number, "{}", fault.name);
            apart += u64::from(first != second);
        }
    }
    println!("in {apart} of them the audits differ");
    assert!(apart > 40);
    tally.finish(8_000, &[0, 1, 2, 3, 4, 5, 6, 8, 9, 10, 11, 12, 13, 14]);
}

#[test]
fn damaged_files() {
    let mut tally = Tally::new("both audits, files as they are and damaged");
    let mut rng = Rng::new(1011);
    for _ in 0..4_000 {
        let mut file = plan(&mut rng, SMALL).build().bytes;
        let [first, second] = both_by_rules(&mut tally, &file);
        assert_eq!((first.number, first), (number::SUCCESS, second));
        let at = rng.below(file.len());
        damage(&mut rng, &mut file, at);
        both_by_rules(&mut tally, &file);
    }
    for _ in 0..10 {
        both_audits(&mut tally, &plan(&mut rng, LARGE).build().bytes);
    }
    tally.finish(16_000, &[0]);
}

/// Segments that are no gap of the file: the audit is 9, the other passes. The final one, their number, their versions
/// and their bytes are looked at by both.
#[test]
fn other_segments() {
    let mut tally = Tally::new("both audits, other segments");
    for is_wide in [false, true] {
        let form: Form = if is_wide { Gapped::wide } else { Gapped::new };
        for (before, after) in [(&[][..], &[][..]), (&[4], &[]), (&[12, 4, 30], &[]), (&[4], &[4, 9])] {
            let file = form(before, after);
            let refused = Answer::refusal(number::FREE, file.seek_free as u64);
            let passed = Answer::success(4 + file.gaps.len() as u64);
            for (nth, by) in (0..=file.gaps.len()).flat_map(|nth| [1, -1, 4, -4, 1 << 30].map(|by| (nth, by))) {
                let is_final = nth == file.gaps.len();
                for (field, is_last) in file.segment(nth).into_iter().zip([false, true]) {
                    let mut bytes = file.bytes();
                    field.add(&mut bytes, by);
                    let expected = match (is_final, is_wide && is_last) {
                        (false, _) => [refused, passed],
                        (true, true) => [passed, passed],
                        (true, false) => [refused, refused],
                    };
                    assert_eq!(both_by_rules(&mut tally, &bytes), expected, "{is_wide} {nth} {is_last} {by}");
                }
            }
        }
    }
    tally.finish(100, &[0, number::FREE]);
}

/// one.root without its gap, and with these segments, which are told END, in the place of its own: the file, and where
/// its free list stands.
fn with_list(nfree: u32, segments: impl Fn(u64) -> Vec<u8>) -> (Vec<u8>, u64) {
    let mut plan = one_root_plan();
    let [gap, free] = [Role::Gap, Role::Free].map(|role| plan.find(role).expect("one.root has it"));
    plan.order.retain(|&index| index != gap);
    // A record of any data: the header says that it is the free list.
    (plan.items[free].role, plan.items[free].data) = (Role::Loose, segments(0));
    let end = plan.build().bytes.len() as u64;
    plan.items[free].data = segments(end);
    let mut built = plan.build();
    let (header, start, size) = (built.header, built.start(free), built.size(free));
    for (field, number) in [(header.seek_free(), start), (header.nbytes_free(), size), (header.nfree(), nfree.into())] {
        built.put(field, number);
    }
    (built.bytes, start)
}

/// Lists of segments by hand: any but the final one, their number and their versions.
#[test]
fn lists_by_hand() {
    let mut tally = Tally::new("both audits, lists of segments by hand");
    let other = |version| (version, Some([7, 3]));
    let last = |version| (version, None);
    for (segments, nfree, passes) in [
        (vec![last(1)], 1, true),
        (vec![other(1), last(1)], 2, true),
        (vec![other(0), other(1000), other(1), last(1)], 4, true),
        (vec![last(1), last(1)], 2, true),
        (vec![other(1)], 1, false),
        (vec![last(1), other(1)], 2, false),
        (vec![other(1001), last(1)], 2, false),
        (vec![other(1), last(1001)], 2, false),
        (vec![], 0, false),
        (vec![last(1)], 0, false),
        (vec![other(1), last(1)], 1, false),
        (vec![other(1), last(1)], 3, false),
        (vec![other(1), last(1)], u32::MAX, false),
    ] {
        let bytes = |&(version, places): &(u16, Option<[u64; 2]>), end| {
            segment_bytes(version, places.unwrap_or([end, FREE_END]))
        };
        let (file, start) = with_list(nfree, |end| segments.iter().flat_map(|segment| bytes(segment, end)).collect());
        let refused = Answer::refusal(number::FREE, start);
        let second = if passes { Answer::success(4) } else { refused };
        let first = if passes && nfree == 1 { second } else { refused };
        assert_eq!(both_by_rules(&mut tally, &file), [first, second], "{segments:?} {nfree}");
    }
    tally.finish(26, &[0, number::FREE]);
}
