//! The audit at the greatest END, with the greatest gaps, and of lent memory longer than 32 bits can say.

use kit::compare::audit::{audit, audit_by_rules};
use kit::compare::{read_piece, Tally};
use kit::gen::files::{end, wide_root_plan, Plan, Role, Site};
use kit::gen::gaps::{Form, Gapped};
use kit::gen::mixes::{Mix, DIR, FREE, GAP, HEAD, INFO, LIST, LIST_OF_DIR, PIECES, Y};
use kit::harness::zeros::Zeros;
use second::{number, Answer};

const MOST_END: usize = 1_999_999_999;
/// Room for the five pieces.
const LENGTHS: [usize; 3] = [6, 5, 7];

/// one.root with a gap so large that the file ends at `end`.
fn ending_at(end: usize) -> Gapped {
    let file = Gapped::new(&[end - 55 - 297], &[]);
    assert_eq!((file.end, file.seek_free), (end, end - 55));
    file
}

#[test]
fn greatest_end() {
    let Some(mut zeros) = Zeros::new() else { return };
    let mut tally = Tally::new("audit, END near its greatest");
    for end in [364, MOST_END - 1, MOST_END, MOST_END + 1] {
        let file = ending_at(end);
        zeros.lay(&file);
        let (answer, rows) = audit(&mut tally, &zeros.bytes()[..end], LENGTHS);
        if end > MOST_END {
            assert_eq!(answer, Answer::refusal(number::BOUNDS, 0));
        } else {
            assert_eq!(answer, Answer::success(5));
            assert_eq!((rows[3].start, rows[4].start as usize), (297, end - 55));
            // The gap's segment ends at its last byte, and neither after nor before it.
            for last in [end - 55, end - 57] {
                file.segment(0)[1].put(zeros.bytes(), last as u64);
                let (answer, _) = audit(&mut tally, &zeros.bytes()[..end], LENGTHS);
                assert_eq!(answer, Answer::refusal(number::FREE, file.seek_free as u64));
            }
            zeros.lay(&file);
        }
        // END one away from the length.
        for len in [end - 1, end + 1] {
            assert_eq!(audit(&mut tally, &zeros.bytes()[..len], LENGTHS).0, Answer::refusal(number::BOUNDS, 0));
        }
        zeros.clear(&file);
    }
    // END is the low half of the length.
    zeros.lay(&ending_at(364));
    assert_eq!(audit(&mut tally, &zeros.bytes()[..(1 << 32) + 364], LENGTHS).0, Answer::refusal(number::BOUNDS, 0));
    tally.finish(19, &[0, number::BOUNDS, number::FREE]);
}

/// The greatest gap has 2^31 bytes. A file with four-byte offsets that holds it is longer than the greatest END, one
/// with eight-byte offsets passes.
#[test]
fn greatest_gap() {
    let Some(mut zeros) = Zeros::new() else { return };
    let mut tally = Tally::new("audit, a gap of 2^31 bytes");
    let forms: [(Form, bool); 2] = [(Gapped::new, false), (Gapped::wide, true)];
    for ((form, is_wide), size) in forms.into_iter().flat_map(|form| [(form, (1 << 31) - 1), (form, 1 << 31)]) {
        let file = form(&[size], &[]);
        zeros.lay(&file);
        for last in [file.gaps[0][1], file.gaps[0][1] + 1] {
            file.segment(0)[1].put(zeros.bytes(), last as u64);
            let (answer, _) = audit(&mut tally, &zeros.bytes()[..file.end], LENGTHS);
            let expected = match (is_wide, last == file.gaps[0][1]) {
                (false, _) => Answer::refusal(number::BOUNDS, 0),
                (true, false) => Answer::refusal(number::FREE, file.seek_free as u64),
                (true, true) => Answer::success(5),
            };
            assert_eq!(answer, expected);
        }
        let (answer, _) = read_piece(&mut tally, &zeros.bytes()[..file.end], file.gaps[0][0] as u64);
        assert_eq!(answer, Answer::success(size as u64));
        zeros.clear(&file);
    }
    tally.finish(12, &[0, number::BOUNDS, number::FREE]);
}

/// A file with eight-byte offsets that ends at `end`, in three gaps of which none is too great. Its final segment has a
/// version of its own.
fn wide_ending_at(end: usize, version: u16) -> Gapped {
    let form = |sizes: [usize; 3]| {
        let mut plan = wide_root_plan();
        let free = plan.find(Role::Free).unwrap();
        plan.items[free].segments = vec![1001, 1001, 1001, version];
        Gapped::of(plan, &sizes[..2], &sizes[2..])
    };
    let all = end - (form([4; 3]).end - 3 * 4);
    let file = form([all / 3, all / 3, all - 2 * (all / 3)]);
    assert_eq!(file.end, end);
    file
}

/// Such a file that ends near 2^31 and near 2^32.
#[test]
fn wide_ends() {
    let Some(mut zeros) = Zeros::new() else { return };
    let mut tally = Tally::new("audit, END of a wide file near 2^31 and 2^32");
    for end in [MOST_END, MOST_END + 1, 2_000_000_001, (1 << 31) + 9, (1 << 32) - 1, 1 << 32, (1 << 32) + 99] {
        let file = wide_ending_at(end, 1001);
        zeros.lay(&file);
        assert_eq!(audit(&mut tally, &zeros.bytes()[..end], [7; 3]).0, Answer::success(7), "{end}");
        for len in [end - 1, end + 1] {
            assert_eq!(audit(&mut tally, &zeros.bytes()[..len], [7; 3]).0, Answer::refusal(number::BOUNDS, 0));
        }
        // The final segment ends behind END, or it is bad.
        let last = file.segment(3)[1];
        for (number, passes) in [(end - 1, false), (end, false), (end + 1, true), (usize::MAX, true)] {
            last.put(zeros.bytes(), number as u64);
            let expected =
                if passes { Answer::success(7) } else { Answer::refusal(number::FREE, file.seek_free as u64) };
            assert_eq!(audit(&mut tally, &zeros.bytes()[..end], [7; 3]).0, expected, "{end} {number}");
        }
        zeros.clear(&file);
    }
    tally.finish(49, &[0, number::BOUNDS, number::FREE]);
}

/// The same with a final segment of 10 bytes: from 2^32 - 1 on it has no number behind END, from 2^32 on no END.
#[test]
fn wide_ends_of_narrow_segments() {
    let Some(mut zeros) = Zeros::new() else { return };
    let mut tally = Tally::new("audit, END of a wide file near 2^32, and a narrow final segment");
    for end in [(1 << 32) - 2, (1 << 32) - 1, 1 << 32, (1 << 32) + 99] {
        let file = wide_ending_at(end, 1);
        zeros.lay(&file);
        let [first, last] = file.segment(3);
        assert_eq!((first.width, last.width), (4, 4));
        // The low half of END, where that is all that fits.
        first.put(zeros.bytes(), end as u64);
        for number in [0, 1, 100, 2_000_000_000, 1 << 31, (1 << 32) - 3, (1 << 32) - 2, (1 << 32) - 1] {
            last.put(zeros.bytes(), number);
            let passes = end == (1 << 32) - 2 && number == (1 << 32) - 1;
            let expected =
                if passes { Answer::success(7) } else { Answer::refusal(number::FREE, file.seek_free as u64) };
            assert_eq!(audit(&mut tally, &zeros.bytes()[..end], [7; 3]).0, expected, "{end} {number}");
        }
        zeros.clear(&file);
    }
    tally.finish(32, &[0, number::FREE]);
}

/// A directory, what it lists and its keys list around 2^32, and each byte of them changed.
#[test]
fn directories_past_32_bits() {
    let Some(mut zeros) = Zeros::new() else { return };
    let mut tally = Tally::new("audit, a directory and its list around 2^32");
    for at in [(1 << 32) - 200, (1 << 32) - 60, (1 << 32) - 1, 1 << 32, (1 << 32) + 1, (1 << 32) + 999] {
        // What lies below 2^32 may be narrow: keys of the head, X and the head's list, the head's header, the first
        // gap's segment.
        for mix in [Mix::WIDE, Mix { keys: 0xf8, directories: 2, segments: 6, ..Mix::WIDE }] {
            let plan = mix.plan_with_directory_at(at);
            let sites = plan.sites();
            let stretches: Vec<(usize, Vec<u8>)> = plan.laid(&sites).collect();
            zeros.lay_all(&stretches);
            around_32_bits(&mut tally, &mut zeros, &plan, &sites);
            zeros.clear_all(&stretches);
        }
    }
    tally.finish(5_000, &[0, 5, 6, 11, 12, 13]);
}

fn around_32_bits(tally: &mut Tally, zeros: &mut Zeros, plan: &Plan, sites: &[Site]) {
    let end = end(sites);
    let (answer, rows) = audit_by_rules(tally, &zeros.bytes()[..end]);
    assert_eq!(answer, Answer::success(plan.order.len() as u64));
    let row = rows.iter().find(|row| row.start == sites[Y].start as u64).unwrap();
    assert_eq!(row.owner, sites[DIR].start as u64);
    for site in [DIR, Y, LIST_OF_DIR].map(|index| &sites[index]) {
        for at in site.start..site.start + site.size {
            let byte = zeros.bytes()[at];
            for value in [byte ^ 1, byte ^ 0x80] {
                zeros.bytes()[at] = value;
                audit_by_rules(tally, &zeros.bytes()[..end]);
            }
            zeros.bytes()[at] = byte;
        }
    }
}

/// Something narrow that would have to say a place past 2^32, and says its low half.
struct LowHalves {
    zeros: Zeros,
    tally: Tally,
}

impl LowHalves {
    /// The order is that of a file that passes with wide offsets, whatever stands past 2^32; some are then narrow.
    fn expect(&mut self, order: fn(&mut Plan), narrow: impl Fn(&mut Plan), expected: impl Fn(&[Site]) -> Answer) {
        for at in [1 << 32, (1 << 32) + 100, (1 << 32) + 999] {
            // Three gaps lead there.
            let mut plan = Mix::WIDE.plan_with_directory_at((1 << 32) + 999);
            order(&mut plan);
            let (answer, _) = self.audit(&mut plan, at);
            assert_eq!(answer, Answer::success(plan.order.len() as u64), "{at}");
            narrow(&mut plan);
            let (answer, sites) = self.audit(&mut plan, at);
            assert_eq!(answer, expected(&sites), "{at}");
        }
    }

    /// What is answered when the first piece behind the gaps stands at `at`, and where all stand.
    fn audit(&mut self, plan: &mut Plan, at: usize) -> (Answer, Vec<Site>) {
        let is_gap = |index: &&usize| plan.items[**index].role == Role::Gap;
        let far = *plan.order.iter().skip_while(|index| !is_gap(index)).find(|index| !is_gap(index)).unwrap();
        plan.items[GAP].zeros = plan.items[GAP].zeros + at - plan.sites()[far].start;
        let sites = plan.sites();
        assert_eq!(sites[far].start, at);
        let stretches: Vec<(usize, Vec<u8>)> = plan.laid(&sites).collect();
        self.zeros.lay_all(&stretches);
        put_segments(self.zeros.bytes(), plan, &sites);
        let (answer, _) = audit_by_rules(&mut self.tally, &self.zeros.bytes()[..end(&sites)]);
        self.zeros.clear_all(&stretches);
        (answer, sites)
    }
}

/// Of each segment as much as it holds.
fn put_segments(bytes: &mut [u8], plan: &Plan, sites: &[Site]) {
    let gaps = plan.order.iter().filter(|&&index| plan.items[index].role == Role::Gap);
    let ends = gaps.map(|&gap| [sites[gap].start, sites[gap].start + sites[gap].size - 1]);
    let all = ends.chain([[end(sites), end(sites) + 1]]);
    for (segment, [first, last]) in sites[FREE].segments.iter().zip(all) {
        segment.first().put(bytes, first as u64);
        segment.last().put(bytes, last as u64);
    }
}

fn refused(number: u64, place: usize) -> Answer {
    Answer::refusal(number, place as u64)
}

/// Puts a piece before the gaps.
fn put_below(plan: &mut Plan, index: usize) {
    plan.order.retain(|&other| other != index);
    plan.order.insert(GAP, index);
}

/// Puts a piece at the end.
fn put_past(plan: &mut Plan, index: usize) {
    plan.order.retain(|&other| other != index);
    plan.order.push(index);
}

/// The version of a free segment, counted from the last.
fn segment_from_last(plan: &mut Plan, nth: usize) -> &mut u16 {
    plan.items[FREE].segments.iter_mut().rev().nth(nth).unwrap()
}

#[test]
fn low_halves_past_32_bits() {
    let Some(zeros) = Zeros::new() else { return };
    let mut low = LowHalves { zeros, tally: Tally::new("audit, low halves of places past 2^32") };
    let as_it_is = |_: &mut Plan| {};
    // What stands past 2^32 itself.
    for record in [DIR, Y, LIST_OF_DIR, INFO, FREE] {
        let narrow = |plan: &mut Plan| plan.items[record].key.version = 4;
        low.expect(as_it_is, narrow, |sites| refused(number::KEY, sites[record].start));
    }
    low.expect(as_it_is, |plan| plan.items[DIR].version = 5, |sites| refused(number::DIRECTORY, sites[DIR].start));
    // The final segment, that of the last gap, and that of the gap before the directory, which may end below 2^32.
    for nth in 0..3 {
        let narrow = |plan: &mut Plan| *segment_from_last(plan, nth) = 1;
        low.expect(as_it_is, narrow, |sites| {
            let fits = nth == 2 && sites[DIR].start == 1 << 32;
            if fits {
                Answer::success(PIECES as u64 + 2)
            } else {
                refused(number::FREE, sites[FREE].start)
            }
        });
    }
    low_halves_below_32_bits(&mut low);
    low.tally.finish(78, &[0, number::KEY, number::FREE, number::DIRECTORY, number::KEYS, number::ENTRY]);
}

/// What stands below 2^32, of a directory or of a list past it. A list is looked for at the low half.
fn low_halves_below_32_bits(low: &mut LowHalves) {
    low.expect(
        |plan| put_below(plan, LIST_OF_DIR),
        |plan| plan.items[LIST_OF_DIR].key.version = 4,
        |sites| refused(number::KEYS, sites[LIST_OF_DIR].start),
    );
    low.expect(
        |plan| put_below(plan, Y),
        |plan| plan.items[Y].key.version = 4,
        |sites| refused(number::ENTRY, sites[LIST_OF_DIR].copies[0]),
    );
    for (dir, list, order) in
        [(HEAD, LIST, (|plan| put_past(plan, LIST)) as fn(&mut Plan)), (DIR, LIST_OF_DIR, |plan| put_below(plan, DIR))]
    {
        low.expect(
            order,
            |plan| plan.items[dir].version = 5,
            |sites| refused(number::KEYS, sites[list].start - (1 << 32)),
        );
    }
}
