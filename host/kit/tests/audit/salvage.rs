//! Salvage: files whose chain is broken, what is written over the fault, and both audits of the outcome.

use kit::compare::audit::{both_audits, both_by_rules};
use kit::compare::salvage::{enough, salvage, salvage_large};
use kit::compare::{answer_of, Tally};
use kit::gen::broken::{any_pieces, lay_gap, open, overlapping, ALL};
use kit::gen::fields::low_bytes;
use kit::gen::files::{one_root_plan, plan, wide_root_plan, Built, RICH, SMALL};
use kit::gen::{one_root, versioned_key, wide_root, Rng};
use kit::harness::root_folder::root_files;
use kit::harness::zeros::Zeros;
use programs::ffi;
use second::{fast, number, Answer};
use std::collections::BTreeMap;
use std::fs;

/// What was salvaged, the audits of what came of it, and how often each pair of numbers they gave.
struct Salvaged {
    files: Tally,
    audits: Tally,
    verdicts: BTreeMap<[u64; 2], u64>,
}

impl Salvaged {
    fn new(label: &'static str) -> Self {
        Salvaged { files: Tally::new(label), audits: Tally::new(label), verdicts: BTreeMap::new() }
    }

    /// Salvages a small file. Where that succeeds the chain is good, so that neither audit is below 7, and there is
    /// nothing to salvage any more.
    fn salvage(&mut self, file: &[u8]) -> Answer {
        let (answer, after) = salvage(&mut self.files, file);
        self.audit(answer, &after, both_by_rules);
        answer
    }

    fn audit(&mut self, answer: Answer, after: &[u8], both: fn(&mut Tally, &[u8]) -> [Answer; 2]) {
        let end = after.len() as u64;
        if answer.number == number::SUCCESS {
            let numbers = both(&mut self.audits, after).map(|answer| answer.number);
            assert!(numbers.iter().all(|&number| number == number::SUCCESS || number > number::UNFINISHED));
            if answer.place != end {
                *self.verdicts.entry(numbers).or_default() += 1;
            }
            let again = second::salvage::salvage(&mut after.to_vec());
            assert_eq!(again, Answer { number: number::SUCCESS, place: end, count: end });
        }
    }

    /// These pairs of numbers are among those that the audits gave of what was salvaged.
    fn expect(&self, verdicts: &[[u64; 2]]) {
        for pair in verdicts {
            assert!(self.verdicts.get(pair).is_some_and(|&count| count > 0), "{pair:?} in {:?}", self.verdicts);
        }
    }

    fn finish(self, at_least: u64, numbers: &[u64]) {
        println!("verdicts of both audits on what was salvaged: {:?}", self.verdicts);
        self.files.finish(at_least, numbers);
        self.audits.finish(0, &[]);
    }
}

/// What is salvaged from a place to another.
fn from_to(place: usize, count: usize) -> Answer {
    Answer { number: number::SUCCESS, place: place as u64, count: count as u64 }
}

fn forms() -> [Vec<u8>; 2] {
    [one_root(), wide_root()]
}

#[test]
fn every_byte() {
    let mut salvaged = Salvaged::new("salvage, each byte of one.root changed to every value");
    for file in forms() {
        for (at, value) in (0..file.len()).flat_map(|at| (0..=255).map(move |value| (at, value))) {
            let mut changed = file.clone();
            changed[at] = value;
            salvaged.salvage(&changed);
        }
    }
    salvaged.expect(&[[0, 0], [9, 0], [9, 9], [9, 12], [9, 13]]);
    salvaged.finish(1_000_000, &[0, 2, 3, 4, number::SALVAGE]);
}

/// At each place each number that could be a size there, or is near one.
#[test]
fn every_size() {
    let mut salvaged = Salvaged::new("salvage, each size at each place of one.root");
    let sizes = [0u32, 1, 3, 4, 5, 12, 26, 29, 37, 50, 55, 58, 68, 79, 1 << 31, (1 << 31) - 1];
    for file in forms() {
        for at in 100..=file.len() - 4 {
            let rest = (file.len() - at) as u32;
            for size in sizes.into_iter().chain([rest - 1, rest, rest + 1, rest / 2, rest.saturating_sub(4)]) {
                for number in [size, size.wrapping_neg()] {
                    let mut changed = file.clone();
                    changed[at..at + 4].copy_from_slice(&number.to_be_bytes());
                    salvaged.salvage(&changed);
                }
            }
        }
    }
    salvaged.finish(100_000, &[0]);
}

/// Two pieces are broken: what lies between them is lost with them.
#[test]
fn two_breaks() {
    let mut salvaged = Salvaged::new("salvage, two breaks");
    let mut rng = Rng::new(1020);
    for round in 0..400 {
        let plan = plan(&mut rng, if round % 2 == 0 { SMALL } else { RICH });
        let Built { bytes, sites, .. } = plan.build();
        let starts: Vec<usize> = plan.order.iter().map(|&index| sites[index].start).collect();
        for nth in 0..starts.len() {
            let mut broken = bytes.clone();
            broken[starts[nth]..][..4].fill(0);
            let after = starts.get(nth + 1).copied().unwrap_or(bytes.len());
            let answer = salvaged.salvage(&broken);
            // Only data may hold a piece by chance.
            assert_eq!((answer.number, answer.place), (0, starts[nth] as u64));
            assert!(answer.count as usize <= after);
            let other = rng.below(starts.len());
            broken[starts[other]..][..4].fill(0);
            salvaged.salvage(&broken);
        }
    }
    for nth in 0..20_000 {
        let mut file = forms()[nth % 2].clone();
        for _ in 0..2 {
            let at = 100 + rng.below(file.len() - 100);
            file[at] = rng.pick(&[0, 4, 0x7f, 0x80, 0xfc, 0xff]);
        }
        salvaged.salvage(&file);
    }
    salvaged.finish(100_000, &[0]);
}

/// So many bytes more, or fewer: with fewer than 4 left no gap fits.
#[test]
fn near_the_end() {
    let mut salvaged = Salvaged::new("salvage, breaks near END");
    let mut rng = Rng::new(1021);
    for (file, is_wide) in forms().into_iter().zip([false, true]) {
        let old = file.len();
        for more in 1..=40 {
            let fills = [vec![0; more], vec![0xff; more], rng.bytes(more), vec![0x7f; more]];
            for (nth, fill) in fills.into_iter().enumerate() {
                let mut longer = [&file[..], &fill].concat();
                open(&mut longer, is_wide);
                let answer = salvaged.salvage(&longer);
                match nth {
                    2 => {}
                    _ if more < 4 => assert_eq!(answer, Answer::refusal(number::SALVAGE, old as u64)),
                    _ => assert_eq!(answer, from_to(old, old + more)),
                }
            }
        }
        // The last piece that is left stands at each distance from END.
        for len in 100..old {
            let mut cut = file[..len].to_vec();
            open(&mut cut, is_wide);
            salvaged.salvage(&cut);
        }
        // A gap at the end, of each size, and each of the bytes before END changed.
        for (size, back) in (4..=9).flat_map(|size| (1..=9).map(move |back| (size, back))) {
            let mut longer = [&file[..], &vec![0; size]].concat();
            lay_gap(&mut longer, old, old + size);
            open(&mut longer, is_wide);
            for value in 0..=255 {
                let at = longer.len() - back;
                longer[at] = value;
                salvaged.salvage(&longer);
            }
        }
    }
    salvaged.finish(100_000, &[0, number::SALVAGE]);
}

/// A piece in the data of a broken record that by chance leads to the next one, or to END: the lowest such place is
/// taken, and none nearer than 4 bytes.
#[test]
fn pieces_inside_data() {
    let mut salvaged = Salvaged::new("salvage, pieces inside data");
    let mut rng = Rng::new(1022);
    for plan in [one_root_plan(), wide_root_plan()] {
        // "x", and the free list, which is the last piece.
        for index in [1, plan.items.len() - 1] {
            let mut plan = plan.clone();
            plan.items[index].data = vec![0; 150];
            let Built { mut bytes, sites, .. } = plan.build();
            let site = &sites[index];
            let (start, end) = (site.start, site.start + site.size);
            bytes[start..end].fill(0);
            assert_eq!(salvaged.salvage(&bytes), from_to(start, end));
            for at in start + 1..=end - 4 {
                let mut with_gap = bytes.clone();
                lay_gap(&mut with_gap, at, end);
                let expected = match at - start {
                    // Its last bytes are a number too, and no size.
                    1..4 => from_to(start, end),
                    _ => from_to(start, at),
                };
                assert_eq!(salvaged.salvage(&with_gap), expected, "{start} {at}");
                if end - at >= 60 {
                    let mut key = versioned_key(&mut rng, 4, at as u64, [3, 1, 0], 0);
                    key.nbytes = (end - at) as u32;
                    let mut with_record = bytes.clone();
                    with_record[at..end].copy_from_slice(&key.record(&mut Rng::new(0))[..end - at]);
                    with_record[at + key.sum()..end].fill(0);
                    salvaged.salvage(&with_record);
                    // Two gaps one after another, then a byte too many.
                    let middle = at + 4 + rng.below(20);
                    lay_gap(&mut with_gap, at, middle);
                    lay_gap(&mut with_gap, middle, end);
                    salvaged.salvage(&with_gap);
                    lay_gap(&mut with_gap, middle, end + 1);
                    salvaged.salvage(&with_gap);
                }
            }
        }
    }
    salvaged.finish(3_000, &[0]);
}

/// So many files that have a good header and nothing else to speak of.
fn any_of(label: &'static str, seed: u64, file: fn(&mut Rng) -> Vec<u8>) {
    let mut salvaged = Salvaged::new(label);
    let mut rng = Rng::new(seed);
    for _ in 0..40_000 {
        let (answer, after) = salvage(&mut salvaged.files, &file(&mut rng));
        salvaged.audit(answer, &after, both_audits);
    }
    salvaged.finish(200_000, &[0, number::SALVAGE]);
}

#[test]
fn any_files() {
    any_of("salvage, any pieces and bytes that are none", 1023, any_pieces);
}

#[test]
fn overlapping_gaps() {
    any_of("salvage, gaps that overlap", 1024, overlapping);
}

/// Each length of bytes that are no file, and each beginning of one.
#[test]
fn no_file() {
    let mut salvaged = Salvaged::new("salvage, beginnings of a file and any bytes");
    let mut rng = Rng::new(1025);
    for file in forms() {
        for len in 0..file.len() {
            salvaged.salvage(&file[..len]);
        }
    }
    for _ in 0..2_000 {
        let len = rng.below(300);
        salvaged.salvage(&rng.bytes(len));
    }
    salvaged.finish(10_000, &[1, 2, 4]);
}

/// The shapes of the benchmarks: short ones by all programs, long ones without the model.
#[test]
fn shapes() {
    let mut salvaged = Salvaged::new("salvage, shapes of the benchmarks");
    for shape in ALL {
        let file = (shape.bytes)(30_000);
        let short = match shape.name {
            // Nothing of it depends on its length.
            "gaps-of-4" | "gaps-of-8" | "noise" => (shape.bytes)(3_000),
            _ => file.clone(),
        };
        let (answer, after) = salvage(&mut salvaged.files, &short);
        salvaged.audit(answer, &after, both_audits);
        for file in [file, (shape.bytes)(1_000_000)] {
            let enough = enough(&file);
            let (answer, _) = salvage_large(&mut salvaged.files, &file, &[enough - 20, enough, 2 * enough]);
            assert_eq!(answer.number, number::SUCCESS, "{}", shape.name);
            let every = ["gaps-of-4", "gaps-of-8", "past-end", "records", "noise"].contains(&shape.name);
            assert!(!every || answer == from_to(100, file.len()), "{}: {answer:?}", shape.name);
        }
    }
    salvaged.finish(99, &[0]);
}

/// The greatest gap has 2^31 bytes: here a gap of 8 follows it. With one byte more to END it is 27.
#[test]
fn greatest_gap() {
    let Some(mut zeros) = Zeros::new() else { return };
    let mut tally = Tally::new("salvage, a gap of 2^31 bytes and of one more");
    let most = 100 + (1 << 31);
    let mut seen = vec![0; (1 << 28) + 1];
    let library =
        |file: &mut [u8], seen: &mut [u8]| answer_of(9, |place, count| ffi::salvage::salvage(file, seen, place, count));
    let refused = Answer::refusal(number::SALVAGE, 100);
    for (end, after, expected) in [(most + 8, most, from_to(100, most)), (most + 1, most + 1, refused)] {
        open(&mut zeros.bytes()[..end], true);
        if after < end {
            lay_gap(zeros.bytes(), after, end);
        }
        let gap = if expected == refused { vec![0; 4] } else { low_bytes(1 << 31, 4) };
        for run in [library, fast::salvage::salvage] {
            let file = &mut zeros.bytes()[..end];
            seen.fill(0xff);
            assert_eq!(run(file, &mut seen), expected);
            assert_eq!(file[100..104], gap);
            file[100..104].fill(0);
            assert!(is_zero(&seen) && is_zero(&file[100..after]));
            tally.add(expected.number);
        }
        zeros.bytes()[after..end].fill(0);
    }
    tally.finish(4, &[0, number::SALVAGE]);
}

/// Of gigabytes too: no byte decides by itself.
fn is_zero(bytes: &[u8]) -> bool {
    bytes.iter().fold(0, |all, byte| all | byte) == 0
}

/// Files written by ROOT with each of the first 2,000 bytes broken in three ways, and each later one in one: salvaged,
/// then audited both ways.
#[test]
fn files_by_root() {
    let Some(paths) = root_files() else { return };
    let mut salvaged = Salvaged::new("salvage, files written by ROOT with a byte broken");
    for path in &paths {
        let file = fs::read(path).unwrap();
        let ways = |at: usize| if at < 2_000 { &[1, 0x80, 0xff][..] } else { &[1] };
        for (at, by) in (0..file.len()).flat_map(|at| ways(at).iter().map(move |&by| (at, by))) {
            let mut changed = file.clone();
            changed[at] ^= by;
            let (answer, after) = salvage(&mut salvaged.files, &changed);
            salvaged.audit(answer, &after, both_audits);
        }
    }
    salvaged.expect(&[[8, 8], [9, 0], [9, 13]]);
    salvaged.finish(60_000, &[0, 2, 3, 4]);
}
