//! Strings of 255 bytes and more in whole files: in the keys of every record, in copies of them, and in the head.

use kit::compare::audit::audit_by_rules;
use kit::compare::Tally;
use kit::gen::fields::{Field, KeyAt};
use kit::gen::files::{Built, Plan, Role};
use kit::gen::mixes::{Mix, DIR, HEAD, LATER_GAP, LIST, LIST_OF_DIR, PIECES, RECORDS, X, Y};
use kit::gen::strings::{claims, counted, long_form};
use kit::gen::Rng;
use kit::harness::edge::Edge;
use second::{number, Answer};

const PASS: Answer = Answer { number: number::SUCCESS, place: 0, count: PIECES as u64 };
/// The greatest KeyLen.
const MOST_KEYLEN: usize = 32_767;
/// Narrow offsets throughout, wide ones, and some of each.
const MIXES: [Mix; 3] =
    [Mix::NARROW, Mix::WIDE, Mix { file: true, keys: 0b1010_0110, directories: 0b01, segments: 0b101 }];
/// Lengths around the least of the long form, which is 255.
const LENGTHS: [usize; 7] = [0, 253, 254, 255, 256, 257, 1000];
const HEAD_REFUSED: Answer = Answer { number: number::HEAD, place: 100, count: 0 };

fn expect(tally: &mut Tally, bytes: &[u8], expected: Answer, what: impl std::fmt::Debug) {
    assert_eq!(audit_by_rules(tally, bytes).0, expected, "{what:?}");
}

/// The file of the plan passes, with the plan's rows.
fn passes(tally: &mut Tally, plan: &Plan, what: impl std::fmt::Debug) {
    let built = plan.build();
    assert_eq!(audit_by_rules(tally, &built.bytes), (PASS, plan.rows(&built)), "{what:?}");
}

/// Every string of every key that no rule reads, each by itself: of lengths around 255, and such that the sum is
/// 32,767 or one more, which is 6.
#[test]
fn strings_of_every_record() {
    let mut tally = Tally::new("audit, long strings in each key");
    for (mix, record) in MIXES.into_iter().flat_map(|mix| RECORDS.map(|record| (mix, record))) {
        for nth in 0..mix.plan().items[record].any_strings().len() {
            let with = |len: usize| {
                let mut plan = mix.plan();
                plan.items[record].any_strings()[nth] = vec![b'x'; len];
                plan
            };
            // What the rest of the key takes beside a long string.
            let long = 1000;
            let rest = with(long).items[record].keylen() - long;
            for len in LENGTHS.into_iter().chain([MOST_KEYLEN - rest]) {
                passes(&mut tally, &with(len), (mix, record, nth, len));
            }
            let built = with(MOST_KEYLEN + 1 - rest).build();
            assert_eq!(built.sites[record].keylen, MOST_KEYLEN + 1);
            let refused = Answer::refusal(number::KEY, built.start(record));
            expect(&mut tally, &built.bytes, refused, (mix, record, nth));
        }
    }
    tally.finish(450, &[0, number::KEY]);
}

/// The file of a mix with all of them of a length, the head's name and title too.
fn everywhere(rng: &mut Rng, mix: Mix, len: usize) -> Plan {
    let mut plan = mix.plan();
    plan.items.iter_mut().flat_map(|item| item.any_strings()).for_each(|string| *string = rng.bytes(len));
    plan.items[HEAD].names = [counted(&rng.bytes(len)), counted(&rng.bytes(len))].concat();
    plan
}

#[test]
fn long_strings_everywhere() {
    let mut tally = Tally::new("audit, long strings everywhere, and some bits changed");
    let mut rng = Rng::new(710);
    for (mix, len) in MIXES.into_iter().flat_map(|mix| [(mix, 255), (mix, 256), (mix, 10_000)]) {
        let plan = everywhere(&mut rng, mix, len);
        passes(&mut tally, &plan, (mix, len));
        let bytes = plan.build().bytes;
        for _ in 0..300 {
            let mut changed = bytes.clone();
            let at = rng.below(changed.len());
            changed[at] ^= 1 << rng.below(8);
            audit_by_rules(&mut tally, &changed);
        }
    }
    tally.finish(2_700, &[0, number::KEY, number::ENTRY]);
}

/// Such a file cut at each byte, with END there: 5 at the piece that is cut.
#[test]
fn files_cut_at_each_byte() {
    let mut tally = Tally::new("audit, files with long strings cut at each byte");
    let mut edge = Edge::default();
    for mix in MIXES {
        let built = everywhere(&mut Rng::new(711), mix, 255).build();
        for (site, len) in built.sites.iter().flat_map(|site| (1..site.size).map(move |len| (site, site.start + len))) {
            let mut cut = built.clone();
            cut.bytes.truncate(len);
            cut.close();
            let refused = Answer::refusal(number::CHAIN, site.start as u64);
            expect(&mut tally, edge.lend(&cut.bytes), refused, (mix, len));
        }
    }
    tally.finish(20_000, &[number::CHAIN]);
}

/// The head with these bytes for its name and title.
fn with_names(mix: Mix, name: &[u8], title: &[u8]) -> Plan {
    let mut plan = mix.plan();
    plan.items[HEAD].names = [name, title].concat();
    plan
}

/// The head's name and title of any lengths. NbytesName counts their lengths as they are stored: in the file header,
/// in the directory header and in both, any other is 8.
#[test]
fn heads() {
    let mut tally = Tally::new("audit, lengths of the head's name and title, and NbytesName");
    let lengths = LENGTHS.into_iter().chain([40_000, 70_000]);
    for (mix, [name, title]) in MIXES.into_iter().flat_map(|mix| pairs(lengths.clone()).map(move |pair| (mix, pair))) {
        let plan = with_names(mix, &counted(&vec![7; name]), &counted(&vec![8; title]));
        passes(&mut tally, &plan, (mix, name, title));
        let built = plan.build();
        let fields = [built.header.nbytes_name(), built.sites[HEAD].directory().nbytes_name()];
        for (wrong, by) in [&fields[..1], &fields[1..], &fields].into_iter().flat_map(|wrong| [(wrong, -4), (wrong, 4)])
        {
            let mut changed = built.clone();
            wrong.iter().for_each(|&field| changed.add(field, by));
            expect(&mut tally, &changed.bytes, HEAD_REFUSED, (mix, name, title, wrong, by));
        }
    }
    tally.finish(1_600, &[0, number::HEAD]);
}

fn pairs(lengths: impl Iterator<Item = usize> + Clone) -> impl Iterator<Item = [usize; 2]> {
    lengths.clone().flat_map(move |one| lengths.clone().map(move |two| [one, two]))
}

/// The head's name or title in the long form with any length: only the right one, from 255 on, is taken.
#[test]
fn any_length_in_the_head() {
    let mut tally = Tally::new("audit, lengths in the long form in the head");
    for (mix, len) in MIXES.into_iter().flat_map(|mix| [(mix, 1), (mix, 254), (mix, 255), (mix, 300)]) {
        for (claim, other) in claims(len).into_iter().flat_map(|claim| [(claim, 0), (claim, 300)]) {
            let (long, other) = (long_form(claim, &vec![0; len as usize]), counted(&vec![0; other]));
            for plan in [with_names(mix, &long, &other), with_names(mix, &other, &long)] {
                let expected = if claim == len && len >= 255 { PASS } else { HEAD_REFUSED };
                expect(&mut tally, &plan.build().bytes, expected, (mix, len, claim));
            }
        }
    }
    tally.finish(1_200, &[0, number::HEAD]);
}

/// The head ends at each byte of its data.
#[test]
fn heads_cut_at_each_byte() {
    let mut tally = Tally::new("audit, long names of the head cut at each byte");
    for (mix, [name, title]) in MIXES.into_iter().flat_map(|mix| [(mix, [255, 0]), (mix, [0, 255]), (mix, [256, 300])])
    {
        let mut plan = with_names(mix, &counted(&vec![0; name]), &counted(&vec![0; title]));
        let data = plan.items[HEAD].names.len() + plan.build().sites[HEAD].directory().size();
        for cut in 1..=data {
            plan.items[HEAD].cut = cut;
            expect(&mut tally, &plan.build().bytes, HEAD_REFUSED, (mix, name, title, cut));
        }
    }
    tally.finish(3_000, &[number::HEAD]);
}

/// The plan of a mix in which one string of Y has so many zeros, and the others are empty.
fn with_string(mix: Mix, nth: usize, len: usize) -> Plan {
    let mut plan = mix.plan();
    plan.items[Y].key.strings = [vec![], vec![], vec![]];
    plan.items[Y].key.strings[nth] = vec![0; len];
    plan
}

/// The strings of Y as they are stored, one of them as these bytes.
fn stored_with(plan: &Plan, nth: usize, stored: Vec<u8>) -> [Vec<u8>; 3] {
    let mut strings = plan.items[Y].key.strings.each_ref().map(|string| counted(string));
    strings[nth] = stored;
    strings
}

/// The header of Y with other strings as they are stored. KeyLen is what the header then takes.
fn copy_of_y(plan: &Plan, strings: &[Vec<u8>; 3]) -> Vec<u8> {
    let built = plan.build();
    let key = built.sites[Y].key();
    let mut copy = [&built.bytes[key.at..key.class().at], &strings.concat()].concat();
    let keylen = copy.len() as u64;
    KeyAt { at: 0, ..key }.keylen().put(&mut copy, keylen);
    copy
}

/// The file in which these bytes stand in the list for the copy of Y.
fn with_copy(plan: &Plan, copy: &[u8]) -> Built {
    let mut plan = plan.clone();
    plan.items[LIST_OF_DIR].copies.clear();
    plan.items[LIST_OF_DIR].data = copy.to_vec();
    let mut built = plan.build();
    built.put(built.sites[LIST_OF_DIR].nkeys(), 1);
    built
}

fn at_list(built: &Built) -> Answer {
    Answer::refusal(number::KEYS, built.start(LIST_OF_DIR))
}

/// Where the first copy of the list stands.
fn at_copy(built: &Built) -> Answer {
    Answer::refusal(number::ENTRY, built.sites[LIST_OF_DIR].nkeys as u64 + 4)
}

/// Each mix with each string of a key and some lengths.
fn mixes_and_strings(lengths: &[u32]) -> Vec<(Mix, usize, u32)> {
    let strings = MIXES.into_iter().flat_map(|mix| [(mix, 0), (mix, 1), (mix, 2)]);
    strings.flat_map(|(mix, nth)| lengths.iter().map(move |&len| (mix, nth, len))).collect()
}

/// A string in the long form with any length in a copy: only the right one, from 255 on, is taken.
#[test]
fn any_length_in_a_copy() {
    let mut tally = Tally::new("audit, lengths in the long form in a copy");
    for (mix, nth, len) in mixes_and_strings(&[1, 254, 255, 300]) {
        let plan = with_string(mix, nth, len as usize);
        for claim in claims(len) {
            let strings = stored_with(&plan, nth, long_form(claim, &vec![0; len as usize]));
            let built = with_copy(&plan, &copy_of_y(&plan, &strings));
            let expected = if claim == len && len >= 255 { PASS } else { at_list(&built) };
            expect(&mut tally, &built.bytes, expected, (mix, nth, len, claim));
        }
    }
    tally.finish(900, &[0, number::KEYS]);
}

/// The same in the record and its copy: 6.
#[test]
fn any_length_in_record_and_copy() {
    let mut tally = Tally::new("audit, lengths in the long form in a record and its copy");
    for (mix, nth, len) in mixes_and_strings(&[255, 300]) {
        let built = with_string(mix, nth, len as usize).build();
        let record = built.sites[Y].key();
        let copy = KeyAt { at: built.sites[LIST_OF_DIR].copies[0], ..record };
        for claim in claims(len) {
            let mut changed = built.clone();
            for key in [record, copy] {
                changed.put(Field { at: key.class().at + nth + 1, width: 4 }, claim.into());
            }
            // With a length that the string holds the record is a basket, which the list copies.
            let expected = match claim {
                _ if claim == len => PASS,
                _ if (255..len).contains(&claim) => at_list(&built),
                _ => Answer::refusal(number::KEY, record.at as u64),
            };
            expect(&mut tally, &changed.bytes, expected, (mix, nth, len, claim));
        }
    }
    tally.finish(450, &[0, number::KEY, number::KEYS]);
}

/// Copies with a longer string than their record's: 13 where they are plain headers, 12 where the sum is too great.
#[test]
fn sums_of_copies() {
    let mut tally = Tally::new("audit, copies with sums near 32,767");
    for (mix, nth, len) in mixes_and_strings(&[300]) {
        let plan = with_string(mix, nth, len as usize);
        let rest = plan.items[Y].keylen() - len as usize;
        for sum in [rest + 255, 32_766, 32_767, 32_768, 32_769, 65_535] {
            let mut copy = copy_of_y(&plan, &stored_with(&plan, nth, counted(&vec![0; sum - rest])));
            Field { at: 0, width: 4 }.put(&mut copy, 70_000);
            let built = with_copy(&plan, &copy);
            let expected = if sum <= MOST_KEYLEN { at_copy(&built) } else { at_list(&built) };
            expect(&mut tally, &built.bytes, expected, (mix, nth, sum));
        }
    }
    tally.finish(54, &[number::KEYS, number::ENTRY]);
}

/// The list ends at each byte of a copy. What it lacks stands behind it in a gap, but for four bytes.
#[test]
fn copies_cut_at_each_byte() {
    let mut tally = Tally::new("audit, copies with long strings cut at each byte");
    for (mix, nth, len) in mixes_and_strings(&[255, 300]) {
        let whole = with_string(mix, nth, len as usize);
        let copy = copy_of_y(&whole, &stored_with(&whole, nth, counted(&vec![0; len as usize])));
        for cut in 1..=copy.len() {
            let mut plan = whole.clone();
            plan.items[LIST_OF_DIR].cut = cut;
            plan.items[LATER_GAP].data = copy.iter().copied().skip(copy.len() - cut + 4).collect();
            let built = plan.build();
            expect(&mut tally, &built.bytes, at_list(&built), (mix, nth, len, cut));
        }
    }
    tally.finish(5_000, &[number::KEYS]);
}

/// The plan of a mix in which nobody lists X.
fn with_loose_x(mix: Mix) -> Plan {
    let mut plan = mix.plan();
    plan.items[X].role = Role::Loose;
    plan.items[LIST].copies.retain(|&copy| copy != X);
    assert_eq!(plan.items[LIST].copies, [DIR]);
    plan
}

/// A record that nobody lists has a KeyLen above its sum: up to 32,767 it is good.
#[test]
fn baskets() {
    let mut tally = Tally::new("audit, KeyLen of baskets");
    for (mix, title) in MIXES.into_iter().flat_map(|mix| [(mix, 0), (mix, 300)]) {
        let mut plan = with_loose_x(mix);
        plan.items[X].key.strings[2] = vec![0; title];
        let sum = plan.items[X].keylen();
        for keylen in [sum, sum + 1, 32_766, 32_767] {
            plan.items[X].more = keylen - sum;
            passes(&mut tally, &plan, (mix, title, keylen));
        }
        for keylen in [32_768, 40_000, 65_535] {
            plan.items[X].more = keylen - sum;
            let built = plan.build();
            let refused = Answer::refusal(number::KEY, built.start(X));
            expect(&mut tally, &built.bytes, refused, (mix, title, keylen));
        }
    }
    tally.finish(42, &[0, number::KEY]);
}

/// KeyLen of a copy above its sum, and Nbytes so great that the record would hold it: 12.
#[test]
fn baskets_in_a_list() {
    let mut tally = Tally::new("audit, KeyLen of a copy");
    for (mix, title) in MIXES.into_iter().flat_map(|mix| [(mix, 0), (mix, 300)]) {
        let built = with_string(mix, 2, title).build();
        let copy = KeyAt { at: built.sites[LIST_OF_DIR].copies[0], ..built.sites[Y].key() };
        let sum = built.get(copy.keylen());
        for keylen in [sum - 1, sum + 1, 32_766, 32_767, 32_768, 40_000, 65_535] {
            let mut changed = built.clone();
            changed.put(copy.keylen(), keylen);
            changed.put(copy.nbytes(), 70_000);
            expect(&mut tally, &changed.bytes, at_list(&built), (mix, title, keylen));
        }
    }
    tally.finish(42, &[number::KEYS]);
}
