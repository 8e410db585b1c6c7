//! Narrow and wide offsets side by side: every mix of them, every version at which the width changes, and offsets that
//! no narrow field holds.

use kit::compare::audit::audit_by_rules;
use kit::compare::Tally;
use kit::gen::fields::{Field, HeaderAt, KeyAt};
use kit::gen::files::{Built, Plan, Role};
use kit::gen::mixes::{Mix, DIR, DIRECTORIES, FREE, HEAD, LIST, LIST_OF_DIR, PIECES, RECORDS, SEGMENTS, X, Y};
use kit::gen::Rng;
use second::{number, Answer};

const PASS: Answer = Answer { number: number::SUCCESS, place: 0, count: PIECES as u64 };
/// At these the width changes. In a good file no version is above the last but one.
const VERSIONS: [u16; 4] = [1000, 1001, 2000, 2001];
/// Offsets that no narrow field holds, but for the first.
const FAR: [u64; 4] = [(1 << 32) - 1, 1 << 32, 1 << 63, u64::MAX];

fn expect(tally: &mut Tally, bytes: &[u8], expected: Answer, what: impl std::fmt::Debug) {
    assert_eq!(audit_by_rules(tally, bytes).0, expected, "{what:?}");
}

/// A few of the mixes: all narrow, all wide, and some of each.
fn some_mixes() -> Vec<Mix> {
    let mut rng = Rng::new(510);
    let all: Vec<Mix> = Mix::all().collect();
    [Mix::NARROW, Mix::WIDE].into_iter().chain((0..12).map(|_| rng.pick(&all))).collect()
}

#[test]
fn every_mix() {
    let mut tally = Tally::new("audit, every mix of widths");
    for mix in Mix::all() {
        let plan = mix.plan();
        let built = plan.build();
        let (answer, rows) = audit_by_rules(&mut tally, &built.bytes);
        assert_eq!((answer, rows), (PASS, plan.rows(&built)), "{mix:?}");
    }
    tally.finish(9_216, &[0]);
}

/// Some bits of each mix are changed; all three programs and the rules agree.
#[test]
fn every_mix_damaged() {
    let mut tally = Tally::new("audit, every mix of widths, with some bits changed");
    let mut rng = Rng::new(511);
    for mix in Mix::all() {
        let built = mix.plan().build();
        for _ in 0..4 {
            let mut changed = built.bytes.clone();
            let at = rng.below(changed.len());
            changed[at] ^= 1 << rng.below(8);
            audit_by_rules(&mut tally, &changed);
        }
    }
    tally.finish(36_864, &[0, 2, 3, 4, 5, 6, 8, 9, 10, 11, 12, 13]);
}

/// Each record's key has one of the versions, and its bytes are laid down as that version has them.
#[test]
fn versions_of_keys() {
    let mut tally = Tally::new("audit, versions of keys");
    for mix in some_mixes() {
        for (record, version) in RECORDS.into_iter().flat_map(|record| VERSIONS.map(|version| (record, version))) {
            let mut plan = mix.plan();
            plan.items[record].key.version = version;
            let built = plan.build();
            let refused = Answer::refusal(number::KEY, built.start(record));
            expect(&mut tally, &built.bytes, if version > 2000 { refused } else { PASS }, (mix, record, version));
        }
    }
    tally.finish(400, &[0, number::KEY]);
}

/// The same of directory headers: 8 of the head's, 11 of another.
#[test]
fn versions_of_directory_headers() {
    let mut tally = Tally::new("audit, versions of directory headers");
    for mix in some_mixes() {
        for (dir, version) in DIRECTORIES.into_iter().flat_map(|dir| VERSIONS.map(|version| (dir, version))) {
            let mut plan = mix.plan();
            plan.items[dir].version = version;
            let built = plan.build();
            let number = if dir == HEAD { number::HEAD } else { number::DIRECTORY };
            let refused = Answer::refusal(number, built.start(dir));
            expect(&mut tally, &built.bytes, if version > 2000 { refused } else { PASS }, (mix, dir, version));
        }
    }
    tally.finish(100, &[0, number::HEAD, number::DIRECTORY]);
}

/// The same of free segments, each in turn: above 1000 they are 9 in a narrow file.
#[test]
fn versions_of_segments() {
    let mut tally = Tally::new("audit, versions of free segments");
    for mix in some_mixes() {
        for (nth, version) in (0..3).flat_map(|nth| VERSIONS.map(|version| (nth, version))) {
            let mut plan = mix.plan();
            plan.items[FREE].segments[nth] = version;
            let built = plan.build();
            let refused = Answer::refusal(number::FREE, built.start(FREE));
            let most = if mix.file { 2000 } else { 1000 };
            expect(&mut tally, &built.bytes, if version > most { refused } else { PASS }, (mix, nth, version));
        }
    }
    tally.finish(150, &[0, number::FREE]);
}

/// Where a list's only copy of Y stands.
fn copy_of_y(built: &Built) -> KeyAt {
    KeyAt { at: built.sites[LIST_OF_DIR].copies[0], width: built.sites[Y].width }
}

/// A version above 2000 in a copy alone is 12. One of the other width is 12 where the bytes are then no plain header.
#[test]
fn versions_of_copies() {
    let mut tally = Tally::new("audit, versions of copies");
    for mix in some_mixes() {
        for version in [0, 2001, 65535] {
            let mut built = mix.plan().build();
            built.put(copy_of_y(&built).version(), version);
            expect(&mut tally, &built.bytes, Answer::refusal(number::KEYS, built.start(LIST_OF_DIR)), (mix, version));
        }
        // As wide as it was, but another version than its record's: 13.
        let mut built = mix.plan().build();
        built.add(copy_of_y(&built).version(), 1);
        let copy = copy_of_y(&built).at as u64;
        expect(&mut tally, &built.bytes, Answer::refusal(number::ENTRY, copy), mix);
        let mut built = mix.plan().build();
        let other = if copy_of_y(&built).width == 8 { 1000 } else { 1001 };
        built.put(copy_of_y(&built).version(), other);
        expect(&mut tally, &built.bytes, Answer::refusal(number::KEYS, built.start(LIST_OF_DIR)), (mix, other));
    }
    tally.finish(70, &[number::KEYS, number::ENTRY]);
}

/// A narrow copy whose bytes are a plain header with wide offsets too: it is read as its version says, and is then the
/// copy of nothing, 13. A wide copy read as a narrow one has the first bytes of SeekPdir, zeros, for empty strings, and
/// is never plain.
#[test]
fn copies_that_are_plain_in_both_widths() {
    let mut tally = Tally::new("audit, copies that are plain headers in both widths");
    let mut plan = Mix::WIDE.plan();
    plan.items[X].key.version = 4;
    // What follows wide offsets are two empty strings and one of two bytes.
    plan.items[X].key.strings = [b"TTTTTTT\0\0\x02".to_vec(), vec![], vec![]];
    let mut built = plan.build();
    let copy = KeyAt { at: built.sites[LIST].copies[0], width: built.sites[X].width };
    expect(&mut tally, &built.bytes, PASS, copy);
    built.put(copy.version(), 1004);
    expect(&mut tally, &built.bytes, Answer::refusal(number::ENTRY, copy.at as u64), copy);
    tally.finish(2, &[0, number::ENTRY]);
}

/// 3 exactly when Units is not what Version says; a file of the other layout then has another END.
#[test]
fn version_and_units() {
    let mut tally = Tally::new("audit, Version and Units of the file header");
    for mix in some_mixes() {
        for version in [0, 62400, 999_999, 1_000_000, 1_062_400, u32::MAX] {
            let width = if version < 1_000_000 { 4 } else { 8 };
            for units in 0..=255 {
                let mut built = mix.plan().build();
                let as_laid = width == built.header.width;
                built.put(HeaderAt::VERSION, version.into());
                built.put(HeaderAt { width }.units(), units);
                let expected = match (units == width as u64, as_laid) {
                    (false, _) => Answer::refusal(number::WIDE, 0),
                    (true, false) => Answer::refusal(number::BOUNDS, 0),
                    (true, true) => PASS,
                };
                expect(&mut tally, &built.bytes, expected, (mix, version, units));
            }
        }
    }
    tally.finish(20_000, &[0, number::WIDE, number::BOUNDS]);
}

/// An offset field, and what is answered when it holds an offset that is none of the file's.
struct Offset {
    name: String,
    field: Field,
    /// 0 is a pass.
    number: u64,
    /// None is that offset.
    place: Option<u64>,
}

impl Offset {
    fn new(name: impl Into<String>, field: Field, number: u64, place: Option<u64>) -> Self {
        Offset { name: name.into(), field, number, place }
    }

    fn answer(&self, offset: u64) -> Answer {
        match self.number {
            number::SUCCESS => PASS,
            number => Answer::refusal(number, self.place.unwrap_or(offset)),
        }
    }
}

/// The offsets of the file header, of directory headers and of segments.
fn offsets_of_lists(built: &Built) -> Vec<Offset> {
    let [head, dir] = DIRECTORIES.map(|dir| built.sites[dir].directory());
    let segments = &built.sites[FREE].segments;
    let [header, at_dir, at_free] = [0, built.start(DIR), built.start(FREE)].map(Some);
    let mut offsets = vec![
        Offset::new("END", built.header.end(), number::BOUNDS, header),
        Offset::new("SeekFree", built.header.seek_free(), number::FREE, None),
        Offset::new("SeekInfo", built.header.seek_info(), number::INFO, None),
        Offset::new("head's SeekDir", head.seek_dir(), number::HEAD, Some(100)),
        Offset::new("head's SeekParent", head.seek_parent(), number::HEAD, Some(100)),
        Offset::new("head's SeekKeys", head.seek_keys(), number::KEYS, None),
        Offset::new("SeekDir", dir.seek_dir(), number::DIRECTORY, at_dir),
        Offset::new("SeekParent", dir.seek_parent(), number::DIRECTORY, at_dir),
        Offset::new("SeekKeys", dir.seek_keys(), number::KEYS, None),
    ];
    for (nth, segment) in segments.iter().enumerate() {
        // Of a wide file the final one ends anywhere behind END.
        let is_free = nth == SEGMENTS - 1 && built.header.width == 8;
        let number = if is_free { number::SUCCESS } else { number::FREE };
        offsets.push(Offset::new(format!("first of {nth}"), segment.first(), number::FREE, at_free));
        offsets.push(Offset::new(format!("last of {nth}"), segment.last(), number, at_free));
    }
    offsets
}

/// Both offsets of every record's key. SeekPdir of head, info and free list is not compared with anything.
fn offsets_of_keys(plan: &Plan, built: &Built) -> Vec<Offset> {
    let copies = copies(plan, built);
    let mut offsets = Vec::new();
    for (index, item) in plan.items.iter().enumerate().filter(|(_, item)| item.role != Role::Gap) {
        let (key, start) = (built.sites[index].key(), Some(built.start(index)));
        let (number, place) = match item.role {
            Role::Keys { .. } => (number::KEYS, start),
            Role::Object | Role::Dir { .. } => {
                (number::ENTRY, copies.iter().find(|(of, _)| *of == index).map(|(_, copy)| copy.at as u64))
            }
            _ => (number::SUCCESS, None),
        };
        offsets.push(Offset::new(format!("SeekKey of {index}"), key.seek_key(), number::KEY, start));
        offsets.push(Offset::new(format!("SeekPdir of {index}"), key.seek_pdir(), number, place));
    }
    offsets
}

/// Both offsets of every copy.
fn offsets_of_copies(plan: &Plan, built: &Built) -> Vec<Offset> {
    let fields = |(of, copy): (usize, KeyAt)| {
        [("SeekKey", copy.seek_key()), ("SeekPdir", copy.seek_pdir())].map(|(name, field)| {
            Offset::new(format!("{name} of a copy of {of}"), field, number::ENTRY, Some(copy.at as u64))
        })
    };
    copies(plan, built).into_iter().flat_map(fields).collect()
}

/// What each copy copies, and where it stands.
fn copies(plan: &Plan, built: &Built) -> Vec<(usize, KeyAt)> {
    let lists = plan.items.iter().zip(&built.sites);
    let copies = lists.flat_map(|(item, site)| item.copies.iter().copied().zip(site.copies.iter().copied()));
    copies.map(|(of, at)| (of, KeyAt { at, width: built.sites[of].width })).collect()
}

/// Every offset field of a file.
fn offsets(plan: &Plan, built: &Built) -> Vec<Offset> {
    let offsets = [offsets_of_lists(built), offsets_of_keys(plan, built), offsets_of_copies(plan, built)];
    assert_eq!(offsets.each_ref().map(Vec::len), [9 + 2 * SEGMENTS, 2 * RECORDS.len(), 2 * 3]);
    offsets.into_iter().flatten().collect()
}

/// Every offset field with every far offset that it holds: places 9, 10 and 12 are what it holds.
#[test]
fn far_offsets() {
    let mut tally = Tally::new("audit, offsets near 2^32 and 2^64");
    for mix in some_mixes() {
        let plan = mix.plan();
        let built = plan.build();
        for offset in offsets(&plan, &built) {
            for far in FAR.into_iter().filter(|&far| far <= offset.field.most()) {
                let mut changed = built.clone();
                changed.put(offset.field, far);
                expect(&mut tally, &changed.bytes, offset.answer(far), (mix, &offset.name, far));
            }
        }
    }
    tally.finish(1_247, &[0, 4, 6, 8, 9, 10, 11, 12, 13]);
}

/// A right offset and 2^32, which its low half does not show.
#[test]
fn low_halves() {
    let mut tally = Tally::new("audit, offsets whose low half is right");
    for mix in some_mixes() {
        let plan = mix.plan();
        let built = plan.build();
        for offset in offsets(&plan, &built).into_iter().filter(|offset| offset.field.width == 8) {
            for bit in [32, 33, 62, 63] {
                let mut changed = built.clone();
                changed.add(offset.field, (1u64 << bit) as i64);
                let far = built.get(offset.field) + (1 << bit);
                expect(&mut tally, &changed.bytes, offset.answer(far), (mix, &offset.name, bit));
            }
        }
    }
    tally.finish(972, &[0, 4, 6, 8, 9, 10, 11, 12, 13]);
}

/// The final segment of a wide file ends behind END, wherever that is; of a narrow file at 2,000,000,000 alone.
#[test]
fn final_segments() {
    let mut tally = Tally::new("audit, ends of the final free segment");
    for (mix, version) in some_mixes().into_iter().flat_map(|mix| [(mix, 1), (mix, 1001)]) {
        let mut plan = mix.plan();
        plan.items[FREE].segments[2] = if mix.file { version } else { 1 };
        let built = plan.build();
        let (end, last) = (built.bytes.len() as u64, built.sites[FREE].segments[2].last());
        for number in [0, end - 1, end, end + 1, 1_999_999_999, 2_000_000_000, 2_000_000_001].into_iter().chain(FAR) {
            if number > last.most() {
                continue;
            }
            let mut changed = built.clone();
            changed.put(last, number);
            let passes = if mix.file { number > end } else { number == 2_000_000_000 };
            let refused = Answer::refusal(number::FREE, built.start(FREE));
            expect(&mut tally, &changed.bytes, if passes { PASS } else { refused }, (mix, version, number));
        }
    }
    tally.finish(200, &[0, number::FREE]);
}

/// The least records: three empty strings and no data, 29 bytes or 37. One byte less is 6, whatever KeyLen says.
#[test]
fn least_records() {
    let mut tally = Tally::new("audit, records of 28, 29, 36 and 37 bytes");
    let least = |mix: Mix, version: u16| -> Plan {
        let mut plan = mix.plan();
        plan.items[Y].key.version = version;
        plan.items[Y].key.strings = [vec![], vec![], vec![]];
        plan.items[Y].data.clear();
        plan
    };
    for (mix, version, size) in some_mixes().into_iter().flat_map(|mix| [(mix, 4, 29), (mix, 1004, 37)]) {
        let built = least(mix, version).build();
        assert_eq!(built.sites[Y].size, size);
        expect(&mut tally, &built.bytes, PASS, (mix, version));
        let mut plan = least(mix, version);
        plan.items[Y].cut = 1;
        let mut built = plan.build();
        for keylen in [size as u64, size as u64 - 1] {
            built.put(built.sites[Y].key().keylen(), keylen);
            expect(&mut tally, &built.bytes, Answer::refusal(number::KEY, built.start(Y)), (mix, version, keylen));
        }
    }
    tally.finish(80, &[0, number::KEY]);
}

/// A directory header that its record holds but for the last byte: 41 bytes where it is wide, 29 where it is not.
#[test]
fn least_directory_headers() {
    let mut tally = Tally::new("audit, directory headers that end with their record, or a byte behind it");
    for (mix, dir) in some_mixes().into_iter().flat_map(|mix| DIRECTORIES.map(|dir| (mix, dir))) {
        for (cut, version) in [(0, 5), (1, 5), (0, 1005), (1, 1005)] {
            let mut plan = mix.plan();
            (plan.items[dir].cut, plan.items[dir].version) = (cut, version);
            let built = plan.build();
            let number = if dir == HEAD { number::HEAD } else { number::DIRECTORY };
            let refused = Answer::refusal(number, built.start(dir));
            expect(&mut tally, &built.bytes, if cut == 1 { refused } else { PASS }, (mix, dir, version));
        }
    }
    tally.finish(100, &[0, number::HEAD, number::DIRECTORY]);
}

/// nfree is the number of the segments, of whatever widths, and they fill the data.
#[test]
fn segments_of_both_widths() {
    let mut tally = Tally::new("audit, free lists of segments of both widths");
    for segments in 0..8 {
        let mix = Mix { segments, ..Mix::WIDE };
        let built = mix.plan().build();
        let size: usize = built.sites[FREE].segments.iter().map(|segment| segment.size()).sum();
        assert_eq!(size, 30 + 8 * segments.count_ones() as usize);
        for by in [-3, -2, -1, 1, 2] {
            let mut changed = built.clone();
            changed.add(changed.header.nfree(), by);
            expect(&mut tally, &changed.bytes, Answer::refusal(number::FREE, built.start(FREE)), (segments, by));
        }
        for more in [1, 2, 8, 10, 18] {
            let mut plan = mix.plan();
            plan.items[FREE].data = vec![0; more];
            let built = plan.build();
            expect(&mut tally, &built.bytes, Answer::refusal(number::FREE, built.start(FREE)), (segments, more));
        }
    }
    tally.finish(80, &[number::FREE]);
}
