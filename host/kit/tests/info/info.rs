//! StreamerInfo records: the proved library against the model, and each fault by itself.

use kit::compare::info::read_info;
use kit::compare::Tally;
use kit::gen::infos::{
    all_kinds, build, build_of, class, get32, list, new_tag, put32, Field, Info, List, What, LEAST_OPTIONS,
    LIST_VERSIONS,
};
use kit::gen::strings::{counted, long_form, plain_form};
use kit::gen::{self, Rng};
use second::streamer::{ARRAY, CLASS_MASK, INFO, KINDS, NEW_CLASS, REFERENCED};
use second::Answer;
use std::collections::BTreeMap;
use std::fs;

/// Random bytes, the record at `at`, and random bytes after it.
fn file_with(rng: &mut Rng, at: usize, record: &[u8]) -> Vec<u8> {
    let after = rng.below(9);
    [rng.bytes(at), record.to_vec(), rng.bytes(after)].concat()
}

/// Reads a record at 0 with room enough.
fn read(tally: &mut Tally, record: &[u8]) -> Answer {
    read_info(tally, record, 0, 120).0
}

fn refused(tally: &mut Tally, record: &[u8], number: u64, at: usize, what: &str) {
    assert_eq!(read(tally, record), Answer::refusal(number, at as u64), "{what}");
}

/// Versions of keys with four-byte offsets and with eight-byte ones.
const VERSIONS: [u16; 6] = [1, 4, 1000, 1001, 1004, 2000];

/// A few records with every kind, built at 0, with and without options.
fn samples(seed: u64) -> [(List, Info); LIST_VERSIONS.len()] {
    let mut rng = Rng::new(seed);
    LIST_VERSIONS.map(|version| {
        let list = all_kinds(&mut rng, version);
        let info = build(&mut rng, 0, &list, None);
        (list, info)
    })
}

#[test]
fn examples() {
    let mut tally = Tally::new("read_info, worked examples");
    let (_, info) = &samples(200)[0];
    assert_eq!(info.keylen, 64);
    let tags: Vec<&Field> = info.fields.iter().filter(|field| matches!(field.what, What::Tag(_))).collect();
    assert_eq!((tags[0].what, tags[0].at), (What::Tag(INFO), 89));
    let references = info.fields.iter().filter(|field| field.what == What::Reference(INFO));
    let references: Vec<u32> = references.map(|field| get32(&info.bytes, field.at)).collect();
    assert_eq!(references, [0x8000_005b; 2]);
    assert_eq!(read(&mut tally, &info.bytes), Answer::success(16));
    tally.finish(1, &[0]);
}

/// The same record with eight-byte offsets in its key: each place in it is 8 more, the numbers of tags too.
#[test]
fn wide_keys() {
    let mut tally = Tally::new("read_info, keys with eight-byte offsets");
    for seed in 0..20 {
        let mut rng = Rng::new(seed);
        let list = all_kinds(&mut rng, LIST_VERSIONS[seed as usize % LIST_VERSIONS.len()]);
        let [narrow, wide] = [4, 1004].map(|version| build_of(&mut Rng::new(9), version, 0, &list, None));
        assert_eq!([narrow.keylen, wide.keylen], [64, 72]);
        let first = wide.fields.iter().find(|field| field.what == What::Tag(INFO)).unwrap();
        assert_eq!(first.at, 97);
        let moved = |row: &[u32; 6]| [row[0], row[1], row[2] + 8, row[3] + 8, row[4], row[5]];
        let rows: Vec<[u32; 6]> = narrow.rows.iter().map(moved).collect();
        assert_eq!(wide.rows, rows);
        assert_eq!(read_info(&mut tally, &wide.bytes, 0, 96), (Answer::success(16), rows));
        // A reference that counts from a narrow key's start refers to nothing.
        let reference = wide.fields.iter().find(|field| field.what == What::Reference(INFO)).unwrap();
        assert_eq!(get32(&wide.bytes, reference.at), 0x8000_0063);
        let mut record = wide.bytes.clone();
        put32(&mut record, reference.at, 0x8000_005b);
        refused(&mut tally, &record, 22, reference.at, "a reference 8 less");
    }
    tally.finish(40, &[0, 22]);
}

#[test]
fn valid_records() {
    let mut tally = Tally::new("read_info, random valid records");
    let mut rng = Rng::new(201);
    for _ in 0..12_000 {
        let at = rng.pick(&[0, 0, 1, 100, 255, 4097]);
        let list = list(&mut rng);
        let version = rng.pick(&VERSIONS);
        let info = build_of(&mut rng, version, at as u64, &list, None);
        let file = file_with(&mut rng, at, &info.bytes);
        let rows = info.rows.len();
        let len = 6 * rows + rng.below(14);
        let (answer, got) = read_info(&mut tally, &file, at as u64, len);
        assert_eq!((answer, got), (Answer::success(rows as u64), info.rows));
        if rows > 0 {
            let (answer, _) = read_info(&mut tally, &file, at as u64, 6 * rows - 1);
            assert_eq!(answer, Answer { number: 24, place: 0, count: rows as u64 });
        }
    }
    tally.finish(20_000, &[0, 24]);
}

#[test]
fn every_byte() {
    let mut tally = Tally::new("read_info, each byte changed");
    let mut rng = Rng::new(202);
    let keys = [(0, 4), (0, 1004), (100, 4), (1000, 2000), (70_000, 1000), (70_001, 1001)];
    for ((at, version), list_version) in keys.into_iter().zip(LIST_VERSIONS) {
        let list = all_kinds(&mut rng, list_version);
        let info = build_of(&mut rng, version, at as u64, &list, None);
        let mut file = file_with(&mut rng, at, &info.bytes);
        // A file this long is only read around the record.
        let from = at.saturating_sub(1);
        for place in from..file.len() {
            let byte = file[place];
            for value in
                [0, 1, 255, byte ^ 1, byte ^ 16, byte ^ 64, byte ^ 128, byte.wrapping_add(1), byte.wrapping_sub(1)]
            {
                file[place] = value;
                read_info(&mut tally, &file, at as u64, 100);
            }
            file[place] = byte;
        }
    }
    tally.finish(80_000, &[0, 5, 6, 19, 20, 21, 22, 23]);
}

#[test]
fn byte_counts() {
    let mut tally = Tally::new("read_info, each ByteCount changed");
    for (_, info) in samples(203) {
        let mut record = info.bytes.clone();
        for field in info.fields.iter().filter(|field| field.what == What::ByteCount) {
            let count = get32(&record, field.at);
            let near = (1..=8).flat_map(|near| [count + near, count - near]);
            let wrong_bits = [count & !(1 << 30), count | 1 << 31, count ^ 3 << 30];
            let far = [1 << 30, (1 << 30) + 4, (1 << 31) - 1, 0, u32::MAX, count + 0x1000, count + 0x0100_0000];
            for other in near.chain(wrong_bits).chain(far).filter(|&other| other != count) {
                put32(&mut record, field.at, other);
                let answer = read(&mut tally, &record);
                assert_eq!(answer.number, 21, "{field:?} {other:#x}");
                if other >> 30 != 1 || field.at + 4 + (other as usize & 0x3fff_ffff) > field.end {
                    assert_eq!(answer.place, field.at as u64, "{field:?} {other:#x}");
                }
            }
            put32(&mut record, field.at, count);
        }
    }
    tally.finish(8_000, &[21]);
}

/// The object of a ByteCount ends where the next one up does, or one byte before or after.
#[test]
fn ends_of_two_objects() {
    let mut tally = Tally::new("read_info, two ByteCounts changed");
    let mut rng = Rng::new(204);
    let samples = samples(204);
    for _ in 0..20_000 {
        let (_, info) = &samples[rng.below(samples.len())];
        let counts: Vec<&Field> = info.fields.iter().filter(|field| field.what == What::ByteCount).collect();
        let mut record = info.bytes.clone();
        let first = rng.below(counts.len() - 4);
        for nth in [first, first + 1 + rng.below(3)] {
            let field = counts[nth];
            let count = get32(&record, field.at);
            let up = 0x4000_0000 + (field.end - field.at - 4) as u32;
            put32(&mut record, field.at, rng.pick(&[up, up - 1, up + 1, count, count + 1, count - 1]));
        }
        read(&mut tally, &record);
    }
    tally.finish(20_000, &[0, 21]);
}

/// Whether a class may stand where a tag of `there` does.
fn fits(class: &str, there: &str) -> bool {
    class == there || KINDS.contains(&class) && KINDS.contains(&there)
}

/// Each tag or reference, and the class that it names.
fn tags(info: &Info) -> Vec<(usize, Field, &'static str)> {
    let class = |what| match what {
        What::Tag(class) | What::Reference(class) => Some(class),
        _ => None,
    };
    let fields = info.fields.iter().enumerate();
    fields.filter_map(|(index, field)| Some((index, *field, class(field.what)?))).collect()
}

#[test]
fn new_tags() {
    let mut tally = Tally::new("read_info, other new class tags");
    let mut rng = Rng::new(205);
    for (list, info) in samples(205) {
        let mut seen: Vec<&str> = Vec::new();
        for (index, field, class) in tags(&info) {
            let unknown: [&[u8]; 9] = [
                b"",
                b"T",
                b"TStreamer",
                b"TStreamerInfoBase",
                b"TStreamerElement",
                b"TObject",
                b"tStreamerBase",
                b"TStreamerSTLStrin",
                b"TStreamerSTLStringg",
            ];
            for name in unknown {
                let other = build(&mut rng, 0, &list, Some((index, &new_tag(name))));
                refused(&mut tally, &other.bytes, 22, field.at, "an unknown class");
            }
            for name in KINDS.into_iter().chain([INFO, ARRAY]) {
                let other = build(&mut rng, 0, &list, Some((index, &new_tag(name.as_bytes()))));
                let answer = read(&mut tally, &other.bytes);
                if seen.contains(&name) || !fits(name, class) {
                    assert_eq!(answer, Answer::refusal(22, field.at as u64), "{name} for {class}");
                }
            }
            if let What::Tag(_) = field.what {
                seen.push(class);
            }
        }
    }
    tally.finish(1_800, &[0, 21, 22]);
}

#[test]
fn unterminated_tags() {
    let mut tally = Tally::new("read_info, names of classes without an end");
    for (_, info) in samples(206) {
        for field in info.fields.iter().filter(|field| matches!(field.what, What::Tag(_))) {
            let mut record = info.bytes.clone();
            record[field.at + 4..field.end].fill(b'T');
            refused(&mut tally, &record, 21, field.at, "no zero before the end");
            // A zero just past the innermost open end is none.
            if let Some(byte) = record.get_mut(field.end) {
                *byte = 0;
            }
            refused(&mut tally, &record, 21, field.at, "a zero past the end");
            record[field.end - 1] = 0;
            refused(&mut tally, &record, 22, field.at, "a long unknown name");
            // Only the zero of the name is lost: the next zero ends a name that no class has.
            let mut record = info.bytes.clone();
            record[field.at + field.len - 1] = b'T';
            refused(&mut tally, &record, 22, field.at, "the next zero ends the name");
        }
    }
    tally.finish(100, &[21, 22]);
}

#[test]
fn references() {
    let mut tally = Tally::new("read_info, other references");
    let mut rng = Rng::new(207);
    for (list, info) in samples(207) {
        let tags = tags(&info);
        for &(index, field, class) in &tags {
            // To each tag, rightly, counted from the data, without the 2 and so on.
            for &(_, tag, named) in tags.iter().filter(|(_, tag, _)| matches!(tag.what, What::Tag(_))) {
                let right = CLASS_MASK | (tag.at as u32 + 2);
                let good = tag.at < field.at && fits(named, class);
                for (number, is_right) in [
                    (right, good),
                    (right - 64, false),
                    (right - 2, false),
                    (right + 1, false),
                    (right - 1, false),
                    (right & !CLASS_MASK, false),
                    (right | 1 << 30, false),
                ] {
                    let other = build(&mut rng, 0, &list, Some((index, &number.to_be_bytes())));
                    let answer = read(&mut tally, &other.bytes);
                    if !is_right {
                        assert_eq!(answer, Answer::refusal(22, field.at as u64), "{number:#x} {named} for {class}");
                    }
                }
            }
            for number in [0, 1, 2, CLASS_MASK, CLASS_MASK | 2, CLASS_MASK - 1, NEW_CLASS - 1] {
                let other = build(&mut rng, 0, &list, Some((index, &number.to_be_bytes())));
                refused(&mut tally, &other.bytes, 22, field.at, "a reference to nothing");
            }
        }
    }
    tally.finish(8_000, &[0, 21, 22]);
}

/// Other bytes for a field of a record whose list has this Version, and the number that they bring, whatever follows.
fn others(version: u16, what: What, stored: &[u8]) -> Vec<(Vec<u8>, u64)> {
    let letters = |len| vec![b'x'; len];
    let texts = |lens: &[usize]| lens.iter().map(|&len| counted(&letters(len))).collect::<Vec<_>>();
    let numbers = |numbers: &[u32]| numbers.iter().map(|number| number.to_be_bytes().to_vec()).collect::<Vec<_>>();
    let (good, bad) = match what {
        What::NoName => (vec![], texts(&[1, 2, 254, 255, 256])),
        What::Option if version == LEAST_OPTIONS => {
            ([0, 1, 253, 254, 255].map(|len| plain_form(&letters(len))).to_vec(), vec![])
        }
        What::String | What::Option => (texts(&[0, 1, 253, 254, 255, 256]), vec![long_form(254, &letters(254))]),
        What::Bits => (numbers(&[!REFERENCED]), numbers(&[REFERENCED, u32::MAX, get32(stored, 0) | REFERENCED])),
        What::LowerBound => (vec![], numbers(&[1, 256, 1 << 16, 1 << 31, u32::MAX])),
        What::Version => {
            ([0u16, 1, 4, 5, 1000, 0x4000, u16::MAX].map(|version| version.to_be_bytes().to_vec()).to_vec(), vec![])
        }
        What::Number => (numbers(&[0, 16, u32::MAX]), vec![]),
        _ => (vec![], vec![]),
    };
    let number = if what == What::Bits { 23 } else { 21 };
    let good = good.into_iter().map(|bytes| (bytes, 0));
    good.chain(bad.into_iter().map(|bytes| (bytes, number))).collect()
}

/// Each field with other bytes; then with a byte more or less, or none: what follows is out of step, or ends early.
#[test]
fn fields() {
    let mut tally = Tally::new("read_info, each field changed");
    let mut rng = Rng::new(208);
    for (list, info) in samples(208) {
        for (index, field) in info.fields.iter().enumerate() {
            let mut with = |bytes: &[u8]| build(&mut rng, 0, &list, Some((index, bytes))).bytes;
            let bytes = &info.bytes[field.at..field.at + field.len];
            for (bytes, number) in others(list.version, field.what, bytes) {
                let answer = read(&mut tally, &with(&bytes));
                let expected = if number == 0 { Answer::success(16) } else { Answer::refusal(number, field.at as u64) };
                assert_eq!(answer, expected, "{field:?} {bytes:?}");
            }
            for bytes in [&bytes[1..], &bytes[..0], &[bytes, &[0]].concat(), &[&[0], bytes].concat()] {
                read(&mut tally, &with(bytes));
            }
        }
    }
    tally.finish(7_000, &[0, 21, 22, 23]);
}

#[test]
fn numbers_of_objects() {
    let mut tally = Tally::new("read_info, numbers of objects");
    for (_, info) in samples(209) {
        for (index, field) in info.fields.iter().enumerate().filter(|(_, field)| field.what == What::Objects) {
            let is_array = info.fields[index + 1].what == What::LowerBound;
            let first = field.at + if is_array { 8 } else { 4 };
            let objects = get32(&info.bytes, field.at);
            let mut record = info.bytes.clone();
            for more in [1, 2, 1000, 1 << 31, u32::MAX - objects] {
                put32(&mut record, field.at, objects + more);
                refused(&mut tally, &record, 21, field.end, "too many");
            }
            for less in 1..=objects {
                put32(&mut record, field.at, objects - less);
                let answer = read(&mut tally, &record);
                assert_eq!((answer.number, answer.place < field.end as u64), (21, true));
            }
            if objects > 0 {
                put32(&mut record, field.at, 0);
                refused(&mut tally, &record, 21, first, "none");
            }
        }
    }
    tally.finish(100, &[21]);
}

/// A fault of a field, the same whatever follows: its number. None for most fields.
fn damage(rng: &mut Rng, record: &mut [u8], field: &Field) -> Option<u64> {
    let bytes = &mut record[field.at..field.at + field.len];
    match field.what {
        What::Tag(_) => bytes[5] ^= 2,
        What::Reference(_) => bytes[3] ^= 1,
        What::Bits => bytes[3] |= 16,
        What::LowerBound => bytes[0] = 9,
        What::ByteCount => bytes[0] |= 0x80,
        What::NoName => bytes[0] = rng.pick(&[1, 255]),
        _ => return None,
    }
    match field.what {
        What::Tag(_) | What::Reference(_) => Some(22),
        What::Bits => Some(23),
        _ => Some(21),
    }
}

/// Two fields with faults of their own: the first decides.
#[test]
fn first_fault() {
    let mut tally = Tally::new("read_info, two faults");
    let mut rng = Rng::new(210);
    let samples = samples(210);
    for _ in 0..20_000 {
        let (_, info) = &samples[rng.below(samples.len())];
        let mut record = info.bytes.clone();
        let mut faults = BTreeMap::new();
        while faults.len() < 2 {
            let field = info.fields[rng.below(info.fields.len())];
            if faults.contains_key(&field.at) {
                continue;
            }
            if let Some(number) = damage(&mut rng, &mut record, &field) {
                faults.insert(field.at, number);
            }
        }
        let (at, number) = faults.pop_first().unwrap();
        refused(&mut tally, &record, number, at, "the first of two");
    }
    tally.finish(20_000, &[21, 22, 23]);
}

#[test]
fn tables() {
    let mut tally = Tally::new("read_info, tables of every length");
    let mut rng = Rng::new(211);
    for rows in 0..12 {
        let kinds: Vec<usize> = (0..rows).map(|_| 1 + rng.below(10)).collect();
        let kinds = [&[], &kinds[..rows / 2], &kinds[rows / 2..]];
        let classes = kinds.map(|kinds| class(&mut rng, kinds)).to_vec();
        let list = List { version: rng.pick(&LIST_VERSIONS), classes };
        let info = build(&mut rng, 0, &list, None);
        let mut referenced = info.bytes.clone();
        // The last number of the last TObject, or the list's.
        let bits = info.fields.iter().rev().find(|field| field.what == What::Bits).unwrap();
        referenced[bits.at + 3] |= 16;
        for len in 0..=6 * rows + 13 {
            let (answer, got) = read_info(&mut tally, &info.bytes, 0, len);
            if len / 6 < rows {
                assert_eq!(answer, Answer { number: 24, place: 0, count: rows as u64 });
            } else {
                assert_eq!((answer, &got), (Answer::success(rows as u64), &info.rows));
            }
            let (answer, _) = read_info(&mut tally, &referenced, 0, len);
            assert_eq!(answer, Answer::refusal(23, bits.at as u64));
        }
    }
    tally.finish(1_000, &[0, 23, 24]);
}

/// A record with another key over the same data.
fn with_key(at: u64, data: &[u8], strings: [&str; 3], more: usize, packed: i32) -> Vec<u8> {
    let mut key = gen::versioned_key(&mut Rng::new(1), 4, at, [0; 3], 0);
    key.strings = strings.map(|string| string.as_bytes().to_vec());
    key.keylen = (key.sum() + more) as u16;
    key.nbytes = (key.sum() + more + data.len()) as u32;
    key.objlen = (data.len() as u32).wrapping_add_signed(packed);
    [key.header(), vec![0; more], data.to_vec()].concat()
}

#[test]
fn other_records() {
    let mut tally = Tally::new("read_info, what is no info record");
    let mut rng = Rng::new(212);
    let list = all_kinds(&mut rng, 5);
    // Back-references count from the record's start, so this title keeps KeyLen 64.
    let data = build(&mut rng, 0, &list, None).bytes[64..].to_vec();
    let title = "Doubly linked list";
    for (strings, more, packed, number) in [
        (["TList", "StreamerInfo", title], 0, 0, 0),
        (["TList", "StreamerInfo", "Simply linked list"], 0, 0, 0),
        (["TList", "StreamerInfo", title], 0, 1, 19),
        (["TList", "StreamerInfo", title], 0, -1, 19),
        (["TList", "StreamerInfo", title], 1, 0, 20),
        (["TList", "StreamerInfo", title], 1, 1, 20),
        (["TLisu", "StreamerInfo", title], 0, 0, 20),
        (["TListt", "StreamerInfo", title], 0, 0, 20),
        (["TLis", "StreamerInfo", title], 0, 1, 20),
        (["TList", "StreamerInf", title], 0, 0, 20),
        (["TList", "StreamerInfo1", title], 0, 1, 20),
        (["", "", ""], 0, 0, 20),
    ] {
        for at in [0, 1, 100] {
            let record = with_key(at as u64, &data, strings, more, packed);
            let file = file_with(&mut rng, at, &record);
            let (answer, _) = read_info(&mut tally, &file, at as u64, 96);
            let expected = if number == 0 { Answer::success(16) } else { Answer::refusal(number, at as u64) };
            assert_eq!(answer, expected, "{strings:?}");
        }
    }
    // Another KeyLen: references are off by as much.
    let record = with_key(0, &data, ["TList", "StreamerInfo", ""], 0, 0);
    assert_eq!(read(&mut tally, &record).number, 22);
    tally.finish(30, &[0, 19, 20, 22]);
}

#[test]
fn places() {
    let mut tally = Tally::new("read_info, every place, and far past the end");
    let mut rng = Rng::new(213);
    let list = all_kinds(&mut rng, 5);
    let info = build(&mut rng, 100, &list, None);
    let mut file = file_with(&mut rng, 100, &info.bytes);
    file.extend(gen::gap(&mut rng, 30));
    let gap = file.len() as u64 - 30;
    for at in (0..file.len() as u64 + 5).chain([1 << 31, 1 << 32, (1 << 32) + 100, 1 << 63, u64::MAX - 99, u64::MAX]) {
        let (answer, _) = read_info(&mut tally, &file, at, 96);
        if at == gap {
            assert_eq!(answer, Answer::refusal(20, at));
        }
    }
    assert_eq!(read_info(&mut tally, &file, 100, 96).0, Answer::success(16));
    // Every length of the file, and of the record in it.
    for len in 0..100 + info.bytes.len() {
        assert_eq!(read_info(&mut tally, &file[..len], 100, 96).0, Answer::refusal(5, 100));
    }
    tally.finish(4_000, &[0, 5, 20]);
}

#[test]
fn truncations() {
    let mut tally = Tally::new("read_info, data cut or continued");
    let mut rng = Rng::new(214);
    for (_, info) in samples(214) {
        for size in (64..info.bytes.len()).chain(info.bytes.len() + 1..info.bytes.len() + 9) {
            let mut record = info.bytes.clone();
            record.resize(size, rng.u64() as u8);
            put32(&mut record, 0, size as u32);
            put32(&mut record, 6, size as u32 - 64);
            // The list no longer fills the data.
            refused(&mut tally, &record, 21, 64, "the list's ByteCount");
            if size >= 68 {
                put32(&mut record, 64, 0x4000_0000 + size as u32 - 68);
                assert_eq!(read(&mut tally, &record).number, 21);
            }
        }
    }
    tally.finish(10_000, &[21]);
}

#[test]
fn damaged_records() {
    let mut tally = Tally::new("read_info, random records damaged");
    let mut rng = Rng::new(215);
    for _ in 0..40_000 {
        let at = rng.pick(&[0, 0, 3, 100]);
        let list = list(&mut rng);
        let version = rng.pick(&VERSIONS);
        let info = build_of(&mut rng, version, at as u64, &list, None);
        let mut file = file_with(&mut rng, at, &info.bytes);
        for _ in 0..1 + rng.below(3) {
            let place = at + info.fields[rng.below(info.fields.len())].at;
            match rng.below(4) {
                0 => gen::damage(&mut rng, &mut file, at),
                1 if place < file.len() => gen::damage(&mut rng, &mut file, place),
                2 if place + 4 <= file.len() => {
                    let number = get32(&file, place).wrapping_add(rng.below(9) as u32).wrapping_sub(4);
                    put32(&mut file, place, number);
                }
                _ => {
                    let place = rng.below(file.len());
                    file[place] ^= 1 << rng.below(8);
                }
            }
            if file.len() <= at {
                break;
            }
        }
        let len = rng.below(6 * info.rows.len() + 20);
        read_info(&mut tally, &file, at as u64, len);
    }
    tally.finish(40_000, &[0, 5, 6, 19, 20, 21, 22, 23, 24]);
}

/// The info records of files written by ROOT are packed.
#[test]
fn root_files() {
    let Some(paths) = kit::harness::root_folder::root_files() else { return };
    let mut tally = Tally::new("read_info, files written by ROOT");
    for path in paths {
        let file = fs::read(&path).unwrap();
        let seek_info = get32(&file, 37) as u64;
        let (answer, _) = read_info(&mut tally, &file, seek_info, 60);
        println!("{}: {answer:?}", path.file_name().unwrap().to_string_lossy());
        if path.ends_with("basic_lz4.root") {
            assert_eq!(answer, Answer::refusal(19, seek_info));
        }
        for at in 0..file.len() as u64 {
            read_info(&mut tally, &file, at, 60);
        }
    }
    tally.finish(1, &[5]);
}
