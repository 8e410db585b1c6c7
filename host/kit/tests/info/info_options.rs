//! Options of StreamerInfo lists: a counted string after each object of a list of Version 4 and up.

use crate::option_lists::{
    empty_classes, ends, lengths, options_of, pairs, stored_option, Lists, FIRST, PLACE, ROOM, WITH,
};
use kit::compare::info::read_info;
use kit::compare::Tally;
use kit::gen::infos::{build, build_of, get32, put32, put_list_version, What, LIST_VERSIONS};
use kit::gen::strings::{claims, long_form};
use kit::gen::Rng;
use second::streamer::{ARRAY, CLASS_MASK};
use second::{number, Answer};

/// Versions of lists whose options may have the long form.
const LATER: &[u16] = WITH.split_at(1).1;

/// The rule: what an option takes that begins with these bytes. None if it has a wrong form.
fn size(version: u16, bytes: &[u8]) -> Option<usize> {
    match (version, bytes) {
        (5.., [255, a, b, c, d, ..]) => {
            let len = u32::from_be_bytes([*a, *b, *c, *d]) as usize;
            (len >= 255).then_some(5 + len)
        }
        (5.., [255, ..]) => None,
        (_, bytes) => Some(1 + usize::from(bytes[0])),
    }
}

/// Every choice of a length for each object.
fn choices(lens: &[usize], objects: usize) -> Vec<Vec<usize>> {
    (0..objects).fold(vec![vec![]], |chosen, _| {
        let with = |before: &Vec<usize>| lens.iter().map(|len| [&before[..], &[*len]].concat()).collect::<Vec<_>>();
        chosen.iter().flat_map(with).collect()
    })
}

/// Lists of no to three objects, with each length of each option. Room for one row less is 24.
#[test]
fn versions_and_lengths() {
    let mut lists = Lists::new("read_info, options of lists of each Version", 800);
    for version in LIST_VERSIONS {
        for lens in (0..=3).flat_map(|objects| choices(lengths(version), objects)) {
            let list = lists.list(version, &lens);
            let info = lists.build(&list);
            assert_eq!(ends(&list, &info.bytes).len(), 1 + lens.len());
            lists.taken(&info, &|| format!("Version {version}, options of {lens:?} bytes"));
            let rows = lens.len();
            if rows > 0 {
                let (answer, _) = lists.read(&info.bytes, 6 * rows - 1);
                assert_eq!(answer, Answer { number: number::ROWS, place: 0, count: rows as u64 });
            }
        }
    }
    lists.tally.finish(6_000, &[0, number::ROWS]);
}

/// Options with no limit of their own, before, between and after others.
#[test]
fn long_options() {
    let mut lists = Lists::new("read_info, long options", 801);
    for &version in LATER {
        for (len, nth) in pairs(&[32_767, 65_535, 65_536, 70_000], &[0, 1, 2]) {
            let mut lens = [0, 255, 3];
            lens[nth] = len;
            let list = lists.list(version, &lens);
            let info = lists.build(&list);
            assert_eq!(ends(&list, &info.bytes).len(), 1 + lens.len());
            lists.taken(&info, &|| format!("Version {version}, options of {lens:?} bytes"));
        }
    }
    lists.tally.finish(36, &[0]);
}

/// With options and without them a list has the same rows; offsets are moved by the options before them.
#[test]
fn rows_move() {
    let mut lists = Lists::new("read_info, rows with and without options", 802);
    for (version, key) in pairs(WITH, &[4, 1004]) {
        for lens in [[0, 0, 0], [1, 0, 3], [254, 255, 9], [255, 2, 255]] {
            let mut list = lists.list(version, &lens);
            let info = build_of(&mut lists.rng, key, PLACE as u64, &list, None);
            lists.taken(&info, &|| format!("Version {version}, options of {lens:?} bytes"));
            list.version = 3;
            let bare = build_of(&mut lists.rng, key, PLACE as u64, &list, None);
            lists.taken(&bare, &|| format!("without options of {lens:?} bytes"));
            let moved = bare.rows.iter().map(|&[class, kind, name, type_name, ftype, length]| {
                let before = &list.classes[..class as usize];
                let by = before.iter().map(|class| stored_option(version, &class.option).len() as u32).sum::<u32>();
                [class, kind, name + by, type_name + by, ftype, length]
            });
            assert_eq!(info.rows, moved.collect::<Vec<_>>());
        }
    }
    lists.tally.finish(64, &[0]);
}

/// Each Version there is, over lists laid down with options and without: where each is refused below Version 4, in 4,
/// and from 5 on. Without options there is no byte left for the last one; one before is taken to begin with the next
/// object, whose first byte is 64, and zeros follow it. The byte 255 and as many zeros are an option in 4, and have a
/// wrong form from 5 on; the long form of 255 has four bytes too many in 4.
#[test]
fn every_version() {
    let mut tally = Tally::new("read_info, every Version of a list");
    let mut rng = Rng::new(803);
    let mut record = |version, options: &[&[u8]]| build(&mut rng, 0, &empty_classes(version, options), None).bytes;
    let option = FIRST + 98;
    let mut cases: Vec<(Vec<u8>, [Option<usize>; 3])> = vec![
        (record(3, &[]), [None; 3]),
        (record(3, &[b""]), [None, Some(option), Some(option)]),
        (record(3, &[b"", b""]), [None, Some(option + 65), Some(option + 65)]),
        (record(4, &[&[0; 255]]), [Some(option), None, Some(option)]),
        (record(5, &[&[0; 255]]), [Some(option), Some(option + 256), None]),
    ];
    let options: [&[&[u8]]; 5] = [&[b""], &[b"a"], &[b"", b""], &[b"a", b"bc"], &[&[1; 254], b""]];
    cases.extend(options.map(|options| (record(5, options), [Some(option), None, None])));
    for version in 0..=u16::MAX {
        for (record, [below, plain, later]) in &mut cases {
            put_list_version(record, version);
            let fault = match version {
                0..=3 => *below,
                4 => *plain,
                _ => *later,
            };
            let expected = fault.map_or(Answer::success(0), |at| Answer::refusal(number::COUNT, at as u64));
            assert_eq!(read_info(&mut tally, record, 0, ROOM).0, expected, "Version {version}");
        }
    }
    tally.finish(10 << 16, &[0, number::COUNT]);
}

/// Any length before some zeros, in one byte and in the long form. One that ends past the list, or has a wrong form,
/// is 21 at its first byte; one that is too small leaves zeros over, which are no ByteCount. Where one takes in what
/// follows, the programs agree.
#[test]
fn any_length() {
    let mut lists = Lists::new("read_info, lengths of options", 804);
    for (version, len) in pairs(WITH, &[1, 3, 251, 254, 255, 300]) {
        let zeros = vec![0; len as usize];
        let plain = (0..=u8::MAX).map(|length| [&[length], &zeros[..]].concat());
        let long = claims(len).into_iter().map(|length| long_form(length, &zeros));
        let all: Vec<Vec<u8>> = plain.chain(long).collect();
        for (bytes, nth) in all.iter().flat_map(|bytes| [0, 1, 2].map(|nth| (bytes, nth))) {
            let list = lists.list(version, &[0; 3]);
            let (info, field) = lists.build_with(&list, nth, bytes);
            let what =
                || format!("Version {version}, option {nth}, {len} zeros after {:?}", &bytes[..5.min(bytes.len())]);
            match size(version, bytes) {
                Some(size) if size == bytes.len() => lists.taken(&info, &what),
                Some(size) if size < bytes.len() => lists.refused(&info.bytes, number::COUNT, field.at + size, &what),
                Some(size) if size <= field.end - field.at => drop(lists.read(&info.bytes, ROOM)),
                _ => lists.refused(&info.bytes, number::COUNT, field.at, &what),
            }
        }
    }
    lists.tally.finish(20_000, &[0, number::COUNT]);
}

/// An option that holds an object is an option all the same, and a tag in it is none that a reference refers to.
#[test]
fn objects_in_options() {
    let mut lists = Lists::new("read_info, objects in options", 816);
    for &version in WITH {
        let what = || format!("Version {version}");
        let first = lists.build(&empty_classes(version, &[b""])).bytes[FIRST..FIRST + 98].to_vec();
        let mut info = lists.build(&empty_classes(version, &[&first, b"", &first]));
        lists.taken(&info, &what);
        let option = FIRST + 98;
        assert_eq!(info.bytes[option + 1..option + 1 + 98], first);
        let reference = option + 1 + 98 + 4;
        assert_eq!(get32(&info.bytes, reference), CLASS_MASK + (FIRST + 4 + 2) as u32);
        put32(&mut info.bytes, reference, CLASS_MASK + (option + 1 + 4 + 2) as u32);
        lists.refused(&info.bytes, number::TAG, reference, &what);
    }
    lists.tally.finish(8, &[0, number::TAG]);
}

/// Only the list's own Version matters, no other one: that of its TObject, of an object, of an array, of an element.
#[test]
fn other_versions() {
    let mut lists = Lists::new("read_info, Versions of what the list holds", 810);
    for list_version in LIST_VERSIONS {
        let list = lists.list(list_version, &[0, 1, 200]);
        let info = lists.build(&list);
        let mut arrays = 0;
        for (index, field) in info.fields.iter().enumerate().filter(|(_, field)| field.what == What::Version) {
            let before = info.fields[index - 2].what;
            arrays += usize::from(before == What::Tag(ARRAY) || before == What::Reference(ARRAY));
            for version in LIST_VERSIONS {
                let mut info = info.clone();
                info.bytes[field.at..field.at + 2].copy_from_slice(&version.to_be_bytes());
                lists.taken(&info, &|| format!("list {list_version}, {field:?}, {version}"));
            }
        }
        assert_eq!(arrays, 3);
    }
    lists.tally.finish(700, &[0]);
}

/// Tables of every length. A bad option goes before 24.
#[test]
fn tables() {
    let mut lists = Lists::new("read_info, tables of every length with options", 814);
    for (version, objects) in pairs(WITH, &[0, 1, 2, 3]) {
        let list = lists.list(version, &vec![255; objects]);
        let info = lists.build(&list);
        for len in 0..=6 * objects + 7 {
            let expected = if len / 6 < objects {
                (Answer { number: number::ROWS, place: 0, count: objects as u64 }, vec![])
            } else {
                (Answer::success(objects as u64), info.rows.clone())
            };
            assert_eq!(lists.read(&info.bytes, len), expected);
            if let Some(&last) = options_of(&info).last() {
                let cut = info.ending(&info.objects()[..1], info.bytes.len() - 1);
                let expected = (Answer::refusal(number::COUNT, (PLACE + info.fields[last].at) as u64), vec![]);
                assert_eq!(lists.read(&cut, len), expected);
            }
        }
    }
    lists.tally.finish(450, &[0, number::COUNT, number::ROWS]);
}
