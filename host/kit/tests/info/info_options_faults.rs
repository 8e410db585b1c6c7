//! Options of StreamerInfo lists with a wrong form, cut, missing or left over, and other faults of lists with options.

use crate::option_lists::{
    empty_classes, ends, lengths, options_of, pairs, Lists, FIRST, OBJECTS, PLACE, ROOM, VERSION, WITH,
};
use kit::gen::infos::{build, new_tag, put32, put_list_version, Info, What, LEAST_OPTIONS, LIST_VERSIONS};
use kit::gen::strings::long_form;
use second::number;
use second::streamer::{INFO, REFERENCED};

/// One to three objects, and which of them.
fn each_object() -> impl Iterator<Item = (usize, usize)> {
    (1..=3).flat_map(|objects| (0..objects).map(move |nth| (objects, nth)))
}

/// The long form of a length below 255 is none. In Version 4 the same bytes are an option of 255 bytes, and those of
/// one in the long form are four too many.
#[test]
fn long_form_below_255() {
    let mut lists = Lists::new("read_info, options in the long form below 255", 805);
    let short = [0, 1, 2, 127, 253, 254].map(|len| long_form(len, &[0; 251]));
    let least = long_form(255, &[0; 255]);
    for (objects, nth) in each_object() {
        for &version in WITH {
            let list = lists.list(version, &vec![0; objects]);
            let what = || format!("Version {version}, option {nth} of {objects}");
            for bytes in &short {
                let (info, field) = lists.build_with(&list, nth, bytes);
                if version == LEAST_OPTIONS {
                    lists.taken(&info, &what);
                } else {
                    lists.refused(&info.bytes, number::COUNT, field.at, &what);
                }
            }
            let (info, field) = lists.build_with(&list, nth, &least);
            if version == LEAST_OPTIONS {
                lists.refused(&info.bytes, number::COUNT, field.at + 256, &what);
            } else {
                lists.taken(&info, &what);
            }
        }
    }
    lists.tally.finish(160, &[0, number::COUNT]);
}

/// The list ends at a byte of an option: 21 at its first byte, where memory ends and where the bytes go on.
#[test]
fn cut_at_each_byte() {
    let mut lists = Lists::new("read_info, options cut", 806);
    for &version in WITH {
        for (len, nth) in pairs(lengths(version), &[0, 1, 2]) {
            let list = lists.list(version, &[len; 3]);
            let info = lists.build(&list);
            let field = info.fields[options_of(&info)[nth]];
            let open = info.open_at(&field);
            assert_eq!((open.len(), field.at + field.len), (1, ends(&list, &info.bytes)[nth + 1]));
            for end in field.at..field.at + field.len {
                let what = || format!("Version {version}, option {nth} of {len} bytes, end {end}");
                let cut = info.ending(&open, end);
                lists.refused(&cut, number::COUNT, field.at, &what);
                lists.refused(&[&cut, &info.bytes[end..]].concat(), number::COUNT, field.at, &what);
            }
        }
    }
    lists.tally.finish(40_000, &[number::COUNT]);
}

/// No byte is left for the last option: 21 where it would stand. One before is taken to begin with the next object.
#[test]
fn missing() {
    let mut lists = Lists::new("read_info, options left out", 807);
    for (objects, nth) in each_object() {
        for (version, len) in pairs(WITH, &[0, 1, 254]) {
            let list = empty_classes(version, &vec![&[0; 254][..len]; objects]);
            let (info, field) = lists.build_with(&list, nth, &[]);
            let missing = FIRST + 98 + nth * (1 + len + 74);
            assert_eq!(field.at, missing);
            let at = if nth + 1 == objects { missing } else { missing + 65 };
            lists.refused(&info.bytes, number::COUNT, at, &|| format!("Version {version}, option {nth} of {objects}"));
        }
    }
    lists.tally.finish(72, &[number::COUNT]);
}

/// Bytes after the last option, or after the last object of a list without options: 21 at the first of them.
#[test]
fn left_over() {
    let mut lists = Lists::new("read_info, bytes after the last option", 808);
    let mores: [&[u8]; 7] = [&[0], &[1], &[64], &[255], &[0; 2], &[0; 9], &[64, 0, 0, 0, 0]];
    for (version, objects) in pairs(&LIST_VERSIONS, &[0, 1, 2, 3]) {
        for (len, more) in pairs(lengths(version), &mores) {
            let list = lists.list(version, &vec![len; objects]);
            let info = lists.build(&list);
            let longer = Info { bytes: [&info.bytes, more].concat(), ..info.clone() };
            let record = longer.ending(&info.objects()[..1], longer.bytes.len());
            let what = || format!("Version {version}, {objects} options of {len} bytes, {more:?}");
            lists.refused(&record, number::COUNT, info.bytes.len(), &what);
        }
    }
    lists.tally.finish(500, &[number::COUNT]);
}

/// A list below Version 4 with options all the same. What follows its first object is taken for a ByteCount, or is
/// left over: 21 there. If it is one by chance, the field in it is at fault.
#[test]
fn below_version_4() {
    let mut lists = Lists::new("read_info, options below Version 4", 809);
    for (version, objects) in pairs(&[0, 1, 2, 3], &[1, 2, 3]) {
        let list = lists.list(LEAST_OPTIONS, &vec![0; objects]);
        let mut refused = |bytes: &[u8], number, offset| {
            let (mut info, field) = lists.build_with(&list, 0, bytes);
            put_list_version(&mut info.bytes, version);
            let (number, offset) = if objects == 1 { (number::COUNT, 0) } else { (number, offset) };
            let what = || format!("Version {version}, {objects} objects, an option of {:?}", bytes[0]);
            lists.refused(&info.bytes, number, field.at + offset, &what);
        };
        for len in 0..=u8::MAX {
            // 64 and zeros are the ByteCount of an object of no bytes.
            let offset = if len == 64 { 4 } else { 0 };
            refused(&[&[len], &vec![0; len.into()][..]].concat(), number::COUNT, offset);
        }
        for tag in [new_tag(b"TList"), new_tag(b""), vec![0; 4]] {
            refused(&[&[64, 0, 0, 61], &tag[..], &vec![0; 61 - tag.len()]].concat(), number::TAG, 4);
        }
    }
    lists.tally.finish(3_000, &[number::COUNT, number::TAG]);
}

/// Other numbers of objects: more have no ByteCount where the list ends, fewer leave the next object over.
#[test]
fn numbers_of_objects() {
    let mut lists = Lists::new("read_info, numbers of objects with options", 811);
    for version in LIST_VERSIONS {
        let list = lists.list(version, &[3, 0, 254]);
        let info = lists.build(&list);
        let ends = ends(&list, &info.bytes);
        for objects in [0, 1, 2, 4, 5, 1000, 1 << 31, u32::MAX] {
            let mut record = info.bytes.clone();
            put32(&mut record, OBJECTS, objects);
            let end = ends[objects.min(3) as usize];
            lists.refused(&record, number::COUNT, end, &|| format!("Version {version}, {objects} objects"));
        }
    }
    lists.tally.finish(48, &[number::COUNT]);
}

/// A list of rules, which newer lists end with, is an object of another class.
#[test]
fn list_of_rules() {
    let mut lists = Lists::new("read_info, a TList as the last object", 812);
    for version in LIST_VERSIONS {
        let list = lists.list(version, &[0; 3]);
        let info = lists.build(&list);
        let last = info.fields.iter().rposition(|field| field.what == What::Reference(INFO)).unwrap();
        let other = build(&mut lists.rng, PLACE as u64, &list, Some((last, &new_tag(b"TList"))));
        lists.refused(&other.bytes, number::TAG, other.fields[last].at, &|| format!("Version {version}"));
    }
    lists.tally.finish(6, &[number::TAG]);
}

/// A bad option and a TObject that is referenced: the first of both decides.
#[test]
fn first_fault() {
    let mut lists = Lists::new("read_info, a bad option and another fault", 813);
    for (version, nth) in pairs(WITH, &[0, 1, 2]) {
        // In Version 4 it ends past the list, in others it has a wrong form.
        let bad = if version == LEAST_OPTIONS { vec![255] } else { long_form(254, &[0; 254]) };
        let list = empty_classes(version, &[b"", b"ab", b""]);
        let (info, field) = lists.build_with(&list, nth, &bad);
        for bits in info.fields.iter().filter(|other| other.what == What::Bits) {
            let mut record = info.bytes.clone();
            record[bits.at + 3] |= REFERENCED as u8;
            let what = || format!("Version {version}, option {nth}, {bits:?}");
            if bits.at < field.at {
                lists.refused(&record, number::REFERENCED, bits.at, &what);
            } else {
                lists.refused(&record, number::COUNT, field.at, &what);
            }
        }
    }
    lists.tally.finish(60, &[number::COUNT, number::REFERENCED]);
}

/// Each of the first bytes of each option, and of the list's Version, with every value.
#[test]
fn changed_bytes() {
    let mut lists = Lists::new("read_info, bytes of options changed", 815);
    for (version, lens) in pairs(WITH, &[[0, 3, 0], [255, 254, 1]]) {
        let list = lists.list(version, &lens);
        let info = lists.build(&list);
        let options = options_of(&info).into_iter().map(|index| info.fields[index].at);
        let places = options.flat_map(|at| at..info.bytes.len().min(at + 6));
        for at in places.chain(VERSION..VERSION + 2) {
            let mut record = info.bytes.clone();
            for value in 0..=u8::MAX {
                record[at] = value;
                lists.read(&record, ROOM);
            }
        }
    }
    lists.tally.finish(30_000, &[0, number::COUNT]);
}
