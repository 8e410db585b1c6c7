//! Names of classes in new tags: the class whose name it is, none for any other string, wherever a new tag stands.

use kit::compare::info::read_info;
use kit::compare::Tally;
use kit::gen::infos::{build, new_tag, short_class, Info, List, What};
use kit::gen::Rng;
use kit::harness::edge::Edge;
use second::streamer::Row;
use second::{number, Answer};
use std::fs;
use std::ops::Range;

/// Document 002's names: of the list's objects, of their arrays, and of elements, kinds 1 to 10.
#[rustfmt::skip]
const NAMES: [&[u8]; 12] = [
    b"TStreamerInfo", b"TObjArray",
    b"TStreamerBase", b"TStreamerBasicType", b"TStreamerString", b"TStreamerBasicPointer", b"TStreamerObject",
    b"TStreamerObjectPointer", b"TStreamerLoop", b"TStreamerObjectAny", b"TStreamerSTL", b"TStreamerSTLString",
];
/// Where a new tag can stand, by the names that may stand there: for the list's object, its array, an element.
const POSITIONS: [Range<usize>; 3] = [0..1, 1..2, FIRST_KIND..NAMES.len()];
const FIRST_KIND: usize = 2;
const KINDS: usize = NAMES.len() - FIRST_KIND;
/// The index at which names of one length differ.
const DECIDING: usize = 9;
/// The longest string that is like no name.
const LONGEST: usize = 40;
/// By how many bytes a name is continued by parts of names and by letters at most.
const MOST_MORE: usize = 12;
const ROOM: usize = 12;

/// The rule: a string names the class whose name it is, any other none. Only some may stand at a position.
fn class_at(position: usize, name: &[u8]) -> Option<usize> {
    POSITIONS[position].clone().find(|&class| NAMES[class] == name)
}

/// Records that are right but for one new tag.
struct Tags {
    tally: Tally,
    rng: Rng,
    /// A list of one class with one element, for each kind.
    lists: Vec<List>,
    /// The new tag at each position, as an index into a record's fields.
    fields: Vec<usize>,
    edge: Edge,
    /// How many were read.
    taken: usize,
}

impl Tags {
    fn new(label: &'static str) -> Self {
        let mut rng = Rng::new(240);
        let list = |kind| List::bare(vec![short_class(&mut rng, &[kind], 3)]);
        let lists: Vec<List> = (1..=KINDS).map(list).collect();
        let info = build(&mut rng, 0, &lists[0], None);
        let tags = info.fields.iter().enumerate().filter(|(_, field)| matches!(field.what, What::Tag(_)));
        let fields: Vec<usize> = tags.map(|(index, _)| index).collect();
        assert_eq!(fields.len(), POSITIONS.len());
        Tags { tally: Tally::new(label), rng, lists, fields, edge: Edge::default(), taken: 0 }
    }

    /// A record with this tag at a position. Its element is of the class that stands there, or else of any kind.
    fn record(&mut self, position: usize, tag: &[u8], class: Option<usize>) -> Info {
        let kind = class.and_then(|class| class.checked_sub(FIRST_KIND)).unwrap_or_else(|| self.rng.below(KINDS));
        build(&mut self.rng, 0, &self.lists[kind], Some((self.fields[position], tag)))
    }

    fn expect(&mut self, file: &[u8], expected: (Answer, Vec<Row>), what: &dyn Fn() -> String) {
        self.taken += usize::from(expected.0.number == number::SUCCESS);
        assert_eq!(read_info(&mut self.tally, self.edge.lend(file), 0, ROOM), expected, "{}", what());
    }

    /// New tags with this string and a zero, one at each position.
    fn check(&mut self, string: &[u8]) {
        for position in 0..POSITIONS.len() {
            self.check_at(position, string);
        }
    }

    fn check_at(&mut self, position: usize, string: &[u8]) {
        // A zero in the string ends the name.
        let name = string.split(|&byte| byte == 0).next().unwrap();
        let class = class_at(position, name);
        let info = self.record(position, &new_tag(string), class);
        let at = info.fields[self.fields[position]].at;
        let refused = |number, at: usize| (Answer::refusal(number, at as u64), Vec::new());
        let expected = match class {
            None => refused(number::TAG, at),
            Some(_) if name == string => (Answer::success(1), info.rows),
            // A bad ByteCount follows.
            Some(_) => refused(number::COUNT, at + new_tag(name).len()),
        };
        self.expect(&info.bytes, expected, &|| format!("position {position}, {}", string.escape_ascii()));
    }

    /// The innermost open object ends with this tag, then the two innermost, and so on up to the list. A refusal,
    /// at an offset from the tag, whatever follows: what does, and a zero.
    fn check_ends(&mut self, position: usize, tag: &[u8], number: u64, offset: usize) {
        let info = self.record(position, tag, None);
        let field = info.fields[self.fields[position]];
        let end = field.at + field.len;
        let open = info.open_at(&field);
        for outer in 0..open.len() {
            let mut file = info.ending(&open[outer..], end);
            let expected = (Answer::refusal(number, (field.at + offset) as u64), Vec::new());
            let what = || format!("position {position}, {}, {:?} ends", tag.escape_ascii(), open[outer]);
            self.expect(&file, expected.clone(), &what);
            file.resize(file.len().max(end + 1), 0);
            file[end] = 0;
            self.expect(&file, expected, &what);
        }
    }
}

/// A name with another byte at an index.
fn with(name: &[u8], index: usize, byte: u8) -> Vec<u8> {
    let mut string = name.to_vec();
    string[index] = byte;
    string
}

/// Each of the twelve is read where it may stand, and nowhere else.
#[test]
fn all_names() {
    let mut tags = Tags::new("read_info, the names of the twelve classes");
    for name in NAMES {
        tags.check(name);
    }
    tags.check(b"");
    assert_eq!(tags.taken, NAMES.len());
    tags.tally.finish(39, &[number::SUCCESS, number::TAG]);
}

#[test]
fn every_byte() {
    let mut tags = Tags::new("read_info, each byte of each name replaced");
    for name in NAMES {
        for (index, &byte) in name.iter().enumerate() {
            for other in (0..=u8::MAX).filter(|&other| other != byte) {
                tags.check(&with(name, index, other));
            }
        }
    }
    assert_eq!(tags.taken, 0);
    // 21: a zero makes TStreamerObject of two names, and TStreamerSTL of one.
    tags.tally.finish(140_000, &[number::COUNT, number::TAG]);
}

/// Each name cut to each shorter length, and continued: by what other names have there, by itself, and by letters.
fn shorter_and_longer() -> Vec<Vec<u8>> {
    let mut strings = Vec::new();
    for name in NAMES {
        strings.extend((0..name.len()).map(|len| name[..len].to_vec()));
        let rests =
            NAMES.iter().filter_map(|other| other.get(name.len()..)).chain([name, b"xxxxxxxxxxxx", b"zyxwvutsrqpo"]);
        for rest in rests {
            let most = rest.len().min(MOST_MORE);
            strings.extend((1..=most).map(|more| [name, &rest[..more]].concat()));
        }
    }
    strings
}

#[test]
fn every_length() {
    let mut tags = Tags::new("read_info, names cut or continued");
    for string in shorter_and_longer() {
        tags.check(&string);
    }
    // TStreamerObject of two names and TStreamerSTL of one, and back.
    assert_eq!(tags.taken, 6);
    // Any byte more, and a letter after the zero.
    for name in NAMES {
        for byte in 0..=u8::MAX {
            tags.check(&[name, &[byte]].concat());
        }
        tags.check(&[name, b"\0x"].concat());
    }
    tags.tally.finish(10_000, &[number::SUCCESS, number::COUNT, number::TAG]);
}

/// The first bytes of one name and the last of another, each number of both.
#[test]
fn two_names() {
    let mut tags = Tags::new("read_info, the start of a name and the end of another");
    for (one, other) in NAMES.iter().flat_map(|one| NAMES.map(|other| (one, other))) {
        for len in 0..=one.len() {
            for from in 0..=other.len() {
                tags.check(&[&one[..len], &other[from..]].concat());
            }
        }
    }
    tags.tally.finish(100_000, &[number::SUCCESS, number::TAG]);
}

/// Strings of each length, with each byte at the index where names differ. Their other bytes are in no name, or are
/// those of a name of that length but for one.
#[test]
fn length_and_deciding_byte() {
    let mut tags = Tags::new("read_info, strings by length and deciding byte");
    for len in 0..=LONGEST {
        let names = NAMES.iter().filter(|name| name.len() == len);
        let indices = || (0..len).filter(|&index| index != DECIDING);
        // Upper case for lower case and back.
        let near = names.flat_map(|name| indices().map(|index| with(name, index, name[index] ^ 0x20)));
        for string in near.chain([vec![0x80; len]]) {
            tags.check(&string);
            for byte in (0..=u8::MAX).filter(|_| len > DECIDING) {
                tags.check(&with(&string, DECIDING, byte));
            }
        }
    }
    assert_eq!(tags.taken, 0);
    tags.tally.finish(150_000, &[number::TAG]);
}

/// Names continued by a power of two of bytes: the lowest bits of the length are those of a name's length.
#[test]
fn longer_by_a_power_of_two() {
    let mut tags = Tags::new("read_info, names longer by a power of two");
    for (name, bits) in NAMES.iter().flat_map(|name| (0..=16).map(move |bits| (name, bits))) {
        tags.check(&[name, &vec![b'x'; 1 << bits][..]].concat());
    }
    assert_eq!(tags.taken, 0);
    tags.tally.finish(600, &[number::TAG]);
}

/// No zero before the end of the tag's object is 21, whatever the string. With a zero right before the end a name is
/// read, and the next field does not fit; any other string is none.
#[test]
fn ends() {
    let mut tags = Tags::new("read_info, names at the end of an object");
    let strings = shorter_and_longer().into_iter().chain(NAMES.map(<[u8]>::to_vec));
    for string in strings {
        let tag = new_tag(&string);
        for position in 0..POSITIONS.len() {
            tags.check_ends(position, &tag[..tag.len() - 1], number::COUNT, 0);
            match class_at(position, &string) {
                Some(_) => tags.check_ends(position, &tag, number::COUNT, tag.len()),
                None => tags.check_ends(position, &tag, number::TAG, 0),
            }
        }
    }
    tags.tally.finish(20_000, &[number::COUNT, number::TAG]);
}

/// No name's bytes stand twice in the library, but for a name that begins two others.
#[test]
fn stored_once() {
    let archive = fs::read(env!("ROOTMAP_ARCHIVE")).unwrap();
    for name in NAMES {
        let times = archive.windows(name.len()).filter(|bytes| bytes == &name).count();
        let longer = NAMES.iter().filter(|other| other.len() > name.len() && other.starts_with(name)).count();
        assert!(times <= longer.max(1), "{} stands there {times} times", name.escape_ascii());
    }
}
