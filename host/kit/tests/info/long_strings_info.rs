//! Strings of 255 bytes and more in StreamerInfo records: in every string of a record, and in its key.

use crate::stored::stored;
use kit::compare::info::read_info;
use kit::compare::Tally;
use kit::gen::infos::{all_kinds, build, build_with, key, Info, List, What, LIST_VERSIONS};
use kit::gen::strings::{claims, counted, long_form};
use kit::gen::Rng;
use kit::harness::edge::Edge;
use second::{number, Answer};

/// The elements of a sample, and a table with room for all.
const ELEMENTS: u64 = 16;
const ROOM: usize = 120;
/// Strings in a sample: two of each class, five of each element, some of which its kind does not have.
const STRINGS: usize = 3 * 2 + 16 * 5;

fn refused(offset: usize) -> Answer {
    Answer::refusal(number::COUNT, offset as u64)
}

/// Each row's offsets are those of the first length bytes of its element's name and type name.
fn offsets_hold(list: &List, info: &Info) -> bool {
    let elements = list.classes.iter().flat_map(|class| &class.elements);
    info.rows.iter().zip(elements).all(|(row, element)| {
        let [name, _, type_name, ..] = &element.strings;
        [(row[2], name), (row[3], type_name)]
            .into_iter()
            .all(|(offset, string)| info.bytes[offset as usize..].starts_with(&stored(string)))
    })
}

fn taken(tally: &mut Tally, list: &List, info: &Info, what: &dyn Fn() -> String) {
    let read = read_info(tally, &info.bytes, 0, ROOM);
    assert_eq!(read, (Answer::success(ELEMENTS), info.rows.clone()), "{}", what());
    assert!(offsets_hold(list, info), "{}", what());
}

/// Every string by itself, of lengths around 255 and of great ones: none has a limit of its own.
#[test]
fn every_string() {
    let mut tally = Tally::new("read_info, each string with a long form");
    let mut rng = Rng::new(720);
    let mut short = LIST_VERSIONS.map(|version| all_kinds(&mut rng, version)).into_iter().cycle();
    for len in [253, 254, 255, 256, 257, 1000, 32_767, 32_768, 65_535, 65_536, 70_000] {
        for nth in 0..STRINGS {
            let mut list = short.next().unwrap();
            let mut strings: Vec<&mut Vec<u8>> = list.strings_mut().collect();
            assert_eq!(strings.len(), STRINGS);
            *strings[nth] = rng.bytes(len);
            let info = build(&mut rng, 0, &list, None);
            taken(&mut tally, &list, &info, &|| format!("string {nth} of {len} bytes"));
        }
    }
    tally.finish(900, &[0]);
}

/// All of them at once, and a long title in the key, which moves every offset.
#[test]
fn all_strings() {
    let mut tally = Tally::new("read_info, long strings everywhere");
    let mut rng = Rng::new(721);
    for (len, version) in [254, 255, 256, 1000].into_iter().flat_map(|len| [(len, 4), (len, 1004)]) {
        let mut list = all_kinds(&mut rng, 5);
        list.strings_mut().for_each(|string| *string = rng.bytes(len));
        let mut key = key(&mut rng, version, 0);
        key.strings[2] = rng.bytes(len);
        let info = build_with(&mut rng, key, &list, None);
        let fixed = if version > 1000 { 34 } else { 26 };
        assert_eq!(info.keylen, fixed + 6 + 13 + if len < 255 { 1 } else { 5 } + len);
        taken(&mut tally, &list, &info, &|| format!("{len} bytes each"));
        // Each bit of a length, in one form and in the other.
        for field in info.fields.iter().filter(|field| field.what == What::String) {
            for bit in 0..40 {
                let mut record = info.bytes.clone();
                record[field.at + bit / 8] ^= 1 << (bit % 8);
                read_info(&mut tally, &record, 0, ROOM);
            }
        }
    }
    tally.finish(15_000, &[0, number::COUNT]);
}

/// Records in which one string, by its index among the fields, is stored as these bytes.
struct Twisted {
    tally: Tally,
    rng: Rng,
    list: List,
    /// The strings of a record, and the names of its list and arrays.
    strings: Vec<usize>,
    names: Vec<usize>,
}

impl Twisted {
    fn new(label: &'static str, seed: u64) -> Self {
        let mut rng = Rng::new(seed);
        let list = all_kinds(&mut rng, 5);
        let info = build(&mut rng, 0, &list, None);
        let those = |what: What| (0..info.fields.len()).filter(|&index| info.fields[index].what == what).collect();
        let [strings, names] = [What::String, What::NoName].map(those);
        Twisted { tally: Tally::new(label), rng, list, strings, names }
    }

    fn record(&mut self, field: usize, bytes: &[u8]) -> Info {
        build(&mut self.rng, 0, &self.list, Some((field, bytes)))
    }
}

/// Any length in the long form before some zeros. The right one is taken from 255 on. One below 255, and one past
/// the innermost open end, is 21 at the byte 255; one below the right one leaves bytes over, which is 21 further on.
/// Where one takes in what follows, the programs agree.
#[test]
fn any_length_in_the_long_form() {
    let mut twisted = Twisted::new("read_info, lengths in the long form", 722);
    for index in twisted.strings.clone() {
        let with_claims = |len| claims(len).into_iter().map(move |claim| (len, claim));
        for (len, claim) in [1, 254, 255, 300].into_iter().flat_map(with_claims) {
            let info = twisted.record(index, &long_form(claim, &vec![0; len as usize]));
            let field = info.fields[index];
            let (answer, rows) = read_info(&mut twisted.tally, &info.bytes, 0, ROOM);
            let what = format!("{field:?}, {len} bytes, {claim} claimed");
            if claim < 255 || claim as usize > field.end - field.at - 5 {
                assert_eq!(answer, refused(field.at), "{what}");
            } else if claim == len {
                assert_eq!((answer, rows), (Answer::success(ELEMENTS), info.rows), "{what}");
            } else if claim < len {
                assert_eq!(answer.number, number::COUNT, "{what}");
            }
        }
    }
    twisted.tally.finish(6_000, &[0, number::COUNT]);
}

/// The innermost open object ends at a byte of a long string, then the two innermost, and so on up to the list, with
/// which the file ends too: 21 at the string's first byte.
#[test]
fn cut_at_each_byte() {
    let mut twisted = Twisted::new("read_info, long strings cut", 723);
    let mut edge = Edge::default();
    for index in twisted.strings.clone() {
        let info = twisted.record(index, &counted(&[0; 255]));
        let field = info.fields[index];
        assert_eq!(field.len, 5 + 255);
        let open = info.open_at(&field);
        for end in field.at..field.at + field.len {
            for outer in 0..open.len() {
                let record = info.ending(&open[outer..], end);
                let (answer, _) = read_info(&mut twisted.tally, edge.lend(&record), 0, ROOM);
                assert_eq!(answer, refused(field.at), "{field:?}, end {end}, {:?}", open[outer]);
            }
        }
    }
    twisted.tally.finish(100_000, &[number::COUNT]);
}

/// A list or an array with a long name is named, whatever the form: 21 at its first byte.
#[test]
fn long_names_of_lists() {
    let mut twisted = Twisted::new("read_info, names of lists and arrays", 724);
    let mut names: Vec<Vec<u8>> = [1, 254, 255, 256, 1000].map(|len| counted(&vec![0; len])).to_vec();
    for claim in claims(255) {
        names.extend([0, 254, 255].map(|len| long_form(claim, &vec![0; len])));
    }
    names.extend((1..5).map(|len| long_form(0, &[])[..len].to_vec()));
    for index in twisted.names.clone() {
        for name in &names {
            let info = twisted.record(index, name);
            let (answer, _) = read_info(&mut twisted.tally, &info.bytes, 0, ROOM);
            assert_eq!(answer, refused(info.fields[index].at), "{:?}", info.fields[index]);
        }
    }
    twisted.tally.finish(300, &[number::COUNT]);
}
