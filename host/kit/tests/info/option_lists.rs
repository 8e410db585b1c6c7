//! StreamerInfo lists with options, laid down and read.

use crate::stored::stored;
use kit::compare::info::read_info;
use kit::compare::Tally;
use kit::gen::infos::{build, get32, short_class, Class, Field, Info, List, What, LEAST_OPTIONS, LIST_VERSIONS};
use kit::gen::Rng;
use kit::harness::edge::Edge;
use second::streamer::{Row, COUNT_MASK};
use second::Answer;

/// Versions of lists with options.
pub const WITH: &[u16] = LIST_VERSIONS.split_at(2).1;

/// Where the list's Version, its number of objects and the first of them stand in a record.
pub const VERSION: usize = 64 + 4;
pub const OBJECTS: usize = VERSION + 2 + 10 + 1;
pub const FIRST: usize = OBJECTS + 4;

/// Where records stand in a file, and a table with room for all rows.
pub const PLACE: usize = 100;
pub const ROOM: usize = 6 * 8;

/// The rule: an option as it is stored in a list of this Version.
pub fn stored_option(version: u16, option: &[u8]) -> Vec<u8> {
    match (version, option.len()) {
        (0..=3, _) => vec![],
        (4, 255) => [&[255], option].concat(),
        _ => stored(option),
    }
}

/// Where the first object of a list stands, and where each option ends. The record has these and nothing more.
pub fn ends(list: &List, record: &[u8]) -> Vec<usize> {
    let mut ends = vec![FIRST];
    for class in &list.classes {
        let at = ends[ends.len() - 1];
        let option = at + 4 + (get32(record, at) ^ COUNT_MASK) as usize;
        let bytes = stored_option(list.version, &class.option);
        assert!(record[option..].starts_with(&bytes));
        ends.push(option + bytes.len());
    }
    assert_eq!((ends[ends.len() - 1], get32(record, OBJECTS)), (record.len(), list.classes.len() as u32));
    ends
}

/// Every pair of one and the other.
pub fn pairs<A: Copy, B: Copy>(ones: &[A], others: &[B]) -> Vec<(A, B)> {
    ones.iter().flat_map(|&one| others.iter().map(move |&other| (one, other))).collect()
}

/// Lengths of options in a list of this Version.
pub fn lengths(version: u16) -> &'static [usize] {
    match version {
        ..LEAST_OPTIONS => &[0, 1],
        LEAST_OPTIONS => &[0, 1, 2, 64, 127, 128, 253, 254, 255],
        _ => &[0, 1, 64, 253, 254, 255, 256, 257, 1000],
    }
}

/// A list of classes without elements, whose names have one byte, with these options. Such an object takes 98 bytes
/// where its tags are new, and 74 later. The first 65 bytes of the latter are followed by zeros.
pub fn empty_classes(version: u16, options: &[&[u8]]) -> List {
    let class = |option: &&[u8]| Class { strings: [b"C".to_vec(), vec![]], elements: vec![], option: option.to_vec() };
    List { version, classes: options.iter().map(class).collect() }
}

/// The options of a record, by their indices among its fields.
pub fn options_of(info: &Info) -> Vec<usize> {
    (0..info.fields.len()).filter(|&index| info.fields[index].what == What::Option).collect()
}

pub struct Lists {
    pub tally: Tally,
    pub rng: Rng,
    edge: Edge,
}

impl Lists {
    pub fn new(label: &'static str, seed: u64) -> Self {
        Lists { tally: Tally::new(label), rng: Rng::new(seed), edge: Edge::default() }
    }

    /// A list of classes with one element each, and random options of these lengths.
    pub fn list(&mut self, version: u16, lens: &[usize]) -> List {
        let class = |&len| {
            let kind = 1 + self.rng.below(10);
            Class { option: self.rng.bytes(len), ..short_class(&mut self.rng, &[kind], 3) }
        };
        List { version, classes: lens.iter().map(class).collect() }
    }

    pub fn build(&mut self, list: &List) -> Info {
        build(&mut self.rng, PLACE as u64, list, None)
    }

    /// The same with other bytes in the place of one option, which is given too.
    pub fn build_with(&mut self, list: &List, nth: usize, bytes: &[u8]) -> (Info, Field) {
        let index = options_of(&self.build(list))[nth];
        let info = build(&mut self.rng, PLACE as u64, list, Some((index, bytes)));
        let field = info.fields[index];
        (info, field)
    }

    /// What is read of a record with other bytes before it. Memory ends with it.
    pub fn read(&mut self, record: &[u8], room: usize) -> (Answer, Vec<Row>) {
        let file = [&[7; PLACE], record].concat();
        read_info(&mut self.tally, self.edge.lend(&file), PLACE as u64, room)
    }

    pub fn taken(&mut self, info: &Info, what: &dyn Fn() -> String) {
        let expected = (Answer::success(info.rows.len() as u64), info.rows.clone());
        assert_eq!(self.read(&info.bytes, ROOM), expected, "{}", what());
    }

    /// The record is refused at this offset.
    pub fn refused(&mut self, record: &[u8], number: u64, offset: usize, what: &dyn Fn() -> String) {
        let expected = (Answer::refusal(number, (PLACE + offset) as u64), vec![]);
        assert_eq!(self.read(record, ROOM), expected, "{}", what());
    }
}
