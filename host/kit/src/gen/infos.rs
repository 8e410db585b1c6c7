//! StreamerInfo records: a list of classes and elements, and the bytes that it gives, with each field
//! known by what it is.

use super::strings::{any_length, counted, lengthen, plain_form, plain_length, short_length};
use super::{RawKey, Rng};
use second::streamer::{Row, ARRAY, CLASS_MASK, COUNT_MASK, INFO, KINDS, NEW_CLASS, REFERENCED};
use std::collections::HashMap;

/// One element of a class.
#[derive(Clone, Debug)]
pub struct Element {
    /// 1 to 10.
    pub kind: usize,
    /// Name, title, type name, and two more that some kinds have.
    pub strings: [Vec<u8>; 5],
    /// fType, fSize, fArrayLength, fArrayDim and fMaxIndex.
    pub numbers: [u32; 9],
    /// What follows in some kinds.
    pub own: [u32; 2],
}

/// One class: its name, title and elements, and the option after it in a list that has options.
#[derive(Clone, Debug)]
pub struct Class {
    pub strings: [Vec<u8>; 2],
    pub elements: Vec<Element>,
    pub option: Vec<u8>,
}

impl Class {
    /// Every string of it and of its elements.
    pub fn strings_mut(&mut self) -> impl Iterator<Item = &mut Vec<u8>> {
        let elements = self.elements.iter_mut().flat_map(|element| &mut element.strings);
        elements.chain(&mut self.strings)
    }
}

/// The least Version of a list with options. It alone has none in the long form.
pub const LEAST_OPTIONS: u16 = 4;
/// Versions of lists: without options, with the least Version, and later ones.
pub const LIST_VERSIONS: [u16; 6] = [0, 3, LEAST_OPTIONS, 5, 6, u16::MAX];

/// The list of a record.
#[derive(Clone, Debug)]
pub struct List {
    pub version: u16,
    pub classes: Vec<Class>,
}

impl List {
    /// One without options.
    pub fn bare(classes: Vec<Class>) -> Self {
        List { version: LEAST_OPTIONS - 1, classes }
    }

    /// One of a version, whose classes get random options.
    fn of(rng: &mut Rng, version: u16, mut classes: Vec<Class>) -> Self {
        let len = if version == LEAST_OPTIONS { plain_length } else { any_length };
        if version >= LEAST_OPTIONS {
            for class in &mut classes {
                let len = len(rng);
                class.option = rng.bytes(len);
            }
        }
        List { version, classes }
    }

    /// Every string of its classes and their elements, but for the options.
    pub fn strings_mut(&mut self) -> impl Iterator<Item = &mut Vec<u8>> {
        self.classes.iter_mut().flat_map(Class::strings_mut)
    }
}

/// What a field is.
#[derive(Clone, Copy, Debug, PartialEq, Eq)]
pub enum What {
    ByteCount,
    Tag(&'static str),
    /// A reference to the tag of a class.
    Reference(&'static str),
    Version,
    /// The Version of the list.
    ListVersion,
    /// The last number of a TObject.
    Bits,
    /// The name of the list or of an array.
    NoName,
    String,
    /// The option after an object of the list.
    Option,
    /// How many objects follow, before an array's lower bound.
    Objects,
    LowerBound,
    Number,
}

/// Where a field stands in the record, and the innermost open end there.
#[derive(Clone, Copy, Debug)]
pub struct Field {
    pub what: What,
    pub at: usize,
    pub len: usize,
    pub end: usize,
}

/// A record, its fields in order, and its rows.
#[derive(Clone, Debug)]
pub struct Info {
    pub bytes: Vec<u8>,
    pub keylen: usize,
    pub fields: Vec<Field>,
    pub rows: Vec<Row>,
}

/// An object: where its ByteCount stands, and where it ends.
#[derive(Clone, Copy, Debug)]
pub struct Object {
    pub at: usize,
    pub end: usize,
}

impl Info {
    /// The objects of a valid record, outer ones before what they hold.
    pub fn objects(&self) -> Vec<Object> {
        let counts = self.fields.iter().filter(|field| field.what == What::ByteCount);
        let end = |at: usize| at + 4 + (get32(&self.bytes, at) ^ COUNT_MASK) as usize;
        counts.map(|field| Object { at: field.at, end: end(field.at) }).collect()
    }

    /// Those that are open at a field, the innermost last.
    pub fn open_at(&self, field: &Field) -> Vec<Object> {
        self.objects().into_iter().filter(|object| object.at < field.at && field.at < object.end).collect()
    }

    /// Lets these objects end at `end` of the record. It is cut there if the list is among them.
    pub fn ending(&self, objects: &[Object], end: usize) -> Vec<u8> {
        let mut record = self.bytes.clone();
        for object in objects {
            put32(&mut record, object.at, COUNT_MASK + (end - object.at - 4) as u32);
        }
        if objects[0].at == self.keylen {
            record.truncate(end);
            put32(&mut record, 0, end as u32);
            put32(&mut record, 6, (end - self.keylen) as u32);
        }
        record
    }
}

pub fn get32(bytes: &[u8], at: usize) -> u32 {
    u32::from_be_bytes(bytes[at..at + 4].try_into().unwrap())
}

pub fn put32(bytes: &mut [u8], at: usize, number: u32) {
    bytes[at..at + 4].copy_from_slice(&number.to_be_bytes());
}

/// The KeyLen of a record.
pub fn keylen(record: &[u8]) -> usize {
    u16::from_be_bytes([record[14], record[15]]).into()
}

/// Sets the Version of a record's list.
pub fn put_list_version(record: &mut [u8], version: u16) {
    let at = keylen(record) + 4;
    record[at..at + 2].copy_from_slice(&version.to_be_bytes());
}

/// The bytes of a new class tag.
pub fn new_tag(name: &[u8]) -> Vec<u8> {
    [&NEW_CLASS.to_be_bytes(), name, &[0]].concat()
}

/// Other bytes for one field, by its index. Everything else is laid down to fit them.
pub type Twist<'a> = Option<(usize, &'a [u8])>;

/// Random strings and numbers for an element of this kind.
fn element(rng: &mut Rng, kind: usize) -> Element {
    let strings = [0; 5].map(|_| {
        let len = short_length(rng);
        rng.bytes(len)
    });
    Element { kind, strings, numbers: [0; 9].map(|_| rng.u32()), own: [rng.u32(), rng.u32()] }
}

/// A class with elements of these kinds.
pub fn class(rng: &mut Rng, kinds: &[usize]) -> Class {
    let strings = [0; 2].map(|_| {
        let len = short_length(rng);
        rng.bytes(len)
    });
    Class { strings, elements: kinds.iter().map(|&kind| element(rng, kind)).collect(), option: Vec::new() }
}

/// The same with no string longer than `most`.
pub fn short_class(rng: &mut Rng, kinds: &[usize], most: usize) -> Class {
    let mut class = class(rng, kinds);
    class.strings_mut().for_each(|string| string.truncate(most));
    class
}

/// Up to four classes of up to six elements, of any kinds, in a list of one of LIST_VERSIONS. Some strings are long.
pub fn list(rng: &mut Rng) -> List {
    let classes = (0..rng.below(5)).map(|_| {
        let kinds: Vec<usize> = (0..rng.below(7)).map(|_| 1 + rng.below(10)).collect();
        let mut class = class(rng, &kinds);
        lengthen(rng, 30, class.strings_mut());
        class
    });
    let classes = classes.collect();
    let version = rng.pick(&LIST_VERSIONS);
    List::of(rng, version, classes)
}

/// Three classes with short strings: elements of all ten kinds, none, and some kinds again.
pub fn all_kinds(rng: &mut Rng, version: u16) -> List {
    let kinds: [&[usize]; 3] = [&[1, 2, 3, 4, 5, 6, 7, 8, 9, 10], &[], &[7, 1, 10, 4, 9, 9]];
    let classes = kinds.map(|kinds| short_class(rng, kinds, 3)).to_vec();
    let mut list = List::of(rng, version, classes);
    list.classes.iter_mut().for_each(|class| class.option.truncate(3));
    list
}

/// The record at `at` of a file, with four-byte offsets in its key.
pub fn build(rng: &mut Rng, at: u64, list: &List, twist: Twist) -> Info {
    build_of(rng, 4, at, list, twist)
}

/// The same with a key of a version.
pub fn build_of(rng: &mut Rng, version: u16, at: u64, list: &List, twist: Twist) -> Info {
    let key = key(rng, version, at);
    build_with(rng, key, list, twist)
}

/// The key of an info record, without KeyLen, Nbytes and ObjLen.
pub fn key(rng: &mut Rng, version: u16, at: u64) -> RawKey {
    let strings = ["TList", "StreamerInfo", "Doubly linked list"].map(|string| string.as_bytes().to_vec());
    RawKey {
        nbytes: 0,
        version,
        objlen: 0,
        datime: rng.u32(),
        keylen: 0,
        cycle: 1,
        seek_key: at,
        seek_pdir: 100,
        strings,
    }
}

/// A record with this key; KeyLen, Nbytes and ObjLen are worked out.
pub fn build_with(rng: &mut Rng, mut key: RawKey, list: &List, twist: Twist) -> Info {
    let keylen = key.sum();
    key.keylen = keylen as u16;
    let mut builder =
        Builder { bytes: key.header(), fields: Vec::new(), rows: Vec::new(), tags: HashMap::new(), twist, noise: rng };
    builder.list(list);
    let Builder { mut bytes, mut fields, rows, .. } = builder;
    for field in &mut fields {
        field.end = field.end.min(bytes.len());
    }
    key.nbytes = bytes.len() as u32;
    key.objlen = key.nbytes - u32::from(key.keylen);
    bytes[..keylen].copy_from_slice(&key.header());
    Info { bytes, keylen, fields, rows }
}

struct Builder<'a> {
    bytes: Vec<u8>,
    fields: Vec<Field>,
    rows: Vec<Row>,
    /// Where the tag of each class stands.
    tags: HashMap<&'static str, usize>,
    twist: Twist<'a>,
    /// For values that are not tested.
    noise: &'a mut Rng,
}

impl Builder<'_> {
    /// Lays down a field, or what stands in its place: where.
    fn put(&mut self, what: What, bytes: &[u8]) -> usize {
        let bytes = match self.twist {
            Some((field, other)) if field == self.fields.len() => other,
            _ => bytes,
        };
        let at = self.bytes.len();
        self.fields.push(Field { what, at, len: bytes.len(), end: usize::MAX });
        self.bytes.extend(bytes);
        at
    }

    fn number(&mut self, what: What, number: u32) -> usize {
        self.put(what, &number.to_be_bytes())
    }

    fn version(&mut self) {
        let version = (self.noise.u64() as u16).to_be_bytes();
        self.put(What::Version, &version);
    }

    fn string(&mut self, string: &[u8]) -> usize {
        self.put(What::String, &counted(string))
    }

    /// A ByteCount and what it counts.
    fn object(&mut self, contents: impl FnOnce(&mut Self)) {
        let twisted = matches!(self.twist, Some((field, _)) if field == self.fields.len());
        let first = self.fields.len() + 1;
        let at = self.number(What::ByteCount, 0);
        let start = self.bytes.len();
        contents(self);
        let end = self.bytes.len();
        for field in self.fields[first..].iter_mut().filter(|field| field.end == usize::MAX) {
            field.end = end;
        }
        if !twisted {
            put32(&mut self.bytes, at, COUNT_MASK | (end - start) as u32);
        }
    }

    /// A TObject that is not referenced.
    fn base(&mut self) {
        self.version();
        let id = self.noise.u32();
        self.number(What::Number, id);
        let bits = self.noise.u32() & !REFERENCED;
        self.number(What::Bits, bits);
    }

    fn tagged(&mut self, class: &'static str, contents: impl FnOnce(&mut Self)) {
        self.object(|builder| {
            match builder.tags.get(class) {
                Some(&tag) => drop(builder.number(What::Reference(class), CLASS_MASK | (tag as u32 + 2))),
                None => {
                    let at = builder.put(What::Tag(class), &new_tag(class.as_bytes()));
                    builder.tags.insert(class, at);
                }
            }
            builder.object(|builder| {
                builder.version();
                contents(builder);
            });
        });
    }

    /// A TNamed: where its name stands.
    fn named(&mut self, name: &[u8], title: &[u8]) -> usize {
        let mut at = 0;
        self.object(|builder| {
            builder.version();
            builder.base();
            at = builder.string(name);
            builder.string(title);
        });
        at
    }

    fn list(&mut self, list: &List) {
        self.object(|builder| {
            builder.put(What::ListVersion, &list.version.to_be_bytes());
            builder.base();
            builder.put(What::NoName, &[0]);
            builder.number(What::Objects, list.classes.len() as u32);
            for (index, class) in list.classes.iter().enumerate() {
                builder.info(index as u32, class);
                builder.option(list.version, &class.option);
            }
        });
    }

    fn option(&mut self, version: u16, option: &[u8]) {
        let stored = match version {
            ..LEAST_OPTIONS => return,
            LEAST_OPTIONS => plain_form(option),
            _ => counted(option),
        };
        self.put(What::Option, &stored);
    }

    fn info(&mut self, index: u32, class: &Class) {
        self.tagged(INFO, |builder| {
            builder.named(&class.strings[0], &class.strings[1]);
            builder.number(What::Number, 0x1234_5678);
            builder.number(What::Number, 3);
            builder.tagged(ARRAY, |builder| {
                builder.base();
                builder.put(What::NoName, &[0]);
                builder.number(What::Objects, class.elements.len() as u32);
                builder.number(What::LowerBound, 0);
                for element in &class.elements {
                    builder.element(index, element);
                }
            });
        });
    }

    fn element(&mut self, index: u32, element: &Element) {
        let [name, title, type_name, ..] = &element.strings;
        self.tagged(KINDS[element.kind - 1], |builder| {
            builder.object(|builder| {
                builder.version();
                let name_at = builder.named(name, title) as u32;
                for number in element.numbers {
                    builder.number(What::Number, number);
                }
                let type_name_at = builder.string(type_name) as u32;
                let [ftype, _, array_length, ..] = element.numbers;
                builder.rows.push([index, element.kind as u32, name_at, type_name_at, ftype, array_length]);
            });
            builder.own(element);
        });
    }

    fn own(&mut self, element: &Element) {
        let [.., count_name, count_class] = &element.strings;
        match element.kind {
            1 => drop(self.number(What::Number, element.own[0])),
            4 | 7 => {
                self.number(What::Number, element.own[0]);
                self.string(count_name);
                self.string(count_class);
            }
            9 => {
                self.number(What::Number, element.own[0]);
                self.number(What::Number, element.own[1]);
            }
            _ => {}
        }
    }
}

/// Classes of `each` elements, the last of what is left, of all ten kinds in turn.
fn classes_of(rng: &mut Rng, elements: usize, each: usize) -> Vec<Class> {
    let kinds: Vec<usize> = (0..elements).map(|nth| 1 + nth % KINDS.len()).collect();
    kinds.chunks(each).map(|kinds| class(rng, kinds)).collect()
}

/// A record of the benchmarks at 0: so many elements, 20 to a class, without options.
pub fn of_elements(elements: usize) -> Info {
    let mut rng = Rng::new(elements as u64);
    let classes = classes_of(&mut rng, elements, 20);
    build(&mut rng, 0, &List::bare(classes), None)
}

/// The same with two elements to a class and an option after it.
pub fn of_options(elements: usize) -> Info {
    let mut rng = Rng::new(elements as u64);
    let classes = classes_of(&mut rng, elements, 2);
    let list = List::of(&mut rng, 5, classes);
    build(&mut rng, 0, &list, None)
}

/// The smallest record with all twelve new tags, at 0: one class, an element of each kind, empty strings.
pub fn of_tags() -> Info {
    let mut rng = Rng::new(0);
    let kinds: Vec<usize> = (1..=KINDS.len()).collect();
    let class = short_class(&mut rng, &kinds, 0);
    build(&mut rng, 0, &List::bare(vec![class]), None)
}
