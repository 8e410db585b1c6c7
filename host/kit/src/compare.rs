//! The proved library and the model on one input: what they answer and all lent memory are compared.
//!
//! Lent memory holds garbage before each call, and guards stand before and after what is written.

use programs::ffi;
use second::key::{self, NewKey, Piece};
use second::{date, Answer};
use std::collections::BTreeMap;
use std::hint::black_box;

pub mod audit;
pub mod card;
pub mod info;
pub mod salvage;
mod table;
pub mod view;

/// How many inputs were compared, and how often each number was answered.
pub struct Tally {
    label: &'static str,
    inputs: u64,
    numbers: BTreeMap<u64, u64>,
}

impl Tally {
    pub fn new(label: &'static str) -> Self {
        Tally { label, inputs: 0, numbers: BTreeMap::new() }
    }

    pub fn add(&mut self, number: u64) {
        self.inputs += 1;
        *self.numbers.entry(number).or_default() += 1;
    }

    /// Garbage for the next call, never 0.
    fn garbage(&self) -> u64 {
        (self.inputs + 1).wrapping_mul(0x9e37_79b9_7f4a_7c15) | 0x8000_0000_8000_0001
    }

    /// What a table holds before it: garbage, or what an earlier audit may have left.
    fn fill(&self) -> u64 {
        [self.garbage(), 100, u64::MAX, 7][self.inputs as usize % 4]
    }

    /// Prints the totals. Fails if there were too few inputs or one of `numbers` never came.
    pub fn finish(self, at_least: u64, numbers: &[u64]) {
        println!("{}: {} inputs compared, by number {:?}", self.label, self.inputs, self.numbers);
        assert!(self.inputs >= at_least, "{}: fewer than {at_least} inputs", self.label);
        for number in numbers {
            assert!(self.numbers.contains_key(number), "{}: {number} was never answered", self.label);
        }
    }
}

/// What a call answers that is lent a place and a count cell.
pub fn answer_of(garbage: u64, call: impl FnOnce(&mut u64, &mut u64) -> u64) -> Answer {
    let mut cells = [garbage; 5];
    let [_, place, _, count, _] = &mut cells;
    let number = call(place, count);
    let [before, place, between, count, after] = *black_box(&mut cells);
    assert_eq!([before, between, after], [garbage; 3], "written beside place and count");
    Answer { number, place, count }
}

/// An answer of the C interface, beside those of the second program.
pub fn told(answer: ffi::Answer) -> Answer {
    Answer { number: answer.number, place: answer.place, count: answer.count }
}

/// A copy of a file, to see that it is not written to. A huge one is not copied.
fn small_copy(file: &[u8]) -> Option<Vec<u8>> {
    (file.len() <= 1 << 20).then(|| file.to_vec())
}

pub fn pack_date(tally: &mut Tally, date: [u32; 6]) -> Answer {
    let got = answer_of(tally.garbage(), |place, count| ffi::pack_date(date, place, count));
    assert_eq!(got, date::pack_date(date), "pack_date {date:?}");
    tally.add(got.number);
    got
}

pub fn unpack_date(tally: &mut Tally, packed: u32) -> [u32; 6] {
    let garbage = tally.garbage() as u32;
    let mut lent = [garbage; 8];
    ffi::unpack_date(packed, (&mut lent[1..7]).try_into().unwrap());
    let [before, fields @ .., after] = *black_box(&mut lent);
    assert_eq!([before, after], [garbage; 2], "written beside the date of {packed:#x}");
    assert_eq!(fields, date::unpack_date(packed), "unpack_date {packed:#x}");
    tally.add(0);
    fields
}

pub fn read_piece(tally: &mut Tally, file: &[u8], at: u64) -> (Answer, [u64; 15]) {
    let copy = small_copy(file);
    let garbage = tally.garbage();
    let mut lent = [garbage; 17];
    let got = answer_of(garbage, |place, count| {
        ffi::read_piece(file, at, (&mut lent[1..16]).try_into().unwrap(), place, count)
    });
    let [before, fields @ .., after] = *black_box(&mut lent);
    let (answer, expected) = model_piece(file, at);
    if (got, fields) != (answer, expected) {
        let head = file.get(at as usize..).unwrap_or_default();
        panic!(
            "read_piece at {at} of {} bytes, {:02x?}\n library {got:?} {fields:?}\n   model {answer:?} {expected:?}",
            file.len(),
            &head[..head.len().min(64)],
        );
    }
    assert_eq!([before, after], [garbage; 2], "written beside the fields");
    assert!(copy.is_none_or(|copy| copy == file), "read_piece changed the file");
    tally.add(got.number);
    (got, fields)
}

/// The model's piece, in the numbers of the C interface.
fn model_piece(file: &[u8], at: u64) -> (Answer, [u64; 15]) {
    let mut fields = [0; 15];
    let answer = match key::read_piece(file, at) {
        Err(number) => Answer::refusal(number, at),
        Ok(piece) => {
            let size = piece.size();
            match piece {
                Piece::Gap(size) => fields[..2].copy_from_slice(&[2, size]),
                Piece::Record(key) => fields = record_fields(&key),
            }
            Answer::success(size)
        }
    };
    (answer, fields)
}

fn record_fields(key: &key::Key) -> [u64; 15] {
    [
        1,
        key.nbytes.into(),
        key.version.into(),
        key.objlen.into(),
        key.datime.into(),
        key.keylen.into(),
        (key.cycle as u16).into(),
        key.seek_key,
        key.seek_pdir,
        key.class.start as u64,
        key.class.len() as u64,
        key.name.start as u64,
        key.name.len() as u64,
        key.title.start as u64,
        key.title.len() as u64,
    ]
}

/// Guard bytes before and after a lent buffer.
const GUARD: usize = 16;

/// Writes into a buffer that holds `before`. The answer, and what the buffer holds afterwards.
pub fn write_key(tally: &mut Tally, key: &NewKey, before: &[u8]) -> (Answer, Vec<u8>) {
    let garbage = tally.garbage();
    let mut lent = vec![garbage as u8; before.len() + 2 * GUARD];
    let buffer = GUARD..GUARD + before.len();
    lent[buffer.clone()].copy_from_slice(before);
    let mut expected = lent.clone();
    let strings = [key.class, key.name, key.title].concat();

    let got =
        answer_of(garbage, |place, count| ffi::write_key(&lent_key(key), &mut lent[buffer.clone()], place, count));
    let answer = key::write_key(key, &mut expected[buffer.clone()]);
    assert_eq!(got, answer, "write_key {key:?} into {} bytes", before.len());
    if let Some(at) = (0..lent.len()).find(|&at| lent[at] != expected[at]) {
        let at = at as i64 - GUARD as i64;
        panic!("write_key {key:?} into {} bytes: byte {at} of the buffer differs", before.len());
    }
    assert_eq!(strings, [key.class, key.name, key.title].concat(), "write_key changed a string");
    tally.add(got.number);
    (got, lent[buffer].to_vec())
}

/// The same key for the C interface.
pub fn lent_key<'a>(key: &NewKey<'a>) -> ffi::NewKey<'a> {
    ffi::NewKey {
        numbers: [key.nbytes, key.version, key.objlen, key.datime],
        cycle: key.cycle,
        seeks: [key.seek_key, key.seek_pdir],
        strings: [key.class, key.name, key.title],
    }
}

/// What the writer takes to write again the header of a record that `read_piece` took.
pub fn key_of<'a>(file: &'a [u8], fields: &[u64; 15]) -> NewKey<'a> {
    let string = |which| ffi::string(file, fields, which);
    NewKey {
        nbytes: fields[ffi::NBYTES] as u32,
        version: fields[ffi::VERSION] as u32,
        objlen: fields[ffi::OBJLEN] as u32,
        datime: fields[ffi::DATIME] as u32,
        cycle: i32::from(fields[ffi::CYCLE] as u16 as i16),
        seek_key: fields[ffi::SEEK_KEY],
        seek_pdir: fields[ffi::SEEK_PDIR],
        class: string(ffi::CLASS),
        name: string(ffi::NAME),
        title: string(ffi::TITLE),
    }
}

/// Writes again the header of a record that `read_piece` took, if it is plain: the same bytes.
pub fn write_again(tally: &mut Tally, file: &[u8], fields: &[u64; 15]) {
    let key = key_of(file, fields);
    let keylen = fields[ffi::KEYLEN] as usize;
    if fields[ffi::KIND] != ffi::RECORD || keylen != key.sum() {
        return;
    }
    let mut blank = file.to_vec();
    blank[key.seek_key as usize..][..keylen].fill(0x5a);
    let (answer, written) = write_key(tally, &key, &blank);
    assert_eq!(answer, Answer::success(keylen as u64));
    assert!(written == file, "the header written at {} is not the one read", key.seek_key);
}
