//! The ends of objects in StreamerInfo records: every ByteCount at every byte, and the bits of each.

use kit::compare::info::read_info;
use kit::compare::Tally;
use kit::gen::infos::{all_kinds, build, get32, put32, Info};
use kit::gen::{RawKey, Rng};
use kit::harness::zeros::Zeros;
use second::streamer::COUNT_MASK;
use second::{number, Answer};

/// Where the list's ByteCount stands in a record.
const LIST: usize = 64;
/// List, TStreamerInfo and TObjArray, an element, its TStreamerElement and its TNamed. All but the list and the
/// last two have two ByteCounts.
const DEEPEST: usize = 9;
const ROOM: usize = 120;

/// A record with all ten kinds at a place of a file.
struct Sample {
    at: usize,
    info: Info,
}

impl Sample {
    fn new(version: u16, at: usize) -> Self {
        let mut rng = Rng::new(230 + u64::from(version));
        let list = all_kinds(&mut rng, version);
        Sample { at, info: build(&mut rng, at as u64, &list, None) }
    }

    /// The record is 21 at this offset.
    fn refused(&self, tally: &mut Tally, record: &[u8], offset: usize, what: &dyn Fn() -> String) {
        let file = [&vec![7; self.at], record].concat();
        let (answer, _) = read_info(tally, &file, self.at as u64, ROOM);
        assert_eq!(answer, Answer::refusal(number::COUNT, (self.at + offset) as u64), "{}", what());
    }
}

/// Lists of Versions 3, 4 and 5: without options, and with short ones.
fn samples() -> [Sample; 3] {
    [Sample::new(3, 0), Sample::new(4, 9), Sample::new(5, 100)]
}

/// The innermost open object ends at a byte, then the two innermost, and so on up to the list: the field that
/// holds the byte is at fault.
#[test]
fn at_every_byte() {
    let mut tally = Tally::new("read_info, open ByteCounts that end at each byte");
    let mut deepest = 0;
    for sample in samples() {
        for field in sample.info.fields.iter().filter(|field| field.at > LIST) {
            let open = sample.info.open_at(field);
            deepest = deepest.max(open.len());
            for end in field.at..field.at + field.len {
                for outer in 0..open.len() {
                    let record = sample.info.ending(&open[outer..], end);
                    sample
                        .refused(&mut tally, &record, field.at, &|| format!("{field:?}, end {end}, {:?}", open[outer]));
                }
            }
        }
    }
    assert_eq!(deepest, DEEPEST);
    tally.finish(10_000, &[number::COUNT]);
}

/// One open object ends at a byte: at fault is the next one in, which ends past it, or the field that holds the
/// byte. The list must fill the data, so it is at fault itself.
#[test]
fn one_at_every_byte() {
    let mut tally = Tally::new("read_info, one ByteCount that ends at each byte");
    for sample in samples() {
        for field in sample.info.fields.iter().filter(|field| field.at > LIST) {
            let open = sample.info.open_at(field);
            for end in field.at..field.at + field.len {
                for (nth, object) in open.iter().enumerate() {
                    let mut record = sample.info.bytes.clone();
                    put32(&mut record, object.at, COUNT_MASK + (end - object.at - 4) as u32);
                    let inner = open.get(nth + 1).map_or(field.at, |inner| inner.at);
                    let fault = if object.at == LIST { LIST } else { inner };
                    sample.refused(&mut tally, &record, fault, &|| format!("{field:?}, end {end}, {object:?}"));
                }
            }
        }
    }
    tally.finish(10_000, &[number::COUNT]);
}

/// An object that ends later than what it holds is at fault where that ends; past the next one up, at its ByteCount.
#[test]
fn later() {
    let mut tally = Tally::new("read_info, ByteCounts that end later");
    for sample in samples() {
        for object in sample.info.objects() {
            let field = sample.info.fields.iter().find(|field| field.at == object.at).unwrap();
            for end in object.end + 1..=field.end + 9 {
                let mut record = sample.info.bytes.clone();
                put32(&mut record, object.at, COUNT_MASK + (end - object.at - 4) as u32);
                let fault = if end <= field.end { object.end } else { object.at };
                sample.refused(&mut tally, &record, fault, &|| format!("{object:?} ends at {end}"));
            }
        }
    }
    tally.finish(10_000, &[number::COUNT]);
}

/// Only bit 30 set and bit 31 clear are good, at every nesting, whatever the rest counts.
#[test]
fn bits() {
    let mut tally = Tally::new("read_info, bits of each ByteCount");
    for sample in samples() {
        let right =
            read_info(&mut tally, &[&vec![7; sample.at], &sample.info.bytes[..]].concat(), sample.at as u64, ROOM);
        assert_eq!(right.0, Answer::success(16));
        for object in sample.info.objects() {
            let count = get32(&sample.info.bytes, object.at) ^ COUNT_MASK;
            let left = (sample.info.bytes.len() - object.at - 4) as u32;
            for bits in [0, 2, 3] {
                for count in [count, count - 1, count + 1, 0, 4, left, COUNT_MASK - 1] {
                    let mut record = sample.info.bytes.clone();
                    put32(&mut record, object.at, bits << 30 | count);
                    sample.refused(&mut tally, &record, object.at, &|| format!("{object:?}, bits {bits}, {count}"));
                }
            }
        }
    }
    tally.finish(1_000, &[0, number::COUNT]);
}

/// A record whose data are a list's ByteCount and zeros.
fn put_list(zeros: &mut Zeros, data: usize, count: u32) -> usize {
    let strings = ["TList", "StreamerInfo", "Doubly linked list"].map(|string| string.as_bytes().to_vec());
    let [nbytes, objlen] = [LIST + data, data].map(|n| n as u32);
    let rest =
        RawKey { nbytes, version: 4, objlen, datime: 0, keylen: 64, cycle: 1, seek_key: 0, seek_pdir: 100, strings };
    zeros.put(0, &rest.header());
    zeros.put(LIST, &count.to_be_bytes());
    LIST + data
}

/// So much data that a count whose bits are wrong fills them: the list is at fault there. A list whose count is
/// right and that holds nothing is at fault where it stops, after its Version, TObject, name and number.
#[test]
fn more_data_than_a_count_can_say() {
    let Some(mut zeros) = Zeros::new() else { return };
    let mut tally = Tally::new("read_info, 2^30 bytes of data and more");
    const MOST: usize = 1 << 30;
    let stopped = LIST + 4 + 2 + 10 + 1 + 4;
    for (data, count, fault) in [
        (MOST + 4, 0, LIST),
        (MOST + 4, 1 << 31, LIST),
        (MOST + 4, 3 << 30, LIST),
        (MOST + 4, COUNT_MASK, LIST),
        (MOST + 5, 1, LIST),
        (MOST + 5, 1 << 31 | 1, LIST),
        (MOST + 25, 21, LIST),
        (i32::MAX as usize - LIST, i32::MAX as u32 - LIST as u32 - 4, LIST),
        (MOST + 3, u32::MAX, LIST),
        (MOST + 3, MOST as u32 - 1, LIST),
        (MOST + 3, COUNT_MASK | (MOST as u32 - 2), LIST),
        (MOST + 3, COUNT_MASK | (MOST as u32 - 1), stopped),
    ] {
        let len = put_list(&mut zeros, data, count);
        let (answer, _) = read_info(&mut tally, &zeros.bytes()[..len], 0, ROOM);
        assert_eq!(answer, Answer::refusal(number::COUNT, fault as u64), "{data} bytes, ByteCount {count:#x}");
    }
    tally.finish(12, &[number::COUNT]);
}
