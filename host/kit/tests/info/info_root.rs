//! StreamerInfo records written by ROOT, unpacked. Their lists have options.

use kit::compare::info::read_info;
use kit::compare::Tally;
use kit::gen::infos::{get32, keylen, put32, put_list_version, LIST_VERSIONS};
use kit::gen::strings::{counted, plain_form};
use kit::gen::Rng;
use kit::harness::root_folder::{expect_known, info_files};
use second::streamer::{Row, CLASS_MASK, COUNT_MASK, KINDS};
use second::{number, Answer};
use std::fs;

/// Numbers of a table with room for every row.
const ROOM: usize = 6 * 1000;
/// The record that is known best: a list of 18 classes, one of which has no elements.
const KNOWN: &str = "basic_lz4.info";

#[test]
fn as_they_are() {
    let Some(paths) = info_files() else { return };
    let mut tally = Tally::new("read_info, records written by ROOT");
    for path in &paths {
        let record = fs::read(path).unwrap();
        let (answer, rows) = read_info(&mut tally, &record, 0, ROOM);
        expect_known(path, answer);
        assert!(rows.iter().all(|&[_, kind, ..]| (1..=KINDS.len() as u32).contains(&kind)));
        if path.ends_with(KNOWN) {
            known_members(&record, &rows);
        }
        let needed = 6 * rows.len();
        for room in [0, 5, 6, needed.saturating_sub(1), needed, needed + 5] {
            read_info(&mut tally, &record, 0, room);
        }
        change_bytes(&mut tally, &record);
    }
    tally.finish(1_000, &[0, number::COUNT, number::TAG, number::REFERENCED, number::ROWS]);
}

/// Classes and members that ROOT's own headers have.
fn known_members(record: &[u8], rows: &[Row]) {
    let text = |at: u32| {
        let (len, rest) = record[at as usize..].split_first().unwrap();
        String::from_utf8_lossy(&rest[..usize::from(*len)]).into_owned()
    };
    let members = |class: u32| {
        let rows = rows.iter().filter(|row| row[0] == class);
        rows.map(|row| format!("{} {}", text(row[3]), text(row[2]))).collect::<Vec<_>>()
    };
    // TH1D, TNamed, TAttLine and the last, TH1C. TString has no elements.
    assert_eq!(members(0), ["BASE TH1", "BASE TArrayD"]);
    assert_eq!(members(2), ["BASE TObject", "TString fName", "TString fTitle"]);
    assert_eq!(members(4), ["short fLineColor", "short fLineStyle", "short fLineWidth"]);
    assert_eq!(members(13), [""; 0]);
    assert_eq!(members(17), ["BASE TH1", "BASE TArrayC"]);
    let mut classes: Vec<u32> = rows.iter().map(|row| row[0]).collect();
    classes.dedup();
    assert_eq!(classes, (0..18).filter(|&class| class != 13).collect::<Vec<_>>());
}

/// Each record is taken. Without options, and with others, it has the same rows, their offsets moved.
#[test]
fn other_options() {
    let Some(paths) = info_files() else { return };
    let mut tally = Tally::new("read_info, records written by ROOT with other options");
    let letters = |len| vec![b'o'; len];
    let options = [
        (0, vec![]),
        (3, vec![]),
        (4, plain_form(&[])),
        (4, plain_form(&letters(255))),
        (5, counted(&letters(254))),
        (6, counted(&letters(255))),
        (u16::MAX, counted(&letters(1000))),
    ];
    for path in &paths {
        let record = fs::read(path).unwrap();
        let (answer, rows) = read_info(&mut tally, &record, 0, ROOM);
        assert_eq!(answer, Answer::success(rows.len() as u64), "{path:?}");
        for (version, option) in &options {
            let other = Laid::new(&record, *version, option).referred(&mut tally);
            let expected: Vec<Row> = rows.iter().map(|row| other.row(row)).collect();
            let read = read_info(&mut tally, &other.bytes, 0, ROOM);
            assert_eq!(read, (Answer::success(rows.len() as u64), expected), "Version {version}");
            change_bytes(&mut tally, &other.bytes);
        }
    }
    tally.finish(10_000, &[0, number::COUNT, number::TAG, number::REFERENCED]);
}

/// The options are taken out, and the list's Version says that they are there; or the other way round.
#[test]
fn other_versions() {
    let Some(paths) = info_files() else { return };
    let mut tally = Tally::new("read_info, records written by ROOT with other Versions");
    for path in &paths {
        let record = fs::read(path).unwrap();
        for version in LIST_VERSIONS {
            let mut with = record.clone();
            put_list_version(&mut with, version);
            let with = read_info(&mut tally, &with, 0, ROOM).0;
            let mut without = Laid::new(&record, 3, &[]).referred(&mut tally).bytes;
            put_list_version(&mut without, version);
            let without = read_info(&mut tally, &without, 0, ROOM).0;
            if path.ends_with(KNOWN) {
                // The first option is at 418. Where it is not, 64 is taken for its length, which leads to zeros.
                let expected = match version {
                    ..4 => [Answer::refusal(number::COUNT, 418), Answer::success(78)],
                    _ => [Answer::success(78), Answer::refusal(number::COUNT, 418 + 65)],
                };
                assert_eq!([with, without], expected, "Version {version}");
            }
        }
    }
    tally.finish(12, &[]);
}

/// A sample of changed bytes.
fn change_bytes(tally: &mut Tally, record: &[u8]) {
    let mut rng = Rng::new(240);
    let mut changed = record.to_vec();
    for at in (0..record.len()).filter(|at| *at < 800 || at % 5 == 0) {
        for value in [0, record[at] ^ 1, record[at] ^ 16, rng.u64() as u8] {
            changed[at] = value;
            read_info(tally, &changed, 0, ROOM);
        }
        changed[at] = record[at];
    }
}

/// A record laid down again, with other options.
struct Laid {
    bytes: Vec<u8>,
    /// Where each option stood before, and how many bytes more it has.
    growths: Vec<(usize, i32)>,
}

impl Laid {
    /// After each object of the list stand these bytes, and its Version is another.
    fn new(record: &[u8], version: u16, option: &[u8]) -> Self {
        // After the key: ByteCount, Version, TObject and name of the list, then the number of objects.
        let keylen = keylen(record);
        let number = keylen + 4 + 2 + 10 + 1;
        let mut bytes = record[..number + 4].to_vec();
        let mut growths = Vec::new();
        let mut at = number + 4;
        for _ in 0..get32(record, number) {
            let end = at + 4 + (get32(record, at) ^ COUNT_MASK) as usize;
            bytes.extend(&record[at..end]);
            bytes.extend(option);
            let old = 1 + usize::from(record[end]);
            growths.push((end, option.len() as i32 - old as i32));
            at = end + old;
        }
        assert_eq!(at, record.len(), "objects and options do not fill the list");
        let size = bytes.len();
        put32(&mut bytes, 0, size as u32);
        put32(&mut bytes, 6, (size - keylen) as u32);
        put32(&mut bytes, keylen, COUNT_MASK + (size - keylen - 4) as u32);
        put_list_version(&mut bytes, version);
        Laid { bytes, growths }
    }

    /// Where that stands which stood at an offset.
    fn moved(&self, offset: u32) -> u32 {
        let before = self.growths.iter().take_while(|&&(option, _)| option < offset as usize);
        before.fold(offset, |offset, &(_, more)| offset.wrapping_add_signed(more))
    }

    /// A row of the record as it was, with its offsets moved.
    fn row(&self, &[class, kind, name, type_name, ftype, length]: &Row) -> Row {
        [class, kind, self.moved(name), self.moved(type_name), ftype, length]
    }

    /// Moves each reference that no longer refers to a tag.
    fn referred(mut self, tally: &mut Tally) -> Self {
        for _ in 0..self.bytes.len() {
            let (answer, _) = read_info(tally, &self.bytes, 0, ROOM);
            if answer.number != number::TAG {
                break;
            }
            let at = answer.place as usize;
            let tag = self.moved(get32(&self.bytes, at) ^ CLASS_MASK);
            put32(&mut self.bytes, at, CLASS_MASK | tag);
        }
        self
    }
}
