//! The worked examples of document 01 on dates, sums and pieces, for the proved library and the model.

use kit::compare::{key_of, pack_date, read_piece, unpack_date, write_key, Tally};
use kit::gen::{one_root, versioned_key, Rng};
use programs::ffi;
use second::key::NewKey;
use second::Answer;

fn answer(number: u64, place: u64, count: u64) -> Answer {
    Answer { number, place, count }
}

#[test]
fn dates() {
    let mut tally = Tally::new("examples, dates");
    let date = [2024, 3, 15, 12, 30, 45];
    let packed: u64 = ((2024 - 1995) << 26) + (3 << 22) + (15 << 17) + (12 << 12) + (30 << 6) + 45;
    assert_eq!(packed, 1_960_757_165);
    assert_eq!(pack_date(&mut tally, date), answer(0, 0, packed));
    assert_eq!(unpack_date(&mut tally, packed as u32), date);
    assert_eq!(pack_date(&mut tally, [2024, 16, 15, 12, 30, 45]), answer(18, 0, 0));
    assert_eq!(pack_date(&mut tally, [1995, 0, 0, 0, 0, 0]), answer(0, 0, 0));
    assert_eq!(pack_date(&mut tally, [2058, 15, 31, 31, 63, 63]), answer(0, 0, u32::MAX.into()));
    assert_eq!(pack_date(&mut tally, [1994, 3, 15, 12, 30, 45]), answer(18, 0, 0));
    assert_eq!(unpack_date(&mut tally, 0), [1995, 0, 0, 0, 0, 0]);
    assert_eq!(unpack_date(&mut tally, u32::MAX), [2058, 15, 31, 31, 63, 63]);
    tally.finish(8, &[0, 18]);
}

#[test]
fn sums() {
    let mut tally = Tally::new("examples, sums");
    for (class, name, title, version, sum) in [
        ("TList", "StreamerInfo", "Doubly linked list", 4, 64),
        ("TFile", "a", "", 4, 35),
        ("TObjString", "x", "", 1000, 40),
        ("", "", "", 1, 29),
        ("TList", "StreamerInfo", "Doubly linked list", 1004, 72),
        ("TFile", "a", "", 1001, 43),
        ("TObjString", "x", "", 2000, 48),
        ("", "", "", 1001, 37),
    ] {
        let key = NewKey {
            nbytes: sum as u32,
            version,
            objlen: 0,
            datime: 0,
            cycle: 1,
            seek_key: 0,
            seek_pdir: 0,
            class: class.as_bytes(),
            name: name.as_bytes(),
            title: title.as_bytes(),
        };
        assert_eq!(write_key(&mut tally, &key, &vec![7; sum as usize]).0, answer(0, 0, sum));
        assert_eq!(write_key(&mut tally, &key, &vec![7; sum as usize - 1]).0, answer(17, 0, 0));
        let short = NewKey { nbytes: sum as u32 - 1, ..key };
        assert_eq!(write_key(&mut tally, &short, &[]).0, answer(16, 0, 0));
        let long = NewKey { name: &[b'x'; 32_768], ..short };
        assert_eq!(write_key(&mut tally, &long, &[]).0, answer(15, 0, 0));
        // An offset past 32 bits: 16 in a narrow key; in a wide one SeekPdir is taken, and SeekKey is past the buffer.
        for far in [1 << 32, u64::MAX] {
            let [seek_key, seek_pdir] = [NewKey { seek_key: far, ..key }, NewKey { seek_pdir: far, ..key }];
            let expected = if version > 1000 { [answer(17, 0, 0), answer(0, 0, sum)] } else { [answer(16, 0, 0); 2] };
            let buffer = vec![7; sum as usize];
            assert_eq!([seek_key, seek_pdir].map(|key| write_key(&mut tally, &key, &buffer).0), expected);
        }
    }
    tally.finish(64, &[0, 15, 16, 17]);
}

/// Names of 254, 255 and 256 bytes, all taken.
#[test]
fn name_lengths() {
    let mut tally = Tally::new("examples, name lengths");
    let mut rng = Rng::new(30);
    for (len, length_bytes) in [(254, 1), (255, 5), (256, 5)] {
        let key = versioned_key(&mut rng, 4, 0, [5, len, 0], 3);
        let sum = 26 + 6 + length_bytes + len as u64 + 1;
        let (read, fields) = read_piece(&mut tally, &key.record(&mut rng), 0);
        assert_eq!((read, fields[ffi::KEYLEN]), (answer(0, 0, sum + 3), sum));
        assert_eq!(fields[ffi::NAME..ffi::TITLE], [26 + 6 + length_bytes, len as u64]);
        let written = write_key(&mut tally, &key.to_write(), &vec![7; sum as usize + 3]);
        assert_eq!(written, (answer(0, 0, sum), [key.header(), vec![7; 3]].concat()));
    }
    tally.finish(6, &[0]);
}

#[test]
fn chain_ends() {
    let mut tally = Tally::new("examples, ends of the chain");
    let minus_four = (-4i32).to_be_bytes();
    let mut gap = [0; 15];
    gap[..2].copy_from_slice(&[2, 4]);
    let file = [&[9; 100], &minus_four[..]].concat();
    assert_eq!(read_piece(&mut tally, &file, 100), (answer(0, 0, 4), gap));
    assert_eq!(read_piece(&mut tally, &file[..103], 100), (answer(5, 100, 0), [0; 15]));
    assert_eq!(read_piece(&mut tally, &[0; 40], 0), (answer(5, 0, 0), [0; 15]));
    let least = [i32::MIN.to_be_bytes(), [0; 4]].concat();
    assert_eq!(read_piece(&mut tally, &least, 0), (answer(5, 0, 0), [0; 15]));
    tally.finish(4, &[0, 5]);
}

#[test]
fn one_root_pieces() {
    let mut tally = Tally::new("examples, one.root");
    let file = one_root();
    assert_eq!(file.len(), 364);
    let mut at = 100;
    for (place, size, kind) in [(100, 68, 1), (168, 50, 1), (218, 79, 1), (297, 12, 2), (309, 55, 1)] {
        assert_eq!(at, place);
        let (read, fields) = read_piece(&mut tally, &file, at);
        assert_eq!((read, fields[ffi::KIND]), (answer(0, 0, size), kind));
        if kind == ffi::RECORD {
            let key = key_of(&file, &fields);
            assert_eq!(key.sum() as u64, if place == 168 { 40 } else { 35 });
            assert_eq!(write_key(&mut tally, &key, &file), (answer(0, 0, key.sum() as u64), file.clone()));
        }
        at += size;
    }
    assert_eq!(at, 364);
    assert_eq!(read_piece(&mut tally, &file, at).0, answer(5, 364, 0));
    tally.finish(10, &[0, 5]);
}
