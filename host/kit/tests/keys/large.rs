//! Sizes near 2^31, places and strings near 2^32, in lent memory that is truly so long.

use kit::compare::{answer_of, lent_key, read_piece, Tally};
use kit::gen::strings::{counted, long_form};
use kit::gen::{versioned_key, RawKey, Rng};
use kit::harness::zeros::{Zeros, LEN};
use programs::ffi;
use second::key::{self, NewKey};
use second::{number, Answer};

const WIDE: usize = 1 << 32;

#[test]
fn wide_files() {
    let Some(mut zeros) = Zeros::new() else { return };
    let mut tally = Tally::new("read_piece, sizes near 2^31 and places near 2^32");
    let mut rng = Rng::new(40);
    greatest_pieces(&mut tally, &mut rng, &mut zeros);
    far_records(&mut tally, &mut rng, &mut zeros);
    far_headers(&mut tally, &mut rng, &mut zeros);
    tally.finish(100, &[0, 5, 6]);
}

/// The greatest gap and the greatest record, each against the end.
fn greatest_pieces(tally: &mut Tally, rng: &mut Rng, zeros: &mut Zeros) {
    let [narrow, wide] = [4, 1004].map(|version| {
        let mut record = versioned_key(rng, version, 0, [5, 1, 0], 0);
        record.nbytes = i32::MAX as u32;
        ((1 << 31) - 1, record.header())
    });
    for (size, bytes) in [(1 << 31, i32::MIN.to_be_bytes().to_vec()), narrow, wide] {
        zeros.put(0, &bytes);
        for len in [size - 1, size, size + 1, LEN] {
            let (answer, _) = read_piece(tally, &zeros.bytes()[..len], 0);
            assert_eq!(answer.number, if len < size { 5 } else { 0 });
        }
    }
}

/// Records whose SeekKey is their place, or of a narrow key its low half: 6 where that is another.
fn far_records(tally: &mut Tally, rng: &mut Rng, zeros: &mut Zeros) {
    let places = [WIDE - 200, WIDE - 53, WIDE - 45, WIDE - 44, WIDE - 20, WIDE - 1, WIDE, WIDE + 1, WIDE + 100];
    for (at, version) in places.into_iter().flat_map(|at| [(at, 4), (at, 1004)]) {
        let record = versioned_key(rng, version, at as u64, [5, 1, 0], 10).record(rng);
        let end = at + record.len();
        zeros.put(at, &record);
        for len in [end - 1, end, LEN] {
            let (answer, _) = read_piece(tally, &zeros.bytes()[..len], at as u64);
            let expected = match (len < end, version == 4 && at >= WIDE) {
                (true, _) => 5,
                (false, true) => 6,
                (false, false) => 0,
            };
            assert_eq!(answer.number, expected, "{at} {version}");
        }
        // The low half alone, in either width.
        let low = versioned_key(rng, version, at as u32 as u64, [5, 1, 0], 10).record(rng);
        zeros.put(at, &low);
        let (answer, _) = read_piece(tally, zeros.bytes(), at as u64);
        assert_eq!(answer.number, if at < WIDE { 0 } else { 6 });
        zeros.put(at, &(-100i32).to_be_bytes());
        read_piece(tally, zeros.bytes(), at as u64);
        zeros.put(at, &[0; 53]);
    }
}

/// Headers written near 2^32. A place that wrapped would land in the first bytes.
fn far_headers(tally: &mut Tally, rng: &mut Rng, zeros: &mut Zeros) {
    let places = [WIDE - 200, WIDE - 20, WIDE - 1, WIDE, WIDE + 1, WIDE + 100];
    for (at, version) in places.into_iter().flat_map(|at| [(at, 4), (at, 1004)]) {
        let raw = versioned_key(rng, version, at as u64, [5, 1, 0], 10);
        let key = raw.to_write();
        let end = at + raw.nbytes as usize;
        for len in [end - 1, end, LEN] {
            let before = zeros.windows(at, len);
            let mut after = before.clone();
            let mut expected = Answer::refusal(17, 0);
            if version == 4 && at >= WIDE {
                expected = Answer::refusal(16, 0);
            } else if len >= end {
                after[1][300..300 + raw.sum()].copy_from_slice(&raw.header());
                expected = Answer::success(raw.sum() as u64);
            }
            let buf = &mut zeros.bytes()[..len];
            assert_eq!(key::write_key(&key, buf), expected);
            assert!(zeros.windows(at, len) == after, "the model at {at} of {len} bytes");

            zeros.put(at - 300, &before[1]);
            let buf = &mut zeros.bytes()[..len];
            assert_eq!(answer_of(9, |place, count| ffi::write_key(&lent_key(&key), buf, place, count)), expected);
            assert!(zeros.windows(at, len) == after, "the library at {at} of {len} bytes");

            read_piece(tally, &zeros.bytes()[..len], at as u64);
            zeros.put(at - 300, &before[1]);
        }
    }
}

/// Strings so long that their sum is above 32,767, some with a low half of the sum or of a length that is not.
#[test]
fn huge_strings_to_write() {
    let Some(mut zeros) = Zeros::new() else { return };
    let text: &[u8] = zeros.bytes();
    let mut tally = Tally::new("write_key, strings of up to 2^32 bytes and more");
    let far = [32_768, 65_535, 1 << 16, (1 << 31) - 1, 1 << 31, WIDE - 1, WIDE, WIDE + 300, WIDE + 4000];
    // With these alone the sum is 2^16 or 2^32 and some bytes.
    let near = [1 << 16, WIDE].into_iter().flat_map(|power| (0..45).map(move |less| power - less));
    for len in far.into_iter().chain(near) {
        for lengths in [[len, 0, 0], [0, len, 0], [0, 0, len], [len; 3], [len, 5, len], [1 << 31, 1 << 31, len]] {
            for version in [4, 1004, 2001] {
                let [class, name, title] = lengths.map(|len| &text[..len]);
                let base = RawKey { nbytes: 40, ..versioned_key(&mut Rng::new(41), version, 0, [0; 3], 0) };
                let key = NewKey { class, name, title, ..base.to_write() };
                let (mut library, mut second) = ([7; 40], [7; 40]);
                let got = answer_of(9, |place, count| ffi::write_key(&lent_key(&key), &mut library, place, count));
                let answers = [got, key::write_key(&key, &mut second)];
                assert_eq!(answers, [Answer::refusal(number::NAME, 0); 2], "{lengths:?}");
                assert_eq!([library, second], [[7; 40]; 2], "{lengths:?}");
                tally.add(got.number);
            }
        }
    }
    tally.finish(1_782, &[number::NAME]);
}

/// Strings in the long form that a record holds, of so great a length that the sum is above 32,767, though the low
/// half of it is KeyLen. Where nothing is added to that half, they are taken.
#[test]
fn huge_strings_to_read() {
    let Some(mut zeros) = Zeros::new() else { return };
    let mut tally = Tally::new("read_piece, strings of up to 2^31 bytes");
    let nbytes = i32::MAX as u32;
    for (version, nth) in [4, 1004].into_iter().flat_map(|version| (0..3).map(move |nth| (version, nth))) {
        for high in [0, 1 << 16, 1 << 20, 1 << 30, (1 << 31) - (1 << 16)] {
            let mut stored = [counted(b""), counted(b""), counted(b"")];
            stored[nth] = long_form(high + 300, &[]);
            let mut key = RawKey { nbytes, ..versioned_key(&mut Rng::new(42), version, 0, [0; 3], 0) };
            key.keylen = (key.header_with(&stored).len() + 300) as u16;
            zeros.put(0, &key.header_with(&stored));
            let (answer, _) = read_piece(&mut tally, zeros.bytes(), 0);
            let refused = Answer::refusal(number::KEY, 0);
            assert_eq!(answer, if high == 0 { Answer::success(nbytes.into()) } else { refused }, "{version} {high}");
        }
    }
    tally.finish(30, &[0, number::KEY]);
}
