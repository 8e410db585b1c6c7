//! StreamerInfo records at places near 2^31 and 2^32, and with a string of nearly 2^30 bytes.

use kit::compare::info::read_info;
use kit::compare::Tally;
use kit::gen::infos::{all_kinds, build_of, get32, put32, What, LIST_VERSIONS};
use kit::gen::strings::counted;
use kit::gen::Rng;
use kit::harness::zeros::Zeros;
use second::streamer::Row;
use second::{number, Answer};

/// Reads the record at `at`, where zeros stand again afterwards.
fn read(tally: &mut Tally, zeros: &mut Zeros, at: usize, record: &[u8]) -> (Answer, Vec<Row>) {
    zeros.put(at, record);
    let read = read_info(tally, zeros.bytes(), at as u64, 96);
    zeros.put(at, &vec![0; record.len()]);
    read
}

/// A record is read, and a fault of its last TObject or of its last option has a place there; but from 2^32 on a
/// four-byte SeekKey cannot be its place.
#[test]
fn far_records() {
    let Some(mut zeros) = Zeros::new() else { return };
    let mut tally = Tally::new("read_info, places near 2^31 and 2^32");
    let mut rng = Rng::new(220);
    let places = [(1 << 31) - 9, 1 << 31, (1 << 32) - 3000, (1 << 32) - 9, (1 << 32) - 1, 1 << 32, (1 << 32) + 100];
    let keys = places.into_iter().flat_map(|at: usize| [(at, 4), (at, 1004)]);
    for ((at, version), list_version) in keys.flat_map(|key| LIST_VERSIONS.map(|list_version| (key, list_version))) {
        let list = all_kinds(&mut rng, list_version);
        let info = build_of(&mut rng, version, at as u64, &list, None);
        let is_place = at < 1 << 32 || version > 1000;
        let refused = || (Answer::refusal(number::KEY, at as u64), vec![]);
        let expected = |answer, rows| if is_place { (answer, rows) } else { refused() };
        assert_eq!(read(&mut tally, &mut zeros, at, &info.bytes), expected(Answer::success(16), info.rows));
        // An option of 255 bytes, or of 2^32 - 1, ends past the list.
        let faults = [(What::Bits, &[255; 4][..], number::REFERENCED), (What::Option, &[255; 5], number::COUNT)];
        for (what, bytes, number) in faults {
            let Some(nth) = info.fields.iter().rposition(|field| field.what == what) else { continue };
            let bad = build_of(&mut rng, version, at as u64, &list, Some((nth, bytes)));
            let refusal = Answer::refusal(number, (at + bad.fields[nth].at) as u64);
            assert_eq!(read(&mut tally, &mut zeros, at, &bad.bytes), expected(refusal, vec![]));
        }
    }
    tally.finish(224, &[0, number::KEY, number::COUNT, number::REFERENCED]);
}

/// The last string of a record, or its last option, is lengthened by so many zeros that the list's ByteCount is the
/// greatest there is: it is read. A length of one more ends past the innermost open end, 21 at the string.
#[test]
fn longest_string() {
    let Some(mut zeros) = Zeros::new() else { return };
    let mut tally = Tally::new("read_info, a string of nearly 2^30 bytes");
    for (version, what) in [4, 1004].into_iter().flat_map(|version| [(version, What::String), (version, What::Option)])
    {
        let mut rng = Rng::new(221);
        let list = all_kinds(&mut rng, 5);
        let whole = build_of(&mut rng, version, 0, &list, None);
        let last = whole.fields.iter().rposition(|field| field.what == what).unwrap();
        let info = build_of(&mut rng, version, 0, &list, Some((last, &counted(&[0; 255]))));
        let field = info.fields[last];
        let more = (1 << 31) - 1 - get32(&info.bytes, info.keylen);
        let mut head = info.bytes[..field.at + field.len].to_vec();
        for at in info.open_at(&field).iter().map(|object| object.at).chain([0, 6]) {
            let number = get32(&head, at) + more;
            put32(&mut head, at, number);
        }
        zeros.put(field.at + field.len + more as usize, &info.bytes[field.at + field.len..]);
        for (len, expected) in [
            (255 + more, (Answer::success(16), info.rows)),
            (256 + more, (Answer::refusal(number::COUNT, field.at as u64), vec![])),
        ] {
            put32(&mut head, field.at + 1, len);
            zeros.put(0, &head);
            let file = &zeros.bytes()[..info.bytes.len() + more as usize];
            assert_eq!(read_info(&mut tally, file, 0, 96), expected);
        }
        zeros.put(field.at + field.len + more as usize, &vec![0; info.bytes.len()]);
    }
    tally.finish(8, &[0, number::COUNT]);
}
