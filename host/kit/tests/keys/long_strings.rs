//! Strings of 255 bytes and more in keys, read and written: the proved library against the model, and both against
//! the rule that stands here.

use kit::compare::{key_of, read_piece, write_again, write_key, Tally};
use kit::gen::strings::{claims, counted, long_form};
use kit::gen::{versioned_key, RawKey, Rng};
use kit::harness::edge::Edge;
use programs::ffi;
use second::key::NewKey;
use second::{number, Answer};

/// The least length in the long form, and the greatest KeyLen.
const LEAST_LONG: usize = 255;
const MOST_KEYLEN: usize = 32_767;
/// Versions of keys with four-byte offsets and with eight-byte ones.
const VERSIONS: [u16; 2] = [4, 1004];

/// The rule: the bytes of a string's length.
fn length_size(len: usize) -> usize {
    if len < LEAST_LONG {
        1
    } else {
        5
    }
}

/// The bytes of a key header before its strings.
fn fixed(version: u32) -> usize {
    if version > 1000 {
        34
    } else {
        26
    }
}

/// What a header takes with strings of these lengths.
fn sum(version: u32, lengths: [usize; 3]) -> usize {
    lengths.into_iter().fold(fixed(version), |sum, len| sum + length_size(len) + len)
}

/// Start and length of each string of a header at `at`.
fn strings(version: u32, at: usize, lengths: [usize; 3]) -> [u64; 6] {
    let mut next = at + fixed(version);
    let fields = lengths.map(|len| {
        let start = next + length_size(len);
        next = start + len;
        [start as u64, len as u64]
    });
    fields.concat().try_into().unwrap()
}

/// Keys that are read and written, and how many.
struct Keys {
    rng: Rng,
    reads: Tally,
    writes: Tally,
}

impl Keys {
    fn new(seed: u64, reads: &'static str, writes: &'static str) -> Self {
        Keys { rng: Rng::new(seed), reads: Tally::new(reads), writes: Tally::new(writes) }
    }

    /// A plain key of a version at `at`, and a file with its record.
    fn file(&mut self, version: u16, at: usize, lengths: [usize; 3]) -> (RawKey, Vec<u8>) {
        let key = versioned_key(&mut self.rng, version, at as u64, lengths, 7);
        let mut file = self.rng.bytes(at);
        file.extend(key.record(&mut self.rng));
        file.extend(self.rng.bytes(5));
        (key, file)
    }

    /// A record with strings of these lengths is read, its key is written, and what was read is written again.
    fn taken(&mut self, version: u16, at: usize, lengths: [usize; 3]) {
        let (key, file) = self.file(version, at, lengths);
        let sum = sum(version.into(), lengths);
        let (answer, fields) = read_piece(&mut self.reads, &file, at as u64);
        assert_eq!(answer, Answer::success(sum as u64 + 7), "{version} {lengths:?}");
        assert_eq!(fields[ffi::KEYLEN], sum as u64);
        assert_eq!(fields[ffi::CLASS..], strings(version.into(), at, lengths), "{version} {lengths:?}");
        assert_eq!(key_of(&file, &fields), key.to_write());

        let mut before = file.clone();
        before[at..at + sum].fill(0x5a);
        let (answer, written) = write_key(&mut self.writes, &key.to_write(), &before);
        assert_eq!(answer, Answer::success(sum as u64), "{version} {lengths:?}");
        assert!(written == file, "{version} {lengths:?}: other bytes are written");
        write_again(&mut self.writes, &file, &fields);
    }

    /// A record whose sum is above the limit is 6 whatever KeyLen says, and its key is not written.
    fn refused(&mut self, version: u16, at: usize, lengths: [usize; 3]) {
        let (key, file) = self.file(version, at, lengths);
        for keylen in [key.keylen, 32_767, 32_768, 65_535] {
            let mut other = file.clone();
            other[at + 14..at + 16].copy_from_slice(&keylen.to_be_bytes());
            let (answer, _) = read_piece(&mut self.reads, &other, at as u64);
            assert_eq!(answer, Answer::refusal(number::KEY, at as u64), "{version} {lengths:?} {keylen}");
        }
        let (answer, after) = write_key(&mut self.writes, &key.to_write(), &file);
        assert_eq!(answer, Answer::refusal(number::NAME, 0), "{version} {lengths:?}");
        assert!(after == file, "{version} {lengths:?}: a refusal writes");
    }
}

#[test]
fn lengths_around_the_long_form() {
    let mut keys = Keys::new(700, "read_piece, strings around 255 bytes", "write_key, strings around 255 bytes");
    let lengths = [0, 1, 253, 254, 255, 256, 257, 1000];
    for lengths in lengths.map(|a| lengths.map(|b| lengths.map(|c| [a, b, c]))).concat().concat() {
        for (version, at) in VERSIONS.into_iter().flat_map(|version| [(version, 0), (version, 100)]) {
            keys.taken(version, at, lengths);
        }
    }
    keys.reads.finish(2_048, &[0]);
    keys.writes.finish(4_096, &[0]);
}

/// Lengths that make a header of a version take so many bytes: one string is long beside two of these lengths, or
/// all three are.
fn lengths_of(version: u32, sum: usize) -> Vec<[usize; 3]> {
    let mut all = Vec::new();
    for other in [0, 254, 255] {
        for long in 0..3 {
            let mut lengths = [other; 3];
            lengths[long] = sum - fixed(version) - 2 * (length_size(other) + other) - 5;
            all.push(lengths);
        }
    }
    let rest = sum - fixed(version) - 3 * 5;
    all.push([rest / 3, rest / 3, rest - 2 * (rest / 3)]);
    all
}

#[test]
fn sums_around_the_limit() {
    let mut keys = Keys::new(701, "read_piece, sums near 32,767", "write_key, sums near 32,767");
    let far = [33_000, 65_534, 65_535, 65_536, 65_537, 65_536 + 300, 65_536 + 32_767, 131_072 + 300];
    for sum_of_key in (32_760..32_775).chain(far) {
        for version in [1, 4, 1000, 1001, 1004, 2000] {
            for lengths in lengths_of(version.into(), sum_of_key) {
                assert_eq!(sum(version.into(), lengths), sum_of_key);
                if sum_of_key <= MOST_KEYLEN {
                    keys.taken(version, 100, lengths);
                } else {
                    keys.refused(version, 100, lengths);
                }
            }
        }
    }
    keys.reads.finish(4_080, &[0, number::KEY]);
    keys.writes.finish(1_860, &[0, number::NAME]);
}

/// The rule: what the writer answers of a buffer of `room` bytes.
fn answer_of_writer(key: &NewKey, room: usize) -> Answer {
    let sum = sum(key.version, [key.class, key.name, key.title].map(<[u8]>::len));
    let most = i32::MAX as u32;
    let offsets_fit = key.version > 1000 || key.seek_key.max(key.seek_pdir) <= u32::MAX.into();
    let formed = (1..=2000).contains(&key.version) && key.objlen <= most && key.nbytes <= most;
    if sum > MOST_KEYLEN {
        Answer::refusal(number::NAME, 0)
    } else if !formed || key.nbytes < sum as u32 || i16::try_from(key.cycle).is_err() || !offsets_fit {
        Answer::refusal(number::FIELD, 0)
    } else if u128::from(key.seek_key) + u128::from(key.nbytes) > room as u128 {
        Answer::refusal(number::ROOM, 0)
    } else {
        Answer::success(sum as u64)
    }
}

/// A key, and the same with another fault each.
fn with_faults(key: NewKey) -> [NewKey; 8] {
    [
        key,
        NewKey { nbytes: key.nbytes - 1, ..key },
        NewKey { nbytes: 1 << 31, ..key },
        NewKey { objlen: 1 << 31, ..key },
        NewKey { cycle: 1 << 15, ..key },
        NewKey { seek_key: 1 << 32, ..key },
        NewKey { seek_key: u64::MAX, ..key },
        NewKey { seek_pdir: u64::MAX, ..key },
    ]
}

/// 15 goes before 16 and 17, and the sum starts from 34 for every version above 1000, those above 2000 too.
#[test]
fn order_of_the_writer() {
    let mut tally = Tally::new("write_key, sums near 32,767 beside other faults");
    let text = Rng::new(702).bytes(MOST_KEYLEN + 10);
    let buffer = vec![7; MOST_KEYLEN + 200];
    let (seek_key, seek_pdir, objlen, datime, cycle) = (100, 100, 1, 2, 3);
    let versions = [0, 1, 1000, 1001, 2000, 2001, 65_535, 65_536, 65_536 + 4, u32::MAX];
    for (version, sum) in versions.into_iter().flat_map(|version| [32_766, 32_767, 32_768].map(|sum| (version, sum))) {
        for lengths in lengths_of(version, sum) {
            let [class, name, title] = lengths.map(|len| &text[..len]);
            let nbytes = sum as u32;
            let key = NewKey { nbytes, version, objlen, datime, cycle, seek_key, seek_pdir, class, name, title };
            for (key, room) in with_faults(key).into_iter().flat_map(|key| [0, 99, 100].map(|room| (key, room + sum))) {
                let (answer, after) = write_key(&mut tally, &key, &buffer[..room]);
                assert_eq!(answer, answer_of_writer(&key, room), "{version} {lengths:?} in {room} bytes");
                assert!(answer.number == 0 || after == buffer[..room], "a refusal writes");
            }
        }
    }
    tally.finish(7_000, &[0, number::NAME, number::FIELD, number::ROOM]);
}

/// Zeros in the long form, with any length before them, in each of the three strings. A length from 255 on that the
/// zeros hold is taken: what then follows are empty strings, and the key is as long as it was. Any other is 6.
#[test]
fn any_length_in_the_long_form() {
    let mut tally = Tally::new("read_piece, lengths in the long form");
    let mut rng = Rng::new(703);
    for (version, nth) in VERSIONS.into_iter().flat_map(|version| [(version, 0), (version, 1), (version, 2)]) {
        for (zeros, data) in [253, 254, 255, 256, 300, 1000].into_iter().flat_map(|len| [(len, 0), (len, 70_000)]) {
            for claim in claims(zeros) {
                let mut stored = [counted(b""), counted(b""), counted(b"")];
                stored[nth] = long_form(claim, &vec![0; zeros as usize]);
                let mut key = versioned_key(&mut rng, version, 0, [0; 3], 0);
                key.keylen = (fixed(version.into()) + stored.concat().len()) as u16;
                key.nbytes = u32::from(key.keylen) + data;
                let file = [key.header_with(&stored), vec![0; data as usize]].concat();
                let (answer, fields) = read_piece(&mut tally, &file, 0);
                if (255..=zeros).contains(&claim) {
                    let mut lengths = [0; 3];
                    lengths[nth] = claim as usize;
                    assert_eq!(answer, Answer::success(key.nbytes.into()));
                    assert_eq!(fields[ffi::CLASS..], strings(version.into(), 0, lengths), "{zeros} {claim}");
                } else {
                    assert_eq!(answer, Answer::refusal(number::KEY, 0), "{version} {nth} {zeros} {claim}");
                }
            }
        }
    }
    tally.finish(1_800, &[0, number::KEY]);
}

/// Records that end at each byte of their header, in a file that goes on, and in one that ends with them; a file cut
/// in such a record is 5.
#[test]
fn cut_at_each_byte() {
    let mut tally = Tally::new("read_piece, long strings cut at each byte");
    let mut rng = Rng::new(704);
    let mut edge = Edge::default();
    for lengths in [[255, 0, 0], [0, 255, 0], [0, 0, 255], [256, 3, 0], [0, 300, 2], [255, 256, 257]] {
        for (version, at) in VERSIONS.into_iter().flat_map(|version| [(version, 0), (version, 100)]) {
            let base = versioned_key(&mut rng, version, at, lengths, 4);
            let sum = sum(version.into(), lengths) as u32;
            for (nbytes, keylen) in (4..=sum + 4).flat_map(|nbytes| [(nbytes, sum), (nbytes, nbytes)]) {
                let key = RawKey { nbytes, keylen: keylen as u16, ..base.clone() };
                let file = [rng.bytes(at as usize), key.record(&mut rng)].concat();
                let good = sum <= keylen && keylen <= nbytes;
                let expected = if good { Answer::success(nbytes.into()) } else { Answer::refusal(number::KEY, at) };
                for len in [file.len(), at as usize + nbytes as usize] {
                    let (answer, _) = read_piece(&mut tally, edge.lend(&file[..len]), at);
                    assert_eq!(answer, expected, "{version} {lengths:?}: {nbytes} bytes, KeyLen {keylen}");
                }
            }
            let file = [rng.bytes(at as usize), base.record(&mut rng)].concat();
            for len in at as usize..file.len() {
                let (answer, _) = read_piece(&mut tally, edge.lend(&file[..len]), at);
                assert_eq!(answer, Answer::refusal(number::CHAIN, at), "{version} {lengths:?}: cut at {len}");
            }
        }
    }
    tally.finish(40_000, &[0, number::CHAIN, number::KEY]);
}

/// KeyLen above the sum, as in a basket's key: up to 32,767 it is taken.
#[test]
fn baskets() {
    let mut tally = Tally::new("read_piece, KeyLen of baskets");
    let mut rng = Rng::new(705);
    for lengths in [[0; 3], [254; 3], [255; 3], [7, 300, 0], [0, 0, 32_000]] {
        for version in VERSIONS {
            let base = versioned_key(&mut rng, version, 0, lengths, 66_000);
            let sum = sum(version.into(), lengths);
            let limits = [32_766, 32_767, 32_768, 32_769, 40_000, 65_534, 65_535];
            for keylen in [sum - 1, sum, sum + 1, 32_700].into_iter().chain(limits) {
                for nbytes in [keylen - 1, keylen, keylen + 1, base.nbytes as usize] {
                    let key = RawKey { nbytes: nbytes as u32, keylen: keylen as u16, ..base.clone() };
                    let (answer, _) = read_piece(&mut tally, &key.record(&mut rng), 0);
                    let good = sum <= keylen && keylen <= MOST_KEYLEN && keylen <= nbytes;
                    let expected = if good { Answer::success(nbytes as u64) } else { Answer::refusal(number::KEY, 0) };
                    assert_eq!(answer, expected, "{version} {lengths:?}: {nbytes} bytes, KeyLen {keylen}");
                }
            }
        }
    }
    tally.finish(400, &[0, number::KEY]);
}
