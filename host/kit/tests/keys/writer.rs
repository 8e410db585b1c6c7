//! The key writer: the proved library against the model, and against the piece reader.

use kit::compare::{key_of, read_piece, write_again, write_key, Tally};
use kit::gen::strings::length_size;
use kit::gen::{self, Rng};
use programs::ffi;
use second::key::NewKey;

/// Writes the key. If it was taken, the record reads back with the same fields and strings.
fn write_and_read(tally: &mut Tally, reads: &mut Tally, key: &NewKey, before: &[u8]) {
    let (answer, after) = write_key(tally, key, before);
    if answer.number == 0 {
        let (read, fields) = read_piece(reads, &after, key.seek_key);
        assert_eq!((read.number, read.count), (0, key.nbytes.into()), "{key:?}");
        assert_eq!(key_of(&after, &fields), *key);
        assert_eq!(fields[ffi::KEYLEN], answer.count, "{key:?}");
    }
}

// Values for each input of the writer. The first of each is a good one.
/// Beside two of the first length, 32,720 is the longest in a wide key, and 32,728 in a narrow one.
const STRINGS: [usize; 10] = [3, 0, 1, 254, 255, 256, 32_720, 32_728, 32_729, LONGEST];
/// The longest that is tried.
const LONGEST: usize = 65_536;
/// Added to the sum; the last three stand for themselves.
const NBYTES: [i64; 9] = [9, -1, 0, 1, -29, 3000, i32::MAX as i64, i32::MAX as i64 + 1, u32::MAX as i64];
const VERSIONS: [u32; 13] = [4, 0, 1, 1000, 1001, 1004, 2000, 2001, 65535, 65536, 65537, 66540, u32::MAX];
const OBJLENS: [u32; 5] = [9, 0, i32::MAX as u32, i32::MAX as u32 + 1, u32::MAX];
const DATIMES: [u32; 3] = [1_960_757_165, 0, u32::MAX];
const CYCLES: [i32; 11] = [1, 0, -1, 32767, 32768, -32768, -32769, 65535, 65536, i32::MAX, i32::MIN];
const SEEK_KEYS: [u64; 10] =
    [100, 0, 1, 257, (1 << 32) - 1, 1 << 32, (1 << 32) + 100, (1 << 63) + 100, u64::MAX - 44, u64::MAX];
const SEEK_PDIRS: [u64; 6] = [100, 0, (1 << 32) - 1, 1 << 32, 1 << 63, u64::MAX];
/// Added to SeekKey + Nbytes; the last two stand for themselves.
const ROOMS: [i64; 6] = [0, -1, 1, 40, 0, 1];
const MOST_ROOM: usize = 40_000;

const INPUTS: usize = 11;
/// How many values each input has.
const VALUES: [usize; INPUTS] = [
    STRINGS.len(),
    STRINGS.len(),
    STRINGS.len(),
    NBYTES.len(),
    VERSIONS.len(),
    OBJLENS.len(),
    DATIMES.len(),
    CYCLES.len(),
    SEEK_KEYS.len(),
    SEEK_PDIRS.len(),
    ROOMS.len(),
];

/// Runs on a key with the chosen values, and the length of its buffer.
fn with_key(choice: [usize; INPUTS], text: &[u8], run: impl FnOnce(&NewKey, usize)) {
    let [class, name, title] = [0, 1, 2].map(|i| &text[100 * i..][..STRINGS[choice[i]]]);
    let wide = VERSIONS[choice[4]] > 1000;
    let stored = |string: &[u8]| length_size(string.len()) + string.len();
    let sum = if wide { 34 } else { 26 } + stored(class) + stored(name) + stored(title);
    let nbytes = match NBYTES[choice[3]] {
        near if near < 4000 => (sum as i64 + near) as u32,
        far => far as u32,
    };
    let key = NewKey {
        nbytes,
        version: VERSIONS[choice[4]],
        objlen: OBJLENS[choice[5]],
        datime: DATIMES[choice[6]],
        cycle: CYCLES[choice[7]],
        seek_key: SEEK_KEYS[choice[8]],
        seek_pdir: SEEK_PDIRS[choice[9]],
        class,
        name,
        title,
    };
    let end = key.seek_key.saturating_add(nbytes.into()).min(MOST_ROOM as u64 - 40) as i64;
    let room = if choice[10] < 4 { end + ROOMS[choice[10]] } else { ROOMS[choice[10]] };
    run(&key, room.max(0) as usize);
}

#[test]
fn any_three_limits_at_once() {
    let mut tally = Tally::new("write_key, any three inputs at any of their limits");
    let mut reads = Tally::new("read_piece, the headers written");
    let mut rng = Rng::new(60);
    let text = rng.bytes(LONGEST + 200);
    let buffer = rng.bytes(MOST_ROOM);
    for a in 0..INPUTS {
        for b in a + 1..INPUTS {
            for c in b + 1..INPUTS {
                for (i, j, k) in triples(VALUES[a], VALUES[b], VALUES[c]) {
                    let mut choice = [0; INPUTS];
                    (choice[a], choice[b], choice[c]) = (i, j, k);
                    with_key(choice, &text, |key, room| {
                        write_and_read(&mut tally, &mut reads, key, &buffer[..room]);
                    });
                }
            }
        }
    }
    tally.finish(90_000, &[0, 15, 16, 17]);
    reads.finish(5_000, &[0]);
}

fn triples(a: usize, b: usize, c: usize) -> impl Iterator<Item = (usize, usize, usize)> {
    (0..a).flat_map(move |i| (0..b).flat_map(move |j| (0..c).map(move |k| (i, j, k))))
}

#[test]
fn random_limits() {
    let mut tally = Tally::new("write_key, random inputs at their limits");
    let mut reads = Tally::new("read_piece, the headers written");
    let mut rng = Rng::new(61);
    let text = rng.bytes(LONGEST + 200);
    let buffer = rng.bytes(MOST_ROOM);
    for _ in 0..30_000 {
        let choice = VALUES.map(|values| if rng.once_in(3) { rng.below(values) } else { 0 });
        with_key(choice, &text, |key, room| {
            write_and_read(&mut tally, &mut reads, key, &buffer[..room]);
        });
    }
    tally.finish(30_000, &[0, 15, 16, 17]);
    reads.finish(500, &[0]);
}

#[test]
fn random_keys() {
    let mut tally = Tally::new("write_key, random keys");
    let mut reads = Tally::new("read_piece, the headers written");
    let mut rng = Rng::new(62);
    for _ in 0..60_000 {
        let at = rng.below(300) as u64;
        let raw = gen::plain_key(&mut rng, at);
        let room = (at + u64::from(raw.nbytes)) as usize + rng.below(30);
        let room = if rng.once_in(8) { room.saturating_sub(rng.below(60)) } else { room };
        let before = rng.bytes(room);
        let mut key = raw.to_write();
        if rng.once_in(4) {
            spoil(&mut rng, &mut key);
        }
        write_and_read(&mut tally, &mut reads, &key, &before);
    }
    tally.finish(60_000, &[0, 16, 17]);
    reads.finish(30_000, &[0]);
}

/// One field gets any value of its type, small ones as often as great ones.
fn spoil(rng: &mut Rng, key: &mut NewKey) {
    let narrow = rng.u32() >> rng.below(32);
    let wide = rng.u64() >> rng.below(64);
    match rng.below(6) {
        0 => key.nbytes = narrow,
        1 => key.version = if rng.once_in(2) { narrow } else { rng.below(2004) as u32 },
        2 => key.objlen = narrow,
        3 => key.cycle = rng.u32() as i32 >> rng.below(32),
        4 => key.seek_key = wide,
        _ => key.seek_pdir = wide,
    }
}

#[test]
fn plain_pieces_written_again() {
    let mut reads = Tally::new("read_piece, records to write again");
    let mut tally = Tally::new("write_key, records read");
    let mut rng = Rng::new(63);
    for _ in 0..5_000 {
        let (file, starts) = gen::chain(&mut rng, 8);
        for at in starts {
            let (_, fields) = read_piece(&mut reads, &file, at as u64);
            write_again(&mut tally, &file, &fields);
        }
    }
    reads.finish(40_000, &[0]);
    tally.finish(15_000, &[0]);
}
