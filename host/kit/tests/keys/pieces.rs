//! Pieces of a file: the proved library against the model.

use kit::compare::{read_piece, Tally};
use kit::gen::{self, RawKey, Rng};

/// Lengths of strings around the least that four bytes count.
const LENGTHS: [usize; 5] = [0, 1, 254, 255, 256];

/// Places at and past the end of any file that fits in memory, or that wrap onto `at`.
fn far_places(at: u64, len: u64) -> Vec<u64> {
    let mut places = vec![len - len.min(4), len - len.min(3), len - len.min(1), len, len + 1, len + 4];
    places.extend([1 << 31, 1 << 32, 1 << 63].map(|wide| wide + at));
    places.extend((0..40).map(|back| u64::MAX - back));
    places.extend([i64::MAX as u64, u64::MAX - at, u64::MAX - 100]);
    places
}

/// Random bytes up to `at`, a record there, and random bytes after it.
fn file_with(rng: &mut Rng, at: u64, key: &RawKey, after: usize) -> Vec<u8> {
    let mut file = rng.bytes(at as usize);
    file.extend(key.record(rng));
    file.extend(rng.bytes(after));
    file
}

#[test]
fn short_files() {
    let mut tally = Tally::new("read_piece, files of 0 to 64 bytes");
    let mut rng = Rng::new(10);
    let numbers = [i32::MIN, -65, -64, -29, -28, -5, -4, -3, -1, 0, 1, 3, 4, 5, 28, 29, 30, 64, 65, i32::MAX];
    for len in 0..=64 {
        for fill in 0..numbers.len() + 3 {
            let mut file = match fill {
                0 => vec![0; len],
                1 => vec![0xff; len],
                _ => rng.bytes(len),
            };
            if let Some(number) = numbers.get(fill.wrapping_sub(3)) {
                for (byte, value) in file.iter_mut().zip(number.to_be_bytes()) {
                    *byte = value;
                }
            }
            for at in (0..=len as u64 + 4).chain(far_places(0, len as u64)) {
                read_piece(&mut tally, &file, at);
            }
        }
        // The least record, of 29 bytes or 37, where it fits.
        for at in 0..=len {
            let key = gen::plain_key_of(&mut rng, at as u64, [0; 3], 0);
            let mut file = rng.bytes(at);
            file.extend(key.header());
            file.truncate(len);
            read_piece(&mut tally, &file, at as u64);
        }
    }
    tally.finish(80_000, &[0, 5, 6]);
}

#[test]
fn header_limits() {
    let mut tally = Tally::new("read_piece, every limit of a header");
    let mut rng = Rng::new(11);
    for lengths in LENGTHS.map(|a| LENGTHS.map(|b| LENGTHS.map(|c| [a, b, c]))).concat().concat() {
        for at in [0, 100] {
            let base = gen::plain_key_of(&mut rng, at, lengths, 7);
            let sum = base.sum() as u32;
            let mut keys = Vec::new();
            for version in [0, 1, 2, 999, 1000, 1001, 1004, 1999, 2000, 2001, 0x8001, 65535] {
                keys.push(RawKey { version, ..base.clone() });
            }
            for objlen in [0, 1, i32::MAX as u32, i32::MAX as u32 + 1, u32::MAX] {
                keys.push(RawKey { objlen, ..base.clone() });
            }
            for seek_key in [0, at ^ 1, at.wrapping_sub(1), at + 1, at + 256, at + (1 << 16), at ^ (1 << 31), at] {
                keys.push(RawKey { seek_key, ..base.clone() });
            }
            // In a narrow key the low half alone is laid down, and that is right.
            for bit in [32, 33, 48, 63] {
                keys.push(RawKey { seek_key: at ^ (1 << bit), ..base.clone() });
            }
            for nbytes in [sum - 1, sum, sum + 1, sum + 7] {
                for keylen in [0, 1, sum - 1, sum, sum + 1, nbytes - 1, nbytes, nbytes + 1, 32768, 65535] {
                    keys.push(RawKey { nbytes, keylen: keylen as u16, ..base.clone() });
                }
            }
            for key in keys {
                let file = file_with(&mut rng, at, &key, 5);
                // Ends one byte before the record, with it, and later.
                let end = at as usize + key.nbytes as usize;
                for len in [end - 1, end, file.len()] {
                    read_piece(&mut tally, &file[..len], at);
                }
            }
        }
    }
    tally.finish(40_000, &[0, 5, 6]);
}

#[test]
fn several_limits_at_once() {
    let mut tally = Tally::new("read_piece, several limits of a header at once");
    let mut rng = Rng::new(20);
    for _ in 0..150_000 {
        let at = rng.pick(&[0, 1, 100, 255, 256]);
        let lengths = [0; 3].map(|_| if rng.once_in(6) { rng.pick(&LENGTHS) } else { rng.below(6) });
        let mut key = gen::plain_key_of(&mut rng, at, lengths, 3);
        let sum = key.sum() as u32;
        if rng.once_in(2) {
            key.nbytes = rng.pick(&[sum - 1, sum, sum + 1, sum + 2]);
        }
        if rng.once_in(2) {
            let nbytes = key.nbytes;
            key.keylen = rng.pick(&[sum - 1, sum, sum + 1, nbytes - 1, nbytes, nbytes + 1]) as u16;
        }
        if rng.once_in(4) {
            key.version = rng.pick(&[0, 1, 1000, 1001, 2000, 2001]);
        }
        if rng.once_in(4) {
            key.objlen = rng.pick(&[0, i32::MAX as u32, i32::MAX as u32 + 1, u32::MAX]);
        }
        if rng.once_in(8) {
            key.seek_key = rng.pick(&[at + 1, at.wrapping_sub(1), at ^ 1 << 16, at ^ 1 << 32, 100]);
        }
        let file = file_with(&mut rng, at, &key, 4);
        let len = if rng.once_in(8) { file.len() - 1 - rng.below(8) } else { file.len() };
        read_piece(&mut tally, &file[..len], at);
    }
    tally.finish(150_000, &[0, 5, 6]);
}

#[test]
fn longest_key() {
    let mut tally = Tally::new("read_piece, KeyLen near 32767 and 65535");
    let mut rng = Rng::new(12);
    for (version, length) in [(1000, 254), (1001, 254), (1000, 255), (1001, 255)] {
        let base = gen::versioned_key(&mut rng, version, 3, [length; 3], 65535);
        let sum = base.sum() as u16;
        for keylen in [sum - 1, sum, sum + 1, 32766, 32767, 32768, 65534, 65535] {
            for nbytes in [32766, 32767, 32768, 65534, 65535, 65536, base.nbytes] {
                let key = RawKey { keylen, nbytes, ..base.clone() };
                let file = file_with(&mut rng, 3, &key, 2);
                for len in [file.len() - 3, file.len() - 2, file.len()] {
                    read_piece(&mut tally, &file[..len], 3);
                }
            }
        }
    }
    tally.finish(672, &[0, 5, 6]);
}

#[test]
fn sizes() {
    let mut tally = Tally::new("read_piece, sizes against the end");
    let mut rng = Rng::new(13);
    let powers = (2..31).flat_map(|bit| [(1 << bit) - 1, 1 << bit, (1 << bit) + 1]);
    let sizes: Vec<i32> = (0..=300).chain(powers).chain([i32::MAX - 1, i32::MAX]).collect();
    for size in sizes {
        for n in [size, -size, (-size).wrapping_sub(1)] {
            for at in [0usize, 1, 100] {
                // A header that would be good if n let it.
                let good = gen::plain_key_of(&mut rng, at as u64, [0; 3], 0);
                let key = RawKey { nbytes: n as u32, ..good };
                let mut file = rng.bytes(at);
                file.extend(key.header());
                let end = at + n.unsigned_abs() as usize;
                let lengths = [at + 3, at + 4, at + 29, at + 37, end.saturating_sub(1), end, end + 1];
                for len in lengths.into_iter().filter(|&len| len < 2000) {
                    file.resize(file.len().max(len), 0);
                    read_piece(&mut tally, &file[..len], at as u64);
                }
            }
        }
    }
    tally.finish(15_000, &[0, 5, 6]);
}

#[test]
fn single_byte_changes() {
    let mut tally = Tally::new("read_piece, each byte of a header changed");
    let mut rng = Rng::new(14);
    for at in [0, 100] {
        let mut keys = Vec::new();
        for version in [4, 1004] {
            for (lengths, data) in [([0, 0, 0], 0), ([5, 1, 0], 33), ([10, 1, 12], 10), ([0, 255, 1], 6)] {
                keys.push(gen::versioned_key(&mut rng, version, at, lengths, data));
            }
            let mut basket = gen::versioned_key(&mut rng, version, at, [7, 3, 4], 20);
            basket.keylen += 19;
            keys.push(basket);
        }
        for key in keys {
            let file = file_with(&mut rng, at, &key, 300);
            for place in at as usize..at as usize + key.sum() {
                for value in 0..=255 {
                    let mut changed = file.clone();
                    changed[place] = value;
                    read_piece(&mut tally, &changed, at);
                }
            }
        }
    }
    tally.finish(140_000, &[0, 5, 6]);
}

#[test]
fn strings_past_the_record() {
    let mut tally = Tally::new("read_piece, records shorter than their header");
    let mut rng = Rng::new(15);
    for lengths in [[0, 0, 0], [5, 1, 0], [0, 9, 3], [0, 0, 20], [30, 0, 40], [254, 254, 254], [255, 256, 300]] {
        for (at, version) in [(0, 4), (100, 4), (0, 1004), (100, 1004)] {
            let key = gen::versioned_key(&mut rng, version, at, lengths, 4);
            for nbytes in 1..=key.nbytes {
                // The file holds the whole header, wherever the record ends.
                let sum = key.sum() as u32;
                for keylen in [sum, nbytes, nbytes.min(sum), nbytes.max(sum), 26, 29, 34, 37] {
                    let short = RawKey { nbytes, keylen: keylen as u16, ..key.clone() };
                    let file = file_with(&mut rng, at, &short, 8);
                    read_piece(&mut tally, &file, at);
                }
            }
        }
    }
    tally.finish(10_000, &[0, 5, 6]);
}

#[test]
fn truncations() {
    let mut tally = Tally::new("read_piece, every truncation");
    let mut rng = Rng::new(16);
    for _ in 0..12 {
        let (file, starts) = gen::chain(&mut rng, 6);
        for len in 0..=file.len() {
            for &at in &starts {
                read_piece(&mut tally, &file[..len], at as u64);
            }
        }
    }
    tally.finish(20_000, &[0, 5]);
}

#[test]
fn places() {
    let mut tally = Tally::new("read_piece, every place of a file and far past it");
    let mut rng = Rng::new(17);
    for _ in 0..40 {
        let (file, starts) = gen::chain(&mut rng, 5);
        for at in 0..file.len() as u64 + 8 {
            read_piece(&mut tally, &file, at);
        }
        for &at in starts.iter().chain([&0]) {
            for place in far_places(at as u64, file.len() as u64) {
                read_piece(&mut tally, &file, place);
            }
        }
    }
    tally.finish(30_000, &[0, 5]);
}

#[test]
fn chains_walk_to_their_end() {
    let mut tally = Tally::new("read_piece, walks of valid files");
    let mut rng = Rng::new(18);
    for _ in 0..6_000 {
        let (file, starts) = gen::chain(&mut rng, 8);
        let mut at = 100;
        for start in starts {
            assert_eq!(at, start as u64);
            let (answer, _) = read_piece(&mut tally, &file, at);
            assert_eq!((answer.number, answer.place), (0, 0));
            at += answer.count;
        }
        assert_eq!(at, file.len() as u64);
    }
    tally.finish(48_000, &[0]);
}

#[test]
fn damaged_files() {
    let mut tally = Tally::new("read_piece, damaged and random files");
    let mut rng = Rng::new(19);
    for _ in 0..60_000 {
        let (mut file, starts) = gen::chain(&mut rng, 3);
        let at = rng.pick(&starts);
        for _ in 0..1 + rng.below(3) {
            if at < file.len() {
                gen::damage(&mut rng, &mut file, at);
            }
        }
        for start in starts {
            read_piece(&mut tally, &file, start as u64);
        }
        read_piece(&mut tally, &file, rng.below(900) as u64);
    }
    for _ in 0..50_000 {
        // Random bytes behind a size that fits.
        let len = rng.below(120);
        let mut file = rng.bytes(4 + len);
        let size = rng.below(file.len() + 2) as i32;
        let n = if rng.once_in(4) { -size } else { size };
        file[..4].copy_from_slice(&n.to_be_bytes());
        read_piece(&mut tally, &file, 0);
    }
    tally.finish(290_000, &[0, 5, 6]);
}
