//! Inputs for the tests, valid and damaged. A seed gives the same inputs in every run.

use fields::low_bytes;
use second::key::NewKey;
use second::width;
use strings::{any_length, counted, length_size};

pub mod broken;
pub mod cards;
pub mod faults;
pub mod fields;
pub mod files;
pub mod gaps;
pub mod infos;
pub mod mixes;
pub mod nested;
pub mod shapes;
pub mod strings;

/// The splitmix64 generator.
pub struct Rng(u64);

impl Rng {
    pub fn new(seed: u64) -> Self {
        Rng(seed)
    }

    pub fn u64(&mut self) -> u64 {
        self.0 = self.0.wrapping_add(0x9e37_79b9_7f4a_7c15);
        let mut z = self.0;
        z = (z ^ z >> 30).wrapping_mul(0xbf58_476d_1ce4_e5b9);
        z = (z ^ z >> 27).wrapping_mul(0x94d0_49bb_1331_11eb);
        z ^ z >> 31
    }

    pub fn u32(&mut self) -> u32 {
        self.u64() as u32
    }

    /// A number below `end`.
    pub fn below(&mut self, end: usize) -> usize {
        (self.u64() % end as u64) as usize
    }

    /// True once in `n` times.
    pub fn once_in(&mut self, n: usize) -> bool {
        self.below(n) == 0
    }

    pub fn pick<T: Copy>(&mut self, items: &[T]) -> T {
        items[self.below(items.len())]
    }

    /// Any number of `width` bytes, small ones as often as great ones.
    pub fn offset(&mut self, width: usize) -> u64 {
        self.u64() >> (64 - 8 * width + self.below(8 * width))
    }

    pub fn bytes(&mut self, len: usize) -> Vec<u8> {
        (0..len).map(|_| self.u64() as u8).collect()
    }
}

/// A key header to lay down as it stands, well formed or not. Of an offset as much is laid down as the version has
/// bytes for, and a string is laid down in the form of its length.
#[derive(Clone, Debug)]
pub struct RawKey {
    pub nbytes: u32,
    pub version: u16,
    pub objlen: u32,
    pub datime: u32,
    pub keylen: u16,
    pub cycle: u16,
    pub seek_key: u64,
    pub seek_pdir: u64,
    pub strings: [Vec<u8>; 3],
}

impl RawKey {
    /// The bytes of each of its offsets.
    pub fn width(&self) -> usize {
        width::of(self.version.into())
    }

    /// What the header takes.
    pub fn sum(&self) -> usize {
        self.strings.iter().fold(18 + 2 * self.width(), |sum, string| sum + length_size(string.len()) + string.len())
    }

    pub fn header(&self) -> Vec<u8> {
        self.header_with(&self.strings.each_ref().map(|string| counted(string)))
    }

    /// The header with these in the place of its strings and their lengths.
    pub fn header_with(&self, strings: &[Vec<u8>; 3]) -> Vec<u8> {
        let mut bytes = Vec::with_capacity(self.sum());
        bytes.extend(self.nbytes.to_be_bytes());
        bytes.extend(self.version.to_be_bytes());
        bytes.extend(self.objlen.to_be_bytes());
        bytes.extend(self.datime.to_be_bytes());
        bytes.extend(self.keylen.to_be_bytes());
        bytes.extend(self.cycle.to_be_bytes());
        for offset in [self.seek_key, self.seek_pdir] {
            bytes.extend(low_bytes(offset, self.width()));
        }
        strings.iter().for_each(|string| bytes.extend(string));
        bytes
    }

    /// The header, and random bytes up to Nbytes.
    pub fn record(&self, rng: &mut Rng) -> Vec<u8> {
        let mut bytes = self.header();
        let rest = (self.nbytes as usize).saturating_sub(bytes.len());
        bytes.extend(rng.bytes(rest));
        bytes
    }

    /// What the key writer takes to write this header, if it is plain.
    pub fn to_write(&self) -> NewKey<'_> {
        let [class, name, title] = &self.strings;
        NewKey {
            nbytes: self.nbytes,
            version: self.version.into(),
            objlen: self.objlen,
            datime: self.datime,
            cycle: i32::from(self.cycle as i16),
            seek_key: self.seek_key,
            seek_pdir: self.seek_pdir,
            class,
            name,
            title,
        }
    }
}

/// A key of a plain record at `at`, with strings of these lengths and `data` bytes of data.
pub fn plain_key_of(rng: &mut Rng, at: u64, lengths: [usize; 3], data: usize) -> RawKey {
    let version = 1 + rng.below(width::MOST as usize) as u16;
    versioned_key(rng, version, at, lengths, data)
}

/// The same of a version.
pub fn versioned_key(rng: &mut Rng, version: u16, at: u64, lengths: [usize; 3], data: usize) -> RawKey {
    let mut key = RawKey {
        nbytes: 0,
        version,
        objlen: rng.u32() >> 1,
        datime: rng.u32(),
        keylen: 0,
        cycle: rng.u64() as u16,
        seek_key: at,
        seek_pdir: rng.offset(width::of(version.into())),
        strings: lengths.map(|len| rng.bytes(len)),
    };
    key.keylen = key.sum() as u16;
    key.nbytes = (key.sum() + data) as u32;
    key
}

/// A key of a plain record at `at`.
pub fn plain_key(rng: &mut Rng, at: u64) -> RawKey {
    let lengths = [0; 3].map(|_| any_length(rng));
    let data = rng.below(80);
    plain_key_of(rng, at, lengths, data)
}

/// A key of a record at `at` whose KeyLen is above its sum, as a basket's is.
pub fn basket_key(rng: &mut Rng, at: u64) -> RawKey {
    let mut key = plain_key(rng, at);
    let more = 1 + rng.below(24);
    key.keylen += more as u16;
    key.nbytes += more as u32;
    key
}

/// A gap of at least 4 bytes.
pub fn gap(rng: &mut Rng, size: usize) -> Vec<u8> {
    let mut bytes = (-(size as i32)).to_be_bytes().to_vec();
    bytes.extend(rng.bytes(size - 4));
    bytes
}

/// 100 random bytes, then valid pieces. The file and where its pieces start.
pub fn chain(rng: &mut Rng, pieces: usize) -> (Vec<u8>, Vec<usize>) {
    let mut file = rng.bytes(100);
    let mut starts = Vec::new();
    for _ in 0..pieces {
        let at = file.len();
        starts.push(at);
        let piece = match rng.below(4) {
            0 => {
                let size = 4 + rng.below(40);
                gap(rng, size)
            }
            1 => basket_key(rng, at as u64).record(rng),
            _ => plain_key(rng, at as u64).record(rng),
        };
        file.extend(piece);
    }
    (file, starts)
}

/// Damages a file near the header at `at`: a byte, a number, its end, or a shift of what follows.
pub fn damage(rng: &mut Rng, file: &mut Vec<u8>, at: usize) {
    let header = at..file.len().min(at + 68);
    let place = header.start + rng.below(header.len());
    match rng.below(8) {
        0..=2 => file[place] = rng.u64() as u8,
        3 => file[place] ^= 1 << rng.below(8),
        4 => {
            let near =
                rng.pick(&[0u32, 1, 4, 29, 37, 255, 1000, 2000, 32767, 65535, 0x7fff_ffff, 0x8000_0000, u32::MAX]);
            let number = near.wrapping_add(rng.below(3) as u32).wrapping_sub(1).to_be_bytes();
            let fits = number.len().min(file.len() - place);
            file[place..place + fits].copy_from_slice(&number[..fits]);
        }
        5 => file.truncate(place),
        6 => file.insert(place, rng.u64() as u8),
        _ => drop(file.remove(place)),
    }
}

/// What document 01 prints for one.root.
pub const ONE_ROOT_LIST: &str = "\
passed 5
100 68 head 0
168 50 listed 100
218 79 keys 100
297 12 gap 0
309 55 free 0
";

/// The same of its wide form.
pub const WIDE_ROOT_LIST: &str = "\
passed 5
100 88 head 0
188 58 listed 100
246 95 keys 100
341 12 gap 0
353 79 free 0
";

/// The project's small file: its head, one object, its keys list, a gap of 12 bytes and its free list.
pub fn one_root() -> Vec<u8> {
    Small { w: 4, versions: [62400, 4, 5, 1], starts: [168, 218, 297, 309, 364], last: 2_000_000_000 }.bytes()
}

/// The same with eight-byte offsets in the file header, the keys, the directory header and the segments.
pub fn wide_root() -> Vec<u8> {
    Small { w: 8, versions: [1_062_400, 1004, 1005, 1001], starts: [188, 246, 341, 353, 432], last: 6_000_000_000 }
        .bytes()
}

const DATIME: u32 = 1_960_757_165;

/// A form of the small file.
struct Small {
    /// The bytes of an offset.
    w: usize,
    /// Of the file, a key, the directory header and a segment.
    versions: [u32; 4],
    /// Where "x", the keys list, the gap and the free list stand, and END.
    starts: [u64; 5],
    /// Of the final segment.
    last: u64,
}

impl Small {
    fn key(&self, at: u64, end: u64, seek_pdir: u64, class: &str, name: &str) -> Vec<u8> {
        let strings = [class, name, ""].map(|string| string.as_bytes().to_vec());
        let keylen = (18 + 2 * self.w + 3 + class.len() + name.len()) as u16;
        let (nbytes, version) = ((end - at) as u32, self.versions[1] as u16);
        let objlen = nbytes - u32::from(keylen);
        RawKey { nbytes, version, objlen, datime: DATIME, keylen, cycle: 1, seek_key: at, seek_pdir, strings }.header()
    }

    fn offsets(&self, offsets: &[u64]) -> Vec<u8> {
        offsets.iter().flat_map(|&offset| low_bytes(offset, self.w)).collect()
    }

    fn segment(&self, first: u64, last: u64) -> Vec<u8> {
        [low_bytes(self.versions[3].into(), 2), self.offsets(&[first, last])].concat()
    }

    /// Its header, 100 bytes. No info record.
    fn header(&self) -> Vec<u8> {
        let [_, _, _, free, end] = self.starts;
        let mut file = b"root".to_vec();
        file.extend(numbers(&[self.versions[0], 100]));
        file.extend(self.offsets(&[end, free]));
        file.extend(numbers(&[(end - free) as u32, 2, self.named()]));
        file.push(self.w as u8);
        file.extend(numbers(&[1]));
        file.resize(100, 0);
        file
    }

    /// NbytesName.
    fn named(&self) -> u32 {
        (18 + 2 * self.w + 3 + 6 + 3) as u32
    }

    fn bytes(&self) -> Vec<u8> {
        let [x, keys, gap, free, end] = self.starts;
        let key_of_x = self.key(x, keys, 100, "TObjString", "x");
        let mut file = self.header();
        // The head: its name and title, and the directory header.
        file.extend(self.key(100, x, 0, "TFile", "a"));
        file.extend(b"\x01a\x00");
        file.extend(low_bytes(self.versions[2].into(), 2));
        file.extend(numbers(&[DATIME, DATIME, (gap - keys) as u32, self.named()]));
        file.extend(self.offsets(&[100, 0, keys]));
        // The object "x".
        file.extend(&key_of_x);
        file.extend([7; 10]);
        // The keys list.
        file.extend(self.key(keys, gap, 100, "TFile", "a"));
        file.extend(numbers(&[1]));
        file.extend(&key_of_x);
        // The gap.
        file.extend((-12i32).to_be_bytes());
        file.extend([0; 8]);
        // The free list.
        file.extend(self.key(free, end, 100, "TFile", "a"));
        file.extend(self.segment(gap, free - 1));
        file.extend(self.segment(end, self.last));
        file
    }
}

fn numbers(numbers: &[u32]) -> Vec<u8> {
    numbers.iter().flat_map(|number| number.to_be_bytes()).collect()
}
