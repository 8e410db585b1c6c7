//! Files whose chain is broken, for salvage.

use super::fields::{low_bytes, Field, HeaderAt};
use super::files::{Built, Versions};
use super::{gap, nested, plain_key_of, versioned_key, Rng};
use second::audit::BEGIN;
use second::width;

/// Puts a good header there, with END at the end.
pub fn open(file: &mut [u8], is_wide: bool) {
    let version = Versions::of(is_wide).file;
    let header = HeaderAt { width: width::of_file(version) };
    file[..4].copy_from_slice(b"root");
    for (field, number) in [
        (HeaderAt::VERSION, version as usize),
        (HeaderAt::BEGIN, BEGIN),
        (header.end(), file.len()),
        (header.units(), header.width),
    ] {
        field.put(file, number as u64);
    }
}

/// A good header, then pieces of any kind, bytes that are none, and gaps of 4, some of them damaged.
pub fn any_pieces(rng: &mut Rng) -> Vec<u8> {
    let mut file = rng.bytes(BEGIN);
    for _ in 0..rng.below(9) {
        let more = match rng.below(8) {
            0..=2 => {
                let size = 4 + rng.below(40);
                gap(rng, size)
            }
            3..=5 => {
                let lengths = [rng.below(5), rng.pick(&[0, 1, 3, 260]), 0];
                let data = rng.below(60);
                plain_key_of(rng, file.len() as u64, lengths, data).record(rng)
            }
            6 => GAP_OF_4.repeat(1 + rng.below(20)),
            _ => {
                let len = 1 + rng.below(30);
                rng.bytes(len)
            }
        };
        file.extend(more);
    }
    open(&mut file, rng.once_in(3));
    for _ in 0..rng.below(3) {
        let at = rng.below(file.len());
        if at >= BEGIN {
            file[at] = rng.u64() as u8;
        }
    }
    file
}

/// A good header, then bytes of which many begin a gap: gaps overlap everywhere.
pub fn overlapping(rng: &mut Rng) -> Vec<u8> {
    let mut file = vec![0; BEGIN];
    let bytes = rng.pick(&[&[0xff, 0xff, 0xff, 0xfc][..], &[0xff, 0xff, 0xff, 0xfc, 0xfb, 0xf8, 0], &[0xff, 0xfc, 0]]);
    file.extend((0..rng.below(120)).map(|_| rng.pick(bytes)));
    open(&mut file, rng.once_in(2));
    file
}

const GAP_OF_4: [u8; 4] = [0xff, 0xff, 0xff, 0xfc];
const GAP_OF_8: [u8; 4] = [0xff, 0xff, 0xff, 0xf8];

/// A name, and a file of about so many bytes, at least 30,000.
pub struct Shape {
    pub name: &'static str,
    pub bytes: fn(usize) -> Vec<u8>,
}

/// The shapes of the benchmarks. In the first six nothing behind the fault at 100 fills the file, so that every place is
/// tried; the others are files as they would be written.
pub const ALL: [Shape; 9] = [
    Shape { name: "gaps-of-4", bytes: |len| after_fault(len, |_| GAP_OF_4.to_vec()) },
    Shape { name: "gaps-of-8", bytes: |len| after_fault(len, |_| GAP_OF_8.to_vec()) },
    Shape { name: "past-end", bytes: past_end },
    Shape { name: "records", bytes: |len| after_fault(len, |at| record_of(at, 60)) },
    Shape { name: "noise", bytes: noise },
    Shape { name: "two-breaks", bytes: two_breaks },
    Shape { name: "broken", bytes: |len| broken(tree(len)) },
    Shape { name: "broken-large", bytes: |len| broken(nested::plan(&mut Rng::new(1), 300, len / 300).build()) },
    Shape { name: "whole", bytes: |len| tree(len).bytes },
];

/// A fault, then these again and again, then a byte: no piece ends at END.
fn after_fault(len: usize, next: impl Fn(usize) -> Vec<u8>) -> Vec<u8> {
    let mut file = vec![0; BEGIN + 4];
    while file.len() < len {
        file.extend(next(file.len()));
    }
    file.push(0);
    open(&mut file, false);
    file
}

/// A record at a place, of so many bytes.
fn record_of(at: usize, size: usize) -> Vec<u8> {
    let mut key = versioned_key(&mut Rng::new(at as u64), 4, at as u64, [4, 4, 5], 0);
    key.nbytes = size as u32;
    key.record(&mut Rng::new(at as u64))
}

/// The same, each record with a size that ends one past END.
fn past_end(len: usize) -> Vec<u8> {
    let mut file = after_fault(len, |at| record_of(at, 60));
    let end = file.len();
    for at in (BEGIN + 4..end - 60).step_by(60) {
        Field { at, width: 4 }.put(&mut file, (end + 1 - at) as u64);
    }
    file
}

fn noise(len: usize) -> Vec<u8> {
    let mut rng = Rng::new(10);
    let mut file = [vec![0; BEGIN + 4], rng.bytes(len - BEGIN - 4)].concat();
    open(&mut file, false);
    file
}

/// A tree of directories, about as long.
fn tree(len: usize) -> Built {
    nested::plan(&mut Rng::new(1), (len / 100).next_multiple_of(20), 0).build()
}

/// Takes away the size of the piece at a place.
fn break_at(file: &mut [u8], at: usize) {
    file[at..at + 4].fill(0);
}

/// Its head and its last piece are broken.
fn two_breaks(len: usize) -> Vec<u8> {
    let Built { mut bytes, sites, .. } = tree(len);
    let last = sites.iter().map(|site| site.start).max().unwrap_or(BEGIN);
    break_at(&mut bytes, BEGIN);
    break_at(&mut bytes, last);
    bytes
}

/// A piece in the middle of the file is broken.
fn broken(file: Built) -> Vec<u8> {
    let Built { mut bytes, sites, .. } = file;
    let mut starts: Vec<usize> = sites.iter().map(|site| site.start).collect();
    starts.sort_unstable();
    break_at(&mut bytes, starts[starts.len() / 2]);
    bytes
}

/// A gap at a place that ends at another.
pub fn lay_gap(file: &mut [u8], from: usize, to: usize) {
    file[from..from + 4].copy_from_slice(&low_bytes(((to - from) as u64).wrapping_neg(), 4));
}
