//! Lent memory longer than 32 bits can say.

use super::memory::Memory;
use crate::gen::gaps::Gapped;

pub const LEN: usize = (1 << 32) + 4096;

/// Zeros, of which only the pages that are written take memory.
pub struct Zeros(Memory);

impl Zeros {
    /// None, and a word about it, if there is no such memory.
    pub fn new() -> Option<Self> {
        Self::of(LEN)
    }

    /// The same of so many bytes.
    pub fn of(len: usize) -> Option<Self> {
        let memory = Memory::new(len);
        if memory.is_none() {
            println!("skipped: {len} bytes of memory are not to be had");
        }
        memory.map(Zeros)
    }

    pub fn bytes(&mut self) -> &mut [u8] {
        self.0.bytes()
    }

    pub fn put(&mut self, at: usize, bytes: &[u8]) {
        self.bytes()[at..at + bytes.len()].copy_from_slice(bytes);
    }

    /// Writes each stretch of bytes at its place.
    pub fn lay_all(&mut self, stretches: &[(usize, Vec<u8>)]) {
        for (at, bytes) in stretches {
            self.put(*at, bytes);
        }
    }

    /// Puts zeros there again.
    pub fn clear_all(&mut self, stretches: &[(usize, Vec<u8>)]) {
        for (at, bytes) in stretches {
            self.put(*at, &vec![0; bytes.len()]);
        }
    }

    pub fn lay(&mut self, file: &Gapped) {
        self.lay_all(&file.stretches);
    }

    pub fn clear(&mut self, file: &Gapped) {
        self.clear_all(&file.stretches);
    }

    /// The first bytes, and those from 300 before `at` up to `len`.
    pub fn windows(&mut self, at: usize, len: usize) -> [Vec<u8>; 2] {
        [0..4096, at - 300..len].map(|window| self.bytes()[window].to_vec())
    }
}
