//! Bytes that end where memory ends: to read past them is a fault.

use super::memory::{Memory, PAGE};

const ROOM: usize = 64 * PAGE;

/// ROOM bytes, and a page that cannot be read.
pub struct Edge(Memory);

impl Default for Edge {
    fn default() -> Self {
        let mut memory = Memory::new(ROOM + PAGE).expect("some pages of memory");
        memory.close_last_page();
        Edge(memory)
    }
}

impl Edge {
    /// A copy whose last byte is the last one that can be read.
    pub fn lend(&mut self, bytes: &[u8]) -> &[u8] {
        let lent = &mut self.0.bytes()[ROOM - bytes.len()..];
        lent.copy_from_slice(bytes);
        lent
    }
}
