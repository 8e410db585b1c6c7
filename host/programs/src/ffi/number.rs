//! The numbers that are answered: document 01's table, and those of document 02's requests 10 and 07.

pub const SUCCESS: u64 = 0;
pub const SHORT: u64 = 1;
pub const MAGIC: u64 = 2;
/// Version and Units disagree.
pub const WIDE: u64 = 3;
pub const BOUNDS: u64 = 4;
pub const CHAIN: u64 = 5;
pub const KEY: u64 = 6;
pub const UNFINISHED: u64 = 7;
pub const HEAD: u64 = 8;
pub const FREE: u64 = 9;
pub const INFO: u64 = 10;
pub const DIRECTORY: u64 = 11;
pub const KEYS: u64 = 12;
pub const ENTRY: u64 = 13;
pub const TWICE: u64 = 14;
/// The sum of a key to be written is too great.
pub const NAME: u64 = 15;
pub const FIELD: u64 = 16;
/// A buffer is too short for what is to be written.
pub const ROOM: u64 = 17;
pub const DATE: u64 = 18;
pub const PACKED: u64 = 19;
pub const NOT_INFO: u64 = 20;
pub const COUNT: u64 = 21;
pub const TAG: u64 = 22;
pub const REFERENCED: u64 = 23;
pub const ROWS: u64 = 24;
/// No gap covers what breaks the chain.
pub const SALVAGE: u64 = 27;
/// Of a card: a block is not there, or not all of it.
pub const MISSING: u64 = 28;
/// A block has another number.
pub const ORDER: u64 = 29;
pub const CHECK: u64 = 30;
/// What stands behind the file, or END is below 100.
pub const TAIL: u64 = 31;
