//! What a piece is, as the audit's table of parts says it.

pub const GAP: u64 = 0;
pub const HEAD: u64 = 1;
pub const FREE: u64 = 2;
pub const INFO: u64 = 3;
pub const KEYS: u64 = 4;
pub const LISTED: u64 = 5;
pub const DIR: u64 = 6;
pub const UNLISTED: u64 = 7;

/// Each part in a word, by its number.
pub const NAMES: [&str; 8] = ["gap", "head", "free", "info", "keys", "listed", "dir", "unlisted"];
