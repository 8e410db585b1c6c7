//! The parts that document 01 gives to the pieces of a file.

counted! { GAP HEAD FREE INFO KEYS LISTED DIR UNLISTED }

/// Each in a word, by its number.
pub const NAMES: [&str; 8] = ["gap", "head", "free", "info", "keys", "listed", "dir", "unlisted"];
