//! Key headers, pieces, the key writer and packed dates.

mod dates;
mod examples;
mod large;
mod long_strings;
mod pieces;
mod root_files;
mod writer;
