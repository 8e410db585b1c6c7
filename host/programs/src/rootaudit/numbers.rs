//! The numbers that the C interface answers, each with what is wrong, where its place is, what it often comes from and
//! what to do now. For README and for the manual; the line about a file has its own words.

use super::words::{AGAIN, LOOK};
use crate::ffi::number;

pub struct Row {
    pub number: u64,
    pub wrong: &'static str,
    pub place: &'static str,
    pub because: &'static str,
    pub now: &'static str,
}

/// The last number that an audit answers.
pub const LAST_OF_AUDIT: u64 = number::TWICE;

const LOST: &str = "a block was lost or overwritten";
const OPEN: &str = "the file was not closed as it should be";
const LEND: &str = "lend count rows, call again";

const fn row(number: u64, wrong: &'static str, place: &'static str, because: &'static str, now: &'static str) -> Row {
    Row { number, wrong, place, because, now }
}

pub const TABLE: [Row; 25] = [
    row(number::SHORT, "the file is shorter than its header, 100 bytes", "0", "a copy never got going", AGAIN),
    row(number::MAGIC, "it does not begin with \"root\"", "0", "it is another file, or its first block is lost", LOOK),
    row(
        number::WIDE,
        "Version and Units in its header disagree: from Version 1,000,000 on Units is 8, below it 4",
        "0",
        LOST,
        AGAIN,
    ),
    row(
        number::BOUNDS,
        "BEGIN is not 100, or END is not the length, or with Units 4 above 1,999,999,999: the line has both numbers",
        "0",
        "a copy was cut off, or the recorder still writes, or it stopped before it closed the file",
        "if the recorder still writes it, wait; else copy it again, and keep both; but where the line says that its first \
         bytes by themselves would pass, keep it as it is and call an analyst",
    ),
    row(
        number::CHAIN,
        "a record or a gap should begin here, and what stands here has no possible size",
        "that byte",
        LOST,
        AGAIN,
    ),
    row(
        number::KEY,
        "the record here has a damaged key, or says that it stands elsewhere",
        "the record",
        "the same; or the program that wrote it made a key of more than 32,767 bytes",
        AGAIN,
    ),
    row(
        number::UNFINISHED,
        "unfinished: there are more pieces than rows; count is how many. `rootaudit` lends as many and audits again; \
         were that unfinished too, it says `not audited to its end`, with status 2",
        "0",
        "the caller lent too little",
        LEND,
    ),
    row(number::HEAD, "the record of the file itself is damaged", "100", LOST, AGAIN),
    row(
        number::FREE,
        "the list of free space is damaged, or is not that of the gaps",
        "SeekFree",
        "the file was not closed as it should be; or the program that wrote it lists the byte after a gap, and not \
         its last",
        AGAIN,
    ),
    row(number::INFO, "the StreamerInfo record is not where the header says, or is none", "SeekInfo", OPEN, AGAIN),
    row(number::DIRECTORY, "a directory has a damaged header", "the directory", LOST, AGAIN),
    row(number::KEYS, "the list of what a directory holds is damaged, missing or another's", "SeekKeys", OPEN, AGAIN),
    row(
        number::ENTRY,
        "an entry of such a list is not that of a record of the directory",
        "the entry",
        "a record was overwritten after it was listed",
        AGAIN,
    ),
    row(
        number::TWICE,
        "a record is claimed twice",
        "the directory, for its list, or the entry",
        "two lists name the same record",
        AGAIN,
    ),
    row(
        number::NAME,
        "the key would have more than 32,767 bytes: class, name and title are too long together",
        "0",
        "",
        "",
    ),
    row(number::FIELD, "the header would not be well formed, or a value does not fit its field", "0", "", ""),
    row(number::ROOM, "SeekKey + Nbytes lies beyond the buffer", "0", "", ""),
    row(number::DATE, "a date field is not in its range", "0", "", ""),
    row(number::PACKED, "the info record is packed", "the record", "", ""),
    row(number::NOT_INFO, "the piece is no info record", "the place", "", ""),
    row(number::COUNT, "a count, a length or an end is bad", "the field", "", ""),
    row(number::TAG, "a class is unknown, repeated or misplaced", "the tag", "", ""),
    row(number::REFERENCED, "an object is referenced", "the field", "", ""),
    row(number::ROWS, "the table has too few rows; count is how many are needed", "0", "", LEND),
    row(
        number::SALVAGE,
        "no gap covers what breaks the chain: fewer than 4 bytes are left, or it would have more than 2,147,483,648",
        "the fault",
        "",
        "",
    ),
];
