//! What is told of one file: first what was found, then its page and its rows, and last that this was all of it, or
//! that what was told no longer holds. Between two processes a message goes as a frame.

use super::stamp::{self, Stamp};
use std::io;

#[derive(Clone, Copy, Debug, PartialEq, Eq)]
pub enum Message<'a> {
    /// The exit status for this file alone, its stamp if it was audited, and its line if it is to be printed.
    Found {
        status: u8,
        stamp: Option<Stamp>,
        line: &'a [u8],
    },
    Page(&'a [u8]),
    /// Whole lines.
    Rows(&'a [u8]),
    /// All was told.
    Done,
    /// It was not audited to its end, or all of it was not told, and why.
    Lost(&'a str),
}

/// Who hears it.
pub type Hear<'a> = &'a mut dyn FnMut(Message) -> io::Result<()>;

/// Text comes in pieces of about this size.
pub const CHUNK: usize = 1 << 16;

/// A message about the file of this number, as it came from another process.
#[derive(Debug)]
pub struct Frame {
    pub nth: usize,
    kind: u8,
    bytes: Vec<u8>,
}

/// The kinds, in the order of the messages.
const FOUND: u8 = 0;
const PAGE: u8 = 1;
const ROWS: u8 = 2;
const DONE: u8 = 3;
const LOST: u8 = 4;

/// The number of the file, the kind, and how many bytes follow.
const HEAD: usize = 8 + 1 + 4;

impl Frame {
    pub fn new(nth: usize, message: Message) -> Self {
        let (kind, bytes) = match message {
            Message::Found { status, stamp, line } => {
                let stamp = stamp.map(|stamp| stamp.to_bytes());
                let stamp = stamp.as_ref().map_or(&[][..], |stamp| &stamp[..]);
                (FOUND, [&[status, stamp.len() as u8], stamp, line].concat())
            }
            Message::Page(bytes) => (PAGE, bytes.to_vec()),
            Message::Rows(bytes) => (ROWS, bytes.to_vec()),
            Message::Done => (DONE, Vec::new()),
            Message::Lost(why) => (LOST, why.into()),
        };
        Frame { nth, kind, bytes }
    }

    pub fn put(&self, out: &mut Vec<u8>) {
        out.extend((self.nth as u64).to_le_bytes());
        out.push(self.kind);
        out.extend((self.bytes.len() as u32).to_le_bytes());
        out.extend(&self.bytes);
    }

    /// The file that the first frame of these bytes is about, if so much of it has come.
    pub fn file(bytes: &[u8]) -> Option<usize> {
        let nth = u64::from_le_bytes(*bytes.first_chunk()?);
        Some(usize::try_from(nth).unwrap_or(usize::MAX))
    }

    /// The first frame of these bytes and how many it takes, if it has come whole.
    pub fn take(bytes: &[u8]) -> Option<(Self, usize)> {
        let nth = Self::file(bytes)?;
        let (&[kind], rest) = bytes[8..].split_first_chunk()?;
        let (len, rest) = rest.split_first_chunk()?;
        let bytes = rest.get(..u32::from_le_bytes(*len) as usize)?.to_vec();
        let taken = HEAD + bytes.len();
        Some((Frame { nth, kind, bytes }, taken))
    }

    /// None if it is no message.
    pub fn message(&self) -> Option<Message<'_>> {
        Some(match self.kind {
            FOUND => {
                let (&[status, len], rest) = self.bytes.split_first_chunk()?;
                let (stamp, line) = rest.split_at_checked(len.into())?;
                let stamp = if len == 0 { None } else { Some(Stamp::from_bytes(stamp.try_into().ok()?)) };
                Message::Found { status, stamp, line }
            }
            PAGE => Message::Page(&self.bytes),
            ROWS => Message::Rows(&self.bytes),
            DONE if self.bytes.is_empty() => Message::Done,
            LOST => Message::Lost(std::str::from_utf8(&self.bytes).ok()?),
            _ => return None,
        })
    }

    /// How much memory it takes, about.
    pub fn size(&self) -> usize {
        HEAD + self.bytes.len()
    }

    /// Whether it is the last about its file.
    pub fn is_last(&self) -> bool {
        [DONE, LOST].contains(&self.kind)
    }
}

const _: () = assert!(stamp::BYTES <= u8::MAX as usize);
