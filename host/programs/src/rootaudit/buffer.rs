//! Text that is kept until it may be printed: all of it, or as many lines as make a message.

use super::message::{Hear, Message, CHUNK};
use std::io::{self, Write};

/// Where there is no memory for it, writing fails.
#[derive(Default)]
pub struct Buffer(pub Vec<u8>);

impl Write for Buffer {
    fn write(&mut self, bytes: &[u8]) -> io::Result<usize> {
        self.0.try_reserve(bytes.len()).map_err(|_| io::ErrorKind::OutOfMemory)?;
        self.0.extend_from_slice(bytes);
        Ok(bytes.len())
    }

    fn flush(&mut self) -> io::Result<()> {
        Ok(())
    }
}

/// Rows on their way, in messages of whole lines.
pub struct Lines<'a> {
    hear: Hear<'a>,
    kept: Buffer,
    /// Whether nobody hears it any more.
    pub is_broken: bool,
}

impl<'a> Lines<'a> {
    pub fn new(hear: Hear<'a>) -> Self {
        Lines { hear, kept: Buffer::default(), is_broken: false }
    }

    /// Sends what is left.
    pub fn finish(&mut self) -> io::Result<()> {
        self.send(self.kept.0.len())
    }

    fn send(&mut self, len: usize) -> io::Result<()> {
        if len > 0 {
            let sent = (self.hear)(Message::Rows(&self.kept.0[..len]));
            self.is_broken = sent.is_err();
            sent?;
            self.kept.0.drain(..len);
        }
        Ok(())
    }
}

impl Write for Lines<'_> {
    fn write(&mut self, bytes: &[u8]) -> io::Result<usize> {
        let taken = self.kept.write(bytes)?;
        if self.kept.0.len() >= CHUNK && bytes.contains(&b'\n') {
            let end = self.kept.0.iter().rposition(|&byte| byte == b'\n').map_or(0, |last| last + 1);
            self.send(end)?;
        }
        Ok(taken)
    }

    fn flush(&mut self) -> io::Result<()> {
        Ok(())
    }
}
