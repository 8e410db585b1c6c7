//! Standard output, and the line on the terminal that is cleared before anything is printed.

use super::progress::PAUSE;
use std::io::{self, Write};
use std::time::{Duration, Instant};

pub struct Screen<'a> {
    out: &'a mut dyn Write,
    terminal: Option<&'a mut (dyn Write + Send)>,
    begun: Instant,
    /// When the line is to be renewed.
    due: Instant,
    is_shown: bool,
    /// Whether what was printed last ended its line.
    is_fresh: bool,
}

impl<'a> Screen<'a> {
    pub fn new(out: &'a mut dyn Write, terminal: Option<&'a mut (dyn Write + Send)>) -> Self {
        let begun = Instant::now();
        Screen { out, terminal, begun, due: begun + PAUSE, is_shown: false, is_fresh: true }
    }

    pub fn has_terminal(&self) -> bool {
        self.terminal.is_some()
    }

    /// How long until the line is to be renewed; none if there is no terminal.
    pub fn pause(&self) -> Option<Duration> {
        self.terminal.as_ref().map(|_| self.due.saturating_duration_since(Instant::now()))
    }

    /// Renews the line if it is time. All that was printed must be out.
    pub fn renew(&mut self, line: impl FnOnce(Duration) -> String) {
        let now = Instant::now();
        let Some(terminal) = self.terminal.as_mut().filter(|_| now >= self.due) else { return };
        // A terminal that cannot be written to is no reason to stop.
        let _ = write!(terminal, "\r{}\x1b[K", line(now - self.begun));
        let _ = terminal.flush();
        (self.due, self.is_shown) = (now + PAUSE, true);
    }

    fn clear(&mut self) {
        if let Some(terminal) = self.terminal.as_mut().filter(|_| self.is_shown) {
            // To the line's start, and clear it.
            let _ = write!(terminal, "\r\x1b[K");
            let _ = terminal.flush();
        }
        self.is_shown = false;
    }

    /// Ends a line that was begun.
    pub fn end_line(&mut self) -> io::Result<()> {
        if self.is_fresh {
            return Ok(());
        }
        self.write_all(b"\n")
    }
}

impl Write for Screen<'_> {
    fn write(&mut self, bytes: &[u8]) -> io::Result<usize> {
        if !bytes.is_empty() {
            self.clear();
        }
        let taken = self.out.write(bytes)?;
        self.is_fresh = bytes[..taken].last().map_or(self.is_fresh, |&byte| byte == b'\n');
        Ok(taken)
    }

    fn flush(&mut self) -> io::Result<()> {
        self.out.flush()
    }
}

impl Drop for Screen<'_> {
    fn drop(&mut self) {
        self.clear();
    }
}
