//! Names as text. Different bytes give different texts, and none can be taken for a line of the command.

use std::fmt::Write;

/// Bytes as one line to be read: printable ASCII and UTF-8 letters stand for themselves. All else is escaped:
/// backslashes, control characters, characters that are not seen or change how others are shown, and bytes
/// that are no UTF-8; and a colon before a blank or at the end, so that the first ": " of a line ends the name.
pub fn text(bytes: &[u8]) -> String {
    let mut text = String::new();
    for chunk in bytes.utf8_chunks() {
        for c in chunk.valid().chars() {
            push_char(&mut text, c);
        }
        for byte in chunk.invalid() {
            push_byte(&mut text, *byte);
        }
    }
    let mut text = text.replace(": ", "\\x3a ");
    if text.ends_with(':') {
        text.pop();
        push_byte(&mut text, b':');
    }
    text
}

/// The same in ASCII alone, byte by byte: a program can get the bytes back.
pub fn ascii(bytes: &[u8]) -> String {
    let mut text = String::new();
    for &byte in bytes {
        match byte {
            b'\\' => text.push_str("\\\\"),
            b' '..=b'~' => text.push(byte.into()),
            _ => push_byte(&mut text, byte),
        }
    }
    text
}

fn push_char(text: &mut String, c: char) {
    match c {
        ' '..='~' if c != '\\' => text.push(c),
        // A backslash, control characters and what Unicode has as not printable or as a mark on another.
        _ => text.extend(c.escape_debug()),
    }
}

/// Whether a character beyond ASCII is seen, and leaves others as they are.
pub fn is_plain(c: char) -> bool {
    c.escape_debug().count() == 1
}

fn push_byte(text: &mut String, byte: u8) {
    // A string takes all that is written.
    let _ = write!(text, "\\x{byte:02x}");
}
