//! The file as a bar to scale: each piece with the colour and pattern of its part, the fault as a flag, what was
//! not reached in grey, and two ticks, for END of the header and for the real length.

use super::super::header::end_of;
use super::super::pieces::{BEGIN, KINDS, RECORD};
use super::super::words::grouped;
use super::Subject;
use std::io::{self, Write};

/// The drawing's width, what is left free on either side, and its rows from above.
const WIDTH: f64 = 1000.0;
const MARGIN: f64 = 8.0;
const TOP: f64 = 44.0;
const BOTTOM: f64 = 104.0;
const HEIGHT: f64 = 116.0;

/// What is drawn that is no piece: the header, and what was not reached.
pub const HEADER: usize = RECORD + 1;
pub const UNREACHED: usize = RECORD + 2;
const FILLS: usize = RECORD + 3;

/// The colour of each kind of `KINDS`, of the header and of what was not reached, and the lines over it with their
/// colour.
const PATTERNS: [(&str, &str, &str); FILLS] = [
    ("#ffffff", "#555", "M-2 2 L2 -2 M0 8 L8 0 M6 10 L10 6"),
    ("#1f3a7a", "#fff9", "M0 2 H8 M0 6 H8"),
    ("#1c8a8a", "#0008", "M0 4 H8"),
    ("#7d4bb0", "#0008", "M4 0 V8"),
    ("#e08a1e", "#0008", "M0 0 L8 8"),
    ("#8fb8e8", "#0004", "M3 4 H5"),
    ("#3f9a4a", "#0008", "M0 4 H8 M4 0 V8"),
    ("#d9c7a0", "#0008", "M1 1 H3 M5 5 H7"),
    ("#c3d3ea", "#0008", "M0 2 H2 M4 6 H6"),
    ("#222222", "#222", ""),
    ("#b5b5b5", "#b5b5b5", ""),
];

/// A stretch of bytes, and how it is drawn.
struct Stretch {
    start: u64,
    end: u64,
    fill: usize,
}

/// From bytes to the drawing.
struct Scale {
    bytes: f64,
}

impl Scale {
    /// All of the file, and END of the header too unless it lies much farther.
    fn new(len: u64, end: Option<u64>) -> Self {
        let end = end.filter(|&end| end / 4 <= len).unwrap_or(0);
        Scale { bytes: len.max(end).max(1) as f64 }
    }

    fn x(&self, byte: u64) -> f64 {
        (byte as f64 / self.bytes).min(1.0) * WIDTH
    }

    fn is_beyond(&self, byte: u64) -> bool {
        byte as f64 > self.bytes
    }
}

/// The pattern of a kind, as `fill` of an element.
fn fill(kind: usize) -> String {
    format!("url(#p{kind})")
}

/// A small field with the pattern of a kind.
pub fn key(kind: usize) -> String {
    let fill = fill(kind);
    format!("<svg class=\"key\" viewBox=\"0 0 34 16\"><rect x=\".5\" y=\".5\" width=\"33\" height=\"15\" fill=\"{fill}\" stroke=\"#333\"/></svg>")
}

/// How a kind is called.
pub fn label(kind: usize) -> &'static str {
    match kind {
        HEADER => "header of the file",
        UNREACHED => "not reached",
        RECORD => "record (its part is not known)",
        _ => KINDS.get(kind).unwrap_or(&"?"),
    }
}

/// Where more pieces than this would be drawn, columns with their shares are.
const MOST_PIECES: usize = 400;
const COLUMNS: usize = 500;

pub fn write(out: &mut dyn Write, subject: &Subject) -> io::Result<()> {
    let end = end_of(subject.file);
    let scale = Scale::new(subject.len(), end);
    let columns = subject.pieces.len() > MOST_PIECES;
    writeln!(out, "<section>\n<h2>The file, to scale</h2>")?;
    write_flag_label(out, subject, &scale)?;
    let width = WIDTH + 2.0 * MARGIN;
    writeln!(out, "<svg viewBox=\"-{MARGIN} 0 {width} {HEIGHT}\" role=\"img\" aria-label=\"The file as a bar\">")?;
    write_patterns(out)?;
    let paths = if columns { shares(subject, &scale) } else { exact(subject, &scale) };
    for (kind, path) in paths.iter().enumerate().filter(|(_, path)| !path.is_empty()) {
        writeln!(out, "<path fill=\"{}\" d=\"{path}\"/>", fill(kind))?;
    }
    if !columns {
        write_cuts(out, subject, &scale)?;
    }
    write_frame(out, subject.len(), end, &scale)?;
    let ticks = end.map(|end| (end, "END in the header")).into_iter().chain([(subject.len(), "real length")]);
    write_ticks(out, ticks.clone(), &scale)?;
    write_flag(out, subject, &scale)?;
    writeln!(out, "</svg>")?;
    write_tick_labels(out, ticks, &scale)?;
    if columns {
        let bytes = grouped((scale.bytes / COLUMNS as f64).ceil() as u64);
        writeln!(
            out,
            "<p class=\"note\">Each column is {bytes} bytes; the heights in it are the shares of the parts.</p>"
        )?;
    }
    writeln!(out, "</section>")
}

fn write_patterns(out: &mut dyn Write) -> io::Result<()> {
    writeln!(out, "<defs>")?;
    for (kind, (colour, stroke, lines)) in PATTERNS.iter().enumerate() {
        writeln!(
            out,
            "<pattern id=\"p{kind}\" width=\"8\" height=\"8\" patternUnits=\"userSpaceOnUse\"><rect width=\"8\" \
             height=\"8\" fill=\"{colour}\"/><path d=\"{lines}\" stroke=\"{stroke}\" stroke-width=\"1.2\"/></pattern>"
        )?;
    }
    writeln!(out, "</defs>")
}

/// The header, the pieces, and what was not reached.
fn stretches<'a>(subject: &'a Subject<'a>) -> impl Iterator<Item = Stretch> + 'a {
    let (len, reached) = (subject.len(), subject.reached());
    let header = Stretch { start: 0, end: BEGIN.min(len), fill: HEADER };
    let pieces = subject.pieces.iter().map(|piece| Stretch { start: piece.start, end: piece.end(), fill: piece.kind });
    let rest = Stretch { start: reached, end: len, fill: UNREACHED };
    [header]
        .into_iter()
        .chain(pieces)
        .chain([rest])
        .filter(|stretch| stretch.start < stretch.end && stretch.fill < FILLS)
}

/// A rectangle as a part of a path.
fn rectangle(x: f64, y: f64, width: f64, height: f64) -> String {
    format!("M{x:.2} {y:.2}h{width:.2}v{height:.2}h-{width:.2}z")
}

/// A path for each kind, of a rectangle a piece.
fn exact(subject: &Subject, scale: &Scale) -> Vec<String> {
    let mut paths = vec![String::new(); FILLS];
    for stretch in stretches(subject) {
        let (left, right) = (scale.x(stretch.start), scale.x(stretch.end));
        paths[stretch.fill] += &rectangle(left, TOP, right - left, BOTTOM - TOP);
    }
    paths
}

/// A path for each kind: in each column its share, above those of the kinds before it.
fn shares(subject: &Subject, scale: &Scale) -> Vec<String> {
    let mut paths = vec![String::new(); FILLS];
    let (width, bytes) = (WIDTH / COLUMNS as f64, scale.bytes / COLUMNS as f64);
    for (column, shares) in bytes_of_columns(subject, bytes).iter().enumerate() {
        let mut y = BOTTOM;
        for (kind, share) in shares.iter().enumerate().filter(|(_, &share)| share > 0.0) {
            let height = share / bytes * (BOTTOM - TOP);
            y -= height;
            paths[kind] += &rectangle(column as f64 * width, y, width, height);
        }
    }
    paths
}

/// How many bytes of each kind lie in each column of so many bytes.
fn bytes_of_columns(subject: &Subject, bytes: f64) -> Vec<[f64; FILLS]> {
    let mut columns = vec![[0.0; FILLS]; COLUMNS];
    for stretch in stretches(subject) {
        let (start, end) = (stretch.start as f64, stretch.end as f64);
        let first = ((start / bytes) as usize).min(COLUMNS - 1);
        let last = ((end / bytes) as usize).min(COLUMNS - 1);
        for (column, shares) in columns.iter_mut().enumerate().take(last + 1).skip(first) {
            let (left, right) = (column as f64 * bytes, (column + 1) as f64 * bytes);
            shares[stretch.fill] += (end.min(right) - start.max(left)).max(0.0);
        }
    }
    columns
}

/// A thin line where each piece begins.
fn write_cuts(out: &mut dyn Write, subject: &Subject, scale: &Scale) -> io::Result<()> {
    let lines: String =
        subject.pieces.iter().map(|piece| format!("M{:.2} {TOP}V{BOTTOM}", scale.x(piece.start))).collect();
    writeln!(out, "<path d=\"{lines}\" stroke=\"#000\" stroke-opacity=\".6\" stroke-width=\".6\"/>")
}

/// The outline of what is there, and a broken one of what the header says should follow.
fn write_frame(out: &mut dyn Write, len: u64, end: Option<u64>, scale: &Scale) -> io::Result<()> {
    let (there, height) = (scale.x(len), BOTTOM - TOP);
    writeln!(
        out,
        "<rect x=\"0\" y=\"{TOP}\" width=\"{there:.2}\" height=\"{height}\" fill=\"none\" stroke=\"#000\"/>"
    )?;
    match end {
        Some(end) if end > len => writeln!(
            out,
            "<rect x=\"{there:.2}\" y=\"{TOP}\" width=\"{:.2}\" height=\"{height}\" fill=\"none\" stroke=\"#b00014\" \
             stroke-dasharray=\"6 4\"/>",
            scale.x(end) - there
        ),
        _ => Ok(()),
    }
}

/// A label as text beside a line of the drawing, on the side that has more room: the text keeps its size where the
/// drawing is narrow.
fn write_label(out: &mut dyn Write, class: &str, x: f64, words: &str) -> io::Result<()> {
    let left = (x + MARGIN) / (WIDTH + 2.0 * MARGIN) * 100.0;
    let (side, room) = if is_right(x) { ("right", 100.0 - left) } else { ("left", left) };
    writeln!(out, "<p class=\"{class} {side}\" style=\"margin-{side}:calc({room:.2}% - 1px)\">{words}</p>")
}

/// Whether a place of the drawing lies in its right half.
fn is_right(x: f64) -> bool {
    x > WIDTH / 2.0
}

/// Places in the file, and what they are.
fn write_ticks<'a>(out: &mut dyn Write, ticks: impl Iterator<Item = (u64, &'a str)>, scale: &Scale) -> io::Result<()> {
    let lines: String = ticks.map(|(byte, _)| format!("M{:.2} {BOTTOM}V{HEIGHT}", scale.x(byte))).collect();
    writeln!(out, "<path class=\"line\" d=\"{lines}\" stroke=\"#000\" stroke-width=\"2\"/>")
}

fn write_tick_labels<'a>(
    out: &mut dyn Write,
    mut ticks: impl Iterator<Item = (u64, &'a str)>,
    scale: &Scale,
) -> io::Result<()> {
    ticks.try_for_each(|(byte, words)| {
        let far = if scale.is_beyond(byte) { ", far beyond this drawing" } else { "" };
        write_label(out, "tick", scale.x(byte), &format!("{words}: {}{far}", grouped(byte)))
    })
}

/// The refusal at its byte.
fn write_flag(out: &mut dyn Write, subject: &Subject, scale: &Scale) -> io::Result<()> {
    let Some((_, place)) = subject.fault() else { return Ok(()) };
    let x = scale.x(place);
    let side = if is_right(x) { -22 } else { 22 };
    writeln!(
        out,
        "<path class=\"line\" d=\"M{x:.2} {BOTTOM}V0\" stroke=\"#b00014\" stroke-width=\"2\"/>\
         <path d=\"M{x:.2} 4l{side} 12l{} 12z\" fill=\"#b00014\"/>",
        -side
    )
}

fn write_flag_label(out: &mut dyn Write, subject: &Subject, scale: &Scale) -> io::Result<()> {
    let Some((number, place)) = subject.fault() else { return Ok(()) };
    let far = if scale.is_beyond(place) { ", beyond the end" } else { "" };
    let words = format!("refused {number} at byte {}{far}", grouped(place));
    write_label(out, "flag", scale.x(place), &words)
}
