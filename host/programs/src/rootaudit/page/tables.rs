//! Totals by part, the pieces, and those around a fault.

use super::super::pieces::{key_at, Piece, BEGIN, KINDS};
use super::super::words::{grouped, is_break};
use super::bar::{key, label, HEADER, UNREACHED};
use super::{name_of, Subject};
use crate::ffi::number;
use crate::rootaudit::verdict::Verdict;
use std::io::{self, Write};

/// How many pieces are shown from either end of a long list, and on either side of a fault.
const SHOWN: usize = 500;
const AROUND: usize = 5;

pub fn write_totals(out: &mut dyn Write, subject: &Subject) -> io::Result<()> {
    let (len, reached) = (subject.len(), subject.reached());
    let mut totals = vec![(0, 0); KINDS.len()];
    for piece in &subject.pieces {
        if let Some((pieces, bytes)) = totals.get_mut(piece.kind) {
            *pieces += 1;
            *bytes += piece.size;
        }
    }
    writeln!(
        out,
        "<section>\n<h2>Totals by part</h2>\n<div class=\"box\">\n<table>\n<thead><tr><th></th><th>part</th>\
         <th class=\"n\">pieces</th><th class=\"n\">bytes</th><th class=\"n\">share</th></tr></thead>\n<tbody>"
    )?;
    let header = (HEADER, (None, BEGIN.min(len)));
    let kinds = totals.iter().enumerate().map(|(kind, &(pieces, bytes))| (kind, (Some(pieces), bytes)));
    let rest = (UNREACHED, (None, len - reached));
    for (kind, (pieces, bytes)) in [header].into_iter().chain(kinds).chain([rest]).filter(|(_, (_, bytes))| *bytes > 0)
    {
        let pieces = pieces.map(grouped).unwrap_or_default();
        let share = bytes as f64 * 100.0 / len as f64;
        writeln!(
            out,
            "<tr><td>{}</td><td>{}</td><td class=\"n\">{pieces}</td><td class=\"n\">{}</td><td class=\"n\">{share:.2} %</td></tr>",
            key(kind),
            label(kind),
            grouped(bytes)
        )?;
    }
    let all = grouped(subject.pieces.len() as u64);
    writeln!(
        out,
        "<tr><td></td><td>all</td><td class=\"n\">{all}</td><td class=\"n\">{}</td><td></td></tr>",
        grouped(len)
    )?;
    writeln!(out, "</tbody>\n</table>\n</div>\n</section>")
}

/// The ten pieces around a fault, and where it lies among them.
pub fn write_around(out: &mut dyn Write, subject: &Subject) -> io::Result<()> {
    let Some((number, place)) = subject.fault() else { return Ok(()) };
    let pieces = &subject.pieces;
    // A fault in the header lies among no pieces.
    if pieces.is_empty() || number <= number::BOUNDS {
        return Ok(());
    }
    // The first piece that begins behind the place.
    let behind = pieces.partition_point(|piece| piece.start <= place);
    let first = behind.saturating_sub(AROUND).min(pieces.len().saturating_sub(2 * AROUND));
    let last = (first + 2 * AROUND).min(pieces.len());
    writeln!(out, "<section>\n<h2>Around the fault</h2>")?;
    write_table(out, |out| {
        for piece in &pieces[first..last] {
            let is_here = piece.start <= place && place < piece.end();
            write_piece(out, piece, subject.file, if is_here { " class=\"fault\"" } else { "" })?;
        }
        match subject.verdict {
            Verdict::Refused(refused) if is_break(&refused.answer) => write_line(
                out,
                "fault",
                &format!("here, at byte {}, should a piece begin: refused {number}", grouped(place)),
            ),
            _ if place >= subject.len() => {
                write_line(out, "fault", &format!("byte {}: refused {number}", grouped(place)))
            }
            _ => Ok(()),
        }
    })?;
    writeln!(out, "</section>")
}

/// All pieces, or the first and the last of them and how many there are.
pub fn write_pieces(out: &mut dyn Write, subject: &Subject) -> io::Result<()> {
    let pieces = &subject.pieces;
    let all = grouped(pieces.len() as u64);
    let heading = if subject.fault().is_some() { "Pieces that were reached, no verdict" } else { "Pieces" };
    writeln!(out, "<section>\n<h2>{heading}: {all}</h2>")?;
    if pieces.is_empty() {
        return writeln!(out, "<p class=\"note\">None was reached.</p>\n</section>");
    }
    let write_all = |out: &mut dyn Write, pieces: &[Piece]| {
        pieces.iter().try_for_each(|piece| write_piece(out, piece, subject.file, ""))
    };
    write_table(out, |out| {
        if pieces.len() <= 2 * SHOWN {
            return write_all(out, pieces);
        }
        write_all(out, &pieces[..SHOWN])?;
        let left = grouped((pieces.len() - 2 * SHOWN) as u64);
        write_line(
            out,
            "cut",
            &format!("{left} pieces are left out here, of {all} in all: rootaudit --rows has them"),
        )?;
        write_all(out, &pieces[pieces.len() - SHOWN..])
    })?;
    if let Some(place) = subject.broken {
        writeln!(out, "<p class=\"note\">No further piece could be read, from byte {} on.</p>", grouped(place))?;
    }
    writeln!(out, "</section>")
}

/// A table of pieces.
fn write_table(out: &mut dyn Write, rows: impl FnOnce(&mut dyn Write) -> io::Result<()>) -> io::Result<()> {
    writeln!(
        out,
        "<div class=\"box\">\n<table>\n<thead><tr><th class=\"n\">place</th><th class=\"n\">size</th><th>part</th>\
         <th class=\"n\">owner</th><th>class</th><th>name;cycle</th></tr></thead>\n<tbody>"
    )?;
    rows(out)?;
    writeln!(out, "</tbody>\n</table>\n</div>")
}

fn write_piece(out: &mut dyn Write, piece: &Piece, file: &[u8], class: &str) -> io::Result<()> {
    let (class_name, name) = match key_at(file, piece.start) {
        Some(key) => (name_of(key.class), format!("{};{}", name_of(key.name), key.cycle)),
        None => Default::default(),
    };
    let owner = if piece.owner == 0 { String::new() } else { grouped(piece.owner) };
    writeln!(
        out,
        "<tr{class}><td class=\"n\">{}</td><td class=\"n\">{}</td><td>{}</td><td class=\"n\">{owner}</td>\
         <td class=\"m\">{class_name}</td><td class=\"m\">{name}</td></tr>",
        grouped(piece.start),
        grouped(piece.size),
        piece.kind_name()
    )
}

/// A row of one cell.
fn write_line(out: &mut dyn Write, class: &str, words: &str) -> io::Result<()> {
    writeln!(out, "<tr class=\"{class}\"><td colspan=\"6\">{words}</td></tr>")
}
