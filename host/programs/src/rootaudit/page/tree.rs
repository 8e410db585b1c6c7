//! The tree of directories of a file that passed.

use super::super::pieces::{key_at, Piece};
use super::super::words::grouped;
use super::{name_of, Subject};
use crate::ffi::part;
use crate::rootaudit::verdict::Verdict;
use std::io::{self, Write};

/// How many directories are shown, and how far in the deepest stand.
const SHOWN: usize = 300;
const DEEPEST: usize = 24;

/// A directory, and what it lists.
struct Dir {
    start: u64,
    owner: u64,
    dirs: u64,
    records: u64,
    bytes: u64,
}

pub fn write(out: &mut dyn Write, subject: &Subject) -> io::Result<()> {
    writeln!(out, "<section>\n<h2>Directories</h2>")?;
    if !matches!(subject.verdict, Verdict::Passed(_)) {
        return writeln!(
            out,
            "<p class=\"note\">Which records are directories is known of a pass alone.</p>\n</section>"
        );
    }
    let dirs = directories(&subject.pieces);
    let order = depth_first(&dirs);
    writeln!(out, "<ul class=\"tree box\">")?;
    for &(index, depth) in order.iter().take(SHOWN) {
        write_dir(out, &dirs[index], depth, subject.file)?;
    }
    writeln!(out, "</ul>")?;
    if order.len() > SHOWN {
        let (shown, all) = (grouped(SHOWN as u64), grouped(order.len() as u64));
        writeln!(out, "<p class=\"note\">The first {shown} of {all} directories.</p>")?;
    }
    writeln!(out, "</section>")
}

fn write_dir(out: &mut dyn Write, dir: &Dir, depth: usize, file: &[u8]) -> io::Result<()> {
    let name = key_at(file, dir.start).map_or(String::new(), |key| name_of(key.name));
    writeln!(
        out,
        "<li class=\"m\" style=\"padding-left:{}em\">{name}/ at {}: directories {}, other records {}, bytes {}</li>",
        2 * depth.min(DEEPEST),
        grouped(dir.start),
        grouped(dir.dirs),
        grouped(dir.records),
        grouped(dir.bytes)
    )
}

fn is(piece: &Piece, part: u64) -> bool {
    piece.kind == part as usize
}

/// The directories in file order, each with what it lists.
fn directories(pieces: &[Piece]) -> Vec<Dir> {
    let is_dir = |piece: &&Piece| is(piece, part::HEAD) || is(piece, part::DIR);
    let dir = |piece: &Piece| Dir { start: piece.start, owner: piece.owner, dirs: 0, records: 0, bytes: 0 };
    let mut dirs: Vec<Dir> = pieces.iter().filter(is_dir).map(dir).collect();
    for piece in pieces.iter().filter(|piece| is(piece, part::LISTED) || is(piece, part::DIR)) {
        let Ok(owner) = dirs.binary_search_by_key(&piece.owner, |dir| dir.start) else { continue };
        if is(piece, part::DIR) {
            dirs[owner].dirs += 1;
        } else {
            dirs[owner].records += 1;
            dirs[owner].bytes += piece.size;
        }
    }
    dirs
}

/// The indices of all directories and how deep they stand, each behind its owner. No call for each level: they
/// may be many.
fn depth_first(dirs: &[Dir]) -> Vec<(usize, usize)> {
    // By owner; the head, whose owner is 0, is first.
    let mut children: Vec<usize> = (0..dirs.len()).collect();
    children.sort_by_key(|&index| dirs[index].owner);
    let of = |owner: u64| {
        let first = children.partition_point(|&index| dirs[index].owner < owner);
        let last = children.partition_point(|&index| dirs[index].owner <= owner);
        children[first..last].iter().rev().copied()
    };
    let mut order = Vec::new();
    let mut left: Vec<(usize, usize)> = of(0).map(|index| (index, 0)).collect();
    // Each stands there once, so that this ends whatever the owners are.
    while let (true, Some((index, depth))) = (order.len() < dirs.len(), left.pop()) {
        order.push((index, depth));
        left.extend(of(dirs[index].start).map(|index| (index, depth + 1)));
    }
    order
}
