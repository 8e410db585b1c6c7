//! Files written by ROOT, walked piece by piece.

use kit::compare::{read_piece, write_again, Tally};
use std::fs;

#[test]
fn root_files() {
    let Some(paths) = kit::harness::root_folder::root_files() else { return };
    let mut tally = Tally::new("files written by ROOT");
    for path in &paths {
        let file = fs::read(path).unwrap();
        println!("{}: {}", path.file_name().unwrap().to_string_lossy(), walk(&mut tally, &file));
        // Every other place too: most hold no piece.
        for at in 0..file.len() as u64 + 4 {
            read_piece(&mut tally, &file, at);
        }
    }
    tally.finish(paths.len() as u64, &[0]);
}

/// Reads the pieces from 100 on, and writes each plain header again: how it ended.
fn walk(tally: &mut Tally, file: &[u8]) -> String {
    if file.len() < 100 {
        return "shorter than 100 bytes".into();
    }
    let (mut at, mut pieces) = (100, 0);
    while at < file.len() as u64 {
        let (answer, fields) = read_piece(tally, file, at);
        if answer.number != 0 {
            return format!("{pieces} pieces, then {} at {at}", answer.number);
        }
        write_again(tally, file, &fields);
        at += answer.count;
        pieces += 1;
    }
    format!("{pieces} pieces to the end")
}
