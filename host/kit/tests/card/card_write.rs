//! The card writer: files that pass and files that do not, outputs and tables of every length, and back by the reader.

use kit::compare::card::{read, write, write_with};
use kit::compare::Tally;
use kit::gen::cards::{any_file, passing};
use kit::gen::faults::{self, Target};
use kit::gen::files::{plan, LARGE, RICH, SMALL};
use kit::gen::gaps::Gapped;
use kit::gen::{one_root, wide_root, Rng};
use kit::harness::root_folder::root_files;
use kit::harness::zeros::Zeros;
use kit::rivals::Program;
use second::card::{self, BLOCK, DATA};
use second::{audit, number, Answer};
use std::fs;

/// The bytes of the card of so long a file.
fn card_len(len: usize) -> usize {
    len.div_ceil(DATA) * BLOCK
}

/// Writes the card of a file that passes, into outputs that are exact and longer, and reads it back; an output that is a
/// byte short is 17.
fn to_a_card_and_back(tally: &mut Tally, file: &[u8]) {
    let exact = card_len(file.len());
    for room in [exact, exact + 1, exact + BLOCK + 9] {
        let (answer, card) = write(tally, file, room);
        assert_eq!(answer, Answer::success(exact as u64));
        let (answer, back) = read(tally, &card, file.len() + room - exact);
        assert_eq!(answer, Answer::success(file.len() as u64));
        assert!(back == file, "the file that was read is not the one that was written");
    }
    for room in [0, exact - BLOCK, exact - 1] {
        assert_eq!(write(tally, file, room).0, Answer::refusal(number::ROOM, 0));
    }
}

#[test]
fn round_trips() {
    let mut tally = Tally::new("card, files to a card and back");
    let mut rng = Rng::new(720);
    let lengths = [503, 504, 505, 1_007, 1_008, 1_009, 1_512, 1_513, 5_040, 5_041, 300_000];
    for (len, is_wide) in lengths.into_iter().flat_map(|len| [(len, false), (len, true)]) {
        let file = passing(&mut rng, len, is_wide);
        assert_eq!(file.len(), len);
        to_a_card_and_back(&mut tally, &file);
    }
    for round in 0..300 {
        let size = if round % 2 == 0 { SMALL } else { RICH };
        to_a_card_and_back(&mut tally, &plan(&mut rng, size).build().bytes);
    }
    to_a_card_and_back(&mut tally, &plan(&mut rng, LARGE).build().bytes);
    tally.finish(2_000, &[0, number::ROOM]);
}

/// Outputs of every length, and each table in turn too short by one: that is 7, before 17.
#[test]
fn every_room() {
    let mut tally = Tally::new("card writer, outputs and tables of every length");
    let mut rng = Rng::new(721);
    for (len, is_wide) in [(504, false), (505, true), (1_009, false)] {
        let file = passing(&mut rng, len, is_wide);
        let exact = card_len(len);
        for room in 0..=exact + 20 {
            let expected = if room < exact { Answer::refusal(number::ROOM, 0) } else { Answer::success(exact as u64) };
            assert_eq!(write(&mut tally, &file, room).0, expected);
        }
        for (short, rows) in (0..3).flat_map(|short| (0..7).map(move |rows| (short, rows))) {
            let mut lengths = [9, 8, 7];
            lengths[short] = rows;
            for room in [0, exact - 1, exact, exact + 1] {
                let expected = match (rows, room) {
                    (..5, _) => Answer { number: number::UNFINISHED, place: 0, count: 5 },
                    _ if room < exact => Answer::refusal(number::ROOM, 0),
                    _ => Answer::success(exact as u64),
                };
                assert_eq!(write_with(&mut tally, &file, room, lengths).0, expected);
            }
        }
    }
    tally.finish(3_000, &[0, number::UNFINISHED, number::ROOM]);
}

/// What the audit refuses has its answer, whatever the output.
#[test]
fn refused_files() {
    let mut tally = Tally::new("card writer, files that do not pass");
    let mut rng = Rng::new(722);
    let expect = |tally: &mut Tally, file: &[u8], room: usize| {
        let (verdict, _) = audit::audit(file, audit::pieces(file).unwrap_or(3));
        let (answer, _) = write(tally, file, room);
        let expected = match verdict.number {
            number::SUCCESS if room < card_len(file.len()) => Answer::refusal(number::ROOM, 0),
            number::SUCCESS => Answer::success(card_len(file.len()) as u64),
            _ => verdict,
        };
        assert_eq!(answer, expected);
    };
    for file in [one_root(), wide_root()] {
        for len in 0..file.len() {
            expect(&mut tally, &file[..len], BLOCK);
        }
        for (at, by) in (0..file.len()).flat_map(|at| [1, 0x10, 0x80, 0xff].map(|by| (at, by))) {
            let mut changed = file.clone();
            changed[at] ^= by;
            expect(&mut tally, &changed, [BLOCK, BLOCK - 1, BLOCK + 3][at % 3]);
        }
    }
    for fault in faults::all() {
        for _ in 0..10 {
            let plan = plan(&mut rng, RICH);
            let target = Target::pick(&mut rng, &plan);
            let built = faults::build(&mut rng, &plan, &[(&fault, target)]);
            let room = (card_len(built.bytes.len()) + 20).saturating_sub(rng.below(40));
            expect(&mut tally, &built.bytes, room);
        }
    }
    for len in [100, 101, 503, 504, 505, 1_008, 1_009] {
        let file = any_file(&mut rng, len, false);
        expect(&mut tally, &file, card_len(len));
    }
    let numbers: Vec<u64> = (0..=number::TWICE).filter(|&number| number != number::UNFINISHED).collect();
    tally.finish(4_000, &[&numbers[..], &[number::ROOM]].concat());
}

/// A file of one byte more than 2^32 blocks hold is 17, however long the card is.
#[test]
fn too_many_blocks() {
    let most = DATA << 32;
    let mut gaps = vec![1 << 31; 1_007];
    gaps.push(4);
    gaps[1_007] += most + 1 - Gapped::wide(&gaps, &[]).end;
    let gapped = Gapped::wide(&gaps, &[]);
    assert_eq!(gapped.end, most + 1);
    let Some((mut file, mut card)) = Zeros::of(gapped.end).zip(Zeros::of((BLOCK << 32) + BLOCK)) else { return };
    file.lay(&gapped);
    let pieces = gaps.len() + 4;
    assert_eq!(audit::audit(file.bytes(), pieces).0, Answer::success(pieces as u64));
    let refused = Answer::refusal(number::ROOM, 0);
    assert_eq!(card::write(file.bytes(), pieces, card.bytes().len()).0 .0, refused);
    for program in [Program::Library, Program::Fast] {
        let mut tables = [0; 3].map(|_| vec![9; pieces + 1]);
        let answer = program.write_card(file.bytes(), card.bytes(), tables.each_mut().map(Vec::as_mut_slice));
        assert_eq!(answer, refused);
        assert_eq!(tables, [0; 3].map(|_| vec![0; pieces + 1]));
        assert_eq!(card.bytes()[..BLOCK], [0; BLOCK]);
    }
}

/// Files written by ROOT.
#[test]
fn files_by_root() {
    let Some(paths) = root_files() else { return };
    let mut tally = Tally::new("card, files written by ROOT");
    for path in &paths {
        let file = fs::read(path).unwrap();
        let (verdict, _) = audit::audit(&file, file.len());
        if verdict.number == number::SUCCESS {
            to_a_card_and_back(&mut tally, &file);
        } else {
            assert_eq!(write(&mut tally, &file, card_len(file.len())).0, verdict);
        }
    }
    tally.finish(19, &[0, number::BOUNDS, number::ROOM]);
}
