//! The card reader: whole cards, cards with each fault and with several, and outputs of every length.

use kit::compare::card::read;
use kit::compare::Tally;
use kit::gen::cards::{any_file, headed, put_end, put_number, seal, seal_all, start, with_faults, LENGTHS};
use kit::gen::Rng;
use kit::harness::edge::Edge;
use kit::harness::zeros::Zeros;
use kit::rivals::Program;
use second::card::{card_of, BLOCK, CHECKED, DATA, NUMBER};
use second::{number, Answer};
use std::cmp::Ordering;

/// What the reader may answer.
const NUMBERS: [u64; 6] = [0, number::ROOM, number::MISSING, number::ORDER, number::CHECK, number::TAIL];

/// Room for the file of any card here, and a byte more.
fn enough(card: &[u8]) -> usize {
    card.len() + 1
}

/// Reads a card that is refused with this number.
fn refused(tally: &mut Tally, card: &[u8], number: u64) {
    let (answer, _) = read(tally, card, enough(card));
    assert_eq!(answer, Answer::refusal(number, 0));
}

/// Files of every length round whole blocks, in both widths, come back from outputs that are exact and longer; an output
/// that is a byte short is 17.
#[test]
fn whole_cards() {
    let mut tally = Tally::new("card reader, whole cards");
    let mut rng = Rng::new(700);
    for (len, is_wide) in LENGTHS.into_iter().chain([60_000]).flat_map(|len| [(len, false), (len, true)]) {
        let file = any_file(&mut rng, len, is_wide);
        let card = card_of(&file);
        assert_eq!(card.len(), len.div_ceil(DATA) * BLOCK);
        for room in [len, len + 1, len + DATA, card.len() + BLOCK] {
            assert_eq!(read(&mut tally, &card, room), (Answer::success(len as u64), file.clone()));
        }
        for room in [0, 1, DATA.min(len - 1), len - 1] {
            assert_eq!(read(&mut tally, &card, room).0, Answer::refusal(number::ROOM, 0));
        }
    }
    tally.finish(200, &[0, number::ROOM]);
}

/// The check of a block is the sum of its bytes, each times 3 to the number of those after it.
#[test]
fn by_powers() {
    let mut rng = Rng::new(701);
    for block in card_of(&any_file(&mut rng, 5_041, false)).chunks(BLOCK) {
        let mut power = 1u64;
        let mut sum = 0;
        for &byte in block[..CHECKED].iter().rev() {
            sum = (sum + power * u64::from(byte)) % (1 << 32);
            power = power * 3 % (1 << 32);
        }
        assert_eq!(sum.to_be_bytes()[4..], block[CHECKED..]);
    }
}

/// Every byte of a card of three blocks changed to every other value: 29 in a number, else 30, whatever the output.
#[test]
fn every_byte() {
    let mut tally = Tally::new("card reader, each byte of a card changed to every other value");
    let mut rng = Rng::new(702);
    for is_wide in [false, true] {
        let mut card = card_of(&any_file(&mut rng, 1_300, is_wide));
        assert_eq!(card.len(), 3 * BLOCK);
        for (at, by) in (0..card.len()).flat_map(|at| (1..=255).map(move |by| (at, by))) {
            card[at] ^= by;
            let room = [0, 40, 1_299, 1_300][usize::from(by) % 4];
            let number = if at % BLOCK < NUMBER { number::ORDER } else { number::CHECK };
            assert_eq!(read(&mut tally, &card, room).0, Answer::refusal(number, 0), "{at} {by}");
            card[at] ^= by;
        }
    }
    tally.finish(2 * 391_680, &[number::ORDER, number::CHECK]);
}

/// Cards that end early, where memory does, and late.
#[test]
fn every_length() {
    let mut tally = Tally::new("card reader, cards of every length");
    let mut rng = Rng::new(703);
    let mut edge = Edge::default();
    for len in LENGTHS {
        let card = card_of(&any_file(&mut rng, len, len % 2 == 0));
        for cut in 0..card.len() {
            let (answer, _) = read(&mut tally, edge.lend(&card[..cut]), len);
            assert_eq!(answer, Answer::refusal(number::MISSING, 0));
        }
        assert_eq!(read(&mut tally, edge.lend(&card), len).0, Answer::success(len as u64));
        for more in (1..=BLOCK + 1).chain([2 * BLOCK, 5 * BLOCK]) {
            for fill in [0, rng.u64() as u8] {
                refused(&mut tally, &[&card[..], &vec![fill; more]].concat(), number::TAIL);
            }
        }
        // The same block, or the next one, once more.
        let blocks = card.len() / BLOCK;
        let mut longer = [&card[..], &card[start(blocks - 1)..]].concat();
        refused(&mut tally, &longer, number::TAIL);
        seal_all(&mut longer);
        refused(&mut tally, &longer, number::TAIL);
    }
    tally.finish(30_000, &[0, number::MISSING, number::TAIL]);
}

/// Blocks that are swapped, repeated and missing: the first that stands elsewhere is 29, unless they are numbered and
/// sealed again.
#[test]
fn moved_blocks() {
    let mut tally = Tally::new("card reader, blocks swapped, repeated and missing");
    let mut rng = Rng::new(704);
    for is_wide in [false, true] {
        let card = card_of(&any_file(&mut rng, 4 * DATA + 77, is_wide));
        let blocks: Vec<&[u8]> = card.chunks(BLOCK).collect();
        for (one, other) in (0..5).flat_map(|one| (0..5).map(move |other| (one, other))) {
            let mut swapped = blocks.clone();
            swapped.swap(one, other);
            let mut copied = blocks.clone();
            copied[one] = blocks[other];
            let mut repeated = blocks.clone();
            repeated.insert(one, blocks[other]);
            let mut missing = blocks.clone();
            missing.remove(one);
            for cards in [swapped, copied, repeated, missing] {
                let card = cards.concat();
                let in_order = cards.iter().zip(&blocks).all(|(one, other)| one == other);
                let expected = match cards.len() {
                    _ if !in_order => number::ORDER,
                    4 => number::MISSING,
                    5 => number::SUCCESS,
                    _ => number::TAIL,
                };
                let (answer, _) = read(&mut tally, &card, enough(&card));
                assert_eq!(answer.number, expected, "{one} {other}");
                let mut sealed = card;
                seal_all(&mut sealed);
                read(&mut tally, &sealed, enough(&sealed));
            }
        }
    }
    tally.finish(400, &[0, number::MISSING, number::ORDER, number::TAIL]);
}

/// What is wrong with a block.
#[derive(Clone, Copy, PartialEq)]
enum Wrong {
    /// Its number, and its check is that of the block as it was.
    Number,
    /// Its number, and it is sealed again.
    SealedNumber,
    /// Its check.
    Check,
    /// A byte of the file.
    Data,
}

impl Wrong {
    const ALL: [Wrong; 4] = [Wrong::Number, Wrong::SealedNumber, Wrong::Check, Wrong::Data];

    fn put(self, card: &mut [u8], nth: usize, other: u32) {
        let block = start(nth);
        match self {
            Wrong::Number => put_number(card, nth, other),
            Wrong::SealedNumber => {
                put_number(card, nth, other);
                seal(card, nth);
            }
            Wrong::Check => card[block + CHECKED + other as usize % 4] ^= 1 + (other % 255) as u8,
            // END stays as it is.
            Wrong::Data => card[block + NUMBER + 100 + other as usize % 300] ^= 1 + (other % 255) as u8,
        }
    }

    fn number(self) -> u64 {
        match self {
            Wrong::Number | Wrong::SealedNumber => number::ORDER,
            Wrong::Check | Wrong::Data => number::CHECK,
        }
    }
}

/// Wrong numbers and checks in pairs, in one block and in two: the first block decides, and in it the number. Whatever is
/// wrong in a block behind those that END needs is 31.
#[test]
fn in_pairs() {
    let mut tally = Tally::new("card reader, wrong numbers and checks in pairs");
    let mut rng = Rng::new(705);
    let pairs = Wrong::ALL.into_iter().flat_map(|one| Wrong::ALL.map(|other| [one, other]));
    for [one, other] in pairs {
        for (first, second) in (0..4).flat_map(|first| (0..4).map(move |second| (first, second))) {
            for number in [4, 7, 255, 256, 1 << 16, u32::MAX] {
                let mut card = card_of(&any_file(&mut rng, 3 * DATA + 300, number % 2 == 0));
                one.put(&mut card, first, number);
                if first == second && one == other {
                    // The same twice would take it back.
                    refused(&mut tally, &card, one.number());
                    continue;
                }
                other.put(&mut card, second, number);
                let expected = match first.cmp(&second) {
                    Ordering::Less => one.number(),
                    Ordering::Greater => other.number(),
                    Ordering::Equal if other == Wrong::SealedNumber => number::ORDER,
                    Ordering::Equal => one.number().min(other.number()),
                };
                refused(&mut tally, &card, expected);
                // A block is missing behind them.
                card.truncate(3 * BLOCK + 511);
                let expected = if first.min(second) == 3 { number::MISSING } else { expected };
                refused(&mut tally, &card, expected);
            }
        }
    }
    for wrong in Wrong::ALL {
        let mut card = card_of(&any_file(&mut rng, 3 * DATA + 300, true));
        card.extend_from_within(3 * BLOCK..);
        wrong.put(&mut card, 4, 9);
        refused(&mut tally, &card, number::TAIL);
    }
    tally.finish(2_500, &[number::MISSING, number::ORDER, number::CHECK, number::TAIL]);
}

/// Every END in both widths, of cards full of zeros and of anything, with one block to four; the Versions round the one
/// from which END is wide.
#[test]
fn every_end() {
    let mut tally = Tally::new("card reader, every END");
    let mut rng = Rng::new(706);
    for (blocks, version) in (1..=4)
        .flat_map(|blocks| [0, 62_400, 999_999, 1_000_000, 1_062_400, u32::MAX].map(move |version| (blocks, version)))
    {
        let capacity = (blocks * DATA) as u64;
        let near = (0..=capacity + 1_100).chain((1 << 32) - 600..=(1 << 32) + capacity + 600);
        let far = [1 << 31, 1 << 40, 1 << 41, 504 << 32, (504 << 32) + 1, 1 << 63, u64::MAX - 511].into_iter();
        for end in near.chain(far).chain(u64::MAX - 505..=u64::MAX) {
            // As much of END as there is room for.
            let read_as = if version < 1_000_000 { end % (1 << 32) } else { end };
            let zeros = headed(vec![0; blocks * BLOCK], version, end);
            let expected = match read_as {
                0..100 => number::TAIL,
                _ if read_as > capacity => number::MISSING,
                _ if read_as.div_ceil(DATA as u64) < blocks as u64 => number::TAIL,
                _ => number::SUCCESS,
            };
            let (answer, file) = read(&mut tally, &zeros, enough(&zeros));
            assert_eq!(answer.number, expected, "{blocks} blocks, Version {version}, END {end}");
            assert!(expected != number::SUCCESS || file.len() as u64 == read_as);
        }
        for end in [0, 1, 99, 100, 101, capacity - 1, capacity, capacity + 1, 1 << 32, u64::MAX] {
            let any = headed(rng.bytes(blocks * BLOCK), version, end);
            for room in [0, end.min(5_000) as usize, enough(&any)] {
                read(&mut tally, &any, room);
            }
        }
    }
    tally.finish(100_000, &[0, number::ROOM, number::MISSING, number::TAIL]);
}

/// END decides only after block 0 is looked at.
#[test]
fn end_after_block_0() {
    let mut tally = Tally::new("card reader, END in a faulty block 0");
    let mut rng = Rng::new(707);
    for end in [0, 99, 100, 300, 504, 505, 1 << 32, u64::MAX] {
        let mut card = card_of(&any_file(&mut rng, 300, true));
        put_end(&mut card, end);
        card[CHECKED] ^= 1;
        refused(&mut tally, &card, number::CHECK);
        card[3] ^= 1;
        refused(&mut tally, &card, number::ORDER);
        card.truncate(511);
        refused(&mut tally, &card, number::MISSING);
    }
    tally.finish(24, &[number::MISSING, number::ORDER, number::CHECK]);
}

/// Every byte of the padding that is not 0, in a sealed block, is 31; the last one of the file may be anything.
#[test]
fn padding() {
    let mut tally = Tally::new("card reader, padding");
    let mut rng = Rng::new(708);
    for len in [100, 101, 400, 503, 504, 505, 600, 1_007, 1_008, 1_009] {
        let whole = card_of(&any_file(&mut rng, len, len % 2 == 1));
        let last = whole.len() / BLOCK - 1;
        let from = start(last) + NUMBER + len - last * DATA;
        for at in from..start(last) + CHECKED {
            let mut card = whole.clone();
            card[at] = 1 << rng.below(8);
            seal(&mut card, last);
            refused(&mut tally, &card, number::TAIL);
            // It is 31 before 17.
            assert_eq!(read(&mut tally, &card, 0).0, Answer::refusal(number::TAIL, 0));
        }
        for value in 0..=255 {
            let mut card = whole.clone();
            card[from - 1] = value;
            seal(&mut card, last);
            let answer = read(&mut tally, &card, len).0;
            assert_eq!(answer, Answer::success(len as u64));
            // With an END that is one lower it is padding, unless it fills its block.
            if from > start(last) + NUMBER + 1 && len > 100 {
                put_end(&mut card, len as u64 - 1);
                let (answer, _) = read(&mut tally, &card, len);
                assert_eq!(answer.number, if value == 0 { number::SUCCESS } else { number::TAIL });
            }
        }
    }
    tally.finish(5_000, &[0, number::TAIL]);
}

/// Outputs of every length.
#[test]
fn every_room() {
    let mut tally = Tally::new("card reader, outputs of every length");
    let mut rng = Rng::new(709);
    for len in [100, 504, 505, 1_009] {
        let card = card_of(&any_file(&mut rng, len, len == 504));
        for room in 0..=len + 600 {
            let expected = if room < len { Answer::refusal(number::ROOM, 0) } else { Answer::success(len as u64) };
            assert_eq!(read(&mut tally, &card, room).0, expected);
        }
    }
    tally.finish(4_000, &[0, number::ROOM]);
}

#[test]
fn any_cards() {
    let mut tally = Tally::new("card reader, cards with faults of any kind");
    let mut rng = Rng::new(710);
    for _ in 0..60_000 {
        let card = with_faults(&mut rng);
        let room = rng.pick(&[0, 300, 505, 1_300, 6_000]);
        read(&mut tally, &card, room);
    }
    for _ in 0..3_000 {
        let len = rng.below(1_600);
        read(&mut tally, &rng.bytes(len), 600);
        read(&mut tally, &vec![0; len], 600);
    }
    tally.finish(60_000, &NUMBERS);
}

/// A card longer than 32 bits can say.
#[test]
fn long_cards() {
    let Some(mut zeros) = Zeros::new() else { return };
    let mut tally = Tally::new("card reader, cards of more than 2^32 bytes");
    for (end, expected) in [
        (99, number::TAIL),
        (504, number::TAIL),
        (505, number::ORDER),
        ((1 << 32) + 504, number::ORDER),
        (u64::MAX, number::ORDER),
    ] {
        zeros.put(0, &headed(vec![0; BLOCK], 1_062_400, end));
        for program in [Program::Library, Program::Fast] {
            let mut out = vec![7; 600];
            assert_eq!(program.read_card(zeros.bytes(), &mut out), Answer::refusal(expected, 0), "{end}");
            assert_eq!(out, [7; 600]);
            tally.add(expected);
        }
    }
    tally.finish(10, &[number::ORDER, number::TAIL]);
}
