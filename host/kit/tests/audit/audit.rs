//! The audit of the project's small file, narrow and wide, and of every file near it.

use kit::compare::audit::{audit, audit_by_rules};
use kit::compare::Tally;
use kit::gen::fields::{low_bytes, HeaderAt};
use kit::gen::files::{one_root_plan, wide_root_plan};
use kit::gen::{one_root, wide_root, Rng, ONE_ROOT_LIST, WIDE_ROOT_LIST};
use second::audit::Row;
use second::{part, Answer};

/// Its rows, if its pieces stand there.
fn rows_at([head, x, keys, gap, free]: [u64; 5]) -> Vec<Row> {
    let row = |start, part, owner| Row { start, part, owner };
    vec![
        row(head, part::HEAD, 0),
        row(x, part::LISTED, 100),
        row(keys, part::KEYS, 100),
        row(gap, part::GAP, 0),
        row(free, part::FREE, 0),
    ]
}

/// Both forms of the file.
fn forms() -> [Vec<u8>; 2] {
    [one_root(), wide_root()]
}

/// Where the pieces of each stand.
const STARTS: [[u64; 5]; 2] = [[100, 168, 218, 297, 309], [100, 188, 246, 341, 353]];

fn answer(number: u64, place: u64, count: u64) -> Answer {
    Answer { number, place, count }
}

/// Sets END to the length.
fn close(file: &mut [u8]) {
    let width = if HeaderAt::VERSION.get(file) < 1_000_000 { 4 } else { 8 };
    HeaderAt { width }.end().put(file, file.len() as u64);
}

/// The rows as the list program prints them.
fn printed(rows: &[Row], end: u64) -> String {
    let mut text = format!("passed {}\n", rows.len());
    for (i, row) in rows.iter().enumerate() {
        let next = rows.get(i + 1).map_or(end, |next| next.start);
        text += &format!("{} {} {} {}\n", row.start, next - row.start, part::NAMES[row.part as usize], row.owner);
    }
    text
}

#[test]
fn passes() {
    let mut tally = Tally::new("audit, one.root");
    for (nth, (file, list)) in forms().into_iter().zip([ONE_ROOT_LIST, WIDE_ROOT_LIST]).enumerate() {
        let (got, rows) = audit_by_rules(&mut tally, &file);
        assert_eq!(printed(&rows, file.len() as u64), list);
        assert_eq!((got, rows), (answer(0, 0, 5), rows_at(STARTS[nth])));
    }
    assert!(wide_root_plan().build().bytes == wide_root(), "the plan of the wide form gives other bytes");
    tally.finish(2, &[0]);
}

#[test]
fn examples() {
    let mut tally = Tally::new("audit, worked examples");
    let file = one_root();
    assert_eq!(audit(&mut tally, &file, [5; 3]).0, answer(0, 0, 5));
    assert_eq!(audit(&mut tally, &file, [4; 3]).0, answer(7, 0, 5));
    // The byte after the gap, as document 004 has it, and the byte before its last.
    for last in [309u32, 307] {
        let mut other = file.clone();
        other[309 + 35 + 6..][..4].copy_from_slice(&last.to_be_bytes());
        assert_eq!(audit_by_rules(&mut tally, &other).0, answer(9, 309, 0));
    }

    let mut plan = one_root_plan();
    assert!(plan.build().bytes == file, "the plan of one.root gives other bytes");
    plan.list(0, 1);
    let twice = plan.build();
    assert_eq!(audit_by_rules(&mut tally, &twice.bytes).0, answer(14, twice.sites[2].copies[1] as u64, 0));
    for len in [0, 99] {
        assert_eq!(audit_by_rules(&mut tally, &file[..len]).0, answer(1, 0, 0));
    }
    let mut bare = file[..100].to_vec();
    close(&mut bare);
    for room in 0..3 {
        assert_eq!(audit(&mut tally, &bare, [room; 3]).0, answer(8, 100, 0));
    }
    let mut left = file.clone();
    left.extend([0xff, 0xff, 0xff, 0xfc]);
    for (len, number, place) in [(367, 5, 364), (368, 9, 309)] {
        let mut left = left[..len].to_vec();
        close(&mut left);
        assert_eq!(audit_by_rules(&mut tally, &left).0, answer(number, place, 0));
    }
    tally.finish(11, &[0, 1, 5, 7, 8, 9, 14]);
}

#[test]
fn every_byte() {
    let mut tally = Tally::new("audit, each byte of one.root changed to every value");
    for file in forms() {
        for at in 0..file.len() {
            for value in 0..=255 {
                let mut changed = file.clone();
                changed[at] = value;
                audit_by_rules(&mut tally, &changed);
            }
        }
    }
    tally.finish(200_000, &[0, 2, 3, 4, 5, 6, 8, 9, 10, 12, 13]);
}

#[test]
fn two_bytes() {
    let mut tally = Tally::new("audit, two bytes of one.root changed");
    let mut rng = Rng::new(110);
    for nth in 0..80_000 {
        let file = &forms()[nth % 2];
        let mut changed = file.clone();
        for _ in 0..2 {
            let at = rng.below(file.len());
            let byte = file[at];
            changed[at] =
                rng.pick(&[0, 1, 4, 35, 100, 255, byte ^ 1, byte ^ 0x80, byte.wrapping_add(1), byte.wrapping_sub(1)]);
        }
        audit_by_rules(&mut tally, &changed);
    }
    tally.finish(80_000, &[0, 2, 3, 4, 5, 6, 8, 9, 10, 12, 13]);
}

/// Each number of four bytes, and of eight, becomes a place or size of the file, or a number near one.
#[test]
fn every_number() {
    let mut tally = Tally::new("audit, each number of one.root changed");
    let sizes = [0, 1, 2, 4, 12, 35, 38, 43, 46, 50, 55, 58, 68, 79, 88, 95];
    let ends = [308, 352, 364, 432, 1000, 2000, 2_000_000_000, 1 << 31, 1 << 32, 1 << 63];
    let numbers: Vec<u64> = sizes.into_iter().chain(STARTS.concat()).chain(ends).collect();
    let near = |number: u64| [number, number.wrapping_sub(1), number.wrapping_neg()];
    for (file, width) in forms().iter().flat_map(|file| [(file, 4), (file, 8)]) {
        for at in 0..=file.len() - width {
            for number in numbers.iter().flat_map(|&number| near(number)) {
                let mut changed = file.clone();
                changed[at..at + width].copy_from_slice(&low_bytes(number, width));
                audit_by_rules(&mut tally, &changed);
            }
        }
    }
    tally.finish(150_000, &[0, 2, 3, 4, 5, 6, 8, 9, 10, 12, 13]);
}

#[test]
fn every_length() {
    let mut tally = Tally::new("audit, one.root cut or continued");
    for file in forms() {
        for len in 0..=file.len() {
            let mut cut = file[..len].to_vec();
            audit_by_rules(&mut tally, &cut);
            close(&mut cut);
            audit_by_rules(&mut tally, &cut);
        }
        for more in 1..=80 {
            continued(&mut tally, &file, more);
        }
    }
    tally.finish(2_800, &[0, 1, 4, 5, 6, 8, 9]);
}

/// The file and so many bytes more: zeros, any, a piece of the file, a gap.
fn continued(tally: &mut Tally, file: &[u8], more: usize) {
    let fills = [
        vec![0; more],
        Rng::new(more as u64).bytes(more),
        file[168..168 + more.min(50)].to_vec(),
        [&(-(more as i32)).to_be_bytes()[..], &vec![0; more]].concat(),
    ];
    for fill in fills {
        let mut longer = [file, &fill].concat();
        audit_by_rules(tally, &longer);
        close(&mut longer);
        audit_by_rules(tally, &longer);
    }
}

#[test]
fn every_room() {
    let mut tally = Tally::new("audit, one.root with tables of 0 to 7 rows each");
    for (nth, file) in forms().into_iter().enumerate() {
        // The class in the copy.
        let mut damaged = file.clone();
        damaged[[266, 337][nth]] ^= 1;
        for lengths in (0..8).flat_map(|a| (0..8).flat_map(move |b| (0..8).map(move |c| [a, b, c]))) {
            let enough = lengths.iter().all(|&len| len >= 5);
            let (got, rows) = audit(&mut tally, &file, lengths);
            let expected = if enough { (answer(0, 0, 5), rows_at(STARTS[nth])) } else { (answer(7, 0, 5), Vec::new()) };
            assert_eq!((got, rows), expected, "{lengths:?}");
            let (got, _) = audit(&mut tally, &damaged, lengths);
            assert_eq!(got.number, if enough { 13 } else { 7 }, "{lengths:?}");
        }
    }
    tally.finish(2_000, &[0, 7, 13]);
}
