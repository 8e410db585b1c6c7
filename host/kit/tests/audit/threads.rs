//! Threads that audit at once, each into tables of its own, and one with no rows at all: the answers are those
//! of one alone.

use kit::gen::files::plan_of;
use kit::gen::Rng;
use programs::ffi::audit::audit;
use std::thread;

const ROUNDS: usize = 200;

/// An audit with so many rows: number, place, count and the tables.
fn audited(file: &[u8], rows: usize) -> ([u64; 3], Vec<u64>) {
    let mut tables = vec![7; 3 * rows];
    let (start, rest) = tables.split_at_mut(rows);
    let (part, owner) = rest.split_at_mut(rows);
    let (mut place, mut count) = (9, 9);
    let number = audit(file, [start, part, owner], &mut place, &mut count);
    ([number, place, count], tables)
}

#[test]
fn audits_at_once() {
    let mut rng = Rng::new(7);
    let mut files: Vec<Vec<u8>> = (0..4).map(|_| plan_of(&mut rng, 500, 10, true).build().bytes).collect();
    let half = files[3].len() / 2;
    files[3][half..].fill(0);
    let alone: Vec<_> = files.iter().map(|file| audited(file, 600)).collect();
    assert!(alone[..3].iter().all(|(answer, _)| *answer == [0, 0, 500]) && alone[3].0[0] != 0);
    thread::scope(|scope| {
        for (file, alone) in files.iter().zip(&alone).cycle().take(8) {
            scope.spawn(move || (0..ROUNDS).for_each(|_| assert_eq!(audited(file, 600), *alone)));
        }
        // The pointer of a table without rows is not null, as is asked.
        scope.spawn(|| assert_eq!(audited(&files[0], 0), ([7, 0, 500], vec![])));
    });
}
