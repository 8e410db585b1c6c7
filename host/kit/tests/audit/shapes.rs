//! The files of the benchmarks, small, as they are and damaged.

use kit::compare::audit::{audit, audit_with_room};
use kit::compare::Tally;
use kit::gen::files::Role;
use kit::gen::{shapes, Rng};
use second::{number, Answer};

#[test]
fn valid() {
    let mut tally = Tally::new("audit, shapes of the benchmarks");
    for shape in shapes::ALL {
        for pieces in [300, 320, 2_000] {
            let plan = (shape.plan)(pieces);
            let built = plan.build();
            let (answer, rows) = audit_with_room(&mut tally, &built.bytes, 0);
            assert_eq!(answer, Answer::success(pieces as u64), "{}", shape.name);
            assert_eq!(rows, plan.rows(&built), "{}", shape.name);
            let (answer, _) = audit(&mut tally, &built.bytes, [pieces - 1; 3]);
            assert_eq!(answer, Answer { number: number::UNFINISHED, place: 0, count: pieces as u64 });
        }
    }
    tally.finish(66, &[number::SUCCESS, number::UNFINISHED]);
}

/// Headers of some directories are bad: the first that is taken decides.
#[test]
fn bad_directories() {
    let mut tally = Tally::new("audit, shapes of the benchmarks with bad directories");
    let mut rng = Rng::new(250);
    for shape in shapes::ALL.iter().filter(|shape| !shape.name.ends_with("one")) {
        let plan = (shape.plan)(300);
        let built = plan.build();
        let items = plan.items.iter().enumerate();
        let dirs: Vec<usize> =
            items.filter(|(_, item)| matches!(item.role, Role::Dir { .. })).map(|(i, _)| i).collect();
        for _ in 0..200 {
            let mut damaged = built.clone();
            for _ in 0..1 + rng.below(3) {
                damaged.add(damaged.sites[rng.pick(&dirs)].directory().seek_dir(), 1);
            }
            let (answer, _) = audit_with_room(&mut tally, &damaged.bytes, 0);
            assert_eq!(answer.number, number::DIRECTORY, "{}", shape.name);
        }
    }
    tally.finish(1_800, &[number::DIRECTORY]);
}
