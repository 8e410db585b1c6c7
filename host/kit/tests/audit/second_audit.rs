//! The second audit of a whole file against the rules, which are tried on every set of directories:
//! a file passes exactly if one assignment of parts and owners meets the rules, and its rows are that one.

use kit::compare::Tally;
use kit::gen::files::{plan, SMALL};
use kit::gen::{damage, one_root, wide_root, Rng};
use second::audit::{audit, pieces};
use second::rules;

fn agree(tally: &mut Tally, file: &[u8]) {
    let (answer, rows) = audit(file, pieces(file).unwrap_or(3));
    let assignments = rules::assignments(file);
    let expected = if answer.number == 0 { vec![rows] } else { Vec::new() };
    assert!(assignments == expected, "{answer:?} rules {assignments:?}");
    tally.add(answer.number);
}

#[test]
fn each_byte_of_one_root() {
    let mut tally = Tally::new("second audit, one.root");
    for file in [one_root(), wide_root()] {
        agree(&mut tally, &file);
        for at in 0..file.len() {
            for change in [1, 0x80, 0xff] {
                let mut changed = file.clone();
                changed[at] ^= change;
                agree(&mut tally, &changed);
            }
        }
    }
    tally.finish(2_000, &[0, 2, 3, 4, 5, 6, 8, 9, 10, 12, 13]);
}

#[test]
fn random_files() {
    let mut tally = Tally::new("second audit, random files, whole and damaged");
    let mut rng = Rng::new(7);
    for _ in 0..3_000 {
        let built = plan(&mut rng, SMALL).build();
        agree(&mut tally, &built.bytes);
        let mut damaged = built.bytes;
        let at = rng.below(damaged.len());
        damage(&mut rng, &mut damaged, at);
        agree(&mut tally, &damaged);
    }
    tally.finish(6_000, &[0]);
}
