//! Directories found and not done: the lowest comes next, in whatever order they were found.

use kit::compare::audit::{audit, audit_by_rules, audit_with_room};
use kit::compare::Tally;
use kit::gen::files::{Built, Plan};
use kit::gen::{shapes, Rng};
use second::{number, Answer};
use std::collections::{BTreeSet, HashSet};

/// Every order of 0 up to `n`, `n` not included.
fn orders(n: usize) -> Vec<Vec<usize>> {
    match n {
        0 => vec![vec![]],
        _ => {
            let shorter = orders(n - 1);
            let with_last = |order: &Vec<usize>| {
                (0..n).map(|at| [&order[..at], &[n - 1], &order[at..]].concat()).collect::<Vec<_>>()
            };
            shorter.iter().flat_map(with_last).collect()
        }
    }
}

/// Every tree: the head is 0, and directory `nth + 1` is listed by any of those before it.
fn trees(n: usize) -> Vec<Vec<usize>> {
    (0..n).fold(vec![vec![]], |trees, nth| {
        let with_next = |tree: &Vec<usize>| (0..=nth).map(|parent| [&tree[..], &[parent]].concat()).collect::<Vec<_>>();
        trees.iter().flat_map(with_next).collect()
    })
}

/// Directories with these parents in this order of the file, their keys lists, `loose` other records, the free list.
fn plan(parents: &[usize], order: &[usize], loose: usize) -> Plan {
    let lists = parents.iter().collect::<HashSet<_>>().len();
    shapes::directories(1 + parents.len() + lists + loose + 1, parents, order)
}

/// The rule: the order in which directories are taken, each the lowest in the file of those found and not done.
fn taken(parents: &[usize], built: &Built) -> Vec<usize> {
    let mut waiting = BTreeSet::from([(built.sites[0].start, 0)]);
    let mut taken = Vec::new();
    while let Some((_, dir)) = waiting.pop_first() {
        taken.push(dir);
        let found = (1..=parents.len()).filter(|&other| parents[other - 1] == dir);
        waiting.extend(found.map(|other| (built.sites[other].start, other)));
    }
    taken
}

/// Passes; with the headers of these directories bad, the one that is taken first decides.
fn check(tally: &mut Tally, plan: &Plan, parents: &[usize], bad: &[Vec<usize>]) {
    let built = plan.build();
    let pass = (Answer::success(plan.items.len() as u64), plan.rows(&built));
    assert_eq!(audit_with_room(tally, &built.bytes, 0), pass);
    let order = taken(parents, &built);
    for dirs in bad {
        let mut damaged = built.clone();
        for &dir in dirs {
            damaged.add(damaged.sites[dir].directory().seek_dir(), 1);
        }
        let first = order.iter().find(|dir| dirs.contains(dir)).unwrap();
        let expected = Answer::refusal(number::DIRECTORY, built.sites[*first].start as u64);
        assert_eq!(audit_with_room(tally, &damaged.bytes, 0).0, expected);
    }
}

/// The head lists up to seven directories, found in every order.
#[test]
fn found_in_every_order() {
    let mut tally = Tally::new("audit, directories found in every order");
    for dirs in 1..=7 {
        let parents = vec![0; dirs];
        let file_order: Vec<usize> = (0..dirs).collect();
        for order in orders(dirs) {
            let mut plan = plan(&parents, &file_order, 0);
            let list = plan.items[0].list.unwrap();
            plan.items[list].copies = order.iter().map(|nth| nth + 1).collect();
            let all: Vec<usize> = (1..=dirs).collect();
            check(&mut tally, &plan, &parents, &[all[dirs / 2..].to_vec(), all]);
        }
    }
    tally.finish(3 * 5_913, &[number::SUCCESS, number::DIRECTORY]);
}

/// Every tree of up to five directories, in every order of the file; with every pair of them bad.
#[test]
fn every_tree() {
    let mut tally = Tally::new("audit, every tree of directories in every order of the file");
    for dirs in 0..=4 {
        let pairs: Vec<Vec<usize>> = (1..=dirs).flat_map(|a| (a..=dirs).map(move |b| vec![a, b])).collect();
        for parents in trees(dirs) {
            for order in orders(dirs) {
                check(&mut tally, &plan(&parents, &order, 0), &parents, &pairs);
            }
        }
    }
    for parents in trees(5) {
        for order in orders(5) {
            check(&mut tally, &plan(&parents, &order, 0), &parents, &[(1..=5).collect()]);
        }
    }
    tally.finish(6_000 + 2 * 14_400, &[number::SUCCESS, number::DIRECTORY]);
}

/// The same of larger trees, of any number of rows about a power of 2.
#[test]
fn any_tree() {
    let mut tally = Tally::new("audit, any tree of directories");
    let mut rng = Rng::new(260);
    for round in 0..4_000 {
        let dirs = 1 + rng.below([8, 16, 40, 70][round % 4]);
        let parents: Vec<usize> = (0..dirs).map(|dir| rng.below(dir + 1)).collect();
        let mut order: Vec<usize> = (0..dirs).collect();
        kit::gen::files::shuffle(&mut rng, &mut order);
        let some = |rng: &mut Rng| (0..1 + rng.below(3)).map(|_| 1 + rng.below(dirs)).collect();
        let bad = [some(&mut rng), some(&mut rng)];
        check(&mut tally, &plan(&parents, &order, rng.below(9)), &parents, &bad);
    }
    tally.finish(12_000, &[number::SUCCESS, number::DIRECTORY]);
}

/// A tree that stops at its nth directory leaves no trace: every number of rows, and tables longer than these.
#[test]
fn marks_are_gone() {
    let mut tally = Tally::new("audit, tables after many directories");
    for loose in 0..70 {
        let parents = [0, 1, 2, 0, 4, 4];
        let plan = plan(&parents, &[5, 3, 1, 4, 0, 2], loose);
        let built = plan.build();
        let pieces = plan.items.len();
        for more in [[0, 0, 0], [1, 0, 0], [0, 1, 0], [7, 64, 3], [200, 200, 200]] {
            let (answer, rows) = audit(&mut tally, &built.bytes, more.map(|more| pieces + more));
            assert_eq!((answer, rows), (Answer::success(pieces as u64), plan.rows(&built)));
        }
        check(&mut tally, &plan, &parents, &(1..=6).map(|dir| vec![dir]).collect::<Vec<_>>());
    }
    tally.finish(70 * 12, &[number::SUCCESS, number::DIRECTORY]);
}

/// No rows, one, two, three, five and seven: with and without directories, good and bad.
#[test]
fn few_rows() {
    let mut tally = Tally::new("audit, files of few rows");
    let whole = plan(&[], &[], 0).build();
    let two = (whole.sites[0].start, whole.sites[1].start);
    // The header alone: there is no head. The head alone: there is no free list.
    for (end, expected) in [(two.0, (number::HEAD, 100)), (two.1, (number::FREE, two.1 as u64))] {
        let mut cut = whole.clone();
        cut.bytes.truncate(end);
        cut.put(cut.header.end(), end as u64);
        assert_eq!(audit_by_rules(&mut tally, &cut.bytes).0, Answer::refusal(expected.0, expected.1));
    }
    let cases: [(&[usize], &[usize], usize); 6] = [
        (&[], &[], 0),
        (&[], &[], 1),
        (&[0], &[0], 1),
        (&[0, 0], &[1, 0], 0),
        (&[0, 1], &[1, 0], 1),
        (&[0, 0, 0], &[2, 0, 1], 1),
    ];
    let rows = cases.map(|(parents, order, loose)| {
        let plan = plan(parents, order, loose);
        let built = plan.build();
        assert_eq!(audit_by_rules(&mut tally, &built.bytes).0, Answer::success(plan.items.len() as u64));
        check(&mut tally, &plan, parents, &(1..=parents.len()).map(|dir| vec![dir]).collect::<Vec<_>>());
        plan.items.len()
    });
    assert_eq!(rows, [2, 3, 5, 5, 7, 7]);
    tally.finish(20, &[number::SUCCESS, number::HEAD, number::FREE, number::DIRECTORY]);
}
