//! Files of the benchmarks: valid, of exactly so many pieces, of several shapes. Most are made of directories in an
//! order that makes the next one hard to find.

use super::files::{plan_of, shuffle, Item, Plan, Role};
use super::strings::counted;
use super::{nested, Rng};

/// A name, and the plan of a file of so many pieces, a multiple of 20 and at least 300.
#[derive(Clone, Copy)]
pub struct Shape {
    pub name: &'static str,
    pub plan: fn(usize) -> Plan,
}

/// Every shape. The first is a file as it would be written; `wide` and `wide-one` are the first two with wide offsets.
pub const ALL: [Shape; 11] = [
    Shape { name: "tree", plan: tree },
    Shape { name: "one", plan: one_directory },
    Shape { name: "scattered", plan: scattered },
    Shape { name: "rising", plan: |pieces| chain(pieces, rising) },
    Shape { name: "falling", plan: |pieces| chain(pieces, falling) },
    Shape { name: "random", plan: |pieces| chain(pieces, random) },
    Shape { name: "zigzag", plan: |pieces| chain(pieces, zigzag) },
    Shape { name: "random-tree", plan: random_tree },
    Shape { name: "high-low", plan: high_low },
    Shape { name: "wide", plan: |pieces| tree(pieces).of_width(true) },
    Shape { name: "wide-one", plan: |pieces| one_directory(pieces).of_width(true) },
];

/// Directories of 20 pieces each, in the order in which they are written.
fn tree(pieces: usize) -> Plan {
    nested::plan(&mut Rng::new(1), pieces, 0)
}

/// One directory that lists everything.
fn one_directory(pieces: usize) -> Plan {
    plan_of(&mut Rng::new(1), pieces, 0, false).of_width(false)
}

/// The tree with its pieces in any order.
fn scattered(pieces: usize) -> Plan {
    let mut plan = tree(pieces);
    shuffle(&mut Rng::new(2), &mut plan.order[1..]);
    plan
}

/// Each directory lists the next one, and the order says which place in the file each of them has.
fn chain(pieces: usize, order: fn(usize) -> Vec<usize>) -> Plan {
    let dirs = (pieces - 3) / 2;
    let parents: Vec<usize> = (0..dirs).collect();
    directories(pieces, &parents, &order(dirs))
}

/// Each directory is listed by any earlier one, and stands anywhere.
fn random_tree(pieces: usize) -> Plan {
    let mut rng = Rng::new(3);
    let dirs = (pieces - 3) / 2;
    let parents: Vec<usize> = (0..dirs).map(|dir| rng.below(dir + 1)).collect();
    directories(pieces, &parents, &random(dirs))
}

/// The head lists a third of the pieces, directories at the end of the file, each of which lists one at its start.
fn high_low(pieces: usize) -> Plan {
    let each = (pieces - 3) / 3;
    let parents: Vec<usize> = (0..each).map(|_| 0).chain(1..=each).collect();
    let order: Vec<usize> = (each..2 * each).chain(0..each).collect();
    let mut plan = directories(pieces, &parents, &order);
    // Those at the end follow the keys lists too. The free list stays the last.
    let after_low = 1 + each..pieces - 1;
    plan.order[after_low].rotate_left(each);
    plan
}

fn rising(dirs: usize) -> Vec<usize> {
    (0..dirs).collect()
}

fn falling(dirs: usize) -> Vec<usize> {
    (0..dirs).rev().collect()
}

fn random(dirs: usize) -> Vec<usize> {
    let mut order = rising(dirs);
    shuffle(&mut Rng::new(4), &mut order);
    order
}

/// The lowest place, the highest, the lowest but one and so on: the file has first those that are even.
fn zigzag(dirs: usize) -> Vec<usize> {
    let odd = (0..dirs).filter(|dir| dir % 2 == 1);
    (0..dirs).step_by(2).chain(odd.rev()).collect()
}

/// The head is 0 and directory `nth` of the parents is `nth + 1`. `order` has each `nth` once, in file order. The
/// keys lists of those that list something follow, then loose records up to so many pieces, then the free list.
pub fn directories(pieces: usize, parents: &[usize], order: &[usize]) -> Plan {
    let mut rng = Rng::new(5);
    let mut plan = Plan { version: 62400, ..Plan::default() };
    let head = plan.add(item(&mut rng, Role::Head, "TFile", None));
    plan.items[head].names = [counted(b"dirs.root"), counted(b"")].concat();
    for &parent in parents {
        plan.add(item(&mut rng, Role::Dir { parent }, "TDirectory", Some(parent)));
    }
    plan.order.truncate(1);
    plan.order.extend(order.iter().map(|nth| nth + 1));
    for (nth, &by) in parents.iter().enumerate() {
        if plan.items[by].list.is_none() {
            let list = plan.add(item(&mut rng, Role::Keys { of: by }, "TDirectory", Some(by)));
            plan.items[by].list = Some(list);
        }
        plan.list(by, nth + 1);
    }
    while plan.items.len() + 1 < pieces {
        plan.add(item(&mut rng, Role::Loose, "TBasket", Some(head)));
    }
    plan.add(item(&mut rng, Role::Free, "TFile", Some(head)));
    assert_eq!(plan.items.len(), pieces);
    plan
}

/// A piece whose key is like every other.
fn item(rng: &mut Rng, role: Role, class: &str, pdir: Option<usize>) -> Item {
    let mut item = Item::new(rng, role, class, "detector");
    (item.key.version, item.key.cycle, item.version, item.pdir) = (4, 1, 5, pdir);
    item.segments = vec![1];
    item.key.strings[2].clear();
    item
}
