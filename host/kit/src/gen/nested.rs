//! Files like those that are kept: a tree of directories in which each has the same to do, whatever
//! the size of the file.

use super::files::{Item, Plan, Role};
use super::strings::counted;
use super::Rng;

/// Pieces to a directory: itself, its keys list, objects that it lists, a gap and a loose record.
pub const EACH: usize = 20;
const OBJECTS: usize = EACH - 4;
/// The most subdirectories to a directory.
const SUBDIRS: usize = 4;

/// A plan of a valid file of `pieces` pieces, a multiple of `EACH`. Each object has `zeros` bytes of
/// data and 8 more. The head has two objects fewer, for the info record and the free list.
///
/// They stand as they would be written: a directory, its objects, then its subdirectories; at the end
/// the keys lists, the info record and the free list.
pub fn plan(rng: &mut Rng, pieces: usize, zeros: usize) -> Plan {
    assert_eq!(pieces % EACH, 0, "pieces that do not make whole directories");
    let mut plan = Plan { version: 62400, ..Plan::default() };
    let mut made = Vec::new();
    // The number of a directory in the tree, and its parent's index in the plan.
    let mut to_make = vec![(0, None)];
    while let Some((number, parent)) = to_make.pop() {
        let dir = directory(rng, &mut plan, parent);
        content(rng, &mut plan, dir, zeros);
        made.push(dir);
        let subdirs = (SUBDIRS * number + 1..pieces / EACH).take(SUBDIRS);
        to_make.extend(subdirs.rev().map(|subdir| (subdir, Some(dir))));
    }
    for dir in made {
        keys(rng, &mut plan, dir);
    }
    add(rng, &mut plan, Role::Info, ["TList", "StreamerInfo"], Some(0));
    add(rng, &mut plan, Role::Free, ["TFile", "nested.root"], Some(0));
    list_all(&mut plan);
    plan
}

/// Adds a piece whose key is like every other: its index.
fn add(rng: &mut Rng, plan: &mut Plan, role: Role, [class, name]: [&str; 2], pdir: Option<usize>) -> usize {
    let mut item = Item::new(rng, role, class, name);
    (item.key.version, item.key.cycle, item.version, item.pdir) = (4, 1, 5, pdir);
    item.segments = vec![1];
    item.key.strings[2] = b"counts per channel".to_vec();
    plan.add(item)
}

fn directory(rng: &mut Rng, plan: &mut Plan, parent: Option<usize>) -> usize {
    match parent {
        Some(parent) => add(rng, plan, Role::Dir { parent }, ["TDirectory", "detector"], Some(parent)),
        None => {
            let head = add(rng, plan, Role::Head, ["TFile", "nested.root"], None);
            plan.items[head].names = [counted(b"nested.root"), counted(b"")].concat();
            head
        }
    }
}

/// The objects of a directory, a gap, and a record that nobody lists.
fn content(rng: &mut Rng, plan: &mut Plan, dir: usize, zeros: usize) {
    let objects = if plan.items[dir].role == Role::Head { OBJECTS - 2 } else { OBJECTS };
    for _ in 0..objects {
        let object = add(rng, plan, Role::Object, ["TH1F", "spectrum"], Some(dir));
        plan.items[object].zeros = 8 + zeros;
    }
    for (role, class) in [(Role::Gap, ""), (Role::Loose, "TBasket")] {
        let piece = add(rng, plan, role, [class, "spectrum"], Some(dir));
        plan.items[piece].data = vec![0; 8];
    }
}

fn keys(rng: &mut Rng, plan: &mut Plan, of: usize) {
    let list = add(rng, plan, Role::Keys { of }, ["TDirectory", "detector"], Some(of));
    plan.items[of].list = Some(list);
}

/// Every object and subdirectory goes into the keys list of its directory.
fn list_all(plan: &mut Plan) {
    for index in 0..plan.items.len() {
        let item = &plan.items[index];
        if let (Role::Object | Role::Dir { .. }, Some(by)) = (item.role, item.pdir) {
            plan.list(by, index);
        }
    }
}
