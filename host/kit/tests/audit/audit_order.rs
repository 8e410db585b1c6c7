//! Which of two faults in directories the audit gives: it takes the lowest directory of those found
//! and not done, and its copies in turn.

use kit::compare::audit::audit_by_rules;
use kit::compare::Tally;
use kit::gen::fields::KeyAt;
use kit::gen::files::{keys, segment_bytes, Built, Item, Plan, Role};
use kit::gen::{versioned_key, RawKey, Rng};
use second::Answer;

const HEAD: usize = 0;
const A: usize = 1;
const B: usize = 2;
const C: usize = 3;
const X: usize = 4;
const Y: usize = 5;
const LIST: usize = 6;
const LIST_A: usize = 7;

/// The head lists A, X, C and Y; A lists B. In the file: the head, B, X, C, Y, A, then the rest.
fn file() -> Plan {
    let mut rng = Rng::new(130);
    let mut plan = Plan::default();
    let roles = [
        (Role::Head, "TFile", HEAD),
        (Role::Dir { parent: HEAD }, "TDirectory", HEAD),
        (Role::Dir { parent: A }, "TDirectory", A),
        (Role::Dir { parent: HEAD }, "TDirectory", HEAD),
        (Role::Object, "TObjString", HEAD),
        (Role::Object, "TObjString", HEAD),
    ];
    for (role, class, pdir) in roles {
        let mut item = Item::new(&mut rng, role, class, "n");
        item.pdir = Some(pdir);
        plan.add(item);
    }
    plan.items[HEAD].names = vec![0, 0];
    assert_eq!([HEAD, A].map(|dir| keys(&mut rng, &mut plan, dir)), [LIST, LIST_A]);
    for listed in [A, X, C, Y] {
        plan.list(HEAD, listed);
    }
    plan.list(A, B);
    let mut free = Item::new(&mut rng, Role::Free, "TFile", "a");
    free.pdir = Some(HEAD);
    plan.add(free);
    plan.order = vec![HEAD, B, X, C, Y, A, LIST, LIST_A, 8];
    plan
}

fn refused(tally: &mut Tally, built: &Built, number: u64, place: usize) {
    let (answer, _) = audit_by_rules(tally, &built.bytes);
    assert_eq!(answer, Answer::refusal(number, place as u64));
}

/// The fields of a copy that do not depend on its width.
fn copy_at(at: usize) -> KeyAt {
    KeyAt { at, width: 4 }
}

/// Spoils SeekDir of a directory.
fn damage_header(built: &mut Built, dir: usize) {
    built.add(built.sites[dir].directory().seek_dir(), 1);
}

#[test]
fn lowest_directory_found() {
    let mut tally = Tally::new("audit, order of directories");
    let good = file().build();
    assert_eq!(audit_by_rules(&mut tally, &good.bytes).0, Answer::success(9));
    // C is lower than A. B is the lowest of all, and found after C was done.
    for (damaged, first) in [(vec![A, B, C], C), (vec![A, B], A), (vec![B, C], C), (vec![B], B), (vec![A, C], C)] {
        let mut built = good.clone();
        for dir in damaged {
            damage_header(&mut built, dir);
        }
        refused(&mut tally, &built, 11, built.sites[first].start);
    }
    // With C behind A, B is found before C is taken.
    let mut plan = file();
    plan.order = vec![HEAD, B, A, X, Y, C, LIST, LIST_A, 8];
    for (damaged, first) in [(vec![A, B, C], A), (vec![B, C], B), (vec![C], C)] {
        let mut built = plan.build();
        for dir in damaged {
            damage_header(&mut built, dir);
        }
        refused(&mut tally, &built, 11, built.sites[first].start);
    }
    tally.finish(9, &[0, 11]);
}

/// A directory's header is looked at when it is taken, not when it is found.
#[test]
fn header_when_taken() {
    let mut tally = Tally::new("audit, faults of a directory found and of the list that found it");
    let mut built = file().build();
    damage_header(&mut built, A);
    damage_header(&mut built, C);
    // The last copy of the head's list.
    let last = built.sites[LIST].copies[3];
    built.add(copy_at(last).datime(), 1);
    refused(&mut tally, &built, 13, last);

    let mut plan = file();
    plan.items[LIST].data = vec![0];
    let mut built = plan.build();
    damage_header(&mut built, C);
    refused(&mut tally, &built, 12, built.sites[LIST].start);
    tally.finish(2, &[12, 13]);
}

#[test]
fn copies_in_turn() {
    let mut tally = Tally::new("audit, order of copies");
    // 14 at the second copy of X, before the third does not parse, and the other way around.
    let mut plan = file();
    plan.items[LIST].copies = vec![X, X, C, Y];
    for (broken, number) in [(2, 14), (0, 12), (1, 12)] {
        let mut built = plan.build();
        let copies = built.sites[LIST].copies.clone();
        built.put(copy_at(copies[broken]).version(), 0);
        refused(&mut tally, &built, number, if number == 14 { copies[1] } else { built.sites[LIST].start });
    }
    // 13 goes before 14 at one copy.
    let mut built = plan.build();
    let copy = built.sites[LIST].copies[1];
    built.add(copy_at(copy).datime(), 1);
    refused(&mut tally, &built, 13, copy);
    // NKeys too large: every copy there is comes first.
    let mut built = plan.build();
    built.put(built.sites[LIST].nkeys(), u32::MAX.into());
    refused(&mut tally, &built, 14, copy);
    // NKeys too small: the bytes left over come after the copies.
    built.put(built.sites[LIST].nkeys(), 1);
    refused(&mut tally, &built, 12, built.sites[LIST].start);
    built.put(built.sites[LIST].nkeys(), 2);
    refused(&mut tally, &built, 14, copy);
    tally.finish(7, &[12, 13, 14]);
}

/// The list record's own rule, then its part, then its data.
#[test]
fn list_before_copies() {
    let mut tally = Tally::new("audit, order within a list");
    let free = 8;
    for (pdir, number) in [(1, 12), (0, 14)] {
        let mut built = file().build();
        let head = built.sites[HEAD].directory();
        built.put(head.seek_keys(), built.start(free));
        built.put(head.nbytes_keys(), built.size(free));
        built.add(built.sites[free].key().seek_pdir(), pdir);
        refused(&mut tally, &built, number, if number == 14 { 100 } else { built.sites[free].start });
    }
    tally.finish(2, &[12, 14]);
}

/// A head whose data is also a faultless free list: three gaps and what follows the file. SeekFree
/// is 100, and only the rule that the free list is another record than the head is broken.
#[test]
fn head_is_no_free_list() {
    let mut tally = Tally::new("audit, a head that could be the free list");
    let mut head = RawKey {
        strings: [b"TFile".to_vec(), b"a".to_vec(), vec![]],
        ..versioned_key(&mut Rng::new(1), 4, 100, [0; 3], 0)
    };
    (head.nbytes, head.keylen, head.objlen) = (75, 35, 40);
    let segments = [[175, 199], [200, 10751], [10752, 25600], [25601, 2_000_000_000]];
    let mut file = b"root".to_vec();
    let numbers: [u32; 7] = [62400, 100, 25601, 100, 75, 4, 42];
    file.extend(numbers.map(u32::to_be_bytes).concat());
    file.push(4);
    file.resize(100, 0);
    file.extend(head.header());
    // The version of the first segment is an empty name and the length of a title of 5 bytes; that of
    // the third is a part of NbytesName 42.
    for (version, segment) in [5, 0, 0, 0].into_iter().zip(segments) {
        file.extend(segment_bytes(version, segment));
    }
    for [first, last] in &segments[..3] {
        file.extend((*first as i32 - *last as i32 - 1).to_be_bytes());
        file.resize(*last as usize + 1, 0);
    }
    let directory = 100 + 35 + 7;
    assert_eq!(file[directory + 14..directory + 26], [0, 0, 0, 42, 0, 0, 0, 100, 0, 0, 0, 0]);
    assert_eq!(audit_by_rules(&mut tally, &file).0, Answer::refusal(9, 100));
    tally.finish(1, &[9]);
}
