//! The audit of random files, valid and damaged, and of files written by ROOT.

use kit::compare::audit::{audit, audit_by_rules, audit_with_room};
use kit::compare::Tally;
use kit::gen::faults::{self, Target};
use kit::gen::fields::{Field, HeaderAt, KeyAt};
use kit::gen::files::{deep_plan, plan, Built, Plan, Site, LARGE, RICH, SMALL};
use kit::gen::{damage, nested, Rng};
use second::audit::pieces;
use second::Answer;
use std::fs;

#[test]
fn valid_files() {
    let mut tally = Tally::new("audit, random valid files");
    let mut rng = Rng::new(120);
    for _ in 0..30_000 {
        let plan = plan(&mut rng, SMALL);
        let built = plan.build();
        let (answer, rows) = audit_by_rules(&mut tally, &built.bytes);
        assert_eq!(answer, Answer::success(plan.order.len() as u64));
        assert_eq!(rows, plan.rows(&built));
    }
    tally.finish(30_000, &[0]);
}

#[test]
fn large_valid_files() {
    let mut tally = Tally::new("audit, random valid files of thousands of pieces");
    let mut rng = Rng::new(121);
    for _ in 0..20 {
        let plan = plan(&mut rng, LARGE);
        let built = plan.build();
        let (answer, rows) = audit_with_room(&mut tally, &built.bytes, 0);
        assert_eq!(answer, Answer::success(plan.order.len() as u64));
        assert_eq!(rows, plan.rows(&built));
        let short = plan.order.len() - 1;
        let (answer, _) = audit(&mut tally, &built.bytes, [short, short + 1, short + 7]);
        assert_eq!(answer, Answer { number: 7, place: 0, count: short as u64 + 1 });
    }
    tally.finish(40, &[0, 7]);
}

/// The files that the benchmarks have.
#[test]
fn nested_files() {
    let mut tally = Tally::new("audit, trees of directories");
    let mut rng = Rng::new(126);
    for (pieces, zeros) in [(20, 0), (40, 3), (120, 0), (2_000, 100), (20_000, 0)] {
        let plan = nested::plan(&mut rng, pieces, zeros);
        let built = plan.build();
        let (answer, rows) = audit_with_room(&mut tally, &built.bytes, 0);
        assert_eq!(answer, Answer::success(pieces as u64));
        assert_eq!(rows, plan.rows(&built));
    }
    tally.finish(5, &[0]);
}

/// Directories one in another, the next one higher or lower in the file. The deepest may be bad.
#[test]
fn deep_files() {
    let mut tally = Tally::new("audit, directories one in another");
    let mut rng = Rng::new(125);
    for depth in [1, 2, 10, 300, 2_000] {
        let mut plan = deep_plan(&mut rng, depth);
        for turn in 0..2 {
            if turn == 1 {
                plan.order[1..].reverse();
            }
            let mut built = plan.build();
            let (answer, rows) = audit_with_room(&mut tally, &built.bytes, 0);
            assert_eq!(answer, Answer::success(plan.order.len() as u64));
            assert_eq!(rows, plan.rows(&built));
            built.add(built.sites[depth].directory().seek_parent(), 1);
            let (answer, _) = audit_with_room(&mut tally, &built.bytes, 0);
            assert_eq!(answer, Answer::refusal(11, built.sites[depth].start as u64));
        }
    }
    tally.finish(20, &[0, 11]);
}

/// The numbers that say where something stands or how long it is: in a piece and the copies in it, and in the header.
fn fields(rng: &mut Rng, header: HeaderAt, site: &Site) -> Vec<Field> {
    let (key, directory) = (site.key(), site.directory());
    let mut fields = vec![key.nbytes(), key.objlen(), key.seek_key(), key.seek_pdir(), key.version()];
    fields.extend([directory.nbytes_keys(), directory.nbytes_name(), directory.version()]);
    fields.extend([directory.seek_dir(), directory.seek_parent(), directory.seek_keys()]);
    for copy in site.copies.iter().map(|&at| KeyAt { at, width: rng.pick(&[4, 8]) }) {
        fields.extend([copy.nbytes(), copy.seek_key(), copy.seek_pdir(), copy.version()]);
    }
    for segment in &site.segments {
        fields.extend([segment.version(), segment.first(), segment.last()]);
    }
    fields.extend([header.seek_free(), header.nbytes_free(), header.nfree(), header.nbytes_name()]);
    fields.extend([header.seek_info(), header.nbytes_info()]);
    fields
}

/// One change: at any byte, near a header, or a number that says where something stands.
fn damage_plan(rng: &mut Rng, plan: &Plan, built: &mut Built) {
    let len = built.bytes.len();
    let site = &built.sites[rng.below(plan.items.len())];
    let other = &built.sites[rng.below(plan.items.len())];
    match rng.below(6) {
        0 => {
            let at = rng.below(len);
            built.bytes[at] = rng.u64() as u8;
        }
        1 if site.start < len => damage(rng, &mut built.bytes, site.start),
        2 => {
            let at = rng.below(58);
            built.bytes[at] ^= 1 << rng.below(8);
        }
        _ => {
            let fields = fields(rng, built.header, site);
            let field = rng.pick(&fields);
            let number = rng.pick(&[other.start, other.size, other.start + 1, other.size - 1, 0, len]) as u64;
            built.put(field, number);
        }
    }
}

#[test]
fn damaged_files() {
    let mut tally = Tally::new("audit, random files damaged");
    let mut rng = Rng::new(122);
    for _ in 0..50_000 {
        let size = rng.pick(&[SMALL, RICH]);
        let plan = plan(&mut rng, size);
        let mut built = plan.build();
        for _ in 0..1 + rng.below(3) {
            if built.bytes.len() > 60 {
                damage_plan(&mut rng, &plan, &mut built);
            }
        }
        if rng.once_in(2) && built.bytes.len() >= 100 {
            built.close();
        }
        audit_by_rules(&mut tally, &built.bytes);
    }
    tally.finish(50_000, &[0, 2, 3, 4, 5, 6, 8, 9, 10, 11, 12, 13]);
}

/// Every room that does not bring 7 gives the same answer and rows.
#[test]
fn rooms() {
    let mut tally = Tally::new("audit, each room");
    let mut rng = Rng::new(123);
    let faults = faults::all();
    for nth in 0..2_500 {
        let plan = plan(&mut rng, RICH);
        let fault = &faults[nth % faults.len()];
        let target = Target::pick(&mut rng, &plan);
        let file = faults::build(&mut rng, &plan, &[(fault, target)]).bytes;
        let enough = audit_with_room(&mut tally, &file, 9);
        // A file whose header or chain is refused has no pieces to hold.
        let needed = if (1..=6).contains(&enough.0.number) { 0 } else { pieces(&file).unwrap() };
        for room in 0..=pieces(&file).unwrap_or(4) + 2 {
            let longer = [rng.below(4), rng.below(4)];
            let mut lengths = [room, room + longer[0], room + longer[1]];
            lengths.rotate_left(rng.below(3));
            let got = audit(&mut tally, &file, lengths);
            if room < needed {
                let unfinished = Answer { number: 7, place: 0, count: needed as u64 };
                assert_eq!(got, (unfinished, Vec::new()));
            } else {
                assert_eq!(got, enough, "room {room}");
            }
        }
    }
    tally.finish(30_000, &[0, 1, 2, 3, 4, 5, 6, 7, 8, 9, 10, 11, 12, 13, 14]);
}

#[test]
fn random_bytes() {
    let mut tally = Tally::new("audit, random bytes behind a good header");
    let mut rng = Rng::new(124);
    for _ in 0..10_000 {
        let mut built = plan(&mut rng, SMALL).build();
        let from = 100 + rng.below(built.bytes.len() - 100);
        for at in from..built.bytes.len() {
            if rng.once_in(8) {
                built.bytes[at] = rng.u64() as u8;
            }
        }
        audit_by_rules(&mut tally, &built.bytes);
    }
    tally.finish(10_000, &[0, 5, 6]);
}

#[test]
fn root_files() {
    let Some(paths) = kit::harness::root_folder::root_files() else { return };
    let mut tally = Tally::new("audit, files written by ROOT");
    for path in &paths {
        let file = fs::read(path).unwrap();
        let (answer, _) = audit_with_room(&mut tally, &file, 0);
        kit::harness::root_folder::expect_known(path, answer);
        for room in 0..12 {
            audit(&mut tally, &file, [room, room + 1, room + 2]);
        }
        change_bytes(&mut tally, &file);
    }
    tally.finish(paths.len() as u64, &[]);
}

/// A sample of changed bytes of a file that ROOT wrote.
fn change_bytes(tally: &mut Tally, file: &[u8]) {
    let mut changed = file.to_vec();
    for at in (0..file.len()).filter(|at| *at < 400 || at % 3 == 0) {
        for value in [0, file[at] ^ 1, file[at].wrapping_add(1)] {
            changed[at] = value;
            audit_with_room(tally, &changed, 0);
        }
        changed[at] = file[at];
    }
}
