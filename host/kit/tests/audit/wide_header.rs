//! The header of a file with eight-byte offsets, typed by hand from the TFile description.

use kit::compare::audit::audit_by_rules;
use kit::compare::Tally;
use kit::gen::files::{wide_root_plan, Item, Role, Versions};
use kit::gen::Rng;
use second::{number, Answer};

const SEEK_FREE: u64 = 353;
const SEEK_INFO: u64 = 432;
const PASS: Answer = Answer { number: number::SUCCESS, place: 0, count: 6 };

/// A field: where it stands, its bytes, and what is answered when its last bit is the other one.
type Typed = (usize, &'static [u8], Answer);

const fn refused(number: u64, place: u64) -> Answer {
    Answer { number, place, count: 0 }
}

/// The first 57 bytes, all that are read.
const HEADER: [Typed; 12] = [
    (0, b"root", refused(2, 0)),
    // Version 1,062,400.
    (4, &[0x00, 0x10, 0x36, 0x00], PASS),
    // BEGIN.
    (8, &[0, 0, 0, 100], refused(4, 0)),
    // END 489.
    (12, &[0, 0, 0, 0, 0, 0, 0x01, 0xe9], refused(4, 0)),
    // SeekFree 353.
    (20, &[0, 0, 0, 0, 0, 0, 0x01, 0x61], refused(9, SEEK_FREE ^ 1)),
    // NbytesFree.
    (28, &[0, 0, 0, 79], refused(9, SEEK_FREE)),
    // nfree.
    (32, &[0, 0, 0, 2], refused(9, SEEK_FREE)),
    // NbytesName.
    (36, &[0, 0, 0, 46], refused(8, 100)),
    // Units.
    (40, &[8], refused(3, 0)),
    // Compress.
    (41, &[0, 0, 0, 1], PASS),
    // SeekInfo 432.
    (45, &[0, 0, 0, 0, 0, 0, 0x01, 0xb0], refused(10, SEEK_INFO ^ 1)),
    // NbytesInfo.
    (53, &[0, 0, 0, 57], refused(10, SEEK_INFO)),
];

/// The wide form of one.root with an info record of 57 bytes at its end.
fn generated() -> Vec<u8> {
    let mut plan = wide_root_plan();
    let mut info = Item::new(&mut Rng::new(1), Role::Info, "TList", "StreamerInfo");
    info.key.version = Versions::of(true).key;
    info.key.strings[2].clear();
    info.data = vec![9; 3];
    plan.add(info);
    plan.build().bytes
}

#[test]
fn typed_by_hand() {
    let mut tally = Tally::new("audit, a wide header typed by hand");
    let generated = generated();
    let mut file = vec![0xaa; 57];
    for (at, bytes, _) in HEADER {
        file[at..at + bytes.len()].copy_from_slice(bytes);
    }
    file.extend(&generated[57..]);
    assert_eq!(file, generated);
    assert_eq!(audit_by_rules(&mut tally, &file).0, PASS);
    for (at, bytes, answer) in HEADER {
        let last = at + bytes.len() - 1;
        file[last] ^= 1;
        assert_eq!(audit_by_rules(&mut tally, &file).0, answer, "the field at {at}");
        file[last] ^= 1;
    }
    tally.finish(13, &[0, 2, 3, 4, 8, 9, 10]);
}
