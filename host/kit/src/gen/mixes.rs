//! A small file with one of everything, and every mix of narrow and wide offsets in it.

use super::files::{Item, Plan, Role, Versions};
use super::Rng;

/// Its pieces, in the order in which they stand in the file.
pub const HEAD: usize = 0;
pub const X: usize = 1;
pub const LIST: usize = 2;
pub const GAP: usize = 3;
pub const DIR: usize = 4;
pub const Y: usize = 5;
pub const LIST_OF_DIR: usize = 6;
pub const LATER_GAP: usize = 7;
pub const INFO: usize = 8;
pub const FREE: usize = 9;
pub const PIECES: usize = 10;

/// The pieces that have a key, and those that have a directory header.
pub const RECORDS: [usize; 8] = [HEAD, X, LIST, DIR, Y, LIST_OF_DIR, INFO, FREE];
pub const DIRECTORIES: [usize; 2] = [HEAD, DIR];
/// Two of gaps and the final one.
pub const SEGMENTS: usize = 3;

/// The most bytes of a gap.
const GREATEST_GAP: usize = 1 << 31;

/// Which of them have eight-byte offsets, a bit each: keys in the order of `RECORDS`, headers in that of
/// `DIRECTORIES`, and segments. Those of a narrow file are all narrow.
#[derive(Clone, Copy, Debug, PartialEq, Eq)]
pub struct Mix {
    pub file: bool,
    pub keys: u32,
    pub directories: u32,
    pub segments: u32,
}

impl Mix {
    pub const NARROW: Mix = Mix { file: false, keys: 0, directories: 0, segments: 0 };
    pub const WIDE: Mix = Mix { file: true, keys: 0xff, directories: 3, segments: 7 };

    /// Every mix there is.
    pub fn all() -> impl Iterator<Item = Mix> {
        let files = [(false, 0)].into_iter().chain((0..1 << SEGMENTS).map(|segments| (true, segments)));
        files.flat_map(|(file, segments)| {
            (0..1 << RECORDS.len()).flat_map(move |keys| {
                (0..1 << DIRECTORIES.len()).map(move |directories| Mix { file, keys, directories, segments })
            })
        })
    }

    /// The file of this mix.
    pub fn plan(self) -> Plan {
        let versions = |bits: u32, nth: usize| Versions::of(bits >> nth & 1 == 1);
        let mut plan = plan();
        plan.version = Versions::of(self.file).file;
        for (nth, &record) in RECORDS.iter().enumerate() {
            plan.items[record].key.version = versions(self.keys, nth).key;
        }
        for (nth, &directory) in DIRECTORIES.iter().enumerate() {
            plan.items[directory].version = versions(self.directories, nth).directory;
        }
        plan.items[FREE].segments = (0..SEGMENTS).map(|nth| versions(self.segments, nth).segment).collect();
        plan
    }

    /// The same with more gaps before the directory, none of them too great, so that it stands at `at`. Their segments
    /// are wide.
    pub fn plan_with_directory_at(self, at: usize) -> Plan {
        let mut plan = self.plan();
        let all = at - plan.sites()[GAP].start;
        let count = all.div_ceil(GREATEST_GAP);
        plan.items[GAP].zeros = all / count + all % count - 4;
        for _ in 1..count {
            let mut gap = plan.items[GAP].clone();
            gap.zeros = all / count - 4;
            plan.items.push(gap);
            plan.order.insert(DIR, plan.items.len() - 1);
            plan.items[FREE].segments.insert(1, Versions::of(true).segment);
        }
        plan.items[FREE].beyond = Some(1 << 40);
        plan
    }
}

/// The head lists X and the directory, which lists Y.
fn plan() -> Plan {
    let mut rng = Rng::new(500);
    let mut plan = Plan::default();
    let mut add = |role: Role, class: &str, name: &str, pdir: Option<usize>| {
        let mut item = Item::new(&mut rng, role, class, name);
        (item.pdir, item.key.seek_pdir) = (pdir, 0);
        plan.add(item)
    };
    add(Role::Head, "TFile", "a", None);
    add(Role::Object, "TObjString", "x", Some(HEAD));
    add(Role::Keys { of: HEAD }, "TFile", "a", Some(HEAD));
    add(Role::Gap, "", "", None);
    add(Role::Dir { parent: HEAD }, "TDirectory", "d", Some(HEAD));
    add(Role::Object, "TH1F", "y", Some(DIR));
    add(Role::Keys { of: DIR }, "TDirectory", "d", Some(DIR));
    add(Role::Gap, "", "", None);
    add(Role::Info, "TList", "StreamerInfo", Some(HEAD));
    add(Role::Free, "TFile", "a", Some(HEAD));
    plan.items[HEAD].names = b"\x01a\x00".to_vec();
    (plan.items[HEAD].list, plan.items[DIR].list) = (Some(LIST), Some(LIST_OF_DIR));
    (plan.items[X].data, plan.items[Y].data) = (vec![7; 10], vec![8; 12]);
    for (by, listed) in [(HEAD, X), (HEAD, DIR), (DIR, Y)] {
        plan.list(by, listed);
    }
    plan
}
