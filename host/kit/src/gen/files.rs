//! Whole files: a plan of pieces, and the bytes that it gives. A random plan gives a valid file.

use super::fields::{low_bytes, DirectoryAt, Field, HeaderAt, KeyAt, SegmentAt};
use super::strings::{counted, lengthen, short_length};
use super::{RawKey, Rng};
use second::audit::{Row, BEGIN, FREE_END};
use second::part;
use second::width;

/// What a piece is for. A directory is named by its index in the plan; the head is 0.
#[derive(Clone, Copy, Debug, PartialEq, Eq)]
pub enum Role {
    Gap,
    Head,
    Free,
    Info,
    Keys { of: usize },
    Object,
    Dir { parent: usize },
    Loose,
}

/// A piece of a plan. Offsets and sizes in its key are worked out when the file is built.
#[derive(Clone, Debug)]
pub struct Item {
    pub role: Role,
    pub key: RawKey,
    /// The directory whose place is SeekPdir; none keeps the key's.
    pub pdir: Option<usize>,
    /// KeyLen above the sum.
    pub more: usize,
    /// Keeps the key's ObjLen.
    pub packed: bool,
    /// The head's name and title, each with its length before it.
    pub names: Vec<u8>,
    /// Version and dates of a directory header.
    pub version: u16,
    pub dates: [u32; 2],
    /// Versions of free segments, in turn and again from the first.
    pub segments: Vec<u16>,
    /// How far behind END the final free segment ends; none is the end in a file with narrow offsets.
    pub beyond: Option<u64>,
    /// The keys list of a directory.
    pub list: Option<usize>,
    /// What a keys list copies.
    pub copies: Vec<usize>,
    /// The data, or what follows those that are worked out.
    pub data: Vec<u8>,
    /// How many zeros then follow.
    pub zeros: usize,
    /// How many bytes are then dropped from the end.
    pub cut: usize,
}

/// Versions of keys and of free segments, with narrow offsets and with wide ones.
const KEY_VERSIONS: [u16; 8] = [1, 4, 999, 1000, 1001, 1004, 1999, 2000];
const NARROW_SEGMENTS: [u16; 4] = [0, 1, 5, 1000];
const WIDE_SEGMENTS: [u16; 3] = [1001, 1005, 2000];

/// Versions of a file header, a key, a directory header and a free segment whose offsets have one width.
pub struct Versions {
    pub file: u32,
    pub key: u16,
    pub directory: u16,
    pub segment: u16,
}

impl Versions {
    const NARROW: Versions = Versions { file: 62400, key: 4, directory: 5, segment: 1 };
    const WIDE: Versions = Versions { file: 1_062_400, key: 1004, directory: 1005, segment: 1001 };

    pub fn of(is_wide: bool) -> &'static Self {
        if is_wide {
            &Self::WIDE
        } else {
            &Self::NARROW
        }
    }
}

impl Item {
    pub fn new(rng: &mut Rng, role: Role, class: &str, name: &str) -> Self {
        let title = short_length(rng) / 8;
        let strings = [class.as_bytes().to_vec(), name.as_bytes().to_vec(), rng.bytes(title)];
        let key = RawKey {
            nbytes: 0,
            version: rng.pick(&KEY_VERSIONS),
            objlen: 0,
            datime: rng.u32(),
            keylen: 0,
            cycle: rng.pick(&[1, 1, 1, 2, 3, 0xffff]),
            seek_key: 0,
            seek_pdir: rng.pick(&[0, 100, 101, u32::MAX.into()]),
            strings,
        };
        Item {
            role,
            key,
            pdir: None,
            more: 0,
            packed: false,
            names: Vec::new(),
            version: rng.pick(&[0, 5, 0x0101, 1000, 1001, 1005, 2000]),
            dates: [rng.u32(), rng.u32()],
            segments: vec![rng.pick(&NARROW_SEGMENTS)],
            beyond: None,
            list: None,
            copies: Vec::new(),
            data: Vec::new(),
            zeros: 0,
            cut: 0,
        }
    }

    /// Its KeyLen.
    pub fn keylen(&self) -> usize {
        self.key.sum() + self.more
    }

    /// The version of free segment `nth`.
    fn segment(&self, nth: usize) -> u16 {
        self.segments[nth % self.segments.len()]
    }

    /// The strings of its key that no rule reads: any do.
    pub fn any_strings(&mut self) -> &mut [Vec<u8>] {
        let first = match self.role {
            Role::Object | Role::Loose => 0,
            Role::Info => 2,
            _ => 1,
        };
        &mut self.key.strings[first..]
    }
}

/// The pieces of a file, and the order in which they stand in it.
#[derive(Clone, Debug, Default)]
pub struct Plan {
    pub items: Vec<Item>,
    pub order: Vec<usize>,
    /// Version and Compress of the file header, and what fills the bytes that are not read.
    pub version: u32,
    pub compress: u32,
    pub rest: u8,
}

/// Where a piece of a built file stands.
#[derive(Clone, Debug, Default)]
pub struct Site {
    pub start: usize,
    pub size: usize,
    pub keylen: usize,
    /// The bytes of an offset in its key, and in its directory header.
    pub width: usize,
    pub directory_width: usize,
    /// Its directory header.
    pub directory: usize,
    /// NKeys and the copies of a keys list.
    pub nkeys: usize,
    pub copies: Vec<usize>,
    /// The segments of a free list.
    pub segments: Vec<SegmentAt>,
}

impl Site {
    pub fn key(&self) -> KeyAt {
        KeyAt { at: self.start, width: self.width }
    }

    pub fn directory(&self) -> DirectoryAt {
        DirectoryAt { at: self.directory, width: self.directory_width }
    }

    /// NKeys.
    pub fn nkeys(&self) -> Field {
        Field { at: self.nkeys, width: 4 }
    }
}

/// A file, and where each piece of its plan stands.
#[derive(Clone, Debug)]
pub struct Built {
    pub bytes: Vec<u8>,
    pub header: HeaderAt,
    pub sites: Vec<Site>,
}

impl Plan {
    /// Adds a piece at the end: its index.
    pub fn add(&mut self, item: Item) -> usize {
        self.items.push(item);
        self.order.push(self.items.len() - 1);
        self.items.len() - 1
    }

    /// The first piece with this role.
    pub fn find(&self, role: Role) -> Option<usize> {
        self.items.iter().position(|item| item.role == role)
    }

    /// Adds a listed piece to the keys list of the directory `by`.
    pub fn list(&mut self, by: usize, index: usize) {
        self.items[index].pdir = Some(by);
        let list = self.items[by].list.expect("the directory has a keys list");
        self.items[list].copies.push(index);
    }

    /// Whether the parents of a directory lead to the head.
    pub fn in_reach(&self, dir: usize) -> bool {
        let mut at = dir;
        for _ in &self.items {
            match self.items[at].role {
                Role::Dir { parent } => at = parent,
                _ => break,
            }
        }
        at == 0
    }

    /// The rows that the audit of a valid file gives.
    pub fn rows(&self, built: &Built) -> Vec<Row> {
        let row = |&index: &usize| {
            let item = &self.items[index];
            let (part, owner) = match item.role {
                Role::Gap => (part::GAP, None),
                Role::Head => (part::HEAD, None),
                Role::Free => (part::FREE, None),
                Role::Info => (part::INFO, None),
                Role::Keys { of } => (part::KEYS, Some(of)),
                Role::Object => (part::LISTED, item.pdir),
                Role::Dir { parent } => (part::DIR, Some(parent)),
                Role::Loose => (part::UNLISTED, None),
            };
            let start = built.sites[index].start as u64;
            match owner {
                None => Row { start, part, owner: 0 },
                Some(owner) if self.in_reach(owner) => Row { start, part, owner: built.sites[owner].start as u64 },
                Some(_) => Row { start, part: part::UNLISTED, owner: 0 },
            }
        };
        self.order.iter().map(row).collect()
    }

    pub fn build(&self) -> Built {
        let sites = self.sites();
        let mut bytes = Vec::new();
        for (at, laid) in self.laid(&sites) {
            bytes.resize(at, 0);
            bytes.extend(laid);
        }
        bytes.resize(end(&sites), 0);
        Built { bytes, header: self.header_at(), sites }
    }

    /// Where each piece stands.
    pub fn sites(&self) -> Vec<Site> {
        // Lengths do not depend on where a piece stands: the first round only finds them.
        let mut sites = vec![Site::default(); self.items.len()];
        for _ in 0..2 {
            let size = |(index, item): (usize, &Item)| self.piece(index, &sites).len() + item.zeros;
            let sizes: Vec<usize> = self.items.iter().enumerate().map(size).collect();
            let mut start = BEGIN;
            for &index in &self.order {
                sites[index] = self.site(index, start, sizes[index]);
                start += sizes[index];
            }
        }
        sites
    }

    /// What to lay down where, in file order: the header, then each piece. All else is zeros.
    pub fn laid<'a>(&'a self, sites: &'a [Site]) -> impl Iterator<Item = (usize, Vec<u8>)> + 'a {
        let pieces = self.order.iter().map(|&index| (sites[index].start, self.piece(index, sites)));
        [(0, self.header(sites))].into_iter().chain(pieces)
    }

    fn site(&self, index: usize, start: usize, size: usize) -> Site {
        let item = &self.items[index];
        let keylen = item.keylen();
        let directory = start + keylen + item.names.len();
        let nkeys = start + keylen;
        let mut copies = Vec::new();
        let mut at = nkeys + 4;
        for &copy in &item.copies {
            copies.push(at);
            at += self.items[copy].key.sum();
        }
        Site {
            start,
            size,
            keylen,
            width: item.key.width(),
            directory_width: width::of(item.version.into()),
            directory,
            nkeys,
            copies,
            segments: self.segments_at(item, start + keylen),
        }
    }

    /// Where the segments of a free list stand, from a place on. One follows those of the gaps.
    fn segments_at(&self, item: &Item, start: usize) -> Vec<SegmentAt> {
        let mut at = start;
        let mut segment = |nth: usize| {
            let segment = SegmentAt { at, width: width::of(item.segment(nth).into()) };
            at += segment.size();
            segment
        };
        let count = if item.role == Role::Free { self.gaps().count() + 1 } else { 0 };
        (0..count).map(&mut segment).collect()
    }

    /// The gaps in file order.
    fn gaps(&self) -> impl Iterator<Item = usize> + '_ {
        self.order.iter().copied().filter(|&index| self.items[index].role == Role::Gap)
    }

    /// The same with offsets of one width throughout.
    pub fn of_width(mut self, is_wide: bool) -> Self {
        let versions = Versions::of(is_wide);
        self.version = versions.file;
        for item in &mut self.items {
            (item.key.version, item.version) = (versions.key, versions.directory);
            item.segments = vec![versions.segment];
            item.beyond = item.beyond.filter(|_| is_wide);
        }
        self
    }

    pub fn is_wide(&self) -> bool {
        self.version >= width::LEAST_WIDE_FILE
    }

    pub fn header_at(&self) -> HeaderAt {
        HeaderAt { width: width::of_file(self.version) }
    }

    /// The first 100 bytes.
    fn header(&self, sites: &[Site]) -> Vec<u8> {
        let [free, info] = [Role::Free, Role::Info].map(|role| self.find(role));
        let pair = |index: Option<usize>| index.map_or([0; 2], |index| [sites[index].start, sites[index].size]);
        let ([seek_free, nbytes_free], [seek_info, nbytes_info]) = (pair(free), pair(info));
        let nfree = free.map_or(0, |free| segments_in(&self.piece(free, sites)[self.items[free].keylen()..]));
        let named = self.items[0].keylen() + self.items[0].names.len();
        let at = self.header_at();
        let mut bytes = b"root".to_vec();
        bytes.resize(at.rest(), 0);
        bytes.resize(BEGIN, self.rest);
        for (field, number) in [
            (HeaderAt::VERSION, self.version as usize),
            (HeaderAt::BEGIN, BEGIN),
            (at.end(), end(sites)),
            (at.seek_free(), seek_free),
            (at.nbytes_free(), nbytes_free),
            (at.nfree(), nfree),
            (at.nbytes_name(), named),
            (at.units(), at.width),
            (at.compress(), self.compress as usize),
            (at.seek_info(), seek_info),
            (at.nbytes_info(), nbytes_info),
        ] {
            field.put(&mut bytes, number as u64);
        }
        bytes
    }

    /// The key of a record where `sites` say that it stands.
    fn key(&self, index: usize, sites: &[Site]) -> RawKey {
        let item = &self.items[index];
        let mut key = item.key.clone();
        let site = &sites[index];
        key.nbytes = site.size as u32;
        key.keylen = item.keylen() as u16;
        key.seek_key = site.start as u64;
        if !item.packed {
            key.objlen = key.nbytes.saturating_sub(key.keylen.into());
        }
        if let Some(pdir) = item.pdir {
            key.seek_pdir = sites[pdir].start as u64;
        }
        key
    }

    fn piece(&self, index: usize, sites: &[Site]) -> Vec<u8> {
        let item = &self.items[index];
        let mut bytes = match item.role {
            // A gap of 2^31 bytes has the least number that there is.
            Role::Gap => low_bytes(((4 + item.data.len() + item.zeros) as u64).wrapping_neg(), 4),
            _ => self.key(index, sites).header(),
        };
        bytes.extend(vec![0x2e; item.more]);
        bytes.extend(&item.names);
        match item.role {
            Role::Head => bytes.extend(self.directory(index, 0, sites)),
            Role::Dir { parent } => bytes.extend(self.directory(index, sites[parent].start, sites)),
            Role::Keys { .. } => {
                bytes.extend((item.copies.len() as u32).to_be_bytes());
                bytes.extend(item.copies.iter().flat_map(|&copy| self.key(copy, sites).header()));
            }
            Role::Free => bytes.extend(self.segments(item, sites)),
            _ => {}
        }
        bytes.extend(&item.data);
        bytes.truncate(bytes.len().saturating_sub(item.cut));
        bytes
    }

    fn directory(&self, index: usize, parent: usize, sites: &[Site]) -> Vec<u8> {
        let item = &self.items[index];
        let [seek_keys, nbytes_keys] = item.list.map_or([0; 2], |list| [sites[list].start, sites[list].size]);
        let named = item.keylen() + item.names.len();
        let at = DirectoryAt { at: 0, width: width::of(item.version.into()) };
        let mut bytes = [item.version.to_be_bytes().to_vec(), item.dates.map(u32::to_be_bytes).concat()].concat();
        bytes.resize(at.size(), 0);
        for (field, number) in [
            (at.nbytes_keys(), nbytes_keys),
            (at.nbytes_name(), named),
            (at.seek_dir(), sites[index].start),
            (at.seek_parent(), parent),
            (at.seek_keys(), seek_keys),
        ] {
            field.put(&mut bytes, number as u64);
        }
        bytes
    }

    fn segments(&self, free: &Item, sites: &[Site]) -> Vec<u8> {
        // The first and the last byte. No site is known in the first round.
        let segment = |gap: usize| [sites[gap].start, (sites[gap].start + sites[gap].size).saturating_sub(1)];
        let mut segments: Vec<[u64; 2]> = self.gaps().map(|gap| segment(gap).map(|place| place as u64)).collect();
        let end = end(sites) as u64;
        segments.push([end, free.beyond.map_or(FREE_END, |beyond| end.saturating_add(beyond))]);
        segments.iter().enumerate().flat_map(|(nth, ends)| segment_bytes(free.segment(nth), *ends)).collect()
    }
}

/// Where the file ends.
pub fn end(sites: &[Site]) -> usize {
    BEGIN + sites.iter().map(|site| site.size).sum::<usize>()
}

/// A free segment. Of a place that has no room in its version, the greatest there is.
pub fn segment_bytes(version: u16, places: [u64; 2]) -> Vec<u8> {
    let mut bytes = version.to_be_bytes().to_vec();
    let at = SegmentAt { at: 0, width: width::of(version.into()) };
    bytes.resize(at.size(), 0);
    for (field, place) in [at.first(), at.last()].into_iter().zip(places) {
        field.put(&mut bytes, place.min(field.most()));
    }
    bytes
}

/// The segment at a place of these bytes. It may end behind them.
fn segment_at(data: &[u8], at: usize) -> SegmentAt {
    let version = Field { at, width: 2 }.get(data);
    SegmentAt { at, width: width::of(version as u32) }
}

/// How many whole segments these bytes begin with.
fn segments_in(data: &[u8]) -> usize {
    let mut count = 0;
    let mut segment = segment_at(data, 0);
    while segment.at + segment.size() <= data.len() {
        count += 1;
        segment = segment_at(data, segment.at + segment.size());
    }
    count
}

/// How many of each there may be in a random plan.
#[derive(Clone, Copy, Debug)]
pub struct Size {
    pub dirs: usize,
    pub objects: usize,
    pub gaps: usize,
    pub loose: usize,
    /// At least one of each, two gaps, a subdirectory that lists an object, and an info record.
    pub rich: bool,
}

pub const SMALL: Size = Size { dirs: 3, objects: 5, gaps: 4, loose: 3, rich: false };
pub const RICH: Size = Size { rich: true, ..SMALL };
pub const LARGE: Size = Size { dirs: 60, objects: 4000, gaps: 300, loose: 300, rich: true };

const CLASSES: [&str; 8] = ["TObjString", "TH1F", "TFile", "TDirectoryFile", "TList", "TDirector", "", "TTree"];
const NAMES: [&str; 6] = ["x", "hist", "StreamerInfo", "", "a", "a longer name; with more"];

/// A random plan of a valid file, in any order after the head.
pub fn plan(rng: &mut Rng, size: Size) -> Plan {
    let version = rng.pick(&[0, 62400, 999_999, 1_000_000, 1_062_400, u32::MAX]);
    let mut plan = Plan { version, compress: rng.u32(), rest: rng.u64() as u8, ..Plan::default() };
    let least = usize::from(size.rich);
    let some = |rng: &mut Rng, least: usize, most: usize| least + rng.below(most + 1 - least);
    head(rng, &mut plan);
    let mut dirs = vec![0];
    for _ in 0..some(rng, least, size.dirs) {
        let parent = rng.pick(&dirs);
        dirs.push(directory(rng, &mut plan, parent));
    }
    give_lists(rng, &mut plan, &dirs, size.rich);
    for nth in 0..some(rng, 2 * least, size.objects) {
        let by = if nth < 2 * least { dirs[nth] } else { rng.pick(&dirs) };
        object(rng, &mut plan, by);
    }
    for _ in 0..some(rng, 2 * least, size.gaps) {
        let mut gap = Item::new(rng, Role::Gap, "", "");
        let len = rng.pick(&[0, 0, 1, 8, 25, 60]);
        gap.data = rng.bytes(len);
        plan.add(gap);
    }
    for _ in 0..some(rng, least, size.loose) {
        loose(rng, &mut plan);
    }
    if rng.once_in(4) {
        out_of_reach(rng, &mut plan);
    }
    if size.rich || rng.once_in(2) {
        info(rng, &mut plan);
    }
    free(rng, &mut plan);
    long_strings(rng, &mut plan);
    shuffle(rng, &mut plan.order[1..]);
    plan
}

/// Some strings of keys become long ones, and now and then the head's name and title.
fn long_strings(rng: &mut Rng, plan: &mut Plan) {
    lengthen(rng, 40, plan.items.iter_mut().flat_map(Item::any_strings));
    if rng.once_in(8) {
        let mut names = [vec![b'a'], vec![]];
        lengthen(rng, 2, names.iter_mut());
        plan.items[0].names = names.map(|name| counted(&name)).concat();
    }
}

/// The free list. In a wide file its segments are of any widths, and the final one ends anywhere behind END.
fn free(rng: &mut Rng, plan: &mut Plan) {
    let mut free = Item::new(rng, Role::Free, "TFile", "a");
    if plan.is_wide() {
        let any = [&NARROW_SEGMENTS[..], &WIDE_SEGMENTS].concat();
        free.segments = (0..1 + rng.below(4)).map(|_| rng.pick(&any)).collect();
        free.beyond = rng.pick(&[None, Some(1), Some(2), Some(1 << 32), Some(u64::MAX)]);
    }
    plan.add(free);
}

/// A plan of a valid file of exactly `pieces` pieces, at least 300, with `subdirs` subdirectories. In
/// any order after the head, or in the order of the lists.
pub fn plan_of(rng: &mut Rng, pieces: usize, subdirs: usize, any_order: bool) -> Plan {
    let mut plan = Plan { version: 62400, ..Plan::default() };
    head(rng, &mut plan);
    let mut dirs = vec![0];
    for _ in 0..subdirs {
        let parent = rng.pick(&dirs);
        dirs.push(directory(rng, &mut plan, parent));
    }
    give_lists(rng, &mut plan, &dirs, true);
    for _ in 0..pieces / 20 {
        plan.add(Item::new(rng, Role::Gap, "", ""));
        loose(rng, &mut plan);
    }
    info(rng, &mut plan);
    while plan.items.len() + 1 < pieces {
        let by = dirs[plan.items.len() * dirs.len() / pieces];
        object(rng, &mut plan, by);
    }
    plan.add(Item::new(rng, Role::Free, "TFile", "a"));
    if any_order {
        shuffle(rng, &mut plan.order[1..]);
    }
    plan
}

/// A plan of a valid file whose directories each list one more, `depth` of them.
pub fn deep_plan(rng: &mut Rng, depth: usize) -> Plan {
    let mut plan = Plan { version: 62400, ..Plan::default() };
    head(rng, &mut plan);
    let mut dirs = vec![0];
    for parent in 0..depth {
        dirs.push(directory(rng, &mut plan, parent));
    }
    give_lists(rng, &mut plan, &dirs, false);
    plan.add(Item::new(rng, Role::Free, "TFile", "a"));
    plan
}

/// Any order of these.
pub fn shuffle(rng: &mut Rng, items: &mut [usize]) {
    for i in (1..items.len()).rev() {
        items.swap(i, rng.below(i + 1));
    }
}

fn head(rng: &mut Rng, plan: &mut Plan) {
    let mut head = Item::new(rng, Role::Head, "TFile", "a");
    let [name, title] = [short_length(rng), short_length(rng) / 8];
    head.names = [counted(&rng.bytes(name)), counted(&rng.bytes(title))].concat();
    let tail = rng.pick(&[0, 0, 18, 30]);
    head.data = rng.bytes(tail);
    plan.add(head);
}

/// A directory that is listed by another as soon as that has a list.
fn directory(rng: &mut Rng, plan: &mut Plan, parent: usize) -> usize {
    let name = rng.pick(&NAMES);
    let mut item = Item::new(rng, Role::Dir { parent }, "TDirectory", name);
    item.pdir = Some(parent);
    let tail = rng.pick(&[0, 0, 18, 30]);
    item.data = rng.bytes(tail);
    plan.add(item)
}

/// A keys list for each directory that needs one, and for some that have nothing to list.
fn give_lists(rng: &mut Rng, plan: &mut Plan, dirs: &[usize], all: bool) {
    for &dir in dirs {
        let needed = plan.items.iter().any(|item| item.role == (Role::Dir { parent: dir }));
        if all || needed || rng.once_in(2) {
            keys(rng, plan, dir);
        }
    }
    for &dir in &dirs[1..] {
        if let Role::Dir { parent } = plan.items[dir].role {
            plan.list(parent, dir);
        }
    }
}

/// An empty keys list of a directory.
pub fn keys(rng: &mut Rng, plan: &mut Plan, of: usize) -> usize {
    let class = rng.pick(&["TFile", "TDirectory"]);
    let mut item = Item::new(rng, Role::Keys { of }, class, "a");
    item.pdir = Some(of);
    let list = plan.add(item);
    plan.items[of].list = Some(list);
    list
}

/// An object, listed by `by`, or by nobody if that has no list.
fn object(rng: &mut Rng, plan: &mut Plan, by: usize) {
    let (class, name) = (rng.pick(&CLASSES), rng.pick(&NAMES));
    let mut item = Item::new(rng, Role::Object, class, name);
    let len = rng.pick(&[0, 1, 10, 40]);
    item.data = rng.bytes(len);
    item.packed = rng.once_in(2);
    item.key.objlen = rng.u32() >> 1;
    let index = plan.add(item);
    if plan.items[by].list.is_some() {
        plan.list(by, index);
    } else {
        plan.items[index].role = Role::Loose;
    }
}

/// A record that nobody lists: a basket, or one whose class would mean more if it were listed.
fn loose(rng: &mut Rng, plan: &mut Plan) {
    let class = rng.pick(&["TBasket", "TFile", "TDirectory", "TList", "TObjString"]);
    let name = rng.pick(&NAMES);
    let mut item = Item::new(rng, Role::Loose, class, name);
    item.more = rng.pick(&[0, 0, 1, 19]);
    let len = rng.pick(&[0, 4, 30, 50]);
    item.data = rng.bytes(len);
    item.packed = rng.once_in(2);
    item.key.objlen = rng.u32() >> 1;
    plan.add(item);
}

/// One directory that lists itself, or two that list each other, with lists and all.
fn out_of_reach(rng: &mut Rng, plan: &mut Plan) {
    let one = plan.items.len();
    let count = 1 + rng.below(2);
    for nth in 0..count {
        directory(rng, plan, one + (nth + 1) % count);
    }
    for dir in one..one + count {
        keys(rng, plan, dir);
    }
    for dir in one..one + count {
        plan.list(one + (dir - one + 1) % count, dir);
        object(rng, plan, dir);
    }
}

fn info(rng: &mut Rng, plan: &mut Plan) {
    let mut item = Item::new(rng, Role::Info, "TList", "StreamerInfo");
    let len = rng.below(60);
    item.data = rng.bytes(len);
    item.packed = rng.once_in(2);
    item.key.objlen = rng.u32() >> 1;
    plan.add(item);
}

/// The plan of the project's small file, as `one_root` lays it down.
pub fn one_root_plan() -> Plan {
    let mut rng = Rng::new(0);
    let mut plan = Plan { version: 62400, compress: 1, ..Plan::default() };
    let mut add = |role: Role, class: &str, pdir: Option<usize>, data: Vec<u8>| {
        let mut item = Item::new(&mut rng, role, class, if role == Role::Object { "x" } else { "a" });
        let datime = 1_960_757_165;
        item.key = RawKey { version: 4, datime, cycle: 1, seek_pdir: 0, ..item.key };
        item.key.strings[2].clear();
        (item.version, item.dates, item.pdir, item.data) = (5, [datime; 2], pdir, data);
        plan.add(item)
    };
    let head = add(Role::Head, "TFile", None, Vec::new());
    let x = add(Role::Object, "TObjString", Some(head), vec![7; 10]);
    let list = add(Role::Keys { of: head }, "TFile", Some(head), Vec::new());
    add(Role::Gap, "", None, vec![0; 8]);
    let free = add(Role::Free, "TFile", Some(head), Vec::new());
    plan.items[free].segments = vec![1];
    plan.items[head].names = b"\x01a\x00".to_vec();
    plan.items[head].list = Some(list);
    plan.list(head, x);
    plan
}

/// The same of its wide form.
pub fn wide_root_plan() -> Plan {
    let mut plan = one_root_plan().of_width(true);
    let free = plan.find(Role::Free).expect("one.root has a free list");
    plan.items[free].beyond = Some(6_000_000_000 - 432);
    plan
}
