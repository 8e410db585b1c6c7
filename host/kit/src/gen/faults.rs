//! Ways to break the rules of a whole file: each breaks one rule by itself, and says what the audit
//! then refuses.

use super::fields::{DirectoryAt, Field, HeaderAt, KeyAt, SegmentAt};
use super::files::{keys, segment_bytes, Built, Item, Plan, Role};
use super::strings::{counted, long_form};
use super::Rng;
use second::number;
use second::width;

/// What a fault is done to: indices of a plan's pieces.
#[derive(Clone, Copy, Debug)]
pub struct Target {
    /// A directory in reach whose list copies something, the head too.
    pub dir: usize,
    pub list: usize,
    /// What that list copies at `nth`.
    pub nth: usize,
    pub listed: usize,
    /// A subdirectory in reach.
    pub sub: usize,
    pub gap: usize,
    pub loose: usize,
    pub free: usize,
    pub info: usize,
    /// Any record but a basket, and any piece.
    pub record: usize,
    pub piece: usize,
}

impl Target {
    /// Something to aim at in a rich plan.
    pub fn pick(rng: &mut Rng, plan: &Plan) -> Self {
        let mut any = |good: &dyn Fn(usize, &Item) -> bool| {
            let items = plan.items.iter().enumerate();
            let good: Vec<usize> = items.filter(|(index, item)| good(*index, item)).map(|(index, _)| index).collect();
            rng.pick(&good)
        };
        let is_role = |role: Role| move |_: usize, item: &Item| item.role == role;
        let list = any(&|_, item| match item.role {
            Role::Keys { of } => plan.in_reach(of) && !item.copies.is_empty(),
            _ => false,
        });
        let Role::Keys { of: dir } = plan.items[list].role else { unreachable!("a list was chosen") };
        let sub = any(&|index, item| matches!(item.role, Role::Dir { .. }) && plan.in_reach(index));
        let gap = any(&is_role(Role::Gap));
        let loose = any(&is_role(Role::Loose));
        let record = any(&|_, item| item.role != Role::Gap && item.more == 0);
        let piece = any(&|_, _| true);
        let [free, info] = [Role::Free, Role::Info].map(|role| any(&is_role(role)));
        let nth = rng.below(plan.items[list].copies.len());
        let listed = plan.items[list].copies[nth];
        Target { dir, list, nth, listed, sub, gap, loose, free, info, record, piece }
    }
}

impl Built {
    pub fn get(&self, field: Field) -> u64 {
        field.get(&self.bytes)
    }

    pub fn put(&mut self, field: Field, number: u64) {
        field.put(&mut self.bytes, number);
    }

    pub fn add(&mut self, field: Field, number: i64) {
        field.add(&mut self.bytes, number);
    }

    pub fn start(&self, index: usize) -> u64 {
        self.sites[index].start as u64
    }

    pub fn size(&self, index: usize) -> u64 {
        self.sites[index].size as u64
    }

    fn end(&self) -> u64 {
        self.bytes.len() as u64
    }

    /// Sets END to the length.
    pub fn close(&mut self) {
        let end = self.end();
        self.put(self.header.end(), end);
    }

    /// The copy of the target, or the end of the file if another fault took it.
    fn copy(&self, target: &Target) -> KeyAt {
        let at = self.sites[target.list].copies.get(target.nth).copied().unwrap_or(self.bytes.len());
        KeyAt { at, width: self.sites[target.listed].width }
    }

    /// Where the last copy of the target's list stands.
    fn last_copy(&self, target: &Target) -> u64 {
        *self.sites[target.list].copies.last().unwrap() as u64
    }
}

type OnPlan = fn(&mut Rng, &mut Plan, &Target);
type OnBytes = fn(&mut Built, &Target);
type Place = fn(&Built, &Target) -> u64;

/// One way to break a rule, and the refusal that it brings by itself.
pub struct Fault {
    pub name: &'static str,
    pub number: u64,
    /// Whether it moves what other faults are done to.
    pub rough: bool,
    pub plan: OnPlan,
    pub bytes: OnBytes,
    pub place: Place,
}

impl Fault {
    fn plan(self, plan: OnPlan) -> Self {
        Fault { plan, ..self }
    }

    fn bytes(self, bytes: OnBytes) -> Self {
        Fault { bytes, ..self }
    }

    fn place(self, place: Place) -> Self {
        Fault { place, ..self }
    }

    fn rough(self) -> Self {
        Fault { rough: true, ..self }
    }
}

/// A fault whose place is the one that its number has most often.
fn fault(number: u64, name: &'static str) -> Fault {
    let place: Place = match number {
        number::HEAD => |_, _| 100,
        number::FREE => |file, _| file.get(file.header.seek_free()),
        number::INFO => |file, _| file.get(file.header.seek_info()),
        number::DIRECTORY => |file, target| file.start(target.sub),
        number::KEYS => |file, target| file.get(directory(file, target.dir).seek_keys()),
        number::ENTRY => |file, target| file.copy(target).at as u64,
        number::TWICE => |file, target| file.last_copy(target),
        _ => |_, _| 0,
    };
    Fault { name, number, rough: false, plan: |_, _, _| {}, bytes: |_, _| {}, place }
}

/// Every fault. Those of number 0 break no rule.
pub fn all() -> Vec<Fault> {
    let mut faults = Vec::new();
    faults.extend(in_header());
    faults.extend(in_chain());
    faults.extend(in_keys_of_pieces());
    faults.extend(in_lengths_of_keys());
    faults.extend(in_head());
    faults.extend(in_names_of_head());
    faults.extend(in_header_of_head());
    faults.extend(in_free_list());
    faults.extend(in_free_segments());
    faults.extend(in_info());
    faults.extend(in_directories());
    faults.extend(in_lists());
    faults.extend(in_data_of_lists());
    faults.extend(in_copies());
    faults.extend(in_parts());
    faults.extend(harmless());
    faults
}

/// A plan with every fault done in turn, each to its target: the file.
pub fn build(rng: &mut Rng, plan: &Plan, faults: &[(&Fault, Target)]) -> Built {
    let mut plan = plan.clone();
    for (fault, target) in faults {
        (fault.plan)(rng, &mut plan, target);
    }
    let mut built = plan.build();
    for (fault, target) in faults {
        (fault.bytes)(&mut built, target);
    }
    built
}

/// The key and the directory header of a piece.
fn key(file: &Built, index: usize) -> KeyAt {
    file.sites[index].key()
}

fn directory(file: &Built, index: usize) -> DirectoryAt {
    file.sites[index].directory()
}

/// The greatest bit of a field.
fn top(field: Field) -> i64 {
    (1u64 << (8 * field.width - 1)) as i64
}

/// A version of offsets of the other width.
fn other_version(width: usize) -> u64 {
    if width == 8 {
        width::MOST_NARROW.into()
    } else {
        u64::from(width::MOST_NARROW) + 1
    }
}

/// A Version of the file header for the other width. Units says the width as it was, wherever it is then read.
fn other_file(file: &mut Built, version: u64) {
    let width = file.header.width;
    file.put(HeaderAt::VERSION, version);
    file.put(HeaderAt { width: 12 - width }.units(), width as u64);
}

fn in_header() -> Vec<Fault> {
    vec![
        fault(1, "99 bytes").bytes(|file, _| file.bytes.truncate(99)),
        fault(1, "no bytes").bytes(|file, _| file.bytes.clear()),
        fault(2, "magic").bytes(|file, _| swap(file, 3)),
        fault(3, "Version of the other width").bytes(|file, _| {
            other_file(file, if file.header.width == 8 { 999_999 } else { 1_000_000 });
        }),
        fault(3, "Version 0 or past 31 bits").bytes(|file, _| {
            other_file(file, if file.header.width == 8 { 0 } else { 1 << 31 });
        }),
        fault(3, "Units of the other width").bytes(|file, _| {
            file.put(file.header.units(), 12 - file.header.width as u64);
        }),
        fault(3, "Units 0").bytes(|file, _| file.put(file.header.units(), 0)),
        fault(4, "BEGIN 101").bytes(|file, _| file.put(HeaderAt::BEGIN, 101)),
        fault(4, "BEGIN 0").bytes(|file, _| file.put(HeaderAt::BEGIN, 0)),
        fault(4, "END one more").bytes(|file, _| file.add(file.header.end(), 1)),
        fault(4, "END one less").bytes(|file, _| file.add(file.header.end(), -1)),
        fault(4, "a byte after END").rough().bytes(|file, _| file.bytes.push(0)),
        fault(4, "END with its top bit").bytes(|file, _| file.add(file.header.end(), top(file.header.end()))),
        fault(4, "END the greatest").bytes(|file, _| file.put(file.header.end(), u64::MAX)),
    ]
}

/// Changes a byte to one that it was not. A file that another fault has cut short is left alone.
fn swap(file: &mut Built, at: usize) {
    if let Some(byte) = file.bytes.get_mut(at) {
        *byte ^= 1;
    }
}

/// Pieces appended to the file, with END after them.
fn append(file: &mut Built, bytes: &[u8]) {
    file.bytes.extend(bytes);
    if file.bytes.len() >= 100 {
        file.close();
    }
}

/// The first of these numbers of a record, and zeros up to its size. It may have the place where it is appended.
fn record(file: &Built, size: u32, version: u16) -> Vec<u8> {
    let mut bytes = [&size.to_be_bytes()[..], &version.to_be_bytes()].concat();
    bytes.resize((size as usize).max(26), 0);
    let key = KeyAt { at: 0, width: width::of(version.into()) };
    key.keylen().put(&mut bytes, size.into());
    key.seek_key().put(&mut bytes, file.end());
    bytes.truncate(size as usize);
    bytes
}

fn at_piece(file: &Built, target: &Target) -> u64 {
    file.start(target.piece)
}

/// The last piece starts where the next would, were there one more.
fn at_end_of_plan(file: &Built, _: &Target) -> u64 {
    file.sites.iter().map(|site| (site.start + site.size) as u64).max().unwrap()
}

fn in_chain() -> Vec<Fault> {
    fn size(file: &mut Built, target: &Target, size: u64) {
        file.put(key(file, target.piece).nbytes(), size);
    }
    fn left(file: &Built, target: &Target) -> u64 {
        file.end().wrapping_sub(file.start(target.piece))
    }
    let sized = |number: u64, name| fault(number, name).place(at_piece);
    let more = |number: u64, name| fault(number, name).rough().place(at_end_of_plan);
    vec![
        sized(5, "size 0").bytes(|file, t| size(file, t, 0)),
        sized(5, "size 3").bytes(|file, t| size(file, t, 3)),
        sized(5, "size -3").bytes(|file, t| size(file, t, 3u64.wrapping_neg())),
        sized(5, "size -2^31").bytes(|file, t| size(file, t, 1 << 31)),
        sized(5, "size past END").bytes(|file, t| size(file, t, left(file, t).wrapping_add(1))),
        sized(5, "gap past END").bytes(|file, t| size(file, t, !left(file, t))),
        more(5, "three bytes left").bytes(|file, _| append(file, &[0xff, 0xff, 0xff])),
        more(6, "record of 28 bytes").bytes(|file, _| append(file, &record(file, 28, 4))),
        more(6, "wide record of 36 bytes").bytes(|file, _| append(file, &record(file, 36, 1004))),
        more(6, "record of 4 bytes").bytes(|file, _| append(file, &[0, 0, 0, 4])),
    ]
}

fn in_keys_of_pieces() -> Vec<Fault> {
    /// Changes the key of the target's record.
    fn of(file: &Built, target: &Target) -> KeyAt {
        key(file, target.record)
    }
    let bad = |name| fault(6, name).place(|file, target| file.start(target.record));
    vec![
        bad("SeekKey one more").bytes(|file, t| file.add(of(file, t).seek_key(), 1)),
        bad("SeekKey 0").bytes(|file, t| file.put(of(file, t).seek_key(), 0)),
        bad("SeekKey with its top bit").bytes(|file, t| file.add(of(file, t).seek_key(), top(of(file, t).seek_key()))),
        bad("key Version 0").bytes(|file, t| file.put(of(file, t).version(), 0)),
        bad("key Version of the other width")
            .bytes(|file, t| file.put(of(file, t).version(), other_version(of(file, t).width))),
        bad("key Version 2001").bytes(|file, t| file.put(of(file, t).version(), 2001)),
        bad("key Version 65535").bytes(|file, t| file.put(of(file, t).version(), 65535)),
        bad("ObjLen 2^31").bytes(|file, t| file.put(of(file, t).objlen(), 1 << 31)),
        bad("KeyLen below the sum")
            .bytes(|file, t| file.put(of(file, t).keylen(), file.sites[t.record].keylen as u64 - 1)),
        bad("KeyLen above Nbytes").bytes(|file, t| file.put(of(file, t).keylen(), file.size(t.record) + 1)),
        bad("class in the long form")
            .plan(|_, plan, t| class_of_four(plan, t.record))
            .bytes(|file, t| other_form(file, of(file, t))),
        bad("class of no bytes in the long form")
            .plan(|_, plan, t| class_of_four(plan, t.record))
            .bytes(|file, t| long_class(file, of(file, t), 0)),
        bad("class past the record in the long form")
            .plan(|_, plan, t| class_of_four(plan, t.record))
            .bytes(|file, t| long_class(file, of(file, t), u64::MAX)),
    ]
}

/// Four bytes or more for the class of a record that had less.
fn class_of_four(plan: &mut Plan, index: usize) {
    let class = &mut plan.items[index].key.strings[0];
    if class.len() < 4 {
        *class = b"TH1F".to_vec();
    }
}

/// Stores the class of a key in the long form with a length, over the first four of its bytes or more.
fn long_class(file: &mut Built, key: KeyAt, len: u64) {
    file.put(key.class(), 255);
    file.put(Field { at: key.class().at + 1, width: 4 }, len);
}

/// Stores the class of a key in the long form, without its first four bytes: it takes as many as before.
fn other_form(file: &mut Built, key: KeyAt) {
    let len = file.get(key.class());
    long_class(file, key, len.saturating_sub(4));
}

/// Lengthens the key of the target's loose record, as a basket's, to a KeyLen.
fn basket(plan: &mut Plan, target: &Target, keylen: usize) {
    let item = &mut plan.items[target.loose];
    item.more = keylen - item.key.sum();
}

fn in_lengths_of_keys() -> Vec<Fault> {
    vec![
        fault(6, "KeyLen 32,768")
            .rough()
            .plan(|_, plan, t| basket(plan, t, 32_768))
            .place(|file, target| file.start(target.loose)),
        fault(0, "KeyLen 32,767").plan(|_, plan, t| basket(plan, t, 32_767)),
    ]
}

/// The bytes of a directory header of a plan's piece.
fn header_size(plan: &Plan, index: usize) -> usize {
    DirectoryAt { at: 0, width: width::of(plan.items[index].version.into()) }.size()
}

fn in_head() -> Vec<Fault> {
    vec![
        fault(8, "head's class").plan(|_, plan, _| plan.items[0].key.strings[0] = b"TFilf".to_vec()),
        fault(8, "head's class longer").plan(|_, plan, _| plan.items[0].key.strings[0] = b"TFile1".to_vec()),
        fault(8, "head not plain").rough().plan(|_, plan, _| plan.items[0].more = 1),
        fault(8, "head packed").bytes(|file, _| file.add(key(file, 0).objlen(), 1)),
        fault(8, "head's directory header cut").rough().plan(|_, plan, _| {
            plan.items[0].data.clear();
            plan.items[0].cut = 1;
        }),
        fault(8, "head ends in its directory header")
            .rough()
            .plan(|_, plan, t| gap_after(plan, t, 0))
            .bytes(|file, t| end_at(file, t, 0, file.sites[0].directory + 2)),
        fault(8, "head without data").rough().plan(|_, plan, _| {
            plan.items[0].data.clear();
            plan.items[0].cut = plan.items[0].names.len() + header_size(plan, 0);
        }),
        fault(8, "a gap for a head").rough().bytes(|file, _| {
            file.put(key(file, 0).nbytes(), file.size(0).wrapping_neg());
        }),
        fault(8, "no pieces").rough().bytes(|file, _| {
            file.bytes.truncate(100);
            append(file, &[]);
        }),
    ]
}

fn in_names_of_head() -> Vec<Fault> {
    vec![
        fault(8, "head's name of 254 bytes in the long form")
            .plan(|_, plan, _| plan.items[0].names = [long_form(254, &[7; 254]), counted(&[])].concat()),
        fault(8, "head's title of 254 bytes in the long form")
            .plan(|_, plan, _| plan.items[0].names = [counted(&[]), long_form(254, &[7; 254])].concat()),
        fault(8, "head's title of no bytes in the long form")
            .plan(|_, plan, _| plan.items[0].names = [counted(&[]), long_form(0, &[])].concat()),
        fault(8, "head's long name past its end").plan(|_, plan, _| {
            plan.items[0].names = long_form(300, &[]);
            plan.items[0].data.truncate(10);
        }),
        fault(8, "head's name past its end").plan(|_, plan, _| {
            plan.items[0].names = vec![254, 0];
            plan.items[0].data.truncate(10);
        }),
        fault(8, "head ends in its name")
            .rough()
            .plan(|_, plan, t| {
                plan.items[0].names = [counted(&[7; 10]), counted(&[])].concat();
                gap_after(plan, t, 0);
            })
            .bytes(|file, t| end_at(file, t, 0, 100 + file.sites[0].keylen + 1)),
        fault(8, "head ends in its title")
            .rough()
            .plan(|_, plan, t| {
                plan.items[0].names = [counted(&[]), counted(&[7; 10])].concat();
                gap_after(plan, t, 0);
            })
            .bytes(|file, t| end_at(file, t, 0, 100 + file.sites[0].keylen + 2)),
    ]
}

fn in_header_of_head() -> Vec<Fault> {
    vec![
        fault(8, "NbytesName in the file header").bytes(|file, _| file.add(file.header.nbytes_name(), 1)),
        fault(8, "NbytesName in the head").bytes(|file, _| file.add(directory(file, 0).nbytes_name(), -1)),
        fault(8, "both NbytesName").bytes(|file, _| {
            file.add(file.header.nbytes_name(), 1);
            file.add(directory(file, 0).nbytes_name(), 1);
        }),
        fault(8, "both NbytesName without a long length")
            .plan(|_, plan, _| plan.items[0].names = [counted(&[7; 255]), counted(&[])].concat())
            .bytes(|file, _| {
                file.add(file.header.nbytes_name(), -4);
                file.add(directory(file, 0).nbytes_name(), -4);
            }),
        fault(8, "head's SeekDir").bytes(|file, _| file.add(directory(file, 0).seek_dir(), 1)),
        fault(8, "head's SeekDir with its top bit").bytes(|file, _| {
            file.add(directory(file, 0).seek_dir(), top(directory(file, 0).seek_dir()));
        }),
        fault(8, "head's SeekParent").bytes(|file, _| file.put(directory(file, 0).seek_parent(), 100)),
        fault(8, "head's SeekParent with its top bit").bytes(|file, _| {
            file.add(directory(file, 0).seek_parent(), top(directory(file, 0).seek_parent()));
        }),
        fault(8, "head's directory version 2001").bytes(|file, _| file.put(directory(file, 0).version(), 2001)),
        fault(8, "head's directory version of the other width").bytes(|file, _| {
            file.put(directory(file, 0).version(), other_version(directory(file, 0).width));
        }),
    ]
}

fn in_free_list() -> Vec<Fault> {
    /// Another free list.
    fn seek(file: &mut Built, index: usize) {
        file.put(file.header.seek_free(), file.start(index));
        file.put(file.header.nbytes_free(), file.size(index));
    }
    vec![
        fault(9, "SeekFree 0").bytes(|file, _| file.put(file.header.seek_free(), 0)),
        fault(9, "SeekFree 100").bytes(|file, _| seek(file, 0)),
        fault(9, "SeekFree END").bytes(|file, _| file.put(file.header.seek_free(), file.end())),
        fault(9, "SeekFree a gap").bytes(|file, t| seek(file, t.gap)),
        fault(9, "SeekFree one more").bytes(|file, _| file.add(file.header.seek_free(), 1)),
        fault(9, "SeekFree with its top bit")
            .bytes(|file, _| file.add(file.header.seek_free(), top(file.header.seek_free()))),
        fault(9, "SeekFree the greatest").bytes(|file, _| file.put(file.header.seek_free(), u64::MAX)),
        fault(9, "SeekFree another record").bytes(|file, t| seek(file, t.loose)),
        fault(9, "NbytesFree").bytes(|file, _| file.add(file.header.nbytes_free(), 1)),
        fault(9, "free list's class").plan(|_, plan, t| plan.items[t.free].key.strings[0] = b"TDirectory".to_vec()),
        fault(9, "free list not plain").rough().plan(|_, plan, t| plan.items[t.free].more = 10),
        fault(9, "free list packed").bytes(|file, t| file.add(key(file, t.free).objlen(), 1)),
        // It would mend an ObjLen of 2^31.
        fault(9, "free list's ObjLen one less").rough().bytes(|file, t| file.add(key(file, t.free).objlen(), -1)),
        fault(9, "nfree one more").bytes(|file, _| file.add(file.header.nfree(), 1)),
        fault(9, "nfree one less").bytes(|file, _| file.add(file.header.nfree(), -1)),
        fault(9, "nfree 0").bytes(|file, _| file.put(file.header.nfree(), 0)),
        fault(9, "nfree past 31 bits").bytes(|file, _| file.add(file.header.nfree(), 1 << 31)),
    ]
}

/// The first segment of the free list, and the final one.
fn first_segment(file: &Built, target: &Target) -> SegmentAt {
    file.sites[target.free].segments[0]
}

fn final_segment(file: &Built, target: &Target) -> SegmentAt {
    *file.sites[target.free].segments.last().unwrap()
}

/// The size of the final segment of a plan, or of all of them.
fn segments_size(plan: &Plan, target: &Target, all: bool) -> usize {
    let segments = &plan.sites()[target.free].segments;
    let sizes = segments.iter().map(|segment| segment.size());
    sizes.skip(if all { 0 } else { segments.len() - 1 }).sum()
}

fn in_free_segments() -> Vec<Fault> {
    /// A version that the file's segments do not have.
    fn most(file: &Built) -> u64 {
        1 + u64::from(if file.header.width == 8 { width::MOST } else { width::MOST_NARROW })
    }
    vec![
        fault(9, "segment version").bytes(|file, t| file.put(first_segment(file, t).version(), most(file))),
        fault(9, "final segment version").bytes(|file, t| file.put(final_segment(file, t).version(), most(file))),
        fault(9, "segment version of the other width").bytes(|file, t| {
            file.put(first_segment(file, t).version(), other_version(first_segment(file, t).width));
        }),
        fault(9, "segment's first").bytes(|file, t| file.add(first_segment(file, t).first(), 1)),
        fault(9, "segment's first with its top bit").bytes(|file, t| {
            file.add(first_segment(file, t).first(), top(first_segment(file, t).first()));
        }),
        fault(9, "segment's last is the byte after").bytes(|file, t| file.add(first_segment(file, t).last(), 1)),
        fault(9, "segment's last one less").bytes(|file, t| file.add(first_segment(file, t).last(), -1)),
        fault(9, "segment's last with its top bit").bytes(|file, t| {
            file.add(first_segment(file, t).last(), top(first_segment(file, t).last()));
        }),
        fault(9, "final segment's first").bytes(|file, t| file.add(final_segment(file, t).first(), -1)),
        fault(9, "final segment's last is END").bytes(|file, t| file.put(final_segment(file, t).last(), file.end())),
        fault(9, "final segment's last 0").bytes(|file, t| file.put(final_segment(file, t).last(), 0)),
        fault(9, "segments out of order").bytes(|file, t| {
            let [one, two] = [0, 1].map(|nth| file.sites[t.free].segments[nth].size());
            let start = first_segment(file, t).at;
            if let Some(segments) = file.bytes.get_mut(start..start + one + two) {
                segments.rotate_left(one);
            }
        }),
        fault(9, "a segment too many").plan(|_, plan, t| plan.items[t.free].data = segment_bytes(1, [100, 100])),
        fault(9, "no final segment").rough().plan(|_, plan, t| plan.items[t.free].cut = segments_size(plan, t, false)),
        fault(9, "a byte after the segments").plan(|_, plan, t| plan.items[t.free].data = vec![0]),
        fault(9, "no segments").rough().plan(|_, plan, t| plan.items[t.free].cut = segments_size(plan, t, true)),
        fault(9, "a gap that is not listed").rough().bytes(|file, _| append(file, &[0xff, 0xff, 0xff, 0xfc])),
    ]
}

fn in_info() -> Vec<Fault> {
    /// Another info record.
    fn seek(file: &mut Built, index: usize) {
        file.put(file.header.seek_info(), file.start(index));
        file.put(file.header.nbytes_info(), file.size(index));
    }
    vec![
        fault(10, "SeekInfo 0").bytes(|file, _| file.put(file.header.seek_info(), 0)),
        fault(10, "NbytesInfo 0").bytes(|file, _| file.put(file.header.nbytes_info(), 0)),
        fault(10, "NbytesInfo").bytes(|file, _| file.add(file.header.nbytes_info(), 1)),
        fault(10, "SeekInfo one more").bytes(|file, _| file.add(file.header.seek_info(), 1)),
        fault(10, "SeekInfo with its top bit")
            .bytes(|file, _| file.add(file.header.seek_info(), top(file.header.seek_info()))),
        fault(10, "SeekInfo the greatest").bytes(|file, _| file.put(file.header.seek_info(), u64::MAX)),
        fault(10, "SeekInfo END").bytes(|file, _| file.put(file.header.seek_info(), file.end())),
        fault(10, "SeekInfo a gap").bytes(|file, t| seek(file, t.gap)),
        fault(10, "SeekInfo the head").bytes(|file, _| seek(file, 0)),
        fault(10, "info's class").plan(|_, plan, t| plan.items[t.info].key.strings[0] = b"TLisp".to_vec()),
        fault(10, "info's name").plan(|_, plan, t| plan.items[t.info].key.strings[1] = b"StreamerInf".to_vec()),
        fault(10, "info not plain").rough().plan(|_, plan, t| plan.items[t.info].more = 1),
    ]
}

/// The key of a record: in the record itself and in each copy.
fn keys_of(file: &Built, index: usize) -> Vec<KeyAt> {
    let site = &file.sites[index];
    let Some(key) = file.bytes.get(site.start..site.start + site.keylen) else {
        return Vec::new();
    };
    let copies = file.sites.iter().flat_map(|site| &site.copies).copied();
    let is_copy = |&at: &usize| file.bytes.get(at..).is_some_and(|bytes| bytes.starts_with(key));
    copies.filter(is_copy).chain([site.start]).map(|at| KeyAt { at, width: site.width }).collect()
}

/// Puts the target's gap right after a piece.
fn gap_after(plan: &mut Plan, target: &Target, index: usize) {
    plan.order.retain(|&other| other != target.gap);
    let at = plan.order.iter().position(|&other| other == index).unwrap();
    plan.order.insert(at + 1, target.gap);
}

/// Ends a record at `end`, and lets the gap after it take what follows there. The free list and the
/// copies say so too.
fn end_at(file: &mut Built, target: &Target, index: usize, end: usize) {
    let (site, gap, free) = (&file.sites[index], &file.sites[target.gap], &file.sites[target.free]);
    let (start, keylen) = (site.start, site.keylen);
    let (old, gap_end) = (gap.start, gap.start + gap.size);
    let segment = free.segments.iter().copied().find(|segment| file.get(segment.first()) == old as u64);
    for key in keys_of(file, index) {
        file.put(key.nbytes(), (end - start) as u64);
        file.put(key.objlen(), (end - start - keylen) as u64);
    }
    file.put(Field { at: end, width: 4 }, (end as u64).wrapping_sub(gap_end as u64));
    if let Some(segment) = segment {
        file.put(segment.first(), end as u64);
    }
}

fn in_directories() -> Vec<Fault> {
    /// The header of the target's subdirectory.
    fn of(file: &Built, target: &Target) -> DirectoryAt {
        directory(file, target.sub)
    }
    vec![
        fault(11, "directory packed")
            .bytes(|file, t| keys_of(file, t.sub).into_iter().for_each(|key| file.add(key.objlen(), 1))),
        // What is cut off is all there, in the gap that follows, but for dates.
        fault(11, "directory ends in its header")
            .rough()
            .plan(|_, plan, t| gap_after(plan, t, t.sub))
            .bytes(|file, t| end_at(file, t, t.sub, file.sites[t.sub].directory + 2)),
        fault(11, "directory of one byte less").plan(|_, plan, t| {
            plan.items[t.sub].data.clear();
            plan.items[t.sub].cut = 1;
        }),
        fault(11, "directory without data").plan(|_, plan, t| {
            plan.items[t.sub].data.clear();
            plan.items[t.sub].cut = header_size(plan, t.sub);
        }),
        fault(11, "directory version 2001").bytes(|file, t| file.put(of(file, t).version(), 2001)),
        fault(11, "directory version of the other width")
            .bytes(|file, t| file.put(of(file, t).version(), other_version(of(file, t).width))),
        fault(11, "SeekDir").bytes(|file, t| file.add(of(file, t).seek_dir(), 1)),
        fault(11, "SeekDir with its top bit")
            .bytes(|file, t| file.add(of(file, t).seek_dir(), top(of(file, t).seek_dir()))),
        fault(11, "SeekParent").bytes(|file, t| file.add(of(file, t).seek_parent(), 1)),
        fault(11, "SeekParent 0").bytes(|file, t| file.put(of(file, t).seek_parent(), 0)),
        fault(11, "SeekParent with its top bit")
            .bytes(|file, t| file.add(of(file, t).seek_parent(), top(of(file, t).seek_parent()))),
        fault(11, "NbytesName").bytes(|file, t| file.add(of(file, t).nbytes_name(), 1)),
    ]
}

/// Makes a piece the list of a directory, with a size.
fn list(file: &mut Built, dir: usize, index: usize, size: u64) {
    file.put(directory(file, dir).seek_keys(), file.start(index));
    file.put(directory(file, dir).nbytes_keys(), size);
}

fn in_lists() -> Vec<Fault> {
    /// The header of the target's directory.
    fn of(file: &Built, target: &Target) -> DirectoryAt {
        directory(file, target.dir)
    }
    vec![
        fault(12, "SeekKeys 0").bytes(|file, t| file.put(of(file, t).seek_keys(), 0)),
        fault(12, "NbytesKeys 0").bytes(|file, t| file.put(of(file, t).nbytes_keys(), 0)),
        fault(12, "NbytesKeys").bytes(|file, t| file.add(of(file, t).nbytes_keys(), 1)),
        fault(12, "SeekKeys one more").bytes(|file, t| file.add(of(file, t).seek_keys(), 1)),
        fault(12, "SeekKeys with its top bit")
            .bytes(|file, t| file.add(of(file, t).seek_keys(), top(of(file, t).seek_keys()))),
        fault(12, "SeekKeys the greatest").bytes(|file, t| file.put(of(file, t).seek_keys(), u64::MAX)),
        fault(12, "SeekKeys END").bytes(|file, t| file.put(of(file, t).seek_keys(), file.end())),
        fault(12, "SeekKeys a gap").bytes(|file, t| list(file, t.dir, t.gap, file.size(t.gap))),
        fault(12, "SeekKeys what it lists").bytes(|file, t| list(file, t.dir, t.listed, file.size(t.listed) + 1)),
        fault(12, "SeekKeys the info record").bytes(|file, t| list(file, t.dir, t.info, file.size(t.info))),
        fault(12, "list's class").plan(|_, plan, t| plan.items[t.list].key.strings[0] = b"TDirectoryFile".to_vec()),
        fault(12, "list not plain").rough().plan(|_, plan, t| plan.items[t.list].more = 1),
        fault(12, "list packed").bytes(|file, t| file.add(key(file, t.list).objlen(), 1)),
        fault(12, "list's SeekPdir").bytes(|file, t| file.add(key(file, t.list).seek_pdir(), 1)),
        fault(12, "list's SeekPdir with its top bit")
            .bytes(|file, t| file.add(key(file, t.list).seek_pdir(), top(key(file, t.list).seek_pdir()))),
    ]
}

fn in_data_of_lists() -> Vec<Fault> {
    vec![
        fault(12, "NKeys one more").bytes(|file, t| file.add(file.sites[t.list].nkeys(), 1)),
        fault(12, "NKeys one less").bytes(|file, t| file.add(file.sites[t.list].nkeys(), -1)),
        fault(12, "NKeys past 31 bits").bytes(|file, t| file.add(file.sites[t.list].nkeys(), 1 << 31)),
        fault(12, "a byte after the copies").plan(|_, plan, t| plan.items[t.list].data = vec![0]),
        fault(12, "30 bytes after the copies").plan(|_, plan, t| plan.items[t.list].data = vec![0; 30]),
        fault(12, "last copy cut").plan(|_, plan, t| plan.items[t.list].cut = 1),
        fault(12, "list without NKeys").plan(|_, plan, t| {
            plan.items[t.list].copies.clear();
            plan.items[t.list].data.clear();
            plan.items[t.list].cut = 1;
        }),
        fault(12, "list without data").plan(|_, plan, t| {
            plan.items[t.list].copies.clear();
            plan.items[t.list].data.clear();
            plan.items[t.list].cut = 4;
        }),
        fault(12, "copy's Version 0").bytes(|file, t| file.put(file.copy(t).version(), 0)),
        fault(12, "copy's Version 2001").bytes(|file, t| file.put(file.copy(t).version(), 2001)),
        fault(12, "copy's ObjLen 2^31").bytes(|file, t| file.put(file.copy(t).objlen(), 1 << 31)),
        fault(12, "copy's KeyLen above its sum").bytes(|file, t| {
            file.put(file.copy(t).keylen(), file.sites[t.listed].keylen as u64 + 1);
            // The record has at least as many bytes.
            file.add(file.copy(t).nbytes(), 1);
        }),
        fault(12, "copy's KeyLen above Nbytes").bytes(|file, t| file.put(file.copy(t).nbytes(), 29 - 1)),
        fault(12, "copy's class in the long form")
            .plan(|_, plan, t| class_of_four(plan, t.listed))
            .bytes(|file, t| other_form(file, file.copy(t))),
        fault(12, "copy's class past the list in the long form")
            .plan(|_, plan, t| class_of_four(plan, t.listed))
            .bytes(|file, t| long_class(file, file.copy(t), 1 << 31)),
    ]
}

fn in_copies() -> Vec<Fault> {
    vec![
        fault(13, "copy's SeekKey a gap").bytes(|file, t| file.put(file.copy(t).seek_key(), file.start(t.gap))),
        fault(13, "copy's SeekKey one more").bytes(|file, t| file.add(file.copy(t).seek_key(), 1)),
        fault(13, "copy's SeekKey 0").bytes(|file, t| file.put(file.copy(t).seek_key(), 0)),
        fault(13, "copy's SeekKey END").bytes(|file, t| file.put(file.copy(t).seek_key(), file.end())),
        fault(13, "copy's SeekKey the greatest").bytes(|file, t| file.put(file.copy(t).seek_key(), u64::MAX)),
        fault(13, "copy's SeekKey with its top bit")
            .bytes(|file, t| file.add(file.copy(t).seek_key(), top(file.copy(t).seek_key()))),
        fault(13, "copy's SeekKey the list").bytes(|file, t| file.put(file.copy(t).seek_key(), file.start(t.list))),
        fault(13, "copy's Nbytes").bytes(|file, t| file.add(file.copy(t).nbytes(), 1)),
        fault(13, "copy's Datime").bytes(|file, t| swap(file, file.copy(t).datime().at)),
        fault(13, "copy's Cycle").bytes(|file, t| swap(file, file.copy(t).cycle().at + 1)),
        fault(13, "record's Datime").bytes(|file, t| swap(file, key(file, t.listed).datime().at + 3)),
        fault(13, "copy's SeekPdir").bytes(|file, t| file.add(file.copy(t).seek_pdir(), 1)),
        fault(13, "copy's SeekPdir with its top bit")
            .bytes(|file, t| file.add(file.copy(t).seek_pdir(), top(file.copy(t).seek_pdir()))),
        fault(13, "SeekPdir of copy and record").bytes(|file, t| {
            file.add(file.copy(t).seek_pdir(), 1);
            file.add(key(file, t.listed).seek_pdir(), 1);
        }),
        fault(13, "record inside another's data")
            .rough()
            .plan(|_, plan, t| {
                // A basket before the record takes it in.
                let basket = &mut plan.items[t.loose];
                (basket.packed, basket.key.objlen) = (true, 7);
                plan.order.retain(|&index| index != t.loose);
                let at = plan.order.iter().position(|&index| index == t.listed).unwrap();
                plan.order.insert(at, t.loose);
            })
            .bytes(|file, t| file.add(key(file, t.loose).nbytes(), file.size(t.listed) as i64)),
    ]
}

fn in_parts() -> Vec<Fault> {
    /// Copies a piece in the target's list, whatever else it is.
    fn copy(plan: &mut Plan, target: &Target, index: usize) {
        plan.items[index].pdir = Some(target.dir);
        plan.items[target.list].copies.push(index);
    }
    vec![
        fault(14, "listed twice").plan(|_, plan, t| copy(plan, t, t.listed)),
        fault(14, "free list listed").plan(|_, plan, t| copy(plan, t, t.free)),
        fault(14, "info listed").plan(|_, plan, t| copy(plan, t, t.info)),
        fault(14, "list that lists itself").plan(|_, plan, t| copy(plan, t, t.list)),
        fault(14, "head listed").plan(|_, plan, t| copy(plan, t, 0)),
        fault(14, "free list a keys list")
            .plan(|_, plan, t| plan.items[t.free].pdir = Some(t.dir))
            .bytes(|file, t| list(file, t.dir, t.free, file.size(t.free)))
            .place(|file, t| file.start(t.dir)),
        fault(14, "head a keys list")
            .plan(|_, plan, t| plan.items[0].pdir = Some(t.dir))
            .bytes(|file, t| list(file, t.dir, 0, file.size(0)))
            .place(|file, t| file.start(t.dir)),
    ]
}

/// Changes that break no rule.
fn harmless() -> Vec<Fault> {
    vec![
        fault(0, "nothing"),
        fault(0, "Compress").bytes(|file, _| swap(file, file.header.compress().at)),
        fault(0, "what is not read").bytes(|file, _| swap(file, file.header.rest())),
        fault(0, "longest head in the short form").plan(|_, plan, _| {
            plan.items[0].names = [counted(&[7; 254]), counted(&[8; 254])].concat();
        }),
        fault(0, "head in the long form").plan(|_, plan, _| {
            plan.items[0].names = [counted(&[7; 255]), counted(&[8; 256])].concat();
        }),
        fault(0, "long strings everywhere").plan(|_, plan, _| {
            let strings = plan.items.iter_mut().flat_map(Item::any_strings);
            strings.for_each(|string| string.resize(string.len().max(255), b'x'));
        }),
        fault(0, "head's SeekPdir").bytes(|file, _| file.add(key(file, 0).seek_pdir(), 1)),
        fault(0, "title of the free list").plan(|_, plan, t| plan.items[t.free].key.strings[2] = vec![9; 300]),
        fault(0, "directory that lists nothing").bytes(|file, t| {
            file.put(directory(file, t.dir).seek_keys(), 0);
            file.put(directory(file, t.dir).nbytes_keys(), 0);
        }),
        fault(0, "no info").bytes(|file, _| {
            file.put(file.header.seek_info(), 0);
            file.put(file.header.nbytes_info(), 0);
        }),
        fault(0, "a list that nobody has").plan(|rng, plan, t| {
            keys(rng, plan, t.loose);
        }),
        fault(0, "directory with more data").plan(|_, plan, t| plan.items[t.sub].data = vec![1; 99]),
        fault(0, "keys all wide").plan(|_, plan, _| plan.items.iter_mut().for_each(|item| item.key.version = 1004)),
        fault(0, "keys all narrow").plan(|_, plan, _| plan.items.iter_mut().for_each(|item| item.key.version = 4)),
        fault(0, "directory headers all wide")
            .plan(|_, plan, _| plan.items.iter_mut().for_each(|item| item.version = 1005)),
        fault(0, "directory headers all narrow")
            .plan(|_, plan, _| plan.items.iter_mut().for_each(|item| item.version = 5)),
    ]
}
