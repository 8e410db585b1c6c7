//! one.root with other gaps, each as ROOT's `TFile::MakeFree(first, last)` writes one: at `first` stands the number
//! first - last - 1, and its segment is first and last. ROOT would join adjacent gaps, and end the file before a last
//! one.

use super::fields::{Field, SegmentAt};
use super::files::{end, one_root_plan, wide_root_plan, Plan, Role};

/// What is to be written of such a file. What stands nowhere here is not looked at.
pub struct Gapped {
    /// Where a stretch of the file stands, and its bytes.
    pub stretches: Vec<(usize, Vec<u8>)>,
    pub end: usize,
    /// Where the free list stands.
    pub seek_free: usize,
    /// The first and last byte of each gap.
    pub gaps: Vec<[usize; 2]>,
    segments: Vec<SegmentAt>,
}

/// Such a file with gaps of these sizes: `Gapped::new` or `Gapped::wide`.
pub type Form = fn(&[usize], &[usize]) -> Gapped;

impl Gapped {
    /// Gaps of these sizes before the free list and after it, each right after the other.
    pub fn new(before: &[usize], after: &[usize]) -> Self {
        Self::of(one_root_plan(), before, after)
    }

    /// The same with eight-byte offsets.
    pub fn wide(before: &[usize], after: &[usize]) -> Self {
        Self::of(wide_root_plan(), before, after)
    }

    /// A form of one.root with these gaps in the place of its own.
    pub fn of(mut plan: Plan, before: &[usize], after: &[usize]) -> Self {
        let [gap, free] = [Role::Gap, Role::Free].map(|role| plan.find(role).expect("one.root has it"));
        plan.order.retain(|&index| index != gap && index != free);
        add(&mut plan, gap, before);
        plan.order.push(free);
        add(&mut plan, gap, after);

        let sites = plan.sites();
        let gaps = plan.order.iter().filter(|&&index| plan.items[index].role == Role::Gap);
        Gapped {
            stretches: plan.laid(&sites).collect(),
            end: end(&sites),
            seek_free: sites[free].start,
            gaps: gaps.map(|&gap| [sites[gap].start, sites[gap].start + sites[gap].size - 1]).collect(),
            segments: sites[free].segments.clone(),
        }
    }

    /// The first and last of a segment; the final one follows those of the gaps.
    pub fn segment(&self, nth: usize) -> [Field; 2] {
        [self.segments[nth].first(), self.segments[nth].last()]
    }

    pub fn bytes(&self) -> Vec<u8> {
        let mut file = vec![0x5a; self.end];
        for (at, bytes) in &self.stretches {
            file[*at..at + bytes.len()].copy_from_slice(bytes);
        }
        file
    }
}

/// Adds gaps of these sizes, otherwise like one of the plan.
fn add(plan: &mut Plan, like: usize, sizes: &[usize]) {
    for size in sizes {
        let mut gap = plan.items[like].clone();
        gap.data.clear();
        gap.zeros = size - 4;
        plan.add(gap);
    }
}
