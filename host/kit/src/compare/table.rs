//! A table that is lent, and what is printed of a file when something differs.

use std::hint::black_box;

/// Guard numbers before and after a lent table.
const GUARD: usize = 4;

/// A table or a buffer that is lent, full of what an earlier call may have left, between two guards.
pub struct Table<T> {
    numbers: Vec<T>,
    guard: T,
}

impl<T: Copy + Default + PartialEq> Table<T> {
    pub fn new(len: usize, fill: T, guard: T) -> Self {
        let mut table = Table { numbers: vec![guard; len + 2 * GUARD], guard };
        table.lent().fill(fill);
        table
    }

    /// One that holds these numbers.
    pub fn of(numbers: &[T], guard: T) -> Self {
        let mut table = Self::new(numbers.len(), guard, guard);
        table.lent().copy_from_slice(numbers);
        table
    }

    pub fn lent(&mut self) -> &mut [T] {
        let end = self.numbers.len() - GUARD;
        &mut self.numbers[GUARD..end]
    }

    /// Whether it holds `rows`, then zeros, and the guards stand.
    pub fn holds(&mut self, rows: impl ExactSizeIterator<Item = T>) -> bool {
        self.holds_before(rows, T::default())
    }

    /// Whether it holds `rows`, then nothing but `rest`, and the guards stand.
    pub fn holds_before(&mut self, rows: impl ExactSizeIterator<Item = T>, rest: T) -> bool {
        let len = rows.len();
        let guard = [self.guard; GUARD];
        let numbers = &black_box(&mut self.numbers)[..];
        let (before, after) = (&numbers[..GUARD], &numbers[numbers.len() - GUARD..]);
        let lent = &numbers[GUARD..numbers.len() - GUARD];
        before == guard
            && after == guard
            && lent[..len].iter().copied().eq(rows)
            && lent[len..].iter().all(|&number| number == rest)
    }
}

/// Whether the tables start, part and owner hold these rows, then zeros, and their guards stand.
pub fn hold(tables: &mut [Table<u64>; 3], rows: impl ExactSizeIterator<Item = [u64; 3]> + Clone) -> bool {
    tables.iter_mut().enumerate().all(|(nth, table)| table.holds(rows.clone().map(|row| row[nth])))
}

/// The first numbers of each table.
pub fn first(tables: &mut [Table<u64>; 3]) -> [Vec<u64>; 3] {
    tables.each_mut().map(|table| table.lent().iter().take(40).copied().collect())
}

/// A small file in hexadecimal.
pub fn dump(file: &[u8]) -> String {
    if file.len() > 8192 {
        return format!("a file of {} bytes", file.len());
    }
    let lines = file.chunks(32).enumerate();
    lines.map(|(i, line)| format!("{:5} {}\n", 32 * i, line.iter().map(hex).collect::<String>())).collect()
}

fn hex(byte: &u8) -> String {
    format!("{byte:02x}")
}
