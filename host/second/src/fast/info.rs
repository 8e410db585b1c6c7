//! The reader of an unpacked StreamerInfo record, straight into the lent table.

use super::key::{be16, be32, piece, string_size, Piece};
use crate::{number, Answer};
use std::ops::Range;
use std::slice::ChunksExactMut;

/// The numbers of a row.
const ROW: usize = 6;
/// The kinds of elements, then the two other classes. A kind is an index here plus 1.
const CLASSES: [&[u8]; 12] = [
    b"TStreamerBase",
    b"TStreamerBasicType",
    b"TStreamerString",
    b"TStreamerBasicPointer",
    b"TStreamerObject",
    b"TStreamerObjectPointer",
    b"TStreamerLoop",
    b"TStreamerObjectAny",
    b"TStreamerSTL",
    b"TStreamerSTLString",
    b"TStreamerInfo",
    b"TObjArray",
];
const KINDS: Range<usize> = 0..10;
const INFO: Range<usize> = 10..11;
const ARRAY: Range<usize> = 11..12;

const NEW_CLASS: u32 = u32::MAX;
const CLASS_MASK: u32 = 1 << 31;
const COUNT_MASK: u32 = 1 << 30;
const REFERENCED: u32 = 1 << 4;
/// The least Version of a list with options. It alone has none in the long form.
const LEAST_OPTIONS: u16 = 4;

/// A refusal, and the offset of its field in the record.
type Fault = (u64, usize);

/// Reads the record at `at` into a table of rows of six numbers.
pub fn read_info(file: &[u8], at: u64, table: &mut [u32]) -> Answer {
    let room = table.len() / ROW;
    let found = match record(file, at) {
        Ok((record, keylen)) => rows_of(record, keylen, table),
        Err(number) => Err((number, 0)),
    };
    let answer = match found {
        Ok(rows) if rows > room => Answer { number: number::ROWS, place: 0, count: rows as u64 },
        Ok(rows) => Answer::success(rows as u64),
        Err((number, offset)) => Answer::refusal(number, at + offset as u64),
    };
    // Zeros behind the rows, and everywhere on a refusal.
    let used = if answer.number == number::SUCCESS { ROW * answer.count as usize } else { 0 };
    table[used..].fill(0);
    answer
}

/// The info record at `at` and its KeyLen, or the number of the refusal.
fn record(file: &[u8], at: u64) -> Result<(&[u8], usize), u64> {
    let at = usize::try_from(at).map_err(|_| number::CHAIN)?;
    let Piece::Record(record, key) = piece(file, at)? else {
        return Err(number::NOT_INFO);
    };
    if !key.plain || key.class != b"TList" || key.name != b"StreamerInfo" {
        return Err(number::NOT_INFO);
    }
    if !key.unpacked {
        return Err(number::PACKED);
    }
    Ok((record, key.keylen))
}

/// How many rows the record has. As many as fit stand in the table.
fn rows_of(record: &[u8], keylen: usize, table: &mut [u32]) -> Result<usize, Fault> {
    let mut reader =
        Reader { record, at: keylen, tags: [NEW_CLASS; CLASSES.len()], table: table.chunks_exact_mut(ROW), rows: 0 };
    reader.list()?;
    Ok(reader.rows)
}

/// The bytes that the option takes in a list of this Version, its length's too; None if it has a wrong form or does not
/// fit. Inlined, it would slow down the loop over elements.
#[inline(never)]
fn option_size(version: u16, bytes: &[u8]) -> Option<usize> {
    match version {
        ..LEAST_OPTIONS => Some(0),
        LEAST_OPTIONS => bytes.first().map(|&len| 1 + usize::from(len)).filter(|&size| size <= bytes.len()),
        _ => string_size(bytes),
    }
}

/// Goes through the fields. `end` is the innermost open end wherever it is a parameter.
struct Reader<'a, 'b> {
    record: &'a [u8],
    at: usize,
    /// For each class the number that refers to it, or one that no reference has.
    tags: [u32; CLASSES.len()],
    table: ChunksExactMut<'b, u32>,
    rows: usize,
}

impl<'a> Reader<'a, '_> {
    /// A run of fields of these widths, N bytes together.
    #[inline(always)]
    fn run<const N: usize>(&mut self, widths: &[usize], end: usize) -> Result<&'a [u8; N], Fault> {
        match self.record.get(self.at..end).and_then(<[u8]>::first_chunk) {
            Some(run) => {
                self.at += N;
                Ok(run)
            }
            None => Err(self.cut(widths, end)),
        }
    }

    /// The first of these fields that does not fit.
    #[cold]
    fn cut(&self, widths: &[usize], end: usize) -> Fault {
        let mut at = self.at;
        for width in widths {
            if at + width > end {
                break;
            }
            at += width;
        }
        (number::COUNT, at)
    }

    /// Where the object ends whose ByteCount is `count` and stands right before.
    #[inline(always)]
    fn end_of(&self, count: u32, end: usize) -> Result<usize, Fault> {
        let len = (count ^ COUNT_MASK) as usize;
        if len >= COUNT_MASK as usize || len > end - self.at {
            return Err((number::COUNT, self.at - 4));
        }
        Ok(self.at + len)
    }

    #[inline(always)]
    fn count(&mut self, end: usize) -> Result<usize, Fault> {
        let count = be32(self.run::<4>(&[4], end)?, 0);
        self.end_of(count, end)
    }

    /// A Version, then a ByteCount.
    #[inline(always)]
    fn version_and_count(&mut self, end: usize) -> Result<usize, Fault> {
        let count = be32(self.run::<6>(&[2, 4], end)?, 2);
        self.end_of(count, end)
    }

    /// A Version, then a TObject that is not referenced: the Version.
    #[inline(always)]
    fn version_and_base(&mut self, end: usize) -> Result<u16, Fault> {
        let run = self.run::<12>(&[2, 2, 4, 4], end)?;
        if be32(run, 8) & REFERENCED != 0 {
            return Err((number::REFERENCED, self.at - 4));
        }
        Ok(be16(run, 0))
    }

    /// The offset of a string's first length byte.
    #[inline(always)]
    fn string(&mut self, end: usize) -> Result<usize, Fault> {
        let at = self.at;
        let size = self.record.get(at..end).and_then(string_size).ok_or((number::COUNT, at))?;
        self.at += size;
        Ok(at)
    }

    /// The name of a list or an array, which has none.
    fn no_name(&mut self, end: usize) -> Result<(), Fault> {
        match self.run::<1>(&[1], end)? {
            [0] => Ok(()),
            _ => Err((number::COUNT, self.at - 1)),
        }
    }

    /// An object is done: its end must be here.
    #[inline(always)]
    fn ends(&self, end: usize) -> Result<(), Fault> {
        if self.at == end {
            Ok(())
        } else {
            Err((number::COUNT, self.at))
        }
    }

    /// The class that a tag names, one of a range of all classes.
    #[inline(always)]
    fn class(&mut self, classes: Range<usize>, end: usize) -> Result<usize, Fault> {
        let tag = be32(self.run::<4>(&[4], end)?, 0);
        if tag == NEW_CLASS {
            return self.new_class(classes, end);
        }
        let first = classes.start;
        let nth = self.tags[classes].iter().position(|&known| known == tag);
        nth.map(|nth| first + nth).ok_or((number::TAG, self.at - 4))
    }

    #[cold]
    fn new_class(&mut self, mut classes: Range<usize>, end: usize) -> Result<usize, Fault> {
        let at = self.at - 4;
        let rest = &self.record[self.at..end];
        let len = rest.iter().position(|&byte| byte == 0).ok_or((number::COUNT, at))?;
        let class = classes.find(|&class| CLASSES[class] == &rest[..len] && self.tags[class] == NEW_CLASS);
        let class = class.ok_or((number::TAG, at))?;
        self.tags[class] = CLASS_MASK | (at as u32 + 2);
        self.at += len + 1;
        Ok(class)
    }

    fn list(&mut self) -> Result<(), Fault> {
        let (at, end) = (self.at, self.record.len());
        if self.count(end)? != end {
            return Err((number::COUNT, at));
        }
        let version = self.version_and_base(end)?;
        self.no_name(end)?;
        let objects = be32(self.run::<4>(&[4], end)?, 0);
        for index in 0..objects {
            self.info(index, end)?;
            self.at += option_size(version, &self.record[self.at..end]).ok_or((number::COUNT, self.at))?;
        }
        self.ends(end)
    }

    /// The TStreamerInfo of one class.
    fn info(&mut self, index: u32, end: usize) -> Result<(), Fault> {
        let object = self.count(end)?;
        self.class(INFO, object)?;
        let body = self.count(object)?;
        let named = self.version_and_count(body)?;
        self.named(named)?;
        // fCheckSum and fClassVersion
        self.run::<8>(&[4, 4], body)?;
        self.array(index, body)?;
        self.ends(body)?;
        self.ends(object)
    }

    /// What a TNamed has after its ByteCount: the offset of its name.
    #[inline(always)]
    fn named(&mut self, end: usize) -> Result<usize, Fault> {
        self.version_and_base(end)?;
        let name = self.string(end)?;
        self.string(end)?;
        self.ends(end)?;
        Ok(name)
    }

    fn array(&mut self, index: u32, end: usize) -> Result<(), Fault> {
        let object = self.count(end)?;
        self.class(ARRAY, object)?;
        let body = self.count(object)?;
        self.version_and_base(body)?;
        self.no_name(body)?;
        let sizes = self.run::<8>(&[4, 4], body)?;
        if be32(sizes, 4) != 0 {
            return Err((number::COUNT, self.at - 4));
        }
        for _ in 0..be32(sizes, 0) {
            self.element(index, body)?;
        }
        self.ends(body)?;
        self.ends(object)
    }

    fn element(&mut self, index: u32, end: usize) -> Result<(), Fault> {
        let object = self.count(end)?;
        let class = self.class(KINDS, object)?;
        let body = self.count(object)?;
        let element = self.version_and_count(body)?;
        let named = self.version_and_count(element)?;
        let name = self.named(named)?;
        // fType, fSize, fArrayLength, fArrayDim and fMaxIndex
        let numbers = self.run::<36>(&[4; 9], element)?;
        let type_name = self.string(element)?;
        self.ends(element)?;
        let kind = class as u32 + 1;
        if let Some(row) = self.table.next() {
            row.copy_from_slice(&[index, kind, name as u32, type_name as u32, be32(numbers, 0), be32(numbers, 8)]);
        }
        self.rows += 1;
        self.own_data(kind, body)?;
        self.ends(body)?;
        self.ends(object)
    }

    /// What follows the TStreamerElement in some kinds.
    #[inline(always)]
    fn own_data(&mut self, kind: u32, end: usize) -> Result<(), Fault> {
        match kind {
            // fBaseVersion
            1 => self.run::<4>(&[4], end).map(drop),
            // fCountVersion, fCountName and fCountClass
            4 | 7 => {
                self.run::<4>(&[4], end)?;
                self.string(end)?;
                self.string(end).map(drop)
            }
            // fSTLtype and fCType
            9 => self.run::<8>(&[4, 4], end).map(drop),
            _ => Ok(()),
        }
    }
}
