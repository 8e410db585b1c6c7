//! The reader of an unpacked StreamerInfo record.

use super::bytes::Cursor;
use super::key::{self, Key, Piece};
use super::{number, Answer};
use std::collections::HashMap;
use std::mem;

/// The classes of elements. A kind is an index here plus 1.
pub const KINDS: [&str; 10] = [
    "TStreamerBase",
    "TStreamerBasicType",
    "TStreamerString",
    "TStreamerBasicPointer",
    "TStreamerObject",
    "TStreamerObjectPointer",
    "TStreamerLoop",
    "TStreamerObjectAny",
    "TStreamerSTL",
    "TStreamerSTLString",
];
pub const INFO: &str = "TStreamerInfo";
pub const ARRAY: &str = "TObjArray";

/// The tag before the name of a class that has not come yet.
pub const NEW_CLASS: u32 = 0xffff_ffff;
/// Set in a reference to an earlier tag, whose offset in the record it also adds 2 to.
pub const CLASS_MASK: u32 = 0x8000_0000;
/// The two highest bits of a ByteCount: bit 30 set, bit 31 clear.
pub const COUNT_MASK: u32 = 0x4000_0000;
/// The bit of a TObject that says that it is referenced.
pub const REFERENCED: u32 = 1 << 4;

/// Class index, kind, offsets of name and type name, fType and fArrayLength.
pub type Row = [u32; 6];

/// Reads the record at `at` with a table of `len` numbers: the answer, and the rows of a success.
pub fn read_info(file: &[u8], at: u64, len: usize) -> (Answer, Vec<Row>) {
    let rows = match info_key(file, at) {
        Ok(key) => read_record(&file[at as usize..][..key.nbytes as usize], key.keylen.into()),
        Err(number) => return (Answer::refusal(number, at), Vec::new()),
    };
    match rows {
        Ok(rows) if rows.len() > len / 6 => {
            (Answer { number: number::ROWS, place: 0, count: rows.len() as u64 }, Vec::new())
        }
        Ok(rows) => (Answer::success(rows.len() as u64), rows),
        Err(fault) => (Answer::refusal(fault.number, at + fault.at as u64), Vec::new()),
    }
}

/// The key of the info record at `at`, or the number of the refusal there.
fn info_key(file: &[u8], at: u64) -> Result<Key, u64> {
    let Piece::Record(key) = key::read_piece(file, at)? else {
        return Err(number::NOT_INFO);
    };
    if !key.is_plain() || file[key.class.clone()] != *b"TList" || file[key.name.clone()] != *b"StreamerInfo" {
        return Err(number::NOT_INFO);
    }
    if !key.is_unpacked() {
        return Err(number::PACKED);
    }
    Ok(key)
}

/// A refusal, and the offset in the record of the field that brought it.
struct Fault {
    number: u64,
    at: usize,
}

type Read<T> = Result<T, Fault>;

fn bad<T>(number: u64, at: usize) -> Read<T> {
    Err(Fault { number, at })
}

fn read_record(record: &[u8], keylen: usize) -> Read<Vec<Row>> {
    let mut reader = Reader { record, at: keylen, end: record.len(), tags: HashMap::new(), rows: Vec::new() };
    reader.list()?;
    Ok(reader.rows)
}

/// Reads one field after another.
struct Reader<'a> {
    record: &'a [u8],
    at: usize,
    /// The innermost open end.
    end: usize,
    /// Each class that has come, with the number that refers to it.
    tags: HashMap<&'static str, u32>,
    rows: Vec<Row>,
}

impl<'a> Reader<'a> {
    /// The next `len` bytes, one field.
    fn field(&mut self, len: usize) -> Read<&'a [u8]> {
        if len > self.end - self.at {
            return bad(number::COUNT, self.at);
        }
        self.at += len;
        Ok(&self.record[self.at - len..self.at])
    }

    /// A number of at most four bytes.
    fn number(&mut self, width: usize) -> Read<u32> {
        Ok(self.field(width)?.iter().fold(0, |number, &byte| number << 8 | u32::from(byte)))
    }

    fn u32(&mut self) -> Read<u32> {
        self.number(4)
    }

    /// Fields of these widths whose values do not matter.
    fn skip(&mut self, widths: &[usize]) -> Read<()> {
        widths.iter().try_for_each(|&width| self.field(width).map(drop))
    }

    /// A string, one field with the bytes of its length: the offset of the first of these, and its length.
    fn string(&mut self) -> Read<(usize, usize)> {
        let at = self.at;
        let mut cursor = Cursor::new(&self.record[..self.end], at);
        let Some(string) = cursor.string() else {
            return bad(number::COUNT, at);
        };
        self.at = cursor.at();
        Ok((at, string.len()))
    }

    /// A string that must be empty.
    fn no_name(&mut self) -> Read<()> {
        match self.string()? {
            (_, 0) => Ok(()),
            (at, _) => bad(number::COUNT, at),
        }
    }

    /// A TObject that is not referenced.
    fn base(&mut self) -> Read<()> {
        self.skip(&[2, 4])?;
        let at = self.at;
        match self.u32()? & REFERENCED {
            0 => Ok(()),
            _ => bad(number::REFERENCED, at),
        }
    }

    /// A ByteCount: where its object ends.
    fn byte_count(&mut self) -> Read<usize> {
        let at = self.at;
        let count = self.u32()?;
        let len = (count ^ COUNT_MASK) as usize;
        if len >> 30 != 0 || len > self.end - self.at {
            return bad(number::COUNT, at);
        }
        Ok(self.at + len)
    }

    /// An object: its ByteCount, and contents that end where that says.
    fn object<T>(&mut self, contents: impl FnOnce(&mut Self) -> Read<T>) -> Read<T> {
        let end = self.byte_count()?;
        self.up_to(end, contents)
    }

    fn up_to<T>(&mut self, end: usize, contents: impl FnOnce(&mut Self) -> Read<T>) -> Read<T> {
        let outer = mem::replace(&mut self.end, end);
        let value = contents(self)?;
        if self.at != end {
            return bad(number::COUNT, self.at);
        }
        self.end = outer;
        Ok(value)
    }

    /// An object of a class named by its tag, which must be one of `classes`: the index there is
    /// handed to the contents, after their own ByteCount and Version.
    fn tagged<T>(&mut self, classes: &[&'static str], contents: impl FnOnce(&mut Self, usize) -> Read<T>) -> Read<T> {
        self.object(|reader| {
            let class = reader.class(classes)?;
            reader.object(|reader| {
                reader.skip(&[2])?;
                contents(reader, class)
            })
        })
    }

    fn class(&mut self, classes: &[&'static str]) -> Read<usize> {
        let at = self.at;
        let tag = self.u32()?;
        if tag != NEW_CLASS {
            let known = classes.iter().position(|class| self.tags.get(class) == Some(&tag));
            return known.ok_or(Fault { number: number::TAG, at });
        }
        let rest = &self.record[self.at..self.end];
        let Some(len) = rest.iter().position(|&byte| byte == 0) else {
            return bad(number::COUNT, at);
        };
        self.field(len + 1)?;
        match classes.iter().position(|class| class.as_bytes() == &rest[..len]) {
            Some(class) if !self.tags.contains_key(classes[class]) => {
                self.tags.insert(classes[class], CLASS_MASK | (at as u32 + 2));
                Ok(class)
            }
            _ => bad(number::TAG, at),
        }
    }

    fn list(&mut self) -> Read<()> {
        let at = self.at;
        let end = self.byte_count()?;
        if end != self.end {
            return bad(number::COUNT, at);
        }
        self.up_to(end, |reader| {
            let version = reader.number(2)?;
            reader.base()?;
            reader.no_name()?;
            let objects = reader.u32()?;
            (0..objects).try_for_each(|index| {
                reader.info(index)?;
                reader.option(version)
            })
        })
    }

    /// The option after an object of a list of this Version, one field: none below 4, and in 4 its first byte is
    /// its length, 255 too.
    fn option(&mut self, version: u32) -> Read<()> {
        match version {
            0..=3 => Ok(()),
            4 => {
                let len = self.record[self.at..self.end].first().map_or(0, |&len| len.into());
                self.skip(&[1 + len])
            }
            _ => self.string().map(drop),
        }
    }

    /// The TStreamerInfo of one class.
    fn info(&mut self, index: u32) -> Read<()> {
        self.tagged(&[INFO], |reader, _| {
            reader.named()?;
            // fCheckSum and fClassVersion
            reader.skip(&[4, 4])?;
            reader.tagged(&[ARRAY], |reader, _| reader.array(index))
        })
    }

    /// A TNamed: the offset of its name.
    fn named(&mut self) -> Read<usize> {
        self.object(|reader| {
            reader.skip(&[2])?;
            reader.base()?;
            let (name, _) = reader.string()?;
            reader.string()?;
            Ok(name)
        })
    }

    fn array(&mut self, index: u32) -> Read<()> {
        self.base()?;
        self.no_name()?;
        let objects = self.u32()?;
        let at = self.at;
        if self.u32()? != 0 {
            return bad(number::COUNT, at);
        }
        (0..objects).try_for_each(|_| self.element(index))
    }

    fn element(&mut self, index: u32) -> Read<()> {
        self.tagged(&KINDS, |reader, class| {
            let kind = class as u32 + 1;
            let [name, type_name, ftype, array_length] = reader.object(|reader| {
                reader.skip(&[2])?;
                let name = reader.named()?;
                let ftype = reader.u32()?;
                // fSize
                reader.skip(&[4])?;
                let array_length = reader.u32()?;
                // fArrayDim and fMaxIndex
                reader.skip(&[4; 6])?;
                let (type_name, _) = reader.string()?;
                Ok([name as u32, type_name as u32, ftype, array_length])
            })?;
            reader.rows.push([index, kind, name, type_name, ftype, array_length]);
            reader.own_data(KINDS[class])
        })
    }

    /// What follows the TStreamerElement.
    fn own_data(&mut self, class: &str) -> Read<()> {
        match class {
            // fBaseVersion
            "TStreamerBase" => self.skip(&[4]),
            // fCountVersion, fCountName and fCountClass
            "TStreamerBasicPointer" | "TStreamerLoop" => {
                self.skip(&[4])?;
                self.string()?;
                self.string().map(drop)
            }
            // fSTLtype and fCType
            "TStreamerSTL" => self.skip(&[4, 4]),
            _ => Ok(()),
        }
    }
}
