//! What both drivers need: the two readers, the relocation table, faults as they are written, and hexadecimal digits.

use gimli::{EndianReader, Error, ReaderOffset, Relocate, RunTimeEndian};
use std::rc::Rc;

/// gimli's EndianReader over a buffer with counted references.
type Shared = EndianReader<RunTimeEndian, Rc<[u8]>>;

#[cfg(target_pointer_width = "32")]
pub use own::narrow;
#[cfg(target_pointer_width = "64")]
pub use wrapped::narrow;

/// In a 32-bit program the reader with offsets of 32 bits is gimli's own.
#[cfg(target_pointer_width = "32")]
mod own {
    use super::*;

    pub fn narrow(section: &[u8], endian: RunTimeEndian) -> Shared {
        EndianReader::new(Rc::from(section), endian)
    }
}

/// In a 64-bit program it is gimli's within a newtype, which hands on each required function and has u32 for its offset.
/// EndianReader leaves the provided functions as they are, and so does the newtype.
#[cfg(target_pointer_width = "64")]
mod wrapped {
    use super::*;
    use gimli::{Reader, ReaderOffsetId, Result};
    use std::borrow::Cow;

    #[derive(Clone, Debug)]
    pub struct Narrow(Shared);

    pub fn narrow(section: &[u8], endian: RunTimeEndian) -> Narrow {
        assert!(section.len() <= u32::MAX as usize);
        Narrow(EndianReader::new(Rc::from(section), endian))
    }

    impl Reader for Narrow {
        type Endian = RunTimeEndian;
        type Offset = u32;

        fn endian(&self) -> RunTimeEndian {
            self.0.endian()
        }
        fn len(&self) -> u32 {
            Reader::len(&self.0) as u32
        }
        fn empty(&mut self) {
            self.0.empty()
        }
        fn truncate(&mut self, len: u32) -> Result<()> {
            self.0.truncate(len as usize)
        }
        fn offset_from(&self, base: &Self) -> u32 {
            self.0.offset_from(&base.0) as u32
        }
        fn offset_id(&self) -> ReaderOffsetId {
            self.0.offset_id()
        }
        fn lookup_offset_id(&self, id: ReaderOffsetId) -> Option<u32> {
            self.0.lookup_offset_id(id).map(|offset| offset as u32)
        }
        fn find(&self, byte: u8) -> Result<u32> {
            self.0.find(byte).map(|offset| offset as u32)
        }
        fn skip(&mut self, len: u32) -> Result<()> {
            self.0.skip(len as usize)
        }
        fn split(&mut self, len: u32) -> Result<Self> {
            self.0.split(len as usize).map(Narrow)
        }
        fn to_slice(&self) -> Result<Cow<'_, [u8]>> {
            self.0.to_slice()
        }
        fn to_string(&self) -> Result<Cow<'_, str>> {
            Reader::to_string(&self.0)
        }
        fn to_string_lossy(&self) -> Result<Cow<'_, str>> {
            self.0.to_string_lossy()
        }
        fn read_slice(&mut self, buf: &mut [u8]) -> Result<()> {
            self.0.read_slice(buf)
        }
    }
}

/// A relocation record: kind 0 adds the amount modulo 2^64, kind 1 replaces by it, any other kind is refused.
#[derive(Clone, Copy, Debug)]
pub struct Record {
    pub offset: u64,
    pub kind: u8,
    pub amount: u64,
}

/// A table of records, of which the first with an offset counts.
#[derive(Clone, Copy, Debug)]
pub struct Table<'a>(pub &'a [Record]);

impl Table<'_> {
    fn relocate(&self, offset: u64, value: u64) -> gimli::Result<u64> {
        let Some(record) = self.0.iter().find(|record| record.offset == offset) else {
            return Ok(value);
        };
        match record.kind {
            0 => Ok(value.wrapping_add(record.amount)),
            1 => Ok(record.amount),
            _ => Err(Error::RelocationRefused(offset)),
        }
    }
}

impl<T: ReaderOffset> Relocate<T> for Table<'_> {
    fn relocate_address(&self, offset: T, value: u64) -> gimli::Result<u64> {
        self.relocate(offset.into_u64(), value)
    }
    fn relocate_offset(&self, offset: T, value: T) -> gimli::Result<T> {
        T::from_u64(self.relocate(offset.into_u64(), value.into_u64())?)
    }
}

/// A fault's name and payload. gimli's ids are addresses in memory, so an id is told as its distance from `start`, the id
/// of the section's first byte.
pub fn fault(error: Error, start: u64) -> String {
    let (name, payload) = match error {
        Error::UnexpectedEof(id) => ("UnexpectedEof", id.0.wrapping_sub(start)),
        Error::UnknownReservedLength(length) => ("UnknownReservedLength", length.into()),
        Error::UnknownVersion(version) => ("UnknownVersion", version),
        Error::UnsupportedAddressSize(size) => ("UnsupportedAddressSize", size.into()),
        Error::UnsupportedSegmentSize(size) => ("UnsupportedSegmentSize", size.into()),
        Error::UnsupportedOffset => ("UnsupportedOffset", 0),
        Error::UnsupportedOffsetSize(size) => ("UnsupportedOffsetSize", size.into()),
        Error::BadUnsignedLeb128 => ("BadUnsignedLeb128", 0),
        Error::BadSignedLeb128 => ("BadSignedLeb128", 0),
        Error::AddressOverflow => ("AddressOverflow", 0),
        Error::RelocationRefused(offset) => ("RelocationRefused", offset),
        Error::BadUtf8 | Error::UnknownRangeListsEntry(_) | Error::NotHere => {
            panic!("{error:?}: no call of the drivers makes this fault")
        }
    };
    format!("! {name} {payload}")
}

/// The bytes of hexadecimal digits, two digits to a byte.
pub fn unhex(digits: &str) -> Option<Vec<u8>> {
    let value = |digit: u8| (digit as char).to_digit(16).map(|value| value as u8);
    if digits.len() % 2 != 0 {
        return None;
    }
    let pairs = digits.as_bytes().chunks(2);
    pairs
        .map(|pair| Some(value(pair[0])? << 4 | value(pair[1])?))
        .collect()
}
