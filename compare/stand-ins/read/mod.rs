//! In place of gimli's read/mod.rs: the modules, the faults, and the trait of sections. Nothing here reads a byte.

// gimli's
mod aranges;
mod endian_reader;
mod endian_slice;
mod reader;
mod relocate;
mod rnglists;

// stand-ins
mod addr;
pub(crate) mod lists;

pub use self::addr::*;
pub use self::aranges::*;
pub use self::endian_reader::*;
pub use self::endian_slice::*;
pub use self::reader::*;
pub use self::relocate::*;
pub use self::rnglists::*;

use crate::common::SectionId;
use crate::constants::DwRle;

/// The faults that gimli's nine files make, and two more. The files hand faults on and never ask which one it is, so the
/// two change nothing.
#[derive(Clone, Copy, Debug, PartialEq, Eq)]
pub enum Error {
    AddressOverflow,
    BadSignedLeb128,
    BadUnsignedLeb128,
    BadUtf8,
    UnexpectedEof(ReaderOffsetId),
    UnknownRangeListsEntry(DwRle),
    UnknownReservedLength(u32),
    UnknownVersion(u64),
    UnsupportedAddressSize(u8),
    UnsupportedOffset,
    UnsupportedOffsetSize(u8),
    UnsupportedSegmentSize(u8),
    /// Ours: the relocation table of the drivers has a record of an undefined kind for this offset.
    RelocationRefused(u64),
    /// Ours: a stand-in without a body was called. No driver gets here.
    NotHere,
}

pub type Result<T> = core::result::Result<T, Error>;

/// As much of the trait as the nine files implement or call.
pub trait Section<R>: From<R> {
    fn id() -> SectionId;

    fn reader(&self) -> &R
    where
        R: Reader;

    /// Without a body: only RangeLists::lookup_offset_id calls it, which no driver does.
    fn lookup_offset_id(&self, _id: ReaderOffsetId) -> Option<(SectionId, R::Offset)>
    where
        R: Reader,
    {
        None
    }
}
