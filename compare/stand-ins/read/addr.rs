//! In place of gimli's read/addr.rs: the address table that read/rnglists.rs names.

use crate::common::{DebugAddrBase, DebugAddrIndex};
use crate::read::{Error, Reader, Result};

#[derive(Clone, Copy, Debug, Default)]
pub struct DebugAddr<R> {
    #[allow(dead_code)]
    section: R,
}

impl<R: Reader> DebugAddr<R> {
    /// Without a body: only the range list codes 1, 2 and 3 need it, which no driver reads.
    pub fn get_address(
        &self,
        _address_size: u8,
        _base: DebugAddrBase<R::Offset>,
        _index: DebugAddrIndex<R::Offset>,
    ) -> Result<u64> {
        Err(Error::NotHere)
    }
}
