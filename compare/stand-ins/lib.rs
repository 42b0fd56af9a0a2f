//! The root of a crate around nine of gimli's files: modules and re-exports, nothing else.
#![no_std]

extern crate alloc;
#[cfg(feature = "std")]
extern crate std;

// gimli's
pub mod common;
pub mod endianity;
pub mod leb128;

// stand-ins
pub mod constants;
pub mod read;

pub use crate::common::*;
pub use crate::endianity::*;
pub use crate::read::*;
pub use stable_deref_trait::{CloneStableDeref, StableDeref};
