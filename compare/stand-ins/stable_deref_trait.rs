//! In place of the crate stable_deref_trait: its two marker traits, and Rc, which is the buffer that the drivers use.
#![no_std]

extern crate alloc;

use alloc::rc::Rc;
use alloc::sync::Arc;
use core::ops::Deref;

/// # Safety
/// The place that deref answers stays the same when the pointer is moved.
pub unsafe trait StableDeref: Deref {}

/// # Safety
/// A clone derefs to the same place.
pub unsafe trait CloneStableDeref: StableDeref + Clone {}

unsafe impl<T: ?Sized> StableDeref for Rc<T> {}
unsafe impl<T: ?Sized> CloneStableDeref for Rc<T> {}
unsafe impl<T: ?Sized> StableDeref for Arc<T> {}
unsafe impl<T: ?Sized> CloneStableDeref for Arc<T> {}
