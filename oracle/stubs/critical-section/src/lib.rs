//! Stands in for the crate of this name: one thread, so nothing to lock.

use core::marker::PhantomData;

#[derive(Clone, Copy)]
pub struct CriticalSection<'cs>(PhantomData<&'cs ()>);

pub fn with<R>(body: impl FnOnce(CriticalSection) -> R) -> R {
    body(CriticalSection(PhantomData))
}
