//! Stands in for the crate of this name: a peripheral that is held by someone.

use core::marker::PhantomData;
use core::ops::{Deref, DerefMut};

pub trait PeripheralType: Copy + Sized {}

pub struct Peri<'a, T: PeripheralType> {
    inner: T,
    held: PhantomData<&'a mut T>,
}

impl<'a, T: PeripheralType> Peri<'a, T> {
    /// Nothing stands behind a peripheral of the desk computer, so any number
    /// of them may be made.
    pub fn make(inner: T) -> Self {
        Self {
            inner,
            held: PhantomData,
        }
    }

    pub fn reborrow(&mut self) -> Peri<'_, T> {
        Peri::make(self.inner)
    }
}

impl<T: PeripheralType> Deref for Peri<'_, T> {
    type Target = T;
    fn deref(&self) -> &T {
        &self.inner
    }
}

impl<T: PeripheralType> DerefMut for Peri<'_, T> {
    fn deref_mut(&mut self) -> &mut T {
        &mut self.inner
    }
}
