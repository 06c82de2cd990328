//! Stand-in for the crate spinning_top: a lock. Where the crate would wait for ever for a lock that its own caller holds, this one panics
//! (one thread alone uses it).
#![no_std]

use core::cell::{Cell, UnsafeCell};
use core::fmt;
use core::ops::{Deref, DerefMut};

pub struct Spinlock<T> {
    taken: Cell<bool>,
    inner: UnsafeCell<T>,
}

// The crate's lock is shared between threads; the text asks for it. Here one thread uses it.
unsafe impl<T: Send> Send for Spinlock<T> {}
unsafe impl<T: Send> Sync for Spinlock<T> {}

pub struct Guard<'a, T>(&'a Spinlock<T>);

impl<T> Spinlock<T> {
    pub fn new(inner: T) -> Spinlock<T> {
        Spinlock { taken: Cell::new(false), inner: UnsafeCell::new(inner) }
    }

    pub fn lock(&self) -> Guard<'_, T> {
        assert!(!self.taken.get(), "would wait for its own lock");
        self.taken.set(true);
        Guard(self)
    }
}

impl<T> Deref for Guard<'_, T> {
    type Target = T;
    fn deref(&self) -> &T {
        unsafe { &*self.0.inner.get() }
    }
}

impl<T> DerefMut for Guard<'_, T> {
    fn deref_mut(&mut self) -> &mut T {
        unsafe { &mut *self.0.inner.get() }
    }
}

impl<T> Drop for Guard<'_, T> {
    fn drop(&mut self) {
        self.0.taken.set(false);
    }
}

impl<T> fmt::Debug for Spinlock<T> {
    fn fmt(&self, f: &mut fmt::Formatter<'_>) -> fmt::Result {
        f.write_str("Spinlock")
    }
}
