//! Locks of readers and writers.
use super::answered;
use crate::program::ctx::{Ctx, is_in_run, with};
use crate::program::slot::{Caller, Object, Real, Refused};
use crate::program::world::Way;
use crate::raw::Change;
use crate::turns::Wake;
use std::cell::UnsafeCell;
use std::fmt;
use std::marker::PhantomData;
use std::mem;
use std::ops::{Deref, DerefMut};
use std::panic::{Location, RefUnwindSafe, UnwindSafe};
use std::sync::atomic::{AtomicBool, Ordering};
use std::sync::{self, LockResult, PoisonError, TryLockError, TryLockResult};
use std::thread;

/// While one writes, the object has this and its seat; else how many read.
const WRITER: u64 = 1 << 32;

/// What a lock is outside of runs.
struct Outside {
    lock: sync::RwLock<()>,
    // It was locked for writing in an explored run, which may have changed its value.
    is_spoilt: AtomicBool,
}

impl Real for Outside {
    fn begin(&self) -> Result<u64, Refused> {
        match self.lock.try_write() {
            Err(TryLockError::WouldBlock) => Err("is held outside of the run"),
            _ => Ok(0),
        }
    }

    fn end(&self, value: u64) {
        // The run has forgotten its guards.
        if value >= WRITER {
            mem::forget(self.lock.try_write());
        } else {
            (0..value).for_each(|_| mem::forget(self.lock.try_read()));
        }
    }

    fn spoilt(&self) -> Option<Refused> {
        const WHY: Refused = "was locked for writing by an earlier seed, and what that has changed is not set back: make it in the \
            program, or let the seeds gather in a RwLock of std";
        self.is_spoilt.swap(false, Ordering::Relaxed).then_some(WHY)
    }
}

/// As [`std::sync::RwLock`]. Its object has how many read, or the seat of the one that writes.
///
/// ```
/// let list = octet::sync::RwLock::new(vec![1]);
/// list.write().unwrap().push(2);
/// assert_eq!(*list.read().unwrap(), [1, 2]);
/// ```
pub struct RwLock<T: ?Sized> {
    object: Object<Outside>,
    is_poisoned: AtomicBool,
    value: UnsafeCell<T>,
}

// SAFETY: as that of `std`: the value goes from writer to writer.
unsafe impl<T: ?Sized + Send> Send for RwLock<T> {}
// SAFETY: as that of `std`: beside that, readers share it.
unsafe impl<T: ?Sized + Send + Sync> Sync for RwLock<T> {}
impl<T: ?Sized> UnwindSafe for RwLock<T> {}
impl<T: ?Sized> RefUnwindSafe for RwLock<T> {}

/// As [`std::sync::RwLockReadGuard`].
///
/// ```
/// let lock = octet::sync::RwLock::new(5);
/// let guards: [octet::sync::RwLockReadGuard<'_, i32>; 2] = [lock.read().unwrap(), lock.read().unwrap()];
/// assert!(lock.try_write().is_err());
/// # drop(guards);
/// ```
#[must_use = "the lock is free again where this is dropped"]
pub struct RwLockReadGuard<'a, T: ?Sized> {
    lock: &'a RwLock<T>,
    outside: Option<sync::RwLockReadGuard<'a, ()>>,
    not_send: PhantomData<*const ()>,
}

/// As [`std::sync::RwLockWriteGuard`].
///
/// ```
/// let lock = octet::sync::RwLock::new(5);
/// let mut guard: octet::sync::RwLockWriteGuard<'_, i32> = lock.write().unwrap();
/// *guard += 1;
/// assert!(lock.try_read().is_err());
/// ```
#[must_use = "the lock is free again where this is dropped"]
pub struct RwLockWriteGuard<'a, T: ?Sized> {
    lock: &'a RwLock<T>,
    outside: Option<sync::RwLockWriteGuard<'a, ()>>,
    has_panicked: bool,
    not_send: PhantomData<*const ()>,
}

// SAFETY: as that of `std`: it gives no more than a reference to the value.
unsafe impl<T: ?Sized + Sync> Sync for RwLockReadGuard<'_, T> {}
// SAFETY: as above.
unsafe impl<T: ?Sized + Sync> Sync for RwLockWriteGuard<'_, T> {}

impl<T> RwLock<T> {
    /// As that of `std`.
    #[must_use]
    pub const fn new(value: T) -> RwLock<T> {
        let outside = Outside { lock: sync::RwLock::new(()), is_spoilt: AtomicBool::new(false) };
        RwLock { object: Object::new(outside), is_poisoned: AtomicBool::new(false), value: UnsafeCell::new(value) }
    }

    /// As that of `std`.
    ///
    /// # Errors
    /// The value as a poisoned one, where it is.
    pub fn into_inner(self) -> LockResult<T> {
        let is_poisoned = self.is_poisoned();
        answered(self.value.into_inner(), is_poisoned)
    }
}

impl<T: ?Sized> RwLock<T> {
    // By a thread of a run: whether it was taken, or what is in the way.
    fn try_take(&self, ctx: &Ctx, writes: bool, caller: Caller) -> Result<(), u64> {
        let mut found = 0;
        loop {
            let new = if writes { WRITER + ctx.seat as u64 } else { found + 1 };
            match self.object.exchange(ctx, found, new, caller) {
                Ok(()) => break,
                Err(other) if writes || other >= WRITER => return Err(other),
                Err(other) => found = other,
            }
        }
        if writes && ctx.way == Way::Turns {
            self.object.real().is_spoilt.store(true, Ordering::Relaxed);
        }
        Ok(())
    }

    fn take(&self, ctx: &Ctx, writes: bool, caller: Caller) {
        let key = self.object.key();
        loop {
            let ticket = ctx.ticket(key);
            let Err(found) = self.try_take(ctx, writes, caller) else {
                return;
            };
            let what = if writes { "a RwLock, to write" } else { "a RwLock, to read" };
            let holder = found.checked_sub(WRITER).and_then(|seat| self.object.held_by(ctx, seat));
            ctx.wait(key, ticket, Wake { what, place: caller, holder }, None);
        }
    }

    fn free(&self, writes: bool, caller: Caller) {
        with(|ctx| {
            let ctx = ctx?;
            if writes {
                self.object.store(ctx, 0, caller);
            } else {
                self.object.update(ctx, Change::Sub, 1, Ordering::Release, caller);
            }
            ctx.wake(self.object.key(), true);
            Some(())
        });
    }

    fn writing<'a>(&'a self, outside: Option<sync::RwLockWriteGuard<'a, ()>>) -> RwLockWriteGuard<'a, T> {
        RwLockWriteGuard { lock: self, outside, has_panicked: thread::panicking(), not_send: PhantomData }
    }

    fn reading<'a>(&'a self, outside: Option<sync::RwLockReadGuard<'a, ()>>) -> RwLockReadGuard<'a, T> {
        RwLockReadGuard { lock: self, outside, not_send: PhantomData }
    }

    // What is held outside of runs is in none.
    fn judged<G>(&self, outside: Option<G>, caller: Caller) -> Option<G> {
        if outside.is_some() {
            self.object.outside(caller);
        }
        outside
    }

    /// As that of `std`.
    ///
    /// # Errors
    /// The guard as a poisoned one, where a thread has panicked while it wrote.
    #[track_caller]
    pub fn read(&self) -> LockResult<RwLockReadGuard<'_, T>> {
        let caller = Location::caller();
        let is_taken = with(|ctx| ctx.map(|ctx| self.take(ctx, false, caller))).is_some();
        let outside = (!is_taken).then(|| self.object.outside(caller).lock.read().unwrap_or_else(PoisonError::into_inner));
        answered(self.reading(self.judged(outside, caller)), self.is_poisoned())
    }

    /// As that of `std`.
    ///
    /// # Errors
    /// As `read`.
    #[track_caller]
    pub fn write(&self) -> LockResult<RwLockWriteGuard<'_, T>> {
        let caller = Location::caller();
        let is_taken = with(|ctx| ctx.map(|ctx| self.take(ctx, true, caller))).is_some();
        let outside = (!is_taken).then(|| self.object.outside(caller).lock.write().unwrap_or_else(PoisonError::into_inner));
        answered(self.writing(self.judged(outside, caller)), self.is_poisoned())
    }

    // Tries it by a thread of a run, or outside.
    fn try_now<G>(
        &self,
        writes: bool,
        caller: Caller,
        outside: impl FnOnce() -> TryLockResult<G>,
    ) -> Result<Option<G>, TryLockError<()>> {
        match with(|ctx| ctx.map(|ctx| self.try_take(ctx, writes, caller))) {
            Some(Ok(())) => Ok(None),
            Some(Err(_)) => Err(TryLockError::WouldBlock),
            None => match outside() {
                Err(TryLockError::WouldBlock) => Err(TryLockError::WouldBlock),
                Err(TryLockError::Poisoned(poisoned)) => Ok(self.judged(Some(poisoned.into_inner()), caller)),
                Ok(guard) => Ok(self.judged(Some(guard), caller)),
            },
        }
    }

    /// As that of `std`.
    ///
    /// # Errors
    /// `WouldBlock` where another one writes, and else as `read`.
    #[track_caller]
    pub fn try_read(&self) -> TryLockResult<RwLockReadGuard<'_, T>> {
        let caller = Location::caller();
        let tried = self.try_now(false, caller, || self.object.outside(caller).lock.try_read());
        let outside = tried.map_err(|_| TryLockError::WouldBlock)?;
        Ok(answered(self.reading(outside), self.is_poisoned())?)
    }

    /// As that of `std`.
    ///
    /// # Errors
    /// `WouldBlock` where another one has it, and else as `read`.
    #[track_caller]
    pub fn try_write(&self) -> TryLockResult<RwLockWriteGuard<'_, T>> {
        let caller = Location::caller();
        let tried = self.try_now(true, caller, || self.object.outside(caller).lock.try_write());
        let outside = tried.map_err(|_| TryLockError::WouldBlock)?;
        Ok(answered(self.writing(outside), self.is_poisoned())?)
    }

    /// As that of `std`.
    #[must_use]
    pub fn is_poisoned(&self) -> bool {
        self.is_poisoned.load(Ordering::Relaxed)
    }

    /// As that of `std`.
    pub fn clear_poison(&self) {
        self.is_poisoned.store(false, Ordering::Relaxed);
    }

    /// As that of `std`.
    ///
    /// # Errors
    /// The value as a poisoned one, where it is.
    pub fn get_mut(&mut self) -> LockResult<&mut T> {
        let is_poisoned = self.is_poisoned();
        answered(self.value.get_mut(), is_poisoned)
    }
}

impl<T: ?Sized> Drop for RwLockReadGuard<'_, T> {
    #[track_caller]
    fn drop(&mut self) {
        if self.outside.is_none() && is_in_run() {
            self.lock.free(false, Location::caller());
        }
    }
}

impl<T: ?Sized> Drop for RwLockWriteGuard<'_, T> {
    #[track_caller]
    fn drop(&mut self) {
        if !self.has_panicked && thread::panicking() {
            self.lock.is_poisoned.store(true, Ordering::Relaxed);
        }
        if self.outside.is_none() && is_in_run() {
            self.lock.free(true, Location::caller());
        }
    }
}

impl<T: ?Sized> Deref for RwLockReadGuard<'_, T> {
    type Target = T;

    fn deref(&self) -> &T {
        // SAFETY: it is held for reading, so nobody writes while this is borrowed.
        unsafe { &*self.lock.value.get() }
    }
}

impl<T: ?Sized> Deref for RwLockWriteGuard<'_, T> {
    type Target = T;

    fn deref(&self) -> &T {
        // SAFETY: it is held for writing, so nobody else has the value while this is borrowed.
        unsafe { &*self.lock.value.get() }
    }
}

impl<T: ?Sized> DerefMut for RwLockWriteGuard<'_, T> {
    fn deref_mut(&mut self) -> &mut T {
        // SAFETY: as in `deref`.
        unsafe { &mut *self.lock.value.get() }
    }
}

impl<T: ?Sized + fmt::Debug> fmt::Debug for RwLockReadGuard<'_, T> {
    fn fmt(&self, out: &mut fmt::Formatter<'_>) -> fmt::Result {
        (**self).fmt(out)
    }
}

impl<T: ?Sized + fmt::Debug> fmt::Debug for RwLockWriteGuard<'_, T> {
    fn fmt(&self, out: &mut fmt::Formatter<'_>) -> fmt::Result {
        (**self).fmt(out)
    }
}

impl<T: ?Sized + fmt::Display> fmt::Display for RwLockReadGuard<'_, T> {
    fn fmt(&self, out: &mut fmt::Formatter<'_>) -> fmt::Result {
        (**self).fmt(out)
    }
}

impl<T: ?Sized + fmt::Display> fmt::Display for RwLockWriteGuard<'_, T> {
    fn fmt(&self, out: &mut fmt::Formatter<'_>) -> fmt::Result {
        (**self).fmt(out)
    }
}

impl<T: ?Sized + fmt::Debug> fmt::Debug for RwLock<T> {
    fn fmt(&self, out: &mut fmt::Formatter<'_>) -> fmt::Result {
        let mut told = out.debug_struct("RwLock");
        match self.try_read() {
            Ok(guard) => told.field("data", &&*guard),
            Err(TryLockError::Poisoned(poisoned)) => told.field("data", &&**poisoned.get_ref()),
            Err(TryLockError::WouldBlock) => told.field("data", &format_args!("<locked>")),
        };
        told.field("poisoned", &self.is_poisoned()).finish_non_exhaustive()
    }
}

impl<T: Default> Default for RwLock<T> {
    fn default() -> RwLock<T> {
        RwLock::new(T::default())
    }
}

impl<T> From<T> for RwLock<T> {
    fn from(value: T) -> RwLock<T> {
        RwLock::new(value)
    }
}
