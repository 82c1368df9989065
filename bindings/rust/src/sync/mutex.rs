//! Mutexes.
use super::answered;
use crate::program::ctx::{Ctx, is_in_run, with};
use crate::program::slot::{Caller, Object, Real, Refused};
use crate::program::world::Way;
use crate::turns::Wake;
use std::cell::UnsafeCell;
use std::fmt;
use std::marker::PhantomData;
use std::mem;
use std::ops::{Deref, DerefMut};
use std::panic::{Location, RefUnwindSafe, UnwindSafe};
use std::sync::atomic::{AtomicBool, Ordering};
use std::sync::{self, LockResult, TryLockError, TryLockResult};
use std::thread;

/// What a mutex is outside of runs.
struct Outside {
    lock: sync::Mutex<()>,
    // It was locked in an explored run, which may have changed its value.
    is_spoilt: AtomicBool,
}

impl Real for Outside {
    fn begin(&self) -> Result<u64, Refused> {
        match self.lock.try_lock() {
            Err(TryLockError::WouldBlock) => Err("is held outside of the run"),
            _ => Ok(0),
        }
    }

    fn end(&self, value: u64) {
        if value != 0 {
            // The run has forgotten its guard.
            mem::forget(self.lock.try_lock());
        }
    }

    fn spoilt(&self) -> Option<Refused> {
        const WHY: Refused = "was locked by an earlier seed, and what that has changed is not set back: make it in the program, \
            or let the seeds gather in a Mutex of std";
        self.is_spoilt.swap(false, Ordering::Relaxed).then_some(WHY)
    }
}

/// As [`std::sync::Mutex`]. Its object has 0 while it is free, and else one more than the seat of the thread that holds it.
///
/// ```
/// use octet::sync::Mutex;
///
/// static NAMES: Mutex<Vec<&str>> = Mutex::new(Vec::new());
/// NAMES.lock().unwrap().push("octet");
/// assert_eq!(NAMES.try_lock().unwrap().len(), 1);
/// ```
pub struct Mutex<T: ?Sized> {
    object: Object<Outside>,
    // By threads of runs. By others its lock outside is.
    is_poisoned: AtomicBool,
    // Whether who holds it in a run took it while it panicked.
    has_panicked: AtomicBool,
    value: UnsafeCell<T>,
}

// SAFETY: as that of `std`: whoever holds it has the value to itself, and the value goes from thread to thread.
unsafe impl<T: ?Sized + Send> Send for Mutex<T> {}
// SAFETY: as above.
unsafe impl<T: ?Sized + Send> Sync for Mutex<T> {}
impl<T: ?Sized> UnwindSafe for Mutex<T> {}
impl<T: ?Sized> RefUnwindSafe for Mutex<T> {}

/// As [`std::sync::MutexGuard`].
///
/// ```
/// let count = octet::sync::Mutex::new(1);
/// let mut guard: octet::sync::MutexGuard<'_, i32> = count.lock().unwrap();
/// *guard += 1;
/// assert_eq!(*guard, 2);
/// ```
#[must_use = "the mutex is free again where this is dropped"]
pub struct MutexGuard<'a, T: ?Sized> {
    lock: &'a Mutex<T>,
    outside: Option<sync::MutexGuard<'a, ()>>,
    not_send: PhantomData<*const ()>,
}

// SAFETY: as that of `std`: it gives no more than a reference to the value.
unsafe impl<T: ?Sized + Sync> Sync for MutexGuard<'_, T> {}

impl<T> Mutex<T> {
    /// As that of `std`.
    #[must_use]
    pub const fn new(value: T) -> Mutex<T> {
        let outside = Outside { lock: sync::Mutex::new(()), is_spoilt: AtomicBool::new(false) };
        let (is_poisoned, has_panicked) = (AtomicBool::new(false), AtomicBool::new(false));
        Mutex { object: Object::new(outside), is_poisoned, has_panicked, value: UnsafeCell::new(value) }
    }

    /// As that of `std`.
    ///
    /// # Errors
    /// The value as a poisoned one, where it is.
    pub fn into_inner(self) -> LockResult<T> {
        let is_poisoned = self.is_poisoned();
        answered(self.value.into_inner(), is_poisoned)
    }
}

impl<T: ?Sized> Mutex<T> {
    /// By a thread of a run: whether it was taken at once, or who holds it.
    fn try_take(&self, ctx: &Ctx, caller: Caller) -> Result<(), u64> {
        self.object.exchange(ctx, 0, ctx.seat as u64 + 1, caller)?;
        self.has_panicked.store(thread::panicking(), Ordering::Relaxed);
        if ctx.way == Way::Turns {
            self.object.real().is_spoilt.store(true, Ordering::Relaxed);
        }
        Ok(())
    }

    /// By this key threads wait for it.
    pub(super) fn key(&self) -> usize {
        self.object.key()
    }

    /// By a thread of a run: waits until it is taken.
    pub(super) fn take(&self, ctx: &Ctx, caller: Caller) {
        let key = self.key();
        loop {
            let ticket = ctx.ticket(key);
            match self.try_take(ctx, caller) {
                Ok(()) => return,
                Err(found) => {
                    let holder = found.checked_sub(1).and_then(|seat| self.object.held_by(ctx, seat));
                    ctx.wait(key, ticket, Wake { what: "a Mutex", place: caller, holder }, None);
                }
            }
        }
    }

    /// By a thread of a run that holds it.
    pub(super) fn free(&self, ctx: &Ctx, caller: Caller) {
        self.object.store(ctx, 0, caller);
        ctx.wake(self.key(), true);
    }

    #[inline(always)]
    fn guard<'a>(&'a self, outside: Option<sync::MutexGuard<'a, ()>>) -> MutexGuard<'a, T> {
        MutexGuard { lock: self, outside, not_send: PhantomData }
    }

    /// As that of `std`.
    ///
    /// # Errors
    /// The guard as a poisoned one, where a thread has panicked while it held one.
    #[inline]
    #[track_caller]
    pub fn lock(&self) -> LockResult<MutexGuard<'_, T>> {
        self.lock_at(Location::caller())
    }

    #[inline(always)]
    pub(super) fn lock_at(&self, caller: Caller) -> LockResult<MutexGuard<'_, T>> {
        let (outside, is_poisoned) = if is_in_run() {
            self.take_in_run(caller);
            (None, self.is_poisoned())
        } else {
            let (outside, is_poisoned) = match self.object.outside(caller).lock.lock() {
                Ok(outside) => (outside, self.is_poisoned.load(Ordering::Relaxed)),
                Err(poisoned) => (poisoned.into_inner(), true),
            };
            self.object.outside(caller);
            (Some(outside), is_poisoned)
        };
        answered(self.guard(outside), is_poisoned)
    }

    // A function of its own, so that a thread which is outside of a run keeps no registers for it.
    #[inline(never)]
    fn take_in_run(&self, caller: Caller) {
        with(|ctx| ctx.map(|ctx| self.take(ctx, caller)));
    }

    /// As that of `std`.
    ///
    /// # Errors
    /// `WouldBlock` where it is held, and else as `lock`.
    #[track_caller]
    pub fn try_lock(&self) -> TryLockResult<MutexGuard<'_, T>> {
        let caller = Location::caller();
        let outside = match with(|ctx| ctx.map(|ctx| self.try_take(ctx, caller))) {
            Some(Ok(())) => None,
            Some(Err(_)) => return Err(TryLockError::WouldBlock),
            None => Some(match self.object.outside(caller).lock.try_lock() {
                Err(TryLockError::WouldBlock) => return Err(TryLockError::WouldBlock),
                Err(TryLockError::Poisoned(poisoned)) => poisoned.into_inner(),
                Ok(guard) => guard,
            }),
        };
        if outside.is_some() {
            self.object.outside(caller);
        }
        Ok(answered(self.guard(outside), self.is_poisoned())?)
    }

    /// As that of `std`.
    #[must_use]
    #[inline]
    pub fn is_poisoned(&self) -> bool {
        self.is_poisoned.load(Ordering::Relaxed) || self.object.real().lock.is_poisoned()
    }

    /// As that of `std`.
    pub fn clear_poison(&self) {
        self.is_poisoned.store(false, Ordering::Relaxed);
        self.object.real().lock.clear_poison();
    }

    /// As that of `std`.
    ///
    /// # Errors
    /// The value as a poisoned one, where it is.
    pub fn get_mut(&mut self) -> LockResult<&mut T> {
        let is_poisoned = self.is_poisoned();
        answered(self.value.get_mut(), is_poisoned)
    }
}

impl<'a, T: ?Sized> MutexGuard<'a, T> {
    /// The mutex, and its guard outside of runs.
    pub(super) fn parts(&mut self) -> (&'a Mutex<T>, Option<sync::MutexGuard<'a, ()>>) {
        (self.lock, self.outside.take())
    }

    pub(super) fn is_poisoned(&self) -> bool {
        self.lock.is_poisoned()
    }

    pub(super) fn set_outside(&mut self, outside: sync::MutexGuard<'a, ()>) {
        self.outside = Some(outside);
    }
}

impl<T: ?Sized> MutexGuard<'_, T> {
    #[inline(never)]
    fn free_in_run(&self, caller: Caller) {
        if thread::panicking() && !self.lock.has_panicked.load(Ordering::Relaxed) {
            self.lock.is_poisoned.store(true, Ordering::Relaxed);
        }
        with(|ctx| ctx.map(|ctx| self.lock.free(ctx, caller)));
    }
}

impl<T: ?Sized> Drop for MutexGuard<'_, T> {
    #[inline(always)]
    #[track_caller]
    fn drop(&mut self) {
        if self.outside.is_none() {
            self.free_in_run(Location::caller());
        }
    }
}

impl<T: ?Sized> Deref for MutexGuard<'_, T> {
    type Target = T;

    fn deref(&self) -> &T {
        // SAFETY: it is held, so nobody else has the value while this is borrowed.
        unsafe { &*self.lock.value.get() }
    }
}

impl<T: ?Sized> DerefMut for MutexGuard<'_, T> {
    fn deref_mut(&mut self) -> &mut T {
        // SAFETY: as in `deref`.
        unsafe { &mut *self.lock.value.get() }
    }
}

impl<T: ?Sized + fmt::Debug> fmt::Debug for MutexGuard<'_, T> {
    fn fmt(&self, out: &mut fmt::Formatter<'_>) -> fmt::Result {
        (**self).fmt(out)
    }
}

impl<T: ?Sized + fmt::Display> fmt::Display for MutexGuard<'_, T> {
    fn fmt(&self, out: &mut fmt::Formatter<'_>) -> fmt::Result {
        (**self).fmt(out)
    }
}

impl<T: ?Sized + fmt::Debug> fmt::Debug for Mutex<T> {
    fn fmt(&self, out: &mut fmt::Formatter<'_>) -> fmt::Result {
        let mut told = out.debug_struct("Mutex");
        match self.try_lock() {
            Ok(guard) => told.field("data", &&*guard),
            Err(TryLockError::Poisoned(poisoned)) => told.field("data", &&**poisoned.get_ref()),
            Err(TryLockError::WouldBlock) => told.field("data", &format_args!("<locked>")),
        };
        told.field("poisoned", &self.is_poisoned()).finish_non_exhaustive()
    }
}

impl<T: Default> Default for Mutex<T> {
    fn default() -> Mutex<T> {
        Mutex::new(T::default())
    }
}

impl<T> From<T> for Mutex<T> {
    fn from(value: T) -> Mutex<T> {
        Mutex::new(value)
    }
}
