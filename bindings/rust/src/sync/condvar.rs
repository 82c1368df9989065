//! Conditions.
use super::{Mutex, MutexGuard, answered};
use crate::program::ctx::{Ctx, is_in_run, with};
use crate::program::slot::Caller;
use crate::program::world::Way;
use crate::turns::{Does, Wake};
use std::fmt;
use std::panic::Location;
use std::sync::{self, LockResult, PoisonError};
use std::time::Duration;

/// As [`std::sync::WaitTimeoutResult`].
///
/// ```
/// use octet::sync::{Condvar, Mutex};
///
/// let lock = Mutex::new(());
/// let waited = Condvar::new().wait_timeout(lock.lock().unwrap(), std::time::Duration::from_millis(1)).unwrap();
/// assert!(waited.1.timed_out());
/// ```
#[derive(Clone, Copy, Debug, PartialEq, Eq)]
pub struct WaitTimeoutResult(bool);

impl WaitTimeoutResult {
    /// As that of `std`.
    #[must_use]
    pub fn timed_out(&self) -> bool {
        self.0
    }
}

/// As [`std::sync::Condvar`]. It has no object: the mutex orders who goes on. By a schedule a thread stands in its queue from the
/// moment it frees the mutex, a notification is a point of preemption, and `notify_one` wakes the one that came first.
///
/// ```
/// use octet::sync::{Arc, Condvar, Mutex};
///
/// let gate = Arc::new((Mutex::new(false), Condvar::new()));
/// let other = Arc::clone(&gate);
/// let opens = octet::thread::spawn(move || {
///     *other.0.lock().unwrap() = true;
///     other.1.notify_one();
/// });
/// assert!(*gate.1.wait_while(gate.0.lock().unwrap(), |is_open| !*is_open).unwrap());
/// opens.join().unwrap();
/// ```
pub struct Condvar {
    outside: sync::Condvar,
    // Not empty, so that each has an address of its own.
    _place: u64,
}

impl Default for Condvar {
    fn default() -> Condvar {
        Condvar::new()
    }
}

impl fmt::Debug for Condvar {
    fn fmt(&self, out: &mut fmt::Formatter<'_>) -> fmt::Result {
        out.debug_struct("Condvar").finish_non_exhaustive()
    }
}

impl Condvar {
    /// As that of `std`.
    #[must_use]
    pub const fn new() -> Condvar {
        Condvar { outside: sync::Condvar::new(), _place: 0 }
    }

    fn key(&self) -> usize {
        std::ptr::from_ref(self) as usize
    }

    // Whether it was rung in time.
    fn wait_in<T: ?Sized>(&self, ctx: &Ctx, lock: &Mutex<T>, most: Option<Duration>, caller: Caller) -> bool {
        let key = self.key();
        let ticket = ctx.ticket(key);
        if ctx.way == Way::Turns {
            // What is freed and who waits is one step, as `std` has it.
            ctx.pass_and_keep(caller, Does::WritesBoth(key, lock.key()));
            ctx.world.turns().list(ctx.seat, key);
        }
        lock.free(ctx, caller);
        let is_rung = ctx.wait(key, ticket, Wake { what: "a Condvar", place: caller, holder: None }, most);
        let is_rung = most.is_none() || ctx.note(|| is_rung.into()) != 0;
        lock.take(ctx, caller);
        is_rung
    }

    // Waits with the guard, whose thread may be one of a run. Whether it was woken in time.
    fn wait_with<T: ?Sized>(&self, guard: &mut MutexGuard<'_, T>, most: Option<Duration>, caller: Caller) -> bool {
        let (lock, outside) = guard.parts();
        match (outside, most) {
            (None, _) => with(|ctx| ctx.is_none_or(|ctx| self.wait_in(ctx, lock, most, caller))),
            (Some(outside), None) => {
                guard.set_outside(self.outside.wait(outside).unwrap_or_else(PoisonError::into_inner));
                true
            }
            (Some(outside), Some(most)) => {
                let waited = self.outside.wait_timeout(outside, most).unwrap_or_else(PoisonError::into_inner);
                guard.set_outside(waited.0);
                !waited.1.timed_out()
            }
        }
    }

    /// As that of `std`.
    ///
    /// # Errors
    /// The guard as a poisoned one, where the mutex is.
    #[track_caller]
    pub fn wait<'a, T: ?Sized>(&self, guard: MutexGuard<'a, T>) -> LockResult<MutexGuard<'a, T>> {
        self.wait_at(guard, Location::caller())
    }

    pub(super) fn wait_at<'a, T: ?Sized>(&self, mut guard: MutexGuard<'a, T>, caller: Caller) -> LockResult<MutexGuard<'a, T>> {
        self.wait_with(&mut guard, None, caller);
        let is_poisoned = guard.is_poisoned();
        answered(guard, is_poisoned)
    }

    /// As that of `std`.
    ///
    /// # Errors
    /// As `wait`.
    #[track_caller]
    pub fn wait_while<'a, T: ?Sized>(
        &self,
        mut guard: MutexGuard<'a, T>,
        mut condition: impl FnMut(&mut T) -> bool,
    ) -> LockResult<MutexGuard<'a, T>> {
        while condition(&mut *guard) {
            guard = self.wait(guard)?;
        }
        Ok(guard)
    }

    /// As that of `std`. By a schedule its time may be over at once.
    ///
    /// # Errors
    /// As `wait`.
    #[track_caller]
    pub fn wait_timeout<'a, T: ?Sized>(
        &self,
        mut guard: MutexGuard<'a, T>,
        most: Duration,
    ) -> LockResult<(MutexGuard<'a, T>, WaitTimeoutResult)> {
        let is_in_time = self.wait_with(&mut guard, Some(most), Location::caller());
        let is_poisoned = guard.is_poisoned();
        answered((guard, WaitTimeoutResult(!is_in_time)), is_poisoned)
    }

    /// As that of `std`.
    ///
    /// # Errors
    /// As `wait`.
    #[track_caller]
    pub fn wait_timeout_while<'a, T: ?Sized>(
        &self,
        mut guard: MutexGuard<'a, T>,
        most: Duration,
        mut condition: impl FnMut(&mut T) -> bool,
    ) -> LockResult<(MutexGuard<'a, T>, WaitTimeoutResult)> {
        let since = crate::time::Instant::now();
        loop {
            if !condition(&mut *guard) {
                return Ok((guard, WaitTimeoutResult(false)));
            }
            let Some(rest) = most.checked_sub(since.elapsed()) else {
                return Ok((guard, WaitTimeoutResult(true)));
            };
            guard = self.wait_timeout(guard, rest)?.0;
        }
    }

    fn notify(&self, all: bool, caller: Caller) {
        if !is_in_run() {
            return if all { self.outside.notify_all() } else { self.outside.notify_one() };
        }
        with(|ctx| {
            ctx.map(|ctx| {
                ctx.pass(caller, Does::Writes(self.key()));
                ctx.wake(self.key(), all);
            })
        });
    }

    /// As that of `std`.
    #[track_caller]
    pub fn notify_one(&self) {
        self.notify(false, Location::caller());
    }

    /// As that of `std`.
    #[track_caller]
    pub fn notify_all(&self) {
        self.notify(true, Location::caller());
    }
}
