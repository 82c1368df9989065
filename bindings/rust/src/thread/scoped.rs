//! Threads that borrow.
use super::{Builder, Result, Thread, is_finished, joined, wait_over};
use crate::program::ctx::with;
use crate::program::slot::Caller;
use crate::program::world::Done;
use std::fmt;
use std::panic::{self, AssertUnwindSafe, Location};
use std::sync::Arc;
use std::sync::atomic::Ordering;

/// As [`std::thread::Scope`].
///
/// ```
/// let five = 5;
/// let answer = octet::thread::scope(|scope| scope.spawn(|| five + 1).join());
/// assert_eq!(answer.unwrap(), 6);
/// ```
#[repr(transparent)]
#[derive(Debug)]
pub struct Scope<'scope, 'env: 'scope>(std::thread::Scope<'scope, 'env>);

impl<'scope, 'env> Scope<'scope, 'env> {
    pub(super) fn key(&self) -> usize {
        std::ptr::from_ref(self) as usize
    }

    pub(super) fn std(&'scope self) -> &'scope std::thread::Scope<'scope, 'env> {
        &self.0
    }

    /// As that of `std`.
    ///
    /// # Panics
    /// As [`spawn`](super::spawn).
    pub fn spawn<F, T>(&'scope self, work: F) -> ScopedJoinHandle<'scope, T>
    where
        F: FnOnce() -> T + Send + 'scope,
        T: Send + 'scope,
    {
        Builder::new().spawn_scoped(self, work).expect("failed to spawn thread")
    }
}

/// As [`std::thread::ScopedJoinHandle`].
///
/// ```
/// octet::thread::scope(|scope| {
///     let handle: octet::thread::ScopedJoinHandle<'_, i32> = scope.spawn(|| 5);
///     assert_eq!(handle.join().unwrap(), 5);
/// });
/// ```
pub struct ScopedJoinHandle<'scope, T> {
    std: std::thread::ScopedJoinHandle<'scope, T>,
    done: Option<Arc<Done>>,
    thread: Thread,
}

impl<T> fmt::Debug for ScopedJoinHandle<'_, T> {
    fn fmt(&self, out: &mut fmt::Formatter<'_>) -> fmt::Result {
        out.debug_struct("ScopedJoinHandle").finish_non_exhaustive()
    }
}

impl<'scope, T> ScopedJoinHandle<'scope, T> {
    pub(super) fn new(std: std::thread::ScopedJoinHandle<'scope, T>, done: Option<Arc<Done>>, thread: Thread) -> Self {
        ScopedJoinHandle { std, done, thread }
    }

    /// As that of `std`.
    ///
    /// # Errors
    /// What the thread has panicked with.
    #[track_caller]
    pub fn join(self) -> Result<T> {
        joined(self.done.as_ref(), Location::caller());
        self.std.join()
    }

    /// As that of `std`.
    #[must_use]
    pub fn thread(&self) -> &Thread {
        &self.thread
    }

    /// As that of `std`.
    #[must_use]
    #[track_caller]
    pub fn is_finished(&self) -> bool {
        is_finished(self.done.as_ref(), Location::caller()).unwrap_or_else(|| self.std.is_finished())
    }
}

// Waits for all that the scope has started, so that the system's wait after it is none. Their panics are the scope's then.
fn wait_for_all(scope: usize, caller: Caller) {
    with(|ctx| {
        let ctx = ctx?;
        while let Some(done) = ctx.world.next_of_scope(scope) {
            wait_over(ctx, &done, caller);
            done.is_joined.store(true, Ordering::Relaxed);
        }
        Some(())
    });
}

/// As [`std::thread::scope`].
///
/// ```
/// let mut both = [1, 2];
/// octet::thread::scope(|scope| both.iter_mut().for_each(|each| { scope.spawn(move || *each += 1); }));
/// assert_eq!(both, [2, 3]);
/// ```
#[track_caller]
pub fn scope<'env, F, T>(work: F) -> T
where
    F: for<'scope> FnOnce(&'scope Scope<'scope, 'env>) -> T,
{
    let caller = Location::caller();
    std::thread::scope(|scope| {
        // SAFETY: `Scope` is that of `std`, of the same layout under another name.
        let scope = unsafe { &*std::ptr::from_ref(scope).cast::<Scope<'_, 'env>>() };
        let done = panic::catch_unwind(AssertUnwindSafe(|| work(scope)));
        wait_for_all(scope.key(), caller);
        done.unwrap_or_else(|payload| panic::resume_unwind(payload))
    })
}
