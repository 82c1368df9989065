//! A barrier, of a mutex and a condition.
use super::{Condvar, Mutex, PoisonError};
use std::fmt;

struct Here {
    count: usize,
    round: usize,
}

/// As [`std::sync::Barrier`].
///
/// ```
/// let barrier = octet::sync::Barrier::new(2);
/// let leaders = octet::thread::scope(|scope| {
///     let waits = [(); 2].map(|()| scope.spawn(|| barrier.wait().is_leader()));
///     waits.map(|wait| wait.join().unwrap())
/// });
/// assert_ne!(leaders[0], leaders[1]);
/// ```
pub struct Barrier {
    here: Mutex<Here>,
    passed: Condvar,
    threads: usize,
}

/// As [`std::sync::BarrierWaitResult`].
///
/// ```
/// assert!(octet::sync::Barrier::new(1).wait().is_leader());
/// ```
#[derive(Debug)]
pub struct BarrierWaitResult(bool);

impl BarrierWaitResult {
    /// As that of `std`.
    #[must_use]
    pub fn is_leader(&self) -> bool {
        self.0
    }
}

impl fmt::Debug for Barrier {
    fn fmt(&self, out: &mut fmt::Formatter<'_>) -> fmt::Result {
        out.debug_struct("Barrier").finish_non_exhaustive()
    }
}

impl Barrier {
    /// As that of `std`.
    #[must_use]
    pub const fn new(threads: usize) -> Barrier {
        Barrier { here: Mutex::new(Here { count: 0, round: 0 }), passed: Condvar::new(), threads }
    }

    /// As that of `std`.
    #[track_caller]
    pub fn wait(&self) -> BarrierWaitResult {
        let mut here = self.here.lock().unwrap_or_else(PoisonError::into_inner);
        let round = here.round;
        here.count += 1;
        if here.count < self.threads {
            while here.round == round {
                here = self.passed.wait(here).unwrap_or_else(PoisonError::into_inner);
            }
            return BarrierWaitResult(false);
        }
        here.count = 0;
        here.round = round.wrapping_add(1);
        self.passed.notify_all();
        BarrierWaitResult(true)
    }
}
