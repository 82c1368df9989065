//! What threads that move freely wait by: a bell for each key, of which some share one.
use crate::program::held;
use std::sync::atomic::{AtomicU32, AtomicU64, Ordering};
use std::sync::{Condvar, Mutex, PoisonError};
use std::time::{Duration, Instant};

const BELLS: usize = 64;
/// How often one that waits looks whether its run was halted.
const LOOK: Duration = Duration::from_millis(100);

#[derive(Default)]
struct Bell {
    rings: AtomicU64,
    waiters: AtomicU32,
    lock: Mutex<()>,
    rung: Condvar,
}

pub(crate) struct Bells(Vec<Bell>);

impl Bells {
    pub(crate) fn new() -> Bells {
        Bells((0..BELLS).map(|_| Bell::default()).collect())
    }

    fn of(&self, key: usize) -> &Bell {
        &self.0[(key >> 4) % BELLS]
    }

    /// How often the bell has been rung.
    pub(crate) fn ticket(&self, key: usize) -> u64 {
        self.of(key).rings.load(Ordering::SeqCst)
    }

    /// Waits until it was rung since the ticket, or `is_over`. False where the time was over first.
    pub(crate) fn wait(&self, key: usize, ticket: u64, limit: Duration, is_over: impl Fn() -> bool) -> bool {
        let bell = self.of(key);
        let since = Instant::now();
        bell.waiters.fetch_add(1, Ordering::SeqCst);
        let mut lock = held(&bell.lock);
        let mut is_rung = true;
        while bell.rings.load(Ordering::SeqCst) == ticket && !is_over() {
            let Some(rest) = limit.checked_sub(since.elapsed()) else {
                is_rung = false;
                break;
            };
            lock = bell.rung.wait_timeout(lock, rest.min(LOOK)).unwrap_or_else(PoisonError::into_inner).0;
        }
        drop(lock);
        bell.waiters.fetch_sub(1, Ordering::SeqCst);
        is_rung
    }

    pub(crate) fn ring(&self, key: usize) {
        let bell = self.of(key);
        bell.rings.fetch_add(1, Ordering::SeqCst);
        if bell.waiters.load(Ordering::SeqCst) > 0 {
            drop(held(&bell.lock));
            bell.rung.notify_all();
        }
    }
}
