//! The locks and conditions of a heap, as its threads wait for them while they run freely or take turns. A second run waits for
//! none of them: its accesses wait.
use crate::bells::Bells;
use crate::program::held;
use crate::turns::{Caller, Does, Holder, Stuck, Turns, Wake};
use std::sync::Mutex;
use std::sync::atomic::{AtomicU64, Ordering};
use std::time::{Duration, Instant};

/// By what threads wait for each other's locks and conditions.
#[derive(Clone, Copy)]
pub(crate) enum Waits<'a> {
    /// For so long at most.
    Free(&'a Bells, Duration),
    Turns(&'a Turns),
}

/// Why a thread has not got what it has waited for.
pub(crate) enum Missed {
    Late,
    Stuck(Stuck),
}

impl From<Stuck> for Missed {
    fn from(stuck: Stuck) -> Missed {
        Missed::Stuck(stuck)
    }
}

/// By this key threads wait for what this object tells.
pub(crate) fn key_of(object: u16) -> usize {
    usize::from(object) << 4
}

/// Its object tells the number of the thread that holds it, counted from 1, or 0 where it is free.
pub(crate) struct Lock {
    pub(crate) name: String,
    pub(crate) object: u16,
    holder: Mutex<Option<Holder>>,
}

impl Lock {
    pub(crate) fn new(name: String, object: u16) -> Lock {
        Lock { name, object, holder: Mutex::new(None) }
    }

    // Takes it, or answers who holds it.
    fn try_take(&self, thread: usize, at: Caller) -> Result<(), Holder> {
        let mut holder = held(&self.holder);
        if let Some(other) = *holder {
            return Err(other);
        }
        *holder = Some(Holder { seat: thread, at: Some(at) });
        Ok(())
    }

    /// Waits until it is this thread's.
    pub(crate) fn take(&self, waits: Waits<'_>, thread: usize, at: Caller) -> Result<(), Missed> {
        let key = key_of(self.object);
        match waits {
            Waits::Free(bells, patience) => {
                let is_taken = bells.until(key, patience, || self.try_take(thread, at).is_ok());
                if is_taken { Ok(()) } else { Err(Missed::Late) }
            }
            Waits::Turns(turns) => {
                while let Err(holder) = self.try_take(thread, at) {
                    let wake = Wake { what: "", place: at, holder: Some(holder) };
                    turns.block(thread, key, wake, false, Does::Writes(key))?;
                }
                Ok(())
            }
        }
    }

    pub(crate) fn free(&self, waits: Waits<'_>) {
        *held(&self.holder) = None;
        match waits {
            Waits::Free(bells, _) => bells.ring(key_of(self.object)),
            Waits::Turns(turns) => turns.wake(key_of(self.object), true),
        }
    }
}

/// Its object tells how many threads wait for it. They are woken in the order in which they came.
pub(crate) struct Condition {
    pub(crate) name: String,
    pub(crate) object: u16,
    // Of threads that run freely: how many have come, and how many of them, the first ones, were woken. One may be woken just
    // before it comes, since it was counted at the object before.
    came: AtomicU64,
    woken: AtomicU64,
}

impl Condition {
    pub(crate) fn new(name: String, object: u16) -> Condition {
        Condition { name, object, came: AtomicU64::new(0), woken: AtomicU64::new(0) }
    }

    /// A place in the queue. A thread takes it while it holds the lock, so that it misses no notice.
    pub(crate) fn come(&self, waits: Waits<'_>, thread: usize) -> u64 {
        match waits {
            Waits::Free(..) => self.came.fetch_add(1, Ordering::SeqCst) + 1,
            Waits::Turns(turns) => {
                turns.list(thread, key_of(self.object));
                0
            }
        }
    }

    /// Waits until this place is woken, to take the lock then.
    pub(crate) fn wait(&self, waits: Waits<'_>, place: u64, lock: &Lock, thread: usize, at: Caller) -> Result<(), Missed> {
        let key = key_of(self.object);
        match waits {
            Waits::Free(bells, patience) => {
                let is_woken = bells.until(key, patience, || self.woken.load(Ordering::SeqCst) >= place);
                if is_woken { Ok(()) } else { Err(Missed::Late) }
            }
            Waits::Turns(turns) => {
                let wake = Wake { what: "", place: at, holder: None };
                turns.block(thread, key, wake, false, Does::Writes(key_of(lock.object)))?;
                Ok(())
            }
        }
    }

    /// Wakes so many of those that were counted, the first ones.
    pub(crate) fn wake(&self, waits: Waits<'_>, count: u64) {
        let key = key_of(self.object);
        match waits {
            Waits::Free(bells, _) => {
                self.woken.fetch_add(count, Ordering::SeqCst);
                bells.ring(key);
            }
            Waits::Turns(turns) => (0..count).for_each(|_| turns.wake(key, false)),
        }
    }
}

impl Bells {
    // Whether it was done in time: at once, or once the key was rung.
    fn until(&self, key: usize, patience: Duration, mut is_done: impl FnMut() -> bool) -> bool {
        if is_done() {
            return true;
        }
        let since = Instant::now();
        loop {
            let ticket = self.ticket(key);
            if is_done() {
                return true;
            }
            let rest = patience.saturating_sub(since.elapsed());
            if rest.is_zero() || !self.wait(key, ticket, rest, || false) {
                return is_done();
            }
        }
    }
}
