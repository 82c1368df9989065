//! What is done once.
use crate::program::ctx::{is_in_run, with};
use crate::program::slot::{Caller, Object, Real, Refused};
use crate::turns::Wake;
use std::fmt;
use std::panic::{Location, RefUnwindSafe, UnwindSafe};
use std::sync;
use std::sync::atomic::{AtomicU64, Ordering};

const FRESH: u64 = 0;
const POISONED: u64 = 1;
const DONE: u64 = 2;
/// And above: the seat of the thread that does it.
const RUNS: u64 = 3;

/// What it is outside of runs. Whoever does it holds the lock.
struct Outside {
    state: AtomicU64,
    lock: sync::Mutex<()>,
}

impl Real for Outside {
    fn begin(&self) -> Result<u64, Refused> {
        let found = self.state.load(Ordering::Acquire);
        if found >= RUNS { Err("is being done outside of the run") } else { Ok(found) }
    }

    fn end(&self, value: u64) {
        // Of a run that was left while it was done, it is done no more.
        self.state.store(if value >= RUNS { POISONED } else { value }, Ordering::Release);
    }
}

/// As [`std::sync::Once`].
///
/// ```
/// use octet::sync::Once;
///
/// static START: Once = Once::new();
/// START.call_once(|| println!("this comes once"));
/// assert!(START.is_completed());
/// ```
pub struct Once {
    object: Object<Outside>,
}

impl UnwindSafe for Once {}
impl RefUnwindSafe for Once {}

/// As [`std::sync::OnceState`].
///
/// ```
/// octet::sync::Once::new().call_once_force(|state| assert!(!state.is_poisoned()));
/// ```
#[derive(Debug)]
pub struct OnceState {
    is_poisoned: bool,
}

impl OnceState {
    /// As that of `std`.
    #[must_use]
    pub fn is_poisoned(&self) -> bool {
        self.is_poisoned
    }
}

impl fmt::Debug for Once {
    fn fmt(&self, out: &mut fmt::Formatter<'_>) -> fmt::Result {
        out.debug_struct("Once").finish_non_exhaustive()
    }
}

/// What a call does where an earlier one has panicked.
#[derive(Clone, Copy)]
pub(super) enum Poison {
    /// It does the work all the same.
    Ignored,
    /// It panics, and names this.
    Told(&'static str),
}

// Says how it ended, whether the work panics or not.
struct Ends<'a> {
    once: &'a Once,
    state: u64,
    caller: Caller,
}

impl Drop for Ends<'_> {
    fn drop(&mut self) {
        let Ends { once, state, caller } = *self;
        let is_told = with(|ctx| {
            ctx.map(|ctx| {
                once.object.store(ctx, state, caller);
                ctx.wake(once.object.key(), true);
            })
        });
        if is_told.is_none() {
            once.object.real().state.store(state, Ordering::Release);
        }
    }
}

impl Once {
    /// As that of `std`.
    #[must_use]
    pub const fn new() -> Once {
        Once { object: Object::new(Outside { state: AtomicU64::new(FRESH), lock: sync::Mutex::new(()) }) }
    }

    /// Does the work, unless it is done. What it does may fail.
    pub(super) fn try_call<E>(
        &self,
        poison: Poison,
        work: impl FnOnce(&OnceState) -> Result<(), E>,
        caller: Caller,
    ) -> Result<(), E> {
        if self.is_done(caller) {
            return Ok(());
        }
        let is_in_run = is_in_run();
        let _lock = (!is_in_run).then(|| self.object.real().lock.lock().unwrap_or_else(sync::PoisonError::into_inner));
        let found = if is_in_run { self.begin_in(poison, caller) } else { self.begin_outside(poison, caller) };
        let Some(found) = found else {
            return Ok(());
        };
        let mut ends = Ends { once: self, state: POISONED, caller };
        let done = work(&OnceState { is_poisoned: found == POISONED });
        ends.state = if done.is_ok() { DONE } else { found };
        done
    }

    // Whether this thread is to do it, and what was found before: fresh or poisoned.
    fn begin_outside(&self, poison: Poison, caller: Caller) -> Option<u64> {
        let state = &self.object.outside(caller).state;
        let found = state.load(Ordering::Acquire);
        judge(found, poison)?;
        state.store(RUNS, Ordering::Release);
        Some(found)
    }

    // The same by a thread of a run, which waits while another one does it.
    fn begin_in(&self, poison: Poison, caller: Caller) -> Option<u64> {
        let mut found = with(|ctx| ctx.map_or(DONE, |ctx| self.object.load(ctx, caller)));
        loop {
            if found < RUNS {
                judge(found, poison)?;
            }
            let next = with(|ctx| {
                let ctx = ctx?;
                let key = self.object.key();
                if found < RUNS {
                    return self.object.exchange(ctx, found, RUNS + ctx.seat as u64, caller).err();
                }
                let ticket = ctx.ticket(key);
                // Whoever does it may have done it since.
                let now = self.object.load(ctx, caller);
                if now >= RUNS {
                    let holder = self.object.held_by(ctx, now - RUNS);
                    ctx.wait(key, ticket, Wake { what: "a Once", place: caller, holder }, None);
                }
                Some(self.object.load(ctx, caller))
            });
            match next {
                None => return Some(found),
                Some(next) => found = next,
            }
        }
    }

    /// As that of `std`.
    ///
    /// # Panics
    /// Where an earlier call has panicked.
    #[track_caller]
    pub fn call_once(&self, work: impl FnOnce()) {
        let done = |_: &OnceState| {
            work();
            Ok::<(), ()>(())
        };
        let _ = self.try_call(Poison::Told("Once"), done, Location::caller());
    }

    /// As that of `std`.
    #[track_caller]
    pub fn call_once_force(&self, work: impl FnOnce(&OnceState)) {
        let done = |state: &OnceState| {
            work(state);
            Ok::<(), ()>(())
        };
        let _ = self.try_call(Poison::Ignored, done, Location::caller());
    }

    pub(super) fn is_done(&self, caller: Caller) -> bool {
        let found = with(|ctx| Some(self.object.load(ctx?, caller)));
        found.unwrap_or_else(|| self.object.outside(caller).state.load(Ordering::Acquire)) == DONE
    }

    /// As that of `std`.
    #[must_use]
    #[track_caller]
    pub fn is_completed(&self) -> bool {
        self.is_done(Location::caller())
    }

    /// As that of `std`.
    #[track_caller]
    pub fn wait(&self) {
        self.wait_for(Poison::Told("Once"), Location::caller());
    }

    /// As that of `std`.
    #[track_caller]
    pub fn wait_force(&self) {
        self.wait_for(Poison::Ignored, Location::caller());
    }

    fn wait_for(&self, poison: Poison, caller: Caller) {
        while !self.is_done(caller) {
            let found = with(|ctx| {
                let ctx = ctx?;
                let key = self.object.key();
                let ticket = ctx.ticket(key);
                let found = self.object.load(ctx, caller);
                if found == FRESH || found >= RUNS {
                    let holder = found.checked_sub(RUNS).and_then(|seat| self.object.held_by(ctx, seat));
                    ctx.wait(key, ticket, Wake { what: "a Once", place: caller, holder }, None);
                }
                Some(found)
            });
            judge(found.unwrap_or_else(|| self.object.real().state.load(Ordering::Acquire)), poison);
            if found.is_none_or(|found| found == POISONED) {
                crate::thread::yield_now();
            }
        }
    }
}

impl Default for Once {
    fn default() -> Once {
        Once::new()
    }
}

// Whether it is to be done.
fn judge(found: u64, poison: Poison) -> Option<()> {
    match poison {
        Poison::Told(name) if found == POISONED => panic!("{name} instance has previously been poisoned"),
        _ => (found != DONE).then_some(()),
    }
}
