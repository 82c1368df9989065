//! As `std::sync`. Outside of a run each type is the one of `std`, with a word more. In a run each lock, wait and notification is
//! made of accesses to objects, so that its order is recorded, and by a schedule each of them is a point of preemption.
//!
//! `Arc` is one of its own, since which thread drops the last one has to be recorded: the compiler makes no `Arc<dyn Trait>` of
//! it by itself, and no `self: Arc<Self>`. [`Arc::from`] makes one of a `Box<dyn Trait>`; where neither will do, the `Arc` of
//! `std` works beside it, of whose counts a run knows nothing.
mod arc;
pub mod atomic;
mod barrier;
mod condvar;
mod lazy;
pub mod mpsc;
mod mutex;
mod once;
mod rwlock;
mod weak;

pub use arc::Arc;
pub use barrier::{Barrier, BarrierWaitResult};
pub use condvar::{Condvar, WaitTimeoutResult};
pub use lazy::{LazyLock, OnceLock};
pub use mutex::{Mutex, MutexGuard};
pub use once::{Once, OnceState};
pub use rwlock::{RwLock, RwLockReadGuard, RwLockWriteGuard};
pub use std::sync::{LockResult, PoisonError, TryLockError, TryLockResult};
pub use weak::Weak;

// What a lock answers: what it gives, as poisoned where it is.
#[inline]
fn answered<G>(guard: G, is_poisoned: bool) -> LockResult<G> {
    if is_poisoned { Err(PoisonError::new(guard)) } else { Ok(guard) }
}
