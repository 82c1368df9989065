//! Accesses that have waited for too long. Their threads have given them up, but they are begun: other threads may wait for them. So
//! whoever waits makes them.
use crate::raw::{self, Access, Handle};
use std::panic::Location;
use std::sync::atomic::{AtomicBool, Ordering};
use std::sync::{Mutex, MutexGuard, PoisonError};

/// An access, and where it stands.
#[derive(Clone, Copy)]
pub(crate) struct Begun {
    pub(crate) caller: &'static Location<'static>,
    pub(crate) object: u16,
    pub(crate) access: Access,
}

/// An access that a thread has given up, with the session's handle.
pub(crate) struct GivenUp {
    pub(crate) thread: usize,
    pub(crate) handle: Handle,
    pub(crate) begun: Begun,
    /// What it was told, once it is made.
    pub(crate) told: Option<u64>,
    // Whether it waits still.
    waits: bool,
}

/// Those of a heap.
#[derive(Default)]
pub(crate) struct AllGivenUp {
    any: AtomicBool,
    all: Mutex<Vec<GivenUp>>,
}

impl GivenUp {
    // Makes it, if that can be, and then nobody waits for its thread any more.
    fn try_to_make(&mut self) {
        let mut out = 0;
        let status = self.handle.poll(&mut out);
        if status == raw::PENDING {
            return;
        }
        self.waits = false;
        self.told = (status == raw::READY).then_some(out);
        self.handle.stop();
    }
}

impl AllGivenUp {
    fn all(&self) -> MutexGuard<'_, Vec<GivenUp>> {
        self.all.lock().unwrap_or_else(PoisonError::into_inner)
    }

    pub(crate) fn add(&self, thread: usize, handle: Handle, begun: Begun) {
        self.all().push(GivenUp { thread, handle, begun, told: None, waits: true });
        self.any.store(true, Ordering::Release);
    }

    /// Goes on with each of them. Whether one waits still.
    pub(crate) fn go_on(&self) -> bool {
        if !self.any.load(Ordering::Acquire) {
            return false;
        }
        let mut all = self.all();
        all.iter_mut().filter(|it| it.waits).for_each(GivenUp::try_to_make);
        all.iter().any(|it| it.waits)
    }

    /// All of them, for their sessions.
    pub(crate) fn take(&self) -> Vec<GivenUp> {
        std::mem::take(&mut self.all())
    }
}
