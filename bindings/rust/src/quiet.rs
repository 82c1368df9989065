//! Where threads panic, and panics of which nothing is printed.
use crate::Place;
use std::cell::Cell;
use std::panic::{self, PanicHookInfo};
use std::sync::{Arc, Mutex, MutexGuard, PoisonError};

type Hook = Box<dyn Fn(&PanicHookInfo<'_>) + Sync + Send>;

/// How many explorations want to know of panics, and the hook that was there before them.
struct Wanted {
    by: usize,
    hook: Option<Arc<Hook>>,
}

static WANTED: Mutex<Wanted> = Mutex::new(Wanted { by: 0, hook: None });

thread_local! {
    static IS_QUIET: Cell<bool> = const { Cell::new(false) };
    static LAST: Cell<Option<Place>> = const { Cell::new(None) };
}

fn wanted() -> MutexGuard<'static, Wanted> {
    WANTED.lock().unwrap_or_else(PoisonError::into_inner)
}

/// Says whether this thread is quiet, and answers whether it was.
pub(crate) fn set(quiet: bool) -> bool {
    IS_QUIET.replace(quiet)
}

/// Where this thread has panicked last, if it has since this was asked.
pub(crate) fn last_panic() -> Option<Place> {
    LAST.take()
}

fn told(panic: &PanicHookInfo<'_>, hook: &Hook) {
    let at = panic.location().map(|at| Place::new(at.file(), at.line()));
    // A thread that is ending keeps nothing.
    let _ = LAST.try_with(|last| last.set(at));
    if !IS_QUIET.get() {
        hook(panic);
    }
}

/// While it lives, it is noted where threads panic, and nothing is printed of the panics of quiet threads.
pub(crate) struct Watch;

impl Watch {
    pub(crate) fn new() -> Watch {
        let mut wanted = wanted();
        if wanted.by == 0 {
            let hook = Arc::new(panic::take_hook());
            wanted.hook = Some(Arc::clone(&hook));
            panic::set_hook(Box::new(move |panic| told(panic, &hook)));
        }
        wanted.by += 1;
        Watch
    }
}

impl Drop for Watch {
    fn drop(&mut self) {
        let mut wanted = wanted();
        wanted.by -= 1;
        if wanted.by == 0 {
            drop(panic::take_hook());
            if let Some(hook) = wanted.hook.take().and_then(Arc::into_inner) {
                panic::set_hook(hook);
            }
        }
    }
}

/// While it lives, the thread that makes it is quiet.
pub(crate) struct Quiet {
    was: bool,
    _watch: Watch,
}

impl Quiet {
    pub(crate) fn new() -> Quiet {
        Quiet { _watch: Watch::new(), was: set(true) }
    }
}

impl Drop for Quiet {
    fn drop(&mut self) {
        set(self.was);
    }
}
