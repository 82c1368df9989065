//! As `std::thread`. A thread that one of a run starts is one of the run, too: at most sixteen of them are alive at once.
mod scoped;
mod start;

pub use scoped::{Scope, ScopedJoinHandle, scope};
pub(crate) use start::{know_parallelism, start};

use crate::program::ctx::{Ctx, with};
use crate::program::held;
use crate::program::slot::{Caller, Object};
use crate::program::world::{Done, Way};
use crate::raw::Change;
use crate::turns::{Does, Wake};
use start::{Start, seat_by};
use std::fmt;
use std::io;
use std::num::NonZero;
use std::panic::Location;
use std::sync::Arc;
use std::sync::atomic::{AtomicU64, Ordering};
pub use std::thread::{AccessError, LocalKey, Result, ThreadId, panicking};
use std::time::Duration;

/// What parks a thread of a run: 1 while it was unparked.
pub(crate) struct Park {
    token: Object<AtomicU64>,
}

/// As [`std::thread::Thread`].
///
/// ```
/// let named = octet::thread::Builder::new().name("worker".to_string()).spawn(|| ()).unwrap();
/// assert_eq!(named.thread().name(), Some("worker"));
/// ```
#[derive(Clone)]
pub struct Thread {
    std: std::thread::Thread,
    park: Option<Arc<Park>>,
    has_name: bool,
}

impl fmt::Debug for Thread {
    fn fmt(&self, out: &mut fmt::Formatter<'_>) -> fmt::Result {
        self.std.fmt(out)
    }
}

impl Thread {
    fn outside(std: std::thread::Thread) -> Thread {
        Thread { std, park: None, has_name: true }
    }

    /// As that of `std`.
    #[track_caller]
    pub fn unpark(&self) {
        let caller = Location::caller();
        let is_told = with(|ctx| {
            let (ctx, park) = (ctx?, self.park.as_ref()?);
            park.token.update(ctx, Change::Swap, 1, Ordering::Release, caller);
            ctx.wake(park.token.key(), true);
            Some(())
        });
        if is_told.is_none() {
            self.std.unpark();
        }
    }

    /// As that of `std`.
    #[must_use]
    pub fn id(&self) -> ThreadId {
        self.std.id()
    }

    /// As that of `std`.
    #[must_use]
    pub fn name(&self) -> Option<&str> {
        self.std.name().filter(|_| self.has_name)
    }
}

/// As [`std::thread::current`].
///
/// ```
/// assert_eq!(octet::thread::current().id(), std::thread::current().id());
/// ```
#[must_use]
pub fn current() -> Thread {
    with(|ctx| ctx.map(|ctx| ctx.thread.clone())).unwrap_or_else(|| Thread::outside(std::thread::current()))
}

// Whether this thread is one of a run, and was parked there.
fn park_in(most: Option<Duration>, caller: Caller) -> bool {
    with(|ctx| {
        let Some(ctx) = ctx else {
            return false;
        };
        let Some(park) = &ctx.thread.park else {
            return false;
        };
        let key = park.token.key();
        loop {
            let ticket = ctx.ticket(key);
            if park.token.update(ctx, Change::Swap, 0, Ordering::Acquire, caller) == 1 {
                return true;
            }
            let is_rung = ctx.wait(key, ticket, Wake { what: "an unpark", place: caller, holder: None }, most);
            if most.is_some() && ctx.note(|| is_rung.into()) == 0 {
                park.token.update(ctx, Change::Swap, 0, Ordering::Acquire, caller);
                return true;
            }
        }
    })
}

/// As [`std::thread::park`].
///
/// ```
/// let parked = octet::thread::spawn(octet::thread::park);
/// parked.thread().unpark();
/// parked.join().unwrap();
/// ```
#[track_caller]
pub fn park() {
    if !park_in(None, Location::caller()) {
        std::thread::park();
    }
}

/// As [`std::thread::park_timeout`]. By a schedule its time may be over at once.
///
/// ```
/// octet::thread::park_timeout(std::time::Duration::from_millis(1));
/// ```
#[track_caller]
pub fn park_timeout(most: Duration) {
    if !park_in(Some(most), Location::caller()) {
        std::thread::park_timeout(most);
    }
}

/// As [`std::thread::yield_now`]. By a schedule the other threads go first, as the seed has it.
///
/// ```
/// octet::thread::yield_now();
/// ```
#[track_caller]
pub fn yield_now() {
    let caller = Location::caller();
    let is_in_turn = with(|ctx| {
        let ctx = ctx?;
        if ctx.way != Way::Turns {
            ctx.safe_point();
            return None;
        }
        ctx.yield_in_turn(caller);
        Some(())
    });
    if is_in_turn.is_none() {
        std::thread::yield_now();
    }
}

/// As [`std::thread::sleep`]. By a schedule, and again, it takes no time.
///
/// ```
/// octet::thread::sleep(std::time::Duration::from_millis(1));
/// ```
#[track_caller]
pub fn sleep(time: Duration) {
    let way = with(|ctx| {
        let ctx = ctx?;
        match ctx.way {
            Way::Turns => ctx.memory().passed += time,
            Way::Free => ctx.stopped(|| std::thread::sleep(time)),
            Way::Again => {}
        }
        Some(ctx.way)
    });
    match way {
        None => std::thread::sleep(time),
        Some(Way::Turns) => yield_now(),
        Some(Way::Free | Way::Again) => {}
    }
}

/// As [`std::thread::available_parallelism`]. By a schedule it is what it was when the first one began.
///
/// # Errors
/// As that of `std`.
///
/// ```
/// assert_eq!(octet::thread::available_parallelism().unwrap(), std::thread::available_parallelism().unwrap());
/// ```
pub fn available_parallelism() -> io::Result<NonZero<usize>> {
    match with(|ctx| ctx.map(|ctx| ctx.way)) {
        Some(Way::Turns) => Ok(know_parallelism()),
        _ => std::thread::available_parallelism(),
    }
}

// Waits until the thread is over.
fn wait_over(ctx: &Ctx, done: &Arc<Done>, caller: Caller) {
    if ctx.way != Way::Turns && !ctx.stopped(|| ctx.world.wait_over(done)) {
        ctx.stay();
    }
    while !done.is_over.load(Ordering::Acquire) {
        ctx.block(done.key(), Wake { what: "the end of a thread", place: caller, holder: None }, false);
    }
    if ctx.finds_races {
        let clock = *held(&done.clock);
        ctx.memory().join(ctx.seat, &clock);
    }
}

// Waits until a thread of a run is over, whose end is told to who waits.
fn joined(done: Option<&Arc<Done>>, caller: Caller) {
    with(|ctx| {
        let (ctx, done) = (ctx?, done?);
        wait_over(ctx, done, caller);
        done.is_joined.store(true, Ordering::Relaxed);
        Some(())
    });
}

fn is_finished(done: Option<&Arc<Done>>, caller: Caller) -> Option<bool> {
    with(|ctx| {
        let (ctx, done) = (ctx?, done?);
        // Its end is one step with what it did last.
        ctx.pass(caller, Does::Anything);
        Some(ctx.note(|| done.is_over.load(Ordering::Acquire).into()) != 0)
    })
}

/// As [`std::thread::JoinHandle`].
///
/// ```
/// let handle: octet::thread::JoinHandle<i32> = octet::thread::spawn(|| 5);
/// assert_eq!(handle.join().unwrap(), 5);
/// ```
pub struct JoinHandle<T> {
    std: std::thread::JoinHandle<T>,
    done: Option<Arc<Done>>,
    thread: Thread,
}

impl<T> fmt::Debug for JoinHandle<T> {
    fn fmt(&self, out: &mut fmt::Formatter<'_>) -> fmt::Result {
        out.debug_struct("JoinHandle").finish_non_exhaustive()
    }
}

impl<T> JoinHandle<T> {
    /// As that of `std`.
    ///
    /// # Errors
    /// What the thread has panicked with.
    #[track_caller]
    pub fn join(self) -> Result<T> {
        joined(self.done.as_ref(), Location::caller());
        self.std.join()
    }

    /// As that of `std`.
    #[must_use]
    pub fn thread(&self) -> &Thread {
        &self.thread
    }

    /// As that of `std`.
    #[must_use]
    #[track_caller]
    pub fn is_finished(&self) -> bool {
        is_finished(self.done.as_ref(), Location::caller()).unwrap_or_else(|| self.std.is_finished())
    }
}

/// As [`std::thread::Builder`].
///
/// ```
/// let builder = octet::thread::Builder::new().stack_size(1 << 16);
/// assert_eq!(builder.spawn(|| 5).unwrap().join().unwrap(), 5);
/// ```
#[derive(Debug, Default)]
#[must_use = "a thread is started by `spawn`"]
pub struct Builder {
    name: Option<String>,
    stack: Option<usize>,
}

impl Builder {
    /// As that of `std`.
    pub fn new() -> Builder {
        Builder::default()
    }

    /// As that of `std`.
    pub fn name(mut self, name: String) -> Builder {
        self.name = Some(name);
        self
    }

    /// As that of `std`.
    pub fn stack_size(mut self, size: usize) -> Builder {
        self.stack = Some(size);
        self
    }

    // That of `std`, which names it so, or as it is told.
    fn std(self, other: impl FnOnce() -> Option<String>) -> std::thread::Builder {
        let mut builder = std::thread::Builder::new();
        if let Some(name) = self.name.or_else(other) {
            builder = builder.name(name);
        }
        match self.stack {
            Some(size) => builder.stack_size(size),
            None => builder,
        }
    }

    /// As that of `std`.
    ///
    /// # Errors
    /// Where the system has no thread, and where as many of the run are alive as it may have.
    pub fn spawn<F, T>(self, work: F) -> io::Result<JoinHandle<T>>
    where
        F: FnOnce() -> T + Send + 'static,
        T: Send + 'static,
    {
        if let Some(seat) = seat_by()? {
            return start(&seat.0, seat.1, self, work);
        }
        let std = self.std(|| None).spawn(work)?;
        let thread = Thread::outside(std.thread().clone());
        Ok(JoinHandle { std, done: None, thread })
    }

    /// As that of `std`.
    ///
    /// # Errors
    /// As `spawn`.
    pub fn spawn_scoped<'scope, F, T>(
        self,
        scope: &'scope Scope<'scope, '_>,
        work: F,
    ) -> io::Result<ScopedJoinHandle<'scope, T>>
    where
        F: FnOnce() -> T + Send + 'scope,
        T: Send + 'scope,
    {
        let Some((world, seat)) = seat_by()? else {
            let std = self.std(|| None).spawn_scoped(scope.std(), work)?;
            let thread = Thread::outside(std.thread().clone());
            return Ok(ScopedJoinHandle::new(std, None, thread));
        };
        let start = Start::new(&world, seat, self.name.is_some());
        let (done, park, has_name) = start.told();
        let builder = self.std(|| Some(start.name()));
        held(&world.scopes).entry(scope.key()).or_default().push(Arc::clone(&done));
        let spawned = builder.spawn_scoped(scope.std(), move || start.run(work));
        let std = spawned.inspect_err(|_| {
            held(&world.scopes).entry(scope.key()).or_default().pop();
            world.unseat(seat);
        })?;
        let thread = Thread { std: std.thread().clone(), park: Some(park), has_name };
        Ok(ScopedJoinHandle::new(std, Some(done), thread))
    }
}

/// As [`std::thread::spawn`].
///
/// # Panics
/// As that of `std`, and where sixteen threads of the run are alive.
///
/// ```
/// assert_eq!(octet::thread::spawn(|| 5).join().unwrap(), 5);
/// ```
pub fn spawn<F, T>(work: F) -> JoinHandle<T>
where
    F: FnOnce() -> T + Send + 'static,
    T: Send + 'static,
{
    Builder::new().spawn(work).expect("failed to spawn thread")
}

#[cfg(unix)]
impl<T> std::os::unix::thread::JoinHandleExt for JoinHandle<T> {
    fn as_pthread_t(&self) -> std::os::unix::thread::RawPthread {
        self.std.as_pthread_t()
    }

    fn into_pthread_t(self) -> std::os::unix::thread::RawPthread {
        self.std.into_pthread_t()
    }
}
