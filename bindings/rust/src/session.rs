//! One thread of a run.
mod access;
mod lock;
mod meeting;
mod noted;
mod spins;

use crate::checks::Found;
use crate::error::checked;
use crate::given_up::{Begun, GivenUp};
use crate::heap::Rank;
use crate::raw::{self, Handle};
use crate::shared::{Order, Shared};
use crate::turns::Does;
use crate::{Error, Place, quiet};
use noted::Places;
pub(crate) use noted::{Keeps, Noted};
use spins::Recent;
use std::cell::Cell;
use std::marker::PhantomData;
use std::panic::Location;
use std::sync::Arc;
use std::time::Instant;
use std::{fmt, hint, mem, thread};

type Caller = &'static Location<'static>;

// How often a thread that waits asks again before it gives its processor to others.
const SPINS: u32 = 100;

/// An object of one heap: a number of 64 bits that its threads share.
///
/// ```
/// octet::Heap::builder().object("x", 0).run(|threads| {
///     threads.spawn(|session| {
///         let x: octet::Object = session.object("x")?;
///         session.store(x, 1)
///     });
/// })?;
/// # Ok::<(), octet::Error>(())
/// ```
#[derive(Clone, Copy, Debug, PartialEq, Eq, Hash)]
pub struct Object {
    pub(crate) heap: u64,
    pub(crate) place: u16,
}

/// One thread of a run. It may be sent to the thread that is to use it:
///
/// ```
/// fn is_send<T: Send>() {}
/// is_send::<octet::Session>();
/// ```
///
/// No two threads may use it at once:
///
/// ```compile_fail,E0277
/// fn is_sync<T: Sync>() {}
/// is_sync::<octet::Session>();
/// ```
///
/// Its accesses have the names and the answers of `std::sync::atomic`, and all are sequentially consistent. An access of a
/// recorded run is made at once, or as soon as the threads that own the object hand it over. In a second run it waits until all
/// that was recorded before it is made.
///
/// An access that has waited for too long fails, and the thread makes no other one. It is made after all, as soon as it can be, so
/// that no other one waits for it.
pub struct Session {
    handle: Handle,
    number: usize,
    heap: u64,
    // The heap, where an access may be made at once. No heap has the number 0.
    at_once: u64,
    pub(crate) shared: Arc<Shared>,
    // The locks that it holds, the last one taken last.
    held: Vec<usize>,
    places: Places,
    // Where a call stands that makes several accesses.
    caller: Option<Caller>,
    // Its last accesses, of a run by a schedule.
    recent: Recent,
    // Of which kinds its errors are: the lowest one.
    rank: Option<Rank>,
    // Whether its recording has ended before the thread did.
    is_cut: bool,
    not_sync: PhantomData<Cell<()>>,
}

impl fmt::Debug for Session {
    fn fmt(&self, out: &mut fmt::Formatter<'_>) -> fmt::Result {
        out.debug_struct("Session").field("number", &self.number).finish_non_exhaustive()
    }
}

impl Drop for Session {
    fn drop(&mut self) {
        self.end_turns();
    }
}

/// What `Builder::build` gives, and `Heap::finish` takes.
impl Session {
    pub(crate) fn new(handle: Handle, number: usize, shared: &Arc<Shared>, keeps: &Keeps) -> Session {
        Session {
            handle,
            number,
            heap: shared.heap,
            at_once: if matches!(shared.order, Order::Turns(_)) { 0 } else { shared.heap },
            shared: Arc::clone(shared),
            held: Vec::new(),
            places: Places::new(keeps, number),
            caller: None,
            recent: Recent::default(),
            rank: None,
            is_cut: false,
            not_sync: PhantomData,
        }
    }

    pub(crate) fn into_parts(mut self) -> (Handle, Noted) {
        let places = mem::replace(&mut self.places, Places::Nothing);
        (mem::replace(&mut self.handle, Handle::empty()), places.noted())
    }

    pub(crate) fn is_of(&self, heap: u64) -> bool {
        self.heap == heap
    }

    pub(crate) fn rank(&self) -> Rank {
        self.rank.unwrap_or(Rank::Own)
    }

    fn note_rank(&mut self, rank: Rank) {
        self.rank = Some(self.rank.map_or(rank, |before| before.min(rank)));
    }

    pub(crate) fn is_cut(&self) -> bool {
        self.is_cut
    }

    /// The number of its thread, from 0.
    ///
    /// ```
    /// let run = octet::Heap::builder().run(|threads| {
    ///     threads.spawn(|session| Ok(session.number()));
    ///     threads.spawn(|session| Ok(session.number()));
    /// })?;
    /// assert_eq!(run.values(), [0, 1]);
    /// # Ok::<(), octet::Error>(())
    /// ```
    #[must_use]
    pub fn number(&self) -> usize {
        self.number
    }

    /// The object of this name.
    ///
    /// ```
    /// # octet::Heap::builder().object("x", 12).run(|threads| threads.spawn(|session| {
    /// # let x = session.object("x")?;
    /// assert_eq!(session.object("x")?, x);
    /// assert!(matches!(session.object("y"), Err(octet::Error::NoName { name }) if name == "y"));
    /// # Ok(())
    /// # }))?;
    /// # Ok::<(), octet::Error>(())
    /// ```
    ///
    /// # Errors
    /// `NoName` where there is none.
    pub fn object(&self, name: &str) -> Result<Object, Error> {
        self.shared.object(name)
    }

    /// Starts the thread. Those of `Builder::run` are started.
    ///
    /// ```
    /// let (heap, mut sessions) = octet::Heap::builder().object("x", 0).build()?;
    /// let x = heap.object("x")?;
    /// assert!(matches!(sessions[0].load(x), Err(octet::Error::Resting)));
    /// sessions[0].start()?;
    /// assert_eq!(sessions[0].load(x)?, 0);
    /// # Ok::<(), octet::Error>(())
    /// ```
    ///
    /// # Errors
    /// `Running` where it is started; `Resting` where it has ended. By a schedule those of waiting: `Deadlock` and `NotBack`.
    pub fn start(&mut self) -> Result<(), Error> {
        if let Order::Turns(turns) = &self.shared.order {
            turns.pass(self.number, None, Does::Nothing).map_err(|stuck| self.shared.stuck(self.number, stuck))?;
        }
        checked(self.handle.start(), self.number)
    }

    /// Ends the thread: no other one waits for it any more. In a second run it must have made all that was recorded of it. By a
    /// schedule it waits until it is picked, since its end may come long after its last access.
    ///
    /// ```
    /// let (heap, mut sessions) = octet::Heap::builder().object("x", 0).build()?;
    /// let x = heap.object("x")?;
    /// sessions[0].start()?;
    /// sessions[0].store(x, 1)?;
    /// sessions[0].stop()?;
    /// assert_eq!(heap.finish(sessions)?.value("x"), Some(1));
    /// # Ok::<(), octet::Error>(())
    /// ```
    ///
    /// # Errors
    /// `Resting` where it does not run. In a second run `Diverged`, `Halted` and `Patience`; by a schedule `Deadlock` and `NotBack`.
    /// It is stopped all the same.
    pub fn stop(&mut self) -> Result<(), Error> {
        let turned = self.take_last_turn();
        let mut out = 0;
        let status = self.handle.end(&mut out);
        let status = self.until_made(status, &mut out, Handle::end);
        if !matches!(status, Ok(raw::READY)) {
            // It has left its recording, or is stopped already.
            self.handle.stop();
        }
        self.end_turns();
        self.answered(status?, out, None)?;
        turned
    }

    // The others take their turns without it.
    fn end_turns(&self) {
        if let Order::Turns(turns) = &self.shared.order {
            // Who is left, if anybody is, is told by its own call why it does not go on.
            let _ = turns.end(self.number);
        }
    }

    fn take_last_turn(&mut self) -> Result<(), Error> {
        if self.at_once == self.heap { Ok(()) } else { self.take_turn(None, Does::Nothing) }
    }

    /// What was given up is the session's again.
    pub(crate) fn take_back(&mut self, GivenUp { handle, begun: Begun { caller, object, access }, told, .. }: GivenUp) {
        self.handle = handle;
        if let Some(told) = told {
            self.places.note(caller, object, access, told);
        }
    }

    // Leaves an access that has waited for too long to those that wait for it.
    fn give_up(&mut self, begun: Begun) {
        if matches!(self.shared.order, Order::Free(_)) {
            let handle = mem::replace(&mut self.handle, Handle::empty());
            self.shared.given_up.add(self.number, handle, begun);
        }
    }

    /// Does the work between `start` and `stop`, and stops also where it fails or panics.
    ///
    /// ```
    /// use octet::{Error, Heap};
    ///
    /// let (heap, mut sessions) = Heap::builder().object("x", 0).threads(2).build()?;
    /// std::thread::scope(|scope| {
    ///     for session in &mut sessions {
    ///         scope.spawn(|| session.running(|session| session.fetch_add(session.object("x")?, 1)));
    ///     }
    /// });
    /// assert_eq!(heap.finish(sessions)?.value("x"), Some(2));
    /// # Ok::<(), Error>(())
    /// ```
    ///
    /// # Errors
    /// Those of the three.
    pub fn running<T, E: From<Error>>(&mut self, work: impl FnOnce(&mut Session) -> Result<T, E>) -> Result<T, E> {
        struct Stop<'a>(&'a mut Session);
        impl Drop for Stop<'_> {
            fn drop(&mut self) {
                if let (true, Order::Turns(turns)) = (thread::panicking(), &self.0.shared.order) {
                    turns.schedule().note_panic(self.0.number, quiet::last_panic());
                }
                // Where it was stopped, or failed in another way, this one fails too.
                let _ = self.0.stop();
            }
        }
        let running = Stop(self);
        running.0.start()?;
        let done = work(running.0)?;
        running.0.stop()?;
        Ok(done)
    }
}

/// Waiting.
impl Session {
    // Asks again and again while the answer is that it waits: mostly another thread answers at its next access. The library lets
    // some of these calls pass where threads take an object from each other, so none of them is to take long.
    fn until_made(
        &mut self,
        mut status: i32,
        out: &mut u64,
        again: impl Fn(&mut Handle, &mut u64) -> i32,
    ) -> Result<i32, Error> {
        let (mut round, mut since) = (0_u32, None);
        while status == raw::PENDING {
            if round < SPINS {
                hint::spin_loop();
                round += 1;
            } else {
                // On a busy machine this may take long.
                thread::yield_now();
                self.shared.given_up.go_on();
                if since.get_or_insert_with(Instant::now).elapsed() >= self.shared.patience {
                    self.note_rank(Rank::Follows);
                    return Err(Error::Patience { thread: self.number });
                }
            }
            status = again(&mut self.handle, out);
        }
        Ok(status)
    }

    #[cold]
    fn answered(&mut self, status: i32, out: u64, caller: Option<Caller>) -> Result<(), Error> {
        if status == raw::DIVERGED {
            if let Some(Found { thread, accesses, place, .. }) = self.places.first_left() {
                self.note_rank(Rank::Left(accesses));
                return Err(Error::Diverged { thread, accesses, place: Some(place) });
            }
            self.note_rank(Rank::Left(out));
            return Err(Error::Diverged { thread: self.number, accesses: out, place: caller.map(Place::from) });
        }
        self.is_cut = self.is_cut || status == raw::OVER;
        checked(status, self.number).inspect_err(|error| self.note_rank(error.rank()))
    }

    // Does the work while no other thread waits for this one.
    fn stopped<T>(&mut self, work: impl FnOnce(&Shared, usize) -> T) -> Result<T, Error> {
        struct Again<'a>(&'a mut Handle);
        impl Drop for Again<'_> {
            fn drop(&mut self) {
                self.0.start();
            }
        }
        checked(self.handle.stop(), self.number)?;
        let again = Again(&mut self.handle);
        let done = work(&self.shared, self.number);
        drop(again);
        Ok(done)
    }

    // Waits, stopped, for what another thread brings.
    fn wait_stopped(&mut self, wait: impl FnOnce(&Shared, usize) -> Result<(), Error>) -> Result<(), Error> {
        self.stopped(wait)?.inspect_err(|error| self.note_rank(error.rank()))
    }

    // Waits until it is this thread's turn to do this.
    #[cold]
    fn take_turn(&mut self, at: Option<Caller>, does: Does) -> Result<(), Error> {
        self.wait_stopped(|shared, number| match &shared.order {
            Order::Turns(turns) => turns.pass(number, at, does).map_err(|stuck| shared.stuck(number, stuck)),
            Order::Free(_) | Order::Again => Ok(()),
        })
    }

    /// Does the work with the thread marked as blocked, so that no other one waits for it: for files, sleep, and whatever may
    /// wait for another thread. What it reads is not recorded.
    ///
    /// ```
    /// use octet::{Error, Heap};
    /// use std::{thread, time::Duration};
    ///
    /// Heap::builder().object("x", 0).run(|threads| {
    ///     threads.spawn(|session| {
    ///         session.blocked(|| thread::sleep(Duration::from_millis(1)))?;
    ///         session.store(session.object("x")?, 1)
    ///     });
    /// })?;
    /// # Ok::<(), Error>(())
    /// ```
    ///
    /// # Errors
    /// `Resting` where the thread does not run, and by a schedule `Deadlock` and `NotBack`.
    #[track_caller]
    pub fn blocked<T>(&mut self, work: impl FnOnce() -> T) -> Result<T, Error> {
        let at = Some(self.caller.unwrap_or(Location::caller()));
        let done = self.stopped(|shared, number| match &shared.order {
            Order::Turns(turns) => {
                let left = turns.leave(number, at);
                let done = work();
                left.and_then(|()| turns.pass(number, at, Does::Nothing))
                    .map_err(|stuck| shared.stuck(number, stuck))
                    .map(|()| done)
            }
            Order::Free(_) | Order::Again => Ok(work()),
        })?;
        done.inspect_err(|error| self.note_rank(error.rank()))
    }

    /// Answers the threads that wait for this one. Call it in long stretches without accesses.
    ///
    /// ```
    /// # octet::Heap::builder().object("x", 12).run(|threads| threads.spawn(|session| {
    /// # let x = session.object("x")?;
    /// session.store(x, 1)?;
    /// let mut sum = 0_u64;
    /// for number in 0..1_000_000 {
    ///     if number % 1_000 == 0 {
    ///         session.safe_point()?;
    ///     }
    ///     sum = sum.wrapping_mul(31) + number;
    /// }
    /// session.store(x, sum)?;
    /// # Ok(())
    /// # }))?;
    /// # Ok::<(), octet::Error>(())
    /// ```
    ///
    /// # Errors
    /// `Resting` where the thread does not run.
    #[inline]
    pub fn safe_point(&mut self) -> Result<(), Error> {
        checked(self.handle.safe_point(), self.number)
    }

    /// Begins a region with the next access, and the one before ends there. `octet regions` tells whether the regions could have
    /// run one after another.
    ///
    /// ```
    /// # octet::Heap::builder().object("x", 100).run(|threads| threads.spawn(|session| {
    /// # let x = session.object("x")?;
    /// // The two belong together.
    /// session.region()?;
    /// let found = session.load(x)?;
    /// session.store(x, found + 30)?;
    /// # Ok(())
    /// # }))?;
    /// # Ok::<(), octet::Error>(())
    /// ```
    ///
    /// # Errors
    /// `Resting` where the thread does not run.
    #[inline]
    pub fn region(&mut self) -> Result<(), Error> {
        checked(self.handle.region(), self.number)
    }
}
