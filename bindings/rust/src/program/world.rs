//! A run of a program that knows nothing of sessions: what its threads share.
//!
//! There are three ways to run. By *turns* one thread moves at a time, and a schedule picks which. *Free* threads make their
//! accesses on Octet's heap as they come. *Again* they wait at each access for all that was recorded before it. Each primitive
//! that waits is a loop of an access that may fail and a wait that means nothing: again, the wait is left out, and the access
//! that is recorded next says whether the loop goes on.
//!
//! What a thread gets from elsewhere than from an access is a *note*: the number of an object that it meets first, the number of
//! a pointer that it stores, the seat of a thread that it starts, whether a wait timed out, what the clock said. Notes of a
//! thread are kept in its order, and taken again by a second run.
use super::clocks::{Clock, Memory, Race};
use super::ctx::Ctx;
use super::held;
use super::notes::{Handed, Notes};
use super::pointers::Pointers;
use super::slot::{self, Caller};
use crate::bells::Bells;
use crate::error::Wait;
use crate::raw::Handle;
use crate::turns::{SEATS, Stuck, Turns, Waiter, Watching};
use crate::{Absence, Error, Place};
use std::collections::HashMap;
use std::sync::atomic::{AtomicBool, AtomicI64, AtomicU32, AtomicU64, AtomicUsize, Ordering};
use std::sync::{Arc, Condvar, Mutex, PoisonError};
use std::time::{Duration, Instant};

/// The most objects that a number has bits for.
pub(crate) const MOST_OBJECTS: u32 = 65_535;
/// How often one that waits looks again, and how long threads of a run that was halted are waited for.
const LOOK: Duration = Duration::from_millis(20);
pub(crate) const HALTING: Duration = Duration::from_millis(200);

#[derive(Clone, Copy, Debug, PartialEq, Eq)]
pub(crate) enum Way {
    Turns,
    Free,
    Again,
}

/// Whether exchanges that may fail for nothing do so.
#[derive(Clone, Copy, Debug, PartialEq, Eq)]
pub(crate) enum Whims {
    None,
    /// As this seed draws.
    Drawn {
        seed: u64,
    },
    /// As the notes say.
    Noted,
}

/// What is known of a thread of the program once it is over.
#[derive(Default)]
pub(crate) struct Done {
    pub(crate) is_over: AtomicBool,
    pub(crate) is_joined: AtomicBool,
    pub(crate) panic: Mutex<Option<String>>,
    pub(crate) clock: Mutex<Clock>,
}

impl Done {
    pub(crate) fn key(&self) -> usize {
        std::ptr::from_ref(self) as usize
    }
}

/// What a thread makes its accesses by, and what is kept of it. Its seat has it while no thread sits there.
pub(crate) struct Part {
    pub(crate) handle: Handle,
    // Again: what was noted, and what comes next of it.
    pub(crate) notes: Vec<u32>,
    pub(crate) next: usize,
    pub(crate) places: Vec<Caller>,
    pub(crate) accesses: u64,
}

impl Part {
    pub(crate) fn empty() -> Part {
        Part { handle: Handle::empty(), notes: Vec::new(), next: 0, places: Vec::new(), accesses: 0 }
    }
}

struct Seat {
    part: Option<Part>,
    is_taken: bool,
}

/// The numbers of objects.
#[derive(Default)]
pub(crate) struct Deal {
    pub(crate) next: u32,
    // What threads that are over have given back.
    pub(crate) free: Vec<u32>,
}

#[derive(Default)]
struct Ending {
    alive: usize,
    why: Option<Error>,
    panics: Vec<Arc<Done>>,
    // When it began, and what it says.
    first_panic: Option<(u64, String)>,
    // The threads that are alive are waited for no more.
    is_left: bool,
    race: Option<Race>,
}

#[allow(clippy::struct_excessive_bools, reason = "each says one thing of how the run is made")]
pub(crate) struct World {
    pub(crate) epoch: u32,
    pub(crate) way: Way,
    /// Whether its accesses are made on Octet's heap: always, but by turns only where the run is to be kept.
    pub(crate) has_heap: bool,
    pub(crate) keeps_places: bool,
    /// Always by turns, and else where it is asked for.
    pub(crate) finds_races: bool,
    pub(crate) objects: u32,
    pub(crate) patience: Duration,
    /// Nothing is printed of its threads' panics.
    pub(crate) is_quiet: bool,
    pub(crate) is_strict: bool,
    pub(crate) words_are_addresses: bool,
    pub(crate) whims: Whims,
    pub(crate) seed: Option<u64>,
    turns: Option<Turns>,
    pub(crate) memory: Mutex<Memory>,
    pub(crate) deal: Mutex<Deal>,
    numbers: AtomicU32,
    live: AtomicI64,
    seats: Mutex<Vec<Seat>>,
    seat_freed: Condvar,
    seats_used: AtomicUsize,
    pub(crate) scopes: Mutex<HashMap<usize, Vec<Arc<Done>>>>,
    pub(crate) bells: Bells,
    pub(crate) pointers: Pointers,
    pub(crate) handed: Arc<Handed>,
    pub(crate) notes_are_whole: bool,
    /// How many notes a second run has; no number of a pointer is greater.
    pub(crate) most_notes: usize,
    panics_begun: AtomicU64,
    is_halted: AtomicBool,
    ending: Mutex<Ending>,
    ended: Condvar,
}

/// How large the heap is, how long a thread waits for another, and what counts.
#[derive(Clone, Copy, Debug)]
pub(crate) struct Sizes {
    pub(crate) objects: u32,
    pub(crate) threads: usize,
    pub(crate) patience: Duration,
    pub(crate) is_strict: bool,
    pub(crate) finds_races: bool,
    pub(crate) words_are_addresses: bool,
}

/// How a run is made.
pub(crate) struct Setup {
    pub(crate) way: Way,
    pub(crate) sizes: Sizes,
    /// None where it is by turns and not to be kept.
    pub(crate) handles: Vec<Handle>,
    /// Those of the run that is made again.
    pub(crate) notes: Notes,
    /// Where those of a run that is kept go.
    pub(crate) handed: Arc<Handed>,
    pub(crate) turns: Option<Turns>,
    pub(crate) seed: Option<u64>,
    pub(crate) is_quiet: bool,
}

/// What is left of a run.
pub(crate) struct Left {
    pub(crate) why: Option<Error>,
    /// The first data race of a run that has gone on after it.
    pub(crate) race: Option<Race>,
    /// One that nobody joined, or, where the program's own thread has panicked, the first one of the run.
    pub(crate) panic: Option<String>,
    /// None where a thread has not come back.
    pub(crate) handles: Option<Vec<Handle>>,
    pub(crate) places: Vec<Vec<Place>>,
}

static EPOCHS: AtomicU32 = AtomicU32::new(1);
/// How many threads of runs that were halted stay where they are until the process ends.
static STAYING: AtomicUsize = AtomicUsize::new(0);

/// How many threads of this process's runs stay where they are for ever.
pub(crate) fn staying() -> usize {
    STAYING.load(Ordering::Relaxed)
}

fn wait_of(Waiter { thread, wake, .. }: Waiter) -> Wait {
    Wait {
        thread,
        name: wake.what.to_string(),
        holder: wake.holder.map(|holder| holder.seat),
        place: Some(wake.place.into()),
        held_at: wake.holder.and_then(|holder| holder.at).map(Place::from),
    }
}

// Why a run by turns is over, where its turns say it.
fn error_of(stuck: Stuck) -> Option<Error> {
    Some(match stuck {
        Stuck::Deadlock(waiters) => Error::Deadlock { waits: waiters.into_iter().map(wait_of).collect() },
        Stuck::TooLong { most, thread, at } => {
            let at = at.map_or(String::new(), |at| format!(", at {}", Place::from(at)));
            let what =
                format!("the run has not ended after {most} steps; thread {thread} moves{at}: Program::steps allows more");
            Error::Refused { what }
        }
        // Of a program all threads are there, and none says that it waits elsewhere.
        Stuck::Absent { thread, at, .. } => Error::NotBack { thread, place: at.map(Place::from), why: Absence::Elsewhere },
        Stuck::Stopped => return None,
    })
}

fn seats_of(handles: Vec<Handle>, notes: Vec<Vec<u32>>, count: usize) -> Vec<Seat> {
    let mut handles = handles.into_iter().chain(std::iter::repeat_with(Handle::empty));
    let mut notes = notes.into_iter().chain(std::iter::repeat_with(Vec::new));
    let part = |_| {
        let (handle, notes) = (handles.next()?, notes.next()?);
        Some(Part { handle, notes, ..Part::empty() })
    };
    (0..count).map(part).map(|part| Seat { part, is_taken: false }).collect()
}

impl World {
    pub(crate) fn new(setup: Setup) -> Arc<World> {
        let Setup { way, sizes, handles, notes: Notes { whims, threads: notes, are_whole }, handed, turns, seed, is_quiet } =
            setup;
        let has_heap = !handles.is_empty();
        let epoch = EPOCHS.fetch_add(1, Ordering::Relaxed);
        slot::begin_run(epoch);
        Arc::new(World {
            epoch,
            way,
            has_heap,
            keeps_places: has_heap && way == Way::Turns,
            finds_races: way == Way::Turns || sizes.finds_races,
            objects: if has_heap { sizes.objects } else { MOST_OBJECTS },
            patience: sizes.patience,
            is_quiet,
            is_strict: sizes.is_strict,
            words_are_addresses: sizes.words_are_addresses,
            whims,
            seed,
            turns,
            memory: Mutex::default(),
            deal: Mutex::default(),
            numbers: AtomicU32::new(0),
            live: AtomicI64::new(0),
            most_notes: notes.iter().map(Vec::len).sum(),
            seats: Mutex::new(seats_of(handles, notes, if has_heap { sizes.threads } else { SEATS })),
            seat_freed: Condvar::new(),
            seats_used: AtomicUsize::new(0),
            scopes: Mutex::default(),
            bells: Bells::new(),
            pointers: Pointers::default(),
            handed,
            notes_are_whole: are_whole,
            panics_begun: AtomicU64::new(0),
            is_halted: AtomicBool::new(false),
            ending: Mutex::default(),
            ended: Condvar::new(),
        })
    }

    pub(crate) fn turns(&self) -> &Turns {
        self.turns.as_ref().expect("the run is by turns")
    }

    pub(crate) fn is_halted(&self) -> bool {
        self.is_halted.load(Ordering::SeqCst)
    }

    pub(crate) fn count_object(&self) {
        self.live.fetch_add(1, Ordering::Relaxed);
    }

    pub(crate) fn forget_object(&self) {
        self.live.fetch_sub(1, Ordering::Relaxed);
    }

    pub(crate) fn count_number(&self, numbers: u32) {
        self.numbers.fetch_max(numbers, Ordering::Relaxed);
    }

    /// How many objects it had at once, and how many threads.
    pub(crate) fn sizes(&self) -> (u32, usize) {
        (self.numbers.load(Ordering::Relaxed), self.seats_used.load(Ordering::Relaxed))
    }

    // The first one that is free. Of a search one that was never taken, since else who starts first would matter.
    fn free_seat(&self, seats: &[Seat]) -> Option<usize> {
        if let Some(turns) = self.turns.as_ref().filter(|turns| turns.schedule().is_fine()) {
            let used = self.seats_used.load(Ordering::Relaxed);
            if used < seats.len() {
                return Some(used);
            }
            turns.unsure();
        }
        seats.iter().position(|seat| !seat.is_taken)
    }

    /// A seat for a new thread: a free one, or, again, the one of the note.
    pub(crate) fn take_seat(&self, noted: Option<u32>) -> Option<usize> {
        let mut seats = held(&self.seats);
        let at = match noted {
            None => self.free_seat(&seats)?,
            Some(at) => {
                let since = Instant::now();
                while seats.get(at as usize)?.is_taken {
                    seats = self.seat_freed.wait_timeout(seats, LOOK).unwrap_or_else(PoisonError::into_inner).0;
                    if since.elapsed() > self.patience {
                        return None;
                    }
                }
                at as usize
            }
        };
        seats[at].is_taken = true;
        self.seats_used.fetch_max(at + 1, Ordering::Relaxed);
        held(&self.ending).alive += 1;
        Some(at)
    }

    /// The system has no thread for the seat.
    pub(crate) fn unseat(&self, seat: usize) {
        held(&self.seats)[seat].is_taken = false;
        if let Some(turns) = &self.turns {
            turns.unseat(seat);
        }
        held(&self.ending).alive -= 1;
        self.ended.notify_all();
    }

    /// What the thread in this seat has.
    pub(crate) fn part_of(&self, seat: usize) -> Part {
        held(&self.seats)[seat].part.take().unwrap_or_else(Part::empty)
    }

    /// A thread begins to panic: after how many others.
    pub(crate) fn panic_begins(&self) -> u64 {
        self.panics_begun.fetch_add(1, Ordering::Relaxed)
    }

    /// A thread has panicked, and is unwound. While it was, others may have panicked by what it has poisoned.
    pub(crate) fn note_panic(&self, done: &Arc<Done>, begun: u64, message: String) {
        let mut ending = held(&self.ending);
        if ending.first_panic.as_ref().is_none_or(|(first, _)| begun < *first) {
            ending.first_panic = Some((begun, message.clone()));
        }
        *held(&done.panic) = Some(message);
        ending.panics.push(Arc::clone(done));
    }

    /// Two threads race for a cell. By turns the run ends here; else it goes on, as the program does, and is kept.
    pub(crate) fn note_race(&self, ctx: &Ctx, race: Race) {
        if self.way == Way::Turns {
            ctx.fail(Error::DataRace(Box::new(race)));
        }
        held(&self.ending).race.get_or_insert(race);
    }

    /// The run ends here; nothing of it moves any more.
    pub(crate) fn halt(&self, why: Error) {
        held(&self.ending).why.get_or_insert(why);
        self.is_halted.store(true, Ordering::SeqCst);
        if let Some(turns) = &self.turns {
            turns.stop();
        }
        self.ended.notify_all();
    }

    /// The run ends here, since its threads are stuck.
    pub(crate) fn halt_stuck(&self, stuck: Stuck) {
        if let Some(error) = error_of(stuck) {
            self.halt(error);
        }
    }

    // By turns: those who wait for the thread's end go on.
    fn end_in_turn(&self, ctx: &Ctx) {
        ctx.done.is_over.store(true, Ordering::Release);
        self.turns().wake(ctx.done.key(), true);
        if let Err(stuck) = self.turns().end(ctx.seat) {
            self.halt_stuck(stuck);
        }
    }

    /// This thread leaves its seat, and stays here for ever.
    pub(crate) fn stay(&self, ctx: &Ctx) -> ! {
        self.give_back(ctx, false);
        STAYING.fetch_add(1, Ordering::Relaxed);
        loop {
            std::thread::park();
        }
    }

    /// The thread leaves its seat: it is over, or stays where it is for ever.
    pub(crate) fn give_back(&self, ctx: &Ctx, is_over: bool) {
        let mut part = ctx.part();
        if self.has_heap {
            part.handle.stop();
        }
        if is_over && self.finds_races {
            *held(&ctx.done.clock) = ctx.memory().clock(ctx.seat);
        }
        {
            let mut seats = held(&self.seats);
            seats[ctx.seat] = Seat { part: Some(part), is_taken: !is_over };
            if is_over && self.way != Way::Turns {
                ctx.done.is_over.store(true, Ordering::Release);
            }
        }
        self.seat_freed.notify_all();
        if is_over {
            held(&self.deal).free.append(&mut ctx.freed());
            if self.way == Way::Turns {
                self.end_in_turn(ctx);
            }
        }
        let mut ending = held(&self.ending);
        ending.alive -= 1;
        // Whoever was left behind is counted already.
        STAYING.fetch_sub(usize::from(ending.is_left), Ordering::Relaxed);
        drop(ending);
        self.ended.notify_all();
    }

    /// Waits until no thread moves any more.
    pub(crate) fn wait_ended(&self) {
        let mut ending = held(&self.ending);
        let (mut halted_since, mut watching) = (None, Watching::new());
        while ending.alive > 0 {
            ending = self.ended.wait_timeout(ending, LOOK).unwrap_or_else(PoisonError::into_inner).0;
            if ending.why.is_none() {
                drop(ending);
                // One that was picked may wait for what no schedule knows.
                let absent = self.turns.as_ref().and_then(|turns| turns.look(&mut watching));
                absent.into_iter().for_each(|absent| self.halt_stuck(absent));
                ending = held(&self.ending);
            } else if halted_since.get_or_insert_with(Instant::now).elapsed() > HALTING {
                // Of a run that was halted, threads that make no access never stop.
                ending.is_left = true;
                STAYING.fetch_add(ending.alive, Ordering::Relaxed);
                return;
            }
        }
    }

    /// What is left of the run, once no thread moves any more.
    pub(crate) fn left(&self, main_panicked: bool) -> Left {
        let mut ending = held(&self.ending);
        let mut seats = held(&self.seats);
        let is_whole = self.has_heap && ending.alive == 0;
        let mut parts: Vec<Part> = seats.iter_mut().map_while(|seat| seat.part.take()).collect();
        let is_whole = is_whole && parts.len() == seats.len();
        let unjoined = ending.panics.iter().find(|done| !done.is_joined.load(Ordering::Relaxed));
        let unjoined = unjoined.and_then(|done| held(&done.panic).clone());
        Left {
            why: ending.why.take(),
            race: ending.race.take(),
            panic: if main_panicked { ending.first_panic.take().map(|(_, message)| message) } else { unjoined },
            places: parts
                .iter_mut()
                .map(|part| std::mem::take(&mut part.places).into_iter().map(Place::from).collect())
                .collect(),
            handles: is_whole.then(|| parts.into_iter().map(|part| part.handle).collect()),
        }
    }

    /// The run is over. Objects that outlive it take these values, or, where there are none, stay what they were before it.
    pub(crate) fn close(&self, values: Option<Vec<u64>>) {
        match values {
            None => slot::end_run(self.epoch),
            Some(values) => {
                let left = usize::try_from(self.live.load(Ordering::Relaxed)).unwrap_or(0);
                slot::leave_run(self.epoch, values, Some(self.pointers.taken()), left);
            }
        }
    }

    /// Whether the thread is over; or the run is halted.
    pub(crate) fn wait_over(&self, done: &Done) -> bool {
        let mut seats = held(&self.seats);
        while !done.is_over.load(Ordering::Acquire) {
            if self.is_halted() {
                return false;
            }
            seats = self.seat_freed.wait_timeout(seats, LOOK).unwrap_or_else(PoisonError::into_inner).0;
        }
        true
    }

    /// One of those that a scope has started and that is not yet waited for.
    pub(crate) fn next_of_scope(&self, scope: usize) -> Option<Arc<Done>> {
        let mut scopes = held(&self.scopes);
        let next = scopes.get_mut(&scope)?.pop();
        if next.is_none() {
            scopes.remove(&scope);
        }
        next
    }
}
