//! What orders what, by the orders that a program names, and the data races that this shows.
//!
//! Each thread has a vector clock, and each object the clock that its value carries: what its store released, and what updates
//! have added since (a release sequence of C++20). Values are sequentially consistent; only the clocks obey the orders. So a
//! `Relaxed` publication is found, though the value itself is always the newest.
use super::slot::Caller;
use crate::Place;
use crate::raw::{Access, Change};
use crate::turns::SEATS;
use std::fmt;
use std::sync::atomic::Ordering;
use std::time::Duration;

/// For each seat, up to which of its releases something is known.
pub(crate) type Clock = [u32; SEATS];

fn join(clock: &mut Clock, other: &Clock) {
    clock.iter_mut().zip(other).for_each(|(mine, other)| *mine = (*mine).max(*other));
}

/// What an access does to the clocks.
#[derive(Clone, Copy)]
pub(crate) enum Kind {
    Load(Ordering),
    Store(Ordering),
    Update(Ordering),
    /// Its second order is that of a failure.
    Exchange(Ordering, Ordering),
}

impl Kind {
    // The order of its load and that of its store, where it has one.
    fn orders(self, is_changed: bool) -> (Option<Ordering>, Option<Ordering>) {
        match self {
            Kind::Store(order) => (None, Some(order)),
            Kind::Update(order) => (Some(order), Some(order)),
            Kind::Exchange(order, _) if is_changed => (Some(order), Some(order)),
            Kind::Load(order) | Kind::Exchange(_, order) => (Some(order), None),
        }
    }
}

fn acquires(order: Ordering) -> bool {
    matches!(order, Ordering::Acquire | Ordering::AcqRel | Ordering::SeqCst)
}

fn releases(order: Ordering) -> bool {
    matches!(order, Ordering::Release | Ordering::AcqRel | Ordering::SeqCst)
}

/// The store that an object has its value of: by which thread, at which time of that thread.
#[derive(Clone, Copy)]
struct Store {
    seat: usize,
    at: u32,
    place: Caller,
    releases: bool,
}

/// A load of another thread's store that has ordered nothing.
#[derive(Clone, Copy)]
struct Missed {
    store: Store,
    place: Caller,
    acquires: bool,
}

/// What an object's value carries.
#[derive(Clone, Copy, Default)]
struct Carried {
    clock: Clock,
    last: Option<Store>,
}

/// What a thread knows.
#[derive(Clone, Copy, Default)]
struct Knows {
    clock: Clock,
    // What relaxed loads have found, for a later fence; and what the last fence releases.
    found: Clock,
    fenced: Clock,
    missed: [Option<Missed>; SEATS],
}

/// Who has read or written a cell last.
#[derive(Default)]
struct Touches {
    write: Option<(usize, u32, Caller)>,
    reads: [Option<(u32, Caller)>; SEATS],
}

/// One of the two accesses of a data race.
///
/// ```
/// use octet::{Cause, Error, cell::UnsafeCell, program, sync::Arc, thread};
///
/// struct Shared(UnsafeCell<u32>);
/// unsafe impl Sync for Shared {}
///
/// let found = program::explore(0..100, || {
///     let here = Arc::new(Shared(UnsafeCell::new(0)));
///     let there = Arc::clone(&here);
///     thread::spawn(move || there.0.with_mut(|value| unsafe { *value = 1 }));
///     here.0.with(|value| unsafe { *value });
/// });
/// let found = found.expect_err("nothing orders them");
/// let Cause::Error(Error::DataRace(race)) = found.cause() else { panic!("{found}") };
/// assert_ne!(race.first.writes, race.second.writes);
/// assert_eq!(race.first.thread + race.second.thread, 1);
/// ```
#[derive(Clone, Debug, PartialEq, Eq)]
pub struct Touch {
    /// The thread that made it.
    pub thread: usize,
    /// Whether it wrote.
    pub writes: bool,
    /// Its line.
    pub place: Place,
}

impl fmt::Display for Touch {
    fn fmt(&self, out: &mut fmt::Formatter<'_>) -> fmt::Result {
        let verb = if self.writes { "writes" } else { "reads" };
        write!(out, "thread {} {verb} at {}", self.thread, self.place)
    }
}

/// Two accesses to one cell by different threads, at least one of which writes, and which nothing orders.
///
/// ```
/// use octet::sync::atomic::{AtomicBool, Ordering::{Acquire, Relaxed}};
/// use octet::{Cause, Error, cell::UnsafeCell, program, sync::Arc, thread};
///
/// struct Published(AtomicBool, UnsafeCell<u32>);
/// unsafe impl Sync for Published {}
///
/// let found = program::explore(0..100, || {
///     let here = Arc::new(Published(AtomicBool::new(false), UnsafeCell::new(0)));
///     let there = Arc::clone(&here);
///     thread::spawn(move || {
///         there.1.with_mut(|value| unsafe { *value = 1 });
///         there.0.store(true, Relaxed);
///     });
///     if here.0.load(Acquire) {
///         here.1.with(|value| unsafe { *value });
///     }
/// });
/// let found = found.expect_err("the store releases nothing");
/// let Cause::Error(Error::DataRace(race)) = found.cause() else { panic!("{found}") };
/// assert!(race.hint.as_ref().is_some_and(|hint| hint.contains("would have to be a Release")));
/// ```
#[derive(Clone, Debug, PartialEq, Eq)]
pub struct Race {
    /// The one that came first by this schedule.
    pub first: Touch,
    /// The one that came later, and that does not know of the first.
    pub second: Touch,
    /// What would have ordered them, where the second thread has met the first since: a line that says which order is missing.
    pub hint: Option<String>,
}

impl fmt::Display for Race {
    fn fmt(&self, out: &mut fmt::Formatter<'_>) -> fmt::Result {
        write!(out, "data race: {}, {}, and nothing orders them", self.second, self.first)?;
        match &self.hint {
            Some(hint) => write!(out, ": {hint}"),
            None => Ok(()),
        }
    }
}

/// The objects' values, where they are not on Octet's heap, and the clocks.
#[derive(Default)]
pub(crate) struct Memory {
    values: Vec<u64>,
    carried: Vec<Carried>,
    touches: Vec<Touches>,
    // As many as have come.
    threads: Vec<Knows>,
    /// The time that threads have slept, or waited in vain.
    pub(crate) passed: Duration,
}

impl Memory {
    /// An object that a thread has met, or has met again under another's number.
    pub(crate) fn begin(&mut self, number: u32, value: u64) {
        self.make_room(number);
        self.values[number as usize] = value;
        self.carried[number as usize] = Carried::default();
    }

    // A second run may come to an object before the thread that has begun it, where its first value is 0.
    fn make_room(&mut self, number: u32) {
        let at = number as usize;
        if self.values.len() <= at {
            self.values.resize(at + 1, 0);
            self.carried.resize(at + 1, Carried::default());
        }
    }

    // A thread that has come.
    fn knows(&mut self, seat: usize) -> &mut Knows {
        if self.threads.len() <= seat {
            self.threads.resize(seat + 1, Knows::default());
        }
        &mut self.threads[seat]
    }

    pub(crate) fn value(&self, number: u32) -> u64 {
        self.values[number as usize]
    }

    /// Where it was given its value.
    pub(crate) fn stored_at(&self, number: u32) -> Option<Caller> {
        self.carried.get(number as usize)?.last.map(|store| store.place)
    }

    /// Makes the access: the value found, or the one written.
    pub(crate) fn make(&mut self, number: u32, access: Access) -> u64 {
        let value = &mut self.values[number as usize];
        let found = *value;
        match access {
            Access::Read => {}
            Access::Write { value: new } => {
                *value = new;
                return new;
            }
            Access::Update { change, operand, expected } => *value = changed(change, found, operand, expected),
        }
        found
    }

    /// Orders what the access orders. `is_changed` says whether an exchange was made.
    pub(crate) fn order(&mut self, seat: usize, number: u32, kind: Kind, is_changed: bool, place: Caller) {
        self.make_room(number);
        self.knows(seat);
        let (load, store) = kind.orders(is_changed);
        if let Some(order) = load {
            self.load(seat, number, order, place);
        }
        if let Some(order) = store {
            self.store(seat, number, order, load.is_some(), place);
        }
    }

    fn load(&mut self, seat: usize, number: u32, order: Ordering, place: Caller) {
        let carried = &self.carried[number as usize];
        let knows = &mut self.threads[seat];
        join(if acquires(order) { &mut knows.clock } else { &mut knows.found }, &carried.clock);
        if let Some(store) = carried.last.filter(|store| store.seat != seat && knows.clock[store.seat] < store.at) {
            knows.missed[store.seat] = Some(Missed { store, place, acquires: acquires(order) });
        }
    }

    fn store(&mut self, seat: usize, number: u32, order: Ordering, is_update: bool, place: Caller) {
        let knows = &mut self.threads[seat];
        let carried = &mut self.carried[number as usize];
        if !is_update {
            carried.clock = Clock::default();
        }
        join(&mut carried.clock, if releases(order) { &knows.clock } else { &knows.fenced });
        carried.last = Some(Store { seat, at: knows.clock[seat], place, releases: releases(order) });
        knows.clock[seat] += u32::from(releases(order));
    }

    /// A fence: what relaxed loads have found is acquired, and what relaxed stores will carry is released. One of `SeqCst` orders
    /// no more than one of `AcqRel` here, as in C11 by itself it makes nothing happen before anything.
    pub(crate) fn fence(&mut self, seat: usize, order: Ordering) {
        let knows = self.knows(seat);
        if acquires(order) {
            join(&mut knows.clock, &knows.found);
        }
        if releases(order) {
            knows.fenced = knows.clock;
            knows.clock[seat] += 1;
        }
    }

    /// A thread begins in this seat, whom the other one starts. Who sat there before is none of its past.
    pub(crate) fn start(&mut self, by: usize, seat: usize) {
        let own = self.knows(seat).clock[seat] + 1;
        let mut clock = self.knows(by).clock;
        clock[seat] = own;
        self.threads[seat] = Knows { clock, ..Knows::default() };
        self.threads[by].clock[by] += 1;
    }

    pub(crate) fn clock(&mut self, seat: usize) -> Clock {
        self.knows(seat).clock
    }

    /// The thread has seen the end of another one, whose clock this was.
    pub(crate) fn join(&mut self, seat: usize, clock: &Clock) {
        join(&mut self.knows(seat).clock, clock);
    }

    pub(crate) fn new_cell(&mut self) -> u32 {
        let number = u32::try_from(self.touches.len()).expect("memory has no room for so many cells");
        self.touches.push(Touches::default());
        number
    }

    /// A plain read or write of a cell: the race with an earlier one that it conflicts with, if nothing orders them.
    pub(crate) fn touch(&mut self, seat: usize, number: u32, writes: bool, place: Caller) -> Option<Race> {
        let clock = self.knows(seat).clock;
        let touches = &mut self.touches[number as usize];
        let is_unknown = |by: usize, at: u32| by != seat && clock[by] < at;
        let wrote = touches.write.filter(|&(by, at, _)| is_unknown(by, at)).map(|(by, at, place)| (by, at, true, place));
        let read = touches.reads.iter().enumerate().find_map(|(by, read)| {
            let (at, place) = (*read)?;
            (writes && is_unknown(by, at)).then_some((by, at, false, place))
        });
        if writes {
            *touches = Touches { write: Some((seat, clock[seat], place)), reads: [None; SEATS] };
        } else {
            touches.reads[seat] = Some((clock[seat], place));
        }
        let (by, at, wrote, its) = wrote.or(read)?;
        Some(Race {
            first: Touch { thread: by, writes: wrote, place: its.into() },
            second: Touch { thread: seat, writes, place: place.into() },
            hint: self.hint(seat, by, at),
        })
    }

    // Where the thread has met the other one after this time of it, and what was missing there.
    fn hint(&self, seat: usize, by: usize, at: u32) -> Option<String> {
        let missed = self.threads[seat].missed[by].filter(|missed| missed.store.at >= at)?;
        let store = Place::from(missed.store.place);
        let load = Place::from(missed.place);
        Some(match (missed.store.releases, missed.acquires) {
            (false, true) => format!("the store at {store} would have to be a Release for the load at {load}"),
            (true, false) => format!("the load at {load} would have to be an Acquire of the store at {store}"),
            _ => format!("the store at {store} would have to be a Release, and the load at {load} an Acquire"),
        })
    }
}

fn changed(change: Change, found: u64, operand: u64, expected: u64) -> u64 {
    match change {
        Change::Add => found.wrapping_add(operand),
        Change::Sub => found.wrapping_sub(operand),
        Change::Swap => operand,
        Change::CompareExchange if found == expected => operand,
        Change::CompareExchange => found,
        Change::And => found & operand,
        Change::Or => found | operand,
        Change::Xor => found ^ operand,
        Change::Max => found.max(operand),
        Change::Min => found.min(operand),
    }
}

#[cfg(test)]
mod tests {
    use super::{Kind, Memory};
    use std::panic::Location;
    use std::sync::atomic::Ordering::{self, AcqRel, Acquire, Relaxed, Release, SeqCst};

    const HERE: &Location<'static> = Location::caller();

    // Thread 0 starts threads 1 to 3; thread 1 writes cell 0 and then stores to object 0.
    fn published(order: Ordering) -> Memory {
        let mut memory = Memory::default();
        (1..4).for_each(|seat| memory.start(0, seat));
        memory.begin(0, 0);
        memory.new_cell();
        assert!(memory.touch(1, 0, true, HERE).is_none());
        memory.order(1, 0, Kind::Store(order), true, HERE);
        memory
    }

    fn races(memory: &mut Memory, seat: usize) -> bool {
        memory.touch(seat, 0, false, HERE).is_some()
    }

    #[test]
    fn a_release_is_acquired() {
        for (store, load, is_ordered) in
            [(Release, Acquire, true), (SeqCst, SeqCst, true), (Relaxed, Acquire, false), (Release, Relaxed, false)]
        {
            let mut memory = published(store);
            memory.order(2, 0, Kind::Load(load), true, HERE);
            assert_eq!(races(&mut memory, 2), !is_ordered, "{store:?} {load:?}");
        }
    }

    #[test]
    fn updates_carry_on_what_was_released_and_stores_do_not() {
        let mut memory = published(Release);
        memory.order(3, 0, Kind::Update(Relaxed), true, HERE);
        memory.order(2, 0, Kind::Load(Acquire), true, HERE);
        assert!(!races(&mut memory, 2));
        let mut memory = published(Release);
        memory.order(3, 0, Kind::Store(Relaxed), true, HERE);
        memory.order(2, 0, Kind::Load(Acquire), true, HERE);
        assert!(races(&mut memory, 2));
        // An exchange that fails stores nothing.
        let mut memory = published(Release);
        memory.order(2, 0, Kind::Exchange(AcqRel, Relaxed), false, HERE);
        assert!(races(&mut memory, 2));
    }

    #[test]
    fn fences_release_and_acquire_by_relaxed_accesses() {
        for (before, after, is_ordered) in [
            (Some(Release), Some(Acquire), true),
            (Some(SeqCst), Some(SeqCst), true),
            (None, Some(Acquire), false),
            (Some(Release), None, false),
        ] {
            let mut memory = Memory::default();
            (1..3).for_each(|seat| memory.start(0, seat));
            memory.begin(0, 0);
            memory.new_cell();
            assert!(memory.touch(1, 0, true, HERE).is_none());
            before.into_iter().for_each(|order| memory.fence(1, order));
            memory.order(1, 0, Kind::Store(Relaxed), true, HERE);
            memory.order(2, 0, Kind::Load(Relaxed), true, HERE);
            after.into_iter().for_each(|order| memory.fence(2, order));
            assert_eq!(races(&mut memory, 2), !is_ordered, "{before:?} {after:?}");
        }
        // Two fences alone order nothing, not even of the strongest kind.
        let mut memory = published(Relaxed);
        memory.fence(1, SeqCst);
        memory.fence(2, SeqCst);
        assert!(races(&mut memory, 2));
    }

    #[test]
    fn a_race_says_which_order_is_missing() {
        let mut memory = published(Relaxed);
        memory.order(2, 0, Kind::Load(Acquire), true, HERE);
        let race = memory.touch(2, 0, false, HERE).expect("nothing is released");
        assert_eq!((race.first.thread, race.first.writes, race.second.thread, race.second.writes), (1, true, 2, false));
        assert!(race.hint.expect("they have met").contains("would have to be a Release"));
        assert!(published(Release).touch(2, 0, true, HERE).expect("they have not met").hint.is_none());
    }
}
