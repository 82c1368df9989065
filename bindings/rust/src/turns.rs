//! One thread of a run moves at a time, and a schedule picks which. Sessions and programs over look-alikes take turns by this, in
//! seats: those of sessions are all expected, and in a program threads come and go.
//!
//! A pick is before each access, before each call by which threads meet, and where a thread waits, yields or ends. By draws a
//! thread that was picked 64 times in a row comes after the others. What a yield means is drawn by the seed, since both are needed:
//! loops that wait must end, and what only a thread that spins long enough comes to must be found.
pub(crate) mod draws;
pub(crate) mod search;

use crate::heap::MAX_THREADS;
use crate::program::held;
use crate::schedule::{Pick, Picker};
use crate::{Absence, Error, Schedule};
use draws::Draws;
use search::Search;
use std::panic::Location;
use std::sync::atomic::{AtomicBool, Ordering};
use std::sync::{Arc, Mutex, MutexGuard};
use std::thread::{self, Thread};
use std::time::{Duration, Instant};

pub(crate) type Caller = &'static Location<'static>;

pub(crate) const SEATS: usize = MAX_THREADS;
const MOST_IN_ROW: u32 = 64;
/// After so many steps yields are skipped no more: threads that spin may keep another one from its work.
const SKIPPED_STEPS: u64 = 2_000;

/// What a thread does once it is picked, as far as others can tell: to what the keys stand for, or to anything.
#[derive(Clone, Copy, Debug, PartialEq, Eq)]
pub(crate) enum Does {
    Nothing,
    Reads(usize),
    Writes(usize),
    WritesBoth(usize, usize),
    Anything,
}

impl Does {
    fn keys(self) -> [Option<usize>; 2] {
        match self {
            Does::Nothing | Does::Anything => [None; 2],
            Does::Reads(key) | Does::Writes(key) => [Some(key), None],
            Does::WritesBoth(key, other) => [Some(key), Some(other)],
        }
    }

    /// Whether it may bring something else where the other one comes first.
    fn matters_to(self, other: Does) -> bool {
        match (self, other) {
            (Does::Anything, _) | (_, Does::Anything) => true,
            (Does::Reads(_), Does::Reads(_)) => false,
            _ => self.keys().iter().flatten().any(|key| other.keys().contains(&Some(*key))),
        }
    }
}

/// Who holds what others wait for, and where it was taken, if that is known.
#[derive(Clone, Copy, Debug)]
pub(crate) struct Holder {
    pub(crate) seat: usize,
    pub(crate) at: Option<Caller>,
}

/// What a thread waits for, for those who read that it does.
#[derive(Clone, Copy, Debug)]
pub(crate) struct Wake {
    /// Of sessions the key says it.
    pub(crate) what: &'static str,
    pub(crate) place: Caller,
    pub(crate) holder: Option<Holder>,
}

/// A thread that waits in a deadlock.
#[derive(Clone, Copy, Debug)]
pub(crate) struct Waiter {
    pub(crate) thread: usize,
    pub(crate) key: usize,
    pub(crate) wake: Wake,
}

/// Why a thread does not go on.
#[derive(Clone, Debug)]
pub(crate) enum Stuck {
    Deadlock(Vec<Waiter>),
    /// The run has taken so many steps, and this thread moves.
    TooLong {
        most: u64,
        thread: usize,
        at: Option<Caller>,
    },
    /// This thread is waited for, and does not come.
    Absent {
        thread: usize,
        at: Option<Caller>,
        why: Absence,
    },
    /// The run was ended for another reason.
    Stopped,
}

#[derive(Clone, Copy, PartialEq, Eq)]
enum At {
    /// No thread sits there.
    Empty,
    /// A thread is to come, and all wait for it.
    Expected,
    /// It is to be picked.
    Ready,
    Moves,
    /// It waits until the key is rung.
    Waits {
        key: usize,
    },
    /// It may be picked, and then its time is over.
    Timed {
        key: usize,
    },
    /// It does what the schedule knows nothing of, and comes back.
    Elsewhere,
}

struct Seat {
    at: At,
    // What the thread does once it is picked, and where it stood last.
    does: Does,
    place: Option<Caller>,
    has_yielded: bool,
    is_rung: bool,
    // For which key it stands in a queue, and since when.
    listed: Option<(usize, u64)>,
    wake: Option<Wake>,
}

impl Seat {
    fn new(at: At) -> Seat {
        Seat { at, does: Does::Nothing, place: None, has_yielded: false, is_rung: false, listed: None, wake: None }
    }

    fn may_move(&self) -> bool {
        matches!(self.at, At::Ready | At::Timed { .. })
    }

    fn waits_for(&self, key: usize) -> bool {
        matches!(self.at, At::Waits { key: its } | At::Timed { key: its } if its == key)
    }

    // Since when it stands in the queue of the key.
    fn listed_for(&self, key: usize) -> Option<u64> {
        self.listed.filter(|(its, _)| *its == key).map(|(_, since)| since)
    }

    fn ring(&mut self) {
        self.is_rung = true;
        self.listed = None;
        if matches!(self.at, At::Waits { .. } | At::Timed { .. }) {
            self.at = At::Ready;
        }
    }
}

/// What a yield means.
#[derive(Clone, Copy, PartialEq, Eq)]
enum Yields {
    /// It is not even a point of preemption: a thread that spins comes to what follows.
    Skipped,
    Nothing,
    /// Another thread moves first.
    Once,
    /// All that do not yield move first.
    All,
}

impl Yields {
    fn by(schedule: &Schedule) -> Yields {
        match (schedule.seed() / 2) % 3 {
            2 => Yields::Skipped,
            // What is given says it all.
            _ if schedule.is_given() => Yields::Nothing,
            _ if schedule.search().is_some() => Yields::Once,
            _ if schedule.is_by_ranks() => Yields::All,
            0 => Yields::Once,
            _ => Yields::All,
        }
    }
}

/// What picks.
enum Picks {
    Drawn(Draws),
    Searched(Arc<Mutex<Search>>),
    /// As they are given, or by the library, which has its own limit of picks in a row.
    By(Picker),
}

struct State {
    yields: Yields,
    picks: Picks,
    seats: Vec<Seat>,
    last: Option<usize>,
    in_row: u32,
    steps: u64,
    most: u64,
    lists: u64,
    stuck: Option<Stuck>,
}

struct Go {
    is_picked: AtomicBool,
    thread: Mutex<Option<Thread>>,
}

impl Go {
    fn wake(&self) {
        if let Some(thread) = &*held(&self.thread) {
            thread.unpark();
        }
    }
}

/// How a thread has come back from a wait: rung in time, and picked, unless it was rung before it waited.
#[derive(Clone, Copy)]
pub(crate) struct Came {
    pub(crate) is_rung: bool,
    pub(crate) was_picked: bool,
}

/// How long nobody was picked, as one has seen who looks now and then.
pub(crate) struct Watching {
    steps: u64,
    since: Instant,
}

impl Watching {
    pub(crate) fn new() -> Watching {
        Watching { steps: 0, since: Instant::now() }
    }
}

pub(crate) struct Turns {
    schedule: Schedule,
    state: Mutex<State>,
    goes: Vec<Go>,
    is_stopped: AtomicBool,
    patience: Duration,
    // Whether those who wait look themselves for one that does not come back. Else somebody looks for them.
    is_unwatched: bool,
}

enum Picked {
    One(usize),
    /// No thread is left, or one moves, or may come.
    None,
    Stuck(Stuck),
}

impl State {
    // Why nobody may move: each waits for another, or none is left.
    fn none_ready(&self) -> Picked {
        let waiter = |(thread, seat): (usize, &Seat)| match seat.at {
            At::Waits { key } => seat.wake.map(|wake| Waiter { thread, key, wake }),
            _ => None,
        };
        let waiters: Vec<Waiter> = self.seats.iter().enumerate().filter_map(waiter).collect();
        let may_come = self.seats.iter().any(|seat| seat.at == At::Elsewhere);
        if waiters.is_empty() || may_come { Picked::None } else { Picked::Stuck(Stuck::Deadlock(waiters)) }
    }

    // Whom all others wait for.
    fn absent(&self) -> Option<Stuck> {
        let whys = [(At::Moves, Absence::Picked), (At::Expected, Absence::NotStarted), (At::Elsewhere, Absence::Blocked)];
        whys.into_iter().find_map(|(at, why)| {
            let thread = self.seats.iter().position(|seat| seat.at == at)?;
            Some(Stuck::Absent { thread, at: self.seats[thread].place, why })
        })
    }

    // One that was picked so often in a row lets others go on.
    fn tired(&self) -> Option<usize> {
        self.last.filter(|_| self.in_row >= MOST_IN_ROW)
    }

    // Those that may be picked: all that are ready, or those of them that are to come first.
    fn eligible(&self, ready: &[bool; SEATS]) -> [bool; SEATS] {
        let tired = self.tired().filter(|_| matches!(self.picks, Picks::Drawn(_)));
        let mut fresh = *ready;
        for (at, seat) in self.seats.iter().enumerate() {
            fresh[at] &= !seat.has_yielded && tired != Some(at);
        }
        if fresh.contains(&true) { fresh } else { *ready }
    }

    // Picks one, after the thread of this seat.
    fn pick(&mut self, schedule: &Schedule, after: usize) -> Picked {
        if self.seats.iter().any(|seat| matches!(seat.at, At::Moves | At::Expected)) {
            return Picked::None;
        }
        let mut ready = [false; SEATS];
        ready.iter_mut().zip(&self.seats).for_each(|(ready, seat)| *ready = seat.may_move());
        if !ready.contains(&true) {
            return self.none_ready();
        }
        if self.steps >= self.most {
            return Picked::Stuck(Stuck::TooLong { most: self.most, thread: after, at: self.seats[after].place });
        }
        self.steps += 1;
        if self.steps % u64::from(2 * MOST_IN_ROW) == 0 {
            // One that spins without a yield is not to keep those that do from their work.
            self.seats.iter_mut().for_each(|seat| seat.has_yielded = false);
        }
        let from = self.eligible(&ready);
        let (seats, is_tired) = (self.seats.len(), self.tired().is_some());
        let picked = match &mut self.picks {
            Picks::Searched(search) => {
                let mut search = held(search);
                if from != ready {
                    search.leave_out();
                }
                let does = |at: usize| self.seats.get(at).map_or(Does::Nothing, |seat| seat.does);
                Some((search.pick(&from, does, self.last, is_tired), false))
            }
            Picks::Drawn(draws) => draws.pick(&from, self.last).map(|thread| (thread, false)),
            Picks::By(picker) => picker.pick(&from[..seats], self.last).map(|picked| (picked.thread, picked.is_forced)),
        };
        let Some((picked, is_forced)) = picked else {
            return Picked::None;
        };
        let preempts = !is_forced && self.last.is_some_and(|last| last != picked && from[last]);
        schedule.note(Pick { thread: picked, preempts });
        self.move_on(picked);
        Picked::One(picked)
    }

    fn move_on(&mut self, picked: usize) {
        let is_other = self.last != Some(picked);
        self.in_row = if is_other { 1 } else { self.in_row + 1 };
        if self.yields == Yields::Once && is_other {
            self.seats.iter_mut().for_each(|seat| seat.has_yielded = false);
        }
        self.seats[picked].has_yielded = false;
        self.seats[picked].at = At::Moves;
        self.last = Some(picked);
    }
}

fn picks_of(schedule: &Schedule) -> Result<Picks, Error> {
    schedule.take();
    Ok(match schedule.search() {
        Some(search) => {
            held(search).begin_heap();
            Picks::Searched(Arc::clone(search))
        }
        None => Picks::By(schedule.picker()?),
    })
}

impl Turns {
    fn new(schedule: &Schedule, picks: Picks, seats: Vec<Seat>, most: u64, patience: Duration) -> Turns {
        let go = |_| Go { is_picked: AtomicBool::new(false), thread: Mutex::new(None) };
        Turns {
            goes: (0..seats.len()).map(go).collect(),
            state: Mutex::new(State {
                yields: Yields::by(schedule),
                picks,
                seats,
                last: None,
                in_row: 0,
                steps: 0,
                most,
                lists: 0,
                stuck: None,
            }),
            schedule: schedule.clone(),
            is_stopped: AtomicBool::new(false),
            patience,
            is_unwatched: false,
        }
    }

    /// Those of a program, whose threads come and go, and which takes at most so many steps. Somebody has to `look`.
    pub(crate) fn of_program(schedule: &Schedule, most: u64, patience: Duration) -> Result<Turns, Error> {
        let is_drawn = !schedule.is_given() && !schedule.is_by_ranks() && schedule.search().is_none();
        let picks = picks_of(schedule)?;
        let picks = if is_drawn { Picks::Drawn(Draws::new(schedule.seed())) } else { picks };
        let seats = (0..SEATS).map(|_| Seat::new(At::Empty)).collect();
        Ok(Turns::new(schedule, picks, seats, most, patience))
    }

    /// Those of so many sessions. Their picks are the library's, which are the same for a C program.
    pub(crate) fn of_sessions(schedule: &Schedule, threads: usize, patience: Duration) -> Result<Turns, Error> {
        let picks = picks_of(schedule)?;
        let seats = (0..threads).map(|_| Seat::new(At::Expected)).collect();
        Ok(Turns { is_unwatched: true, ..Turns::new(schedule, picks, seats, u64::MAX, patience) })
    }

    pub(crate) fn schedule(&self) -> &Schedule {
        &self.schedule
    }

    /// Of a search: what its runs do follows from more than their picks.
    pub(crate) fn unsure(&self) {
        if let Some(search) = self.schedule.search() {
            held(search).unsure();
        }
    }

    /// A thread sits down, and is to be picked; or, of the program's own thread, it is picked at once.
    pub(crate) fn seat(&self, seat: usize, is_first: bool) {
        let mut state = held(&self.state);
        *held(&self.goes[seat].thread) = None;
        self.goes[seat].is_picked.store(is_first, Ordering::Release);
        state.seats[seat] = Seat::new(if is_first { At::Moves } else { At::Ready });
        if is_first {
            state.last = Some(seat);
        }
    }

    /// The system has no thread for the seat.
    pub(crate) fn unseat(&self, seat: usize) {
        held(&self.state).seats[seat].at = At::Empty;
    }

    fn go(&self, seat: usize) {
        self.goes[seat].is_picked.store(true, Ordering::Release);
        self.goes[seat].wake();
    }

    /// Nobody is picked any more, and who waits is told so.
    pub(crate) fn stop(&self) {
        self.is_stopped.store(true, Ordering::SeqCst);
        self.goes.iter().for_each(Go::wake);
    }

    fn why(&self) -> Stuck {
        held(&self.state).stuck.clone().unwrap_or(Stuck::Stopped)
    }

    /// Whom the others wait for, where nobody was picked for longer than the patience. The run is stopped by that.
    pub(crate) fn look(&self, watching: &mut Watching) -> Option<Stuck> {
        let mut state = held(&self.state);
        if state.steps != watching.steps {
            *watching = Watching { steps: state.steps, since: Instant::now() };
        }
        if state.stuck.is_some() || watching.since.elapsed() < self.patience {
            return None;
        }
        let absent = state.absent()?;
        state.stuck = Some(absent.clone());
        drop(state);
        self.stop();
        Some(absent)
    }

    /// Waits until the thread of this seat is picked.
    pub(crate) fn until_picked(&self, seat: usize) -> Result<(), Stuck> {
        let go = &self.goes[seat];
        if go.is_picked.swap(false, Ordering::AcqRel) {
            return Ok(());
        }
        *held(&go.thread) = Some(thread::current());
        let since = || Watching { steps: held(&self.state).steps, since: Instant::now() };
        let mut watching = self.is_unwatched.then(since);
        while !go.is_picked.swap(false, Ordering::AcqRel) {
            if self.is_stopped.load(Ordering::SeqCst) {
                return Err(self.why());
            }
            let Some(watching) = &mut watching else {
                thread::park();
                continue;
            };
            thread::park_timeout(self.patience);
            self.look(watching);
        }
        Ok(())
    }

    // Lets the thread that is picked next move. Whether it is this one.
    fn next(&self, mut state: MutexGuard<'_, State>, seat: usize) -> Result<bool, Stuck> {
        if self.is_stopped.load(Ordering::SeqCst) {
            return Err(state.stuck.clone().unwrap_or(Stuck::Stopped));
        }
        match state.pick(&self.schedule, seat) {
            Picked::One(picked) if picked == seat => return Ok(true),
            Picked::One(picked) => {
                drop(state);
                self.go(picked);
            }
            Picked::None => {}
            Picked::Stuck(stuck) => {
                state.stuck = Some(stuck.clone());
                drop(state);
                self.stop();
                return Err(stuck);
            }
        }
        Ok(false)
    }

    fn give_way(&self, state: MutexGuard<'_, State>, seat: usize) -> Result<(), Stuck> {
        if self.next(state, seat)? { Ok(()) } else { self.until_picked(seat) }
    }

    // The state, once it is noted how the thread stands, and where.
    fn state_at(&self, seat: usize, place: Option<Caller>, at: At) -> MutexGuard<'_, State> {
        let mut state = held(&self.state);
        let its = &mut state.seats[seat];
        its.place = place.or(its.place);
        its.at = at;
        state
    }

    /// Waits until this thread is picked, which then does this.
    pub(crate) fn pass(&self, seat: usize, place: Option<Caller>, does: Does) -> Result<(), Stuck> {
        let mut state = self.state_at(seat, place, At::Ready);
        state.seats[seat].does = does;
        self.give_way(state, seat)
    }

    /// Lets the others go first, as the seed has it. False where it is no point of preemption.
    pub(crate) fn yield_now(&self, seat: usize, place: Caller) -> Result<bool, Stuck> {
        let mut state = held(&self.state);
        if state.yields == Yields::Skipped && state.steps <= SKIPPED_STEPS {
            return Ok(false);
        }
        state.seats[seat].has_yielded = state.yields != Yields::Nothing && !self.schedule.is_given();
        drop(state);
        self.pass(seat, Some(place), Does::Nothing).map(|()| true)
    }

    /// Stands in the queue of this key from now on.
    pub(crate) fn list(&self, seat: usize, key: usize) {
        let mut state = held(&self.state);
        state.lists += 1;
        let since = state.lists;
        state.seats[seat].listed = Some((key, since));
        state.seats[seat].is_rung = false;
    }

    /// Waits until the key is rung, or, where it is timed, until this thread is picked all the same. What it does then is one step
    /// with that.
    pub(crate) fn block(&self, seat: usize, key: usize, wake: Wake, is_timed: bool, then: Does) -> Result<Came, Stuck> {
        let mut state = held(&self.state);
        let its = &mut state.seats[seat];
        if its.is_rung {
            // It was rung since it was listed.
            (its.is_rung, its.listed) = (false, None);
            return Ok(Came { is_rung: true, was_picked: false });
        }
        its.at = if is_timed { At::Timed { key } } else { At::Waits { key } };
        its.does = if is_timed { Does::Writes(key) } else { then };
        its.place = Some(wake.place);
        its.wake = Some(wake);
        self.give_way(state, seat)?;
        let its = &mut held(&self.state).seats[seat];
        its.listed = None;
        Ok(Came { is_rung: std::mem::take(&mut its.is_rung), was_picked: true })
    }

    /// Rings the key: all that wait for it or stand in its queue go on, or the one that has stood there longest.
    pub(crate) fn wake(&self, key: usize, all: bool) {
        let mut state = held(&self.state);
        if all {
            let rung = state.seats.iter_mut().filter(|seat| seat.waits_for(key) || seat.listed_for(key).is_some());
            rung.for_each(Seat::ring);
            return;
        }
        let listed = state.seats.iter_mut().filter(|seat| seat.listed_for(key).is_some());
        if let Some(first) = listed.min_by_key(|seat| seat.listed_for(key)) {
            first.ring();
        }
    }

    /// The thread does what the schedule knows nothing of. It comes back by `pass`.
    pub(crate) fn leave(&self, seat: usize, place: Option<Caller>) -> Result<(), Stuck> {
        self.unsure();
        self.next(self.state_at(seat, place, At::Elsewhere), seat).map(|_| ())
    }

    /// The thread is over.
    pub(crate) fn end(&self, seat: usize) -> Result<(), Stuck> {
        self.next(self.state_at(seat, None, At::Empty), seat).map(|_| ())
    }
}
