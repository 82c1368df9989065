//! One thread of a run: how it makes its accesses, notes what it gets from elsewhere, and waits.
#![allow(clippy::cast_possible_truncation, reason = "the number of an object has 16 bits, and a note is one half of 64")]
use super::clocks::{Kind, Memory};
use super::held;
use super::pointers::{coded, is_address, untagged};
use super::slot::{Caller, Holds, Real, Slot};
use super::world::{Deal, Done, HALTING, Part, Way, Whims, World};
use crate::raw::{self, Access};
use crate::turns::draws::mixed;
use crate::turns::{Does, Stuck, Wake};
use crate::{Error, Place, thread};
use std::cell::{Cell, RefCell};
use std::ptr::null;
use std::sync::{Arc, MutexGuard};
use std::time::{Duration, Instant};
use std::{hint, mem};

/// A number that a thread has met first, in a note; and one that no other object had before it.
const FIRST: u32 = 1 << 16;
const FRESH: u32 = 1 << 17;
const NUMBER: u32 = 0xffff;

/// What a thread of a run has. Its own thread alone uses it, and no method keeps a borrow of a cell while the program runs.
pub(crate) struct Ctx {
    pub(crate) world: Arc<World>,
    pub(crate) epoch: u32,
    bit: u64,
    pub(crate) seat: usize,
    pub(crate) way: Way,
    has_heap: bool,
    /// Whether its accesses are judged by what they order.
    pub(crate) finds_races: bool,
    /// By turns: it was picked, and has not yet made an access since.
    pub(crate) has_turn: Cell<bool>,
    // By turns: where it starts, or goes on after a wait or a yield, its next access is another step.
    is_fine: bool,
    part: RefCell<Part>,
    // The numbers of objects that it has dropped.
    free: RefCell<Vec<u32>>,
    // How many exchanges it was asked for that may fail for nothing.
    exchanges: Cell<u64>,
    /// Where it has asked for an access last.
    pub(crate) place: Cell<Option<Caller>>,
    // It panics, and began to after so many others.
    panic: Cell<Option<u64>>,
    /// What it was started for goes on.
    pub(crate) is_at_work: Cell<bool>,
    pub(crate) done: Arc<Done>,
    pub(crate) thread: thread::Thread,
}

thread_local! {
    static NOW: Cell<*const Ctx> = const { Cell::new(null()) };
    // Made before any thread-local of the program, so it is dropped after them.
    static LEAVING: Leaving = const { Leaving };
}

struct Leaving;

impl Drop for Leaving {
    fn drop(&mut self) {
        let now = NOW.replace(null()).cast_mut();
        if !now.is_null() {
            // SAFETY: `enter` has made it of a box, and only this gives it up. No call of `with` goes on, since none of them runs
            // destructors of thread-locals.
            let ctx = unsafe { Box::from_raw(now) };
            if ctx.is_at_work.get() {
                // The thread ends in the midst of its work: the process exits.
                return super::crash::tell_exit(&ctx);
            }
            let world = Arc::clone(&ctx.world);
            world.give_back(&ctx, true);
        }
    }
}

/// Does the work with this thread's part in a run, if it has one. The work must not run code of the program's.
#[inline(always)]
pub(crate) fn with<T>(work: impl FnOnce(Option<&Ctx>) -> T) -> T {
    let now = NOW.get();
    // SAFETY: it is null, or `enter` has put it there. It is given up where this thread ends, and so not before the work is over.
    work(unsafe { now.as_ref() })
}

/// Whether this thread is one of a run.
#[inline(always)]
pub(crate) fn is_in_run() -> bool {
    !NOW.get().is_null()
}

/// Makes this operating-system thread the one of the part.
pub(crate) fn enter(world: &Arc<World>, seat: usize, part: Part, done: &Arc<Done>, thread: thread::Thread) {
    LEAVING.with(|_| ());
    let is_fine = world.way == Way::Turns && world.turns().schedule().is_fine();
    let ctx = Box::new(Ctx {
        world: Arc::clone(world),
        epoch: world.epoch,
        bit: 1 << (16 + seat),
        seat,
        way: world.way,
        has_heap: world.has_heap,
        finds_races: world.finds_races,
        has_turn: Cell::new(!is_fine),
        is_fine,
        part: RefCell::new(part),
        free: RefCell::default(),
        exchanges: Cell::new(0),
        place: Cell::new(None),
        panic: Cell::new(None),
        is_at_work: Cell::new(true),
        done: Arc::clone(done),
        thread,
    });
    match ctx.way {
        Way::Turns => ctx.picked(world.turns().until_picked(seat)),
        Way::Free | Way::Again => {
            ctx.part.borrow_mut().handle.start();
        }
    }
    NOW.set(Box::into_raw(ctx));
}

/// What this thread was started for is done; its thread-locals are dropped after that.
pub(crate) fn work_is_done() {
    with(|ctx| ctx.map(|ctx| ctx.is_at_work.set(false)));
}

impl Ctx {
    /// Its part, which it gives up.
    pub(crate) fn part(&self) -> Part {
        mem::replace(&mut *self.part.borrow_mut(), Part::empty())
    }

    pub(crate) fn freed(&self) -> Vec<u32> {
        self.free.take()
    }

    /// Stays here for ever: the run is over, and nothing of the program may go on with values that it has not.
    pub(crate) fn stay(&self) -> ! {
        self.world.stay(self)
    }

    // It goes on where it was picked; else the run is over.
    fn picked<T>(&self, picked: Result<T, Stuck>) -> T {
        picked.unwrap_or_else(|stuck| {
            self.world.halt_stuck(stuck);
            self.stay()
        })
    }

    pub(crate) fn fail(&self, why: Error) -> ! {
        self.world.halt(why);
        self.stay()
    }

    pub(crate) fn refuse(&self, what: String) -> ! {
        self.fail(Error::Refused { what })
    }

    // Again: the recording of this thread ends here, and those of others near. They are given time to come there.
    fn recording_ends(&self) -> ! {
        std::thread::sleep(HALTING);
        self.fail(Error::RecordingEnds { thread: self.seat })
    }

    fn refuse_use(&self, caller: Caller, why: &str) -> ! {
        self.refuse(format!("what is used at {} {why}", Place::from(caller)))
    }

    /// By turns: the line of an access. Of one that the compiler or `std` asks for, the line where the thread was before.
    fn placed(&self, caller: Caller) -> Caller {
        let place = self.place.get().filter(|_| caller.file().starts_with("/rustc/")).unwrap_or(caller);
        self.place.set(Some(place));
        place
    }

    /// What this thread got here, or, again, what it had got.
    #[inline]
    pub(crate) fn note(&self, found: impl FnOnce() -> u32) -> u32 {
        if self.way != Way::Again {
            let note = found();
            if self.has_heap {
                self.world.handed.push(self.seat, note);
            }
            return note;
        }
        let (note, accesses) = {
            let mut part = self.part.borrow_mut();
            let note = part.notes.get(part.next).copied();
            part.next += 1;
            (note, part.accesses)
        };
        let place = self.place.get().map(Place::from);
        note.unwrap_or_else(|| {
            if !self.world.notes_are_whole {
                self.recording_ends();
            }
            self.fail(Error::Diverged { thread: self.seat, accesses, place })
        })
    }

    /// A note of 64 bits.
    pub(crate) fn note_wide(&self, found: u64) -> u64 {
        u64::from(self.note(|| found as u32)) | u64::from(self.note(|| (found >> 32) as u32)) << 32
    }

    fn holds_addresses<R: Real>(&self) -> bool {
        match R::HOLDS {
            Holds::Numbers => false,
            Holds::Words => self.world.words_are_addresses,
            Holds::Pointers => true,
        }
    }

    // The number for which a pointer stands in a run that is kept.
    fn pointer_in(&self, value: u64) -> u64 {
        if !is_address(value) {
            return value;
        }
        let (pointer, tags) = untagged(value);
        let number = self.note(|| self.world.pointers.number_of(pointer));
        self.bind(number, pointer);
        coded(number, tags)
    }

    fn bind(&self, number: u32, pointer: u64) {
        if self.way == Way::Again {
            if number as usize > self.world.most_notes {
                self.refuse(format!("the notes of thread {} number no pointer so", self.seat));
            }
            self.world.pointers.bind(number, pointer);
        }
    }

    /// By turns, and where data races are looked for. Nobody waits for another thread while this is held.
    pub(crate) fn memory(&self) -> MutexGuard<'_, Memory> {
        held(&self.world.memory)
    }

    // The lock by which numbers are dealt. Who holds it may wait for an object of this thread, so this one lets it go on.
    fn deal(&self) -> Option<MutexGuard<'_, Deal>> {
        match self.way {
            Way::Again => None,
            Way::Turns => Some(held(&self.world.deal)),
            Way::Free => loop {
                if let Ok(deal) = self.world.deal.try_lock() {
                    break Some(deal);
                }
                if self.world.is_halted() {
                    self.stay();
                }
                self.part.borrow_mut().handle.safe_point();
                std::thread::yield_now();
            },
        }
    }

    // The number of an object that this thread has not met in this run.
    #[cold]
    fn meet<R: Real>(&self, slot: &Slot, real: &R, caller: Caller) -> u32 {
        if slot.number_in(self.epoch).is_none() {
            self.settle(slot, real, caller);
        }
        let mut deal = self.deal();
        let note = self.note(|| {
            let known = slot.number_in(self.epoch);
            known.or_else(|| self.dealt(deal.as_mut()?)).unwrap_or(u32::MAX)
        });
        if note == u32::MAX {
            drop(deal);
            let most = self.world.objects;
            let at = Place::from(caller);
            self.refuse(format!("the run has more than {most} objects at once, at {at}: Program::objects allows more"));
        }
        let number = note & NUMBER;
        if note & FIRST != 0 {
            // Nobody else has its number yet, so that this waits for none.
            match real.begin() {
                Ok(value) => self.begin::<R>(number, value, note & FRESH != 0, caller),
                Err(why) => {
                    drop(deal);
                    self.refuse_use(caller, why);
                }
            }
        }
        slot.meet(self.epoch, self.bit, number);
        drop(deal);
        if note & FIRST != 0 {
            // Whoever has it outside asks again, once it has it; so one of both is refused.
            if let Err(why) = real.begin() {
                self.refuse_use(caller, why);
            }
        }
        number
    }

    fn settle<R: Real>(&self, slot: &Slot, real: &R, caller: Caller) {
        let refused = slot
            .settle(real, Some(self.epoch))
            .err()
            .map(|why| format!("{why}, and this is another one: one object is in one run at a time"));
        let refused = refused.or_else(|| real.spoilt().map(str::to_string));
        if let Some(why) = refused {
            self.refuse_use(caller, &why);
        }
    }

    fn dealt(&self, deal: &mut Deal) -> Option<u32> {
        if let Some(number) = self.free.borrow_mut().pop().or_else(|| deal.free.pop()) {
            return Some(number | FIRST);
        }
        let number = deal.next;
        deal.next += u32::from(number < self.world.objects);
        self.world.count_number(deal.next);
        (number < self.world.objects).then_some(number | FIRST | FRESH)
    }

    // The object begins with this value; again, with what it had, though it may have outlived other runs.
    fn begin<R: Real>(&self, number: u32, value: u64, is_fresh: bool, caller: Caller) {
        let value = if self.has_heap { self.noted_value::<R>(value) } else { value };
        if self.has_heap && (!is_fresh || value != 0) {
            let access = Access::Write { value };
            if self.finds_races && self.way != Way::Turns {
                self.make_judged(number as u16, access, caller, |memory, _| memory.begin(number, value));
            } else {
                self.make(number as u16, access, caller);
            }
        }
        if self.way == Way::Turns {
            self.memory().begin(number, value);
        }
        self.world.count_object();
    }

    fn noted_value<R: Real>(&self, value: u64) -> u64 {
        let is_pointer = self.holds_addresses::<R>() && is_address(value);
        match self.note(|| if is_pointer { 2 } else { u32::from(value != 0) }) {
            0 => 0,
            1 => self.note_wide(value),
            _ => {
                let (pointer, tags) = untagged(value);
                let number = self.note(|| self.world.pointers.number_of(pointer));
                self.bind(number, pointer);
                coded(number, tags)
            }
        }
    }

    // The object's number, in which run this is.
    #[inline(always)]
    fn number<R: Real>(&self, slot: &Slot, real: &R, caller: Caller) -> u32 {
        slot.met_by(self.epoch, self.bit).unwrap_or_else(|| self.meet(slot, real, caller))
    }

    /// Its number may be another object's.
    pub(crate) fn give_back(&self, number: u32) {
        // Without waiting for the lock: who holds that may wait for an object of this thread.
        self.world.forget_object();
        let mut free = self.free.borrow_mut();
        free.push(number);
        if let Ok(mut deal) = self.world.deal.try_lock() {
            deal.free.append(&mut free);
        }
    }

    #[inline(always)]
    fn make(&self, number: u16, access: Access, caller: Caller) -> u64 {
        let mut out = 0;
        let mut part = self.part.borrow_mut();
        if self.way == Way::Turns {
            // It runs only while it makes an access, so that no other one waits for it.
            part.handle.start();
        }
        let mut status = part.handle.access(number, access, &mut out);
        if status != raw::READY {
            status = self.polled(status, || part.handle.poll(&mut out));
        }
        part.accesses += 1;
        if self.world.keeps_places {
            part.places.push(caller);
        }
        if self.way == Way::Turns {
            part.handle.stop();
        }
        drop(part);
        if status != raw::READY {
            self.not_made(status, out, caller);
        }
        out
    }

    // Waits until the access is made, or the run is over, or it has taken too long: then it is still pending.
    #[cold]
    fn polled(&self, mut status: i32, mut poll: impl FnMut() -> i32) -> i32 {
        let (mut round, mut since) = (0_u32, None);
        while status == raw::PENDING {
            if round < 100 {
                hint::spin_loop();
            } else {
                std::thread::yield_now();
            }
            round = round.wrapping_add(1);
            if round % 256 == 0 {
                let has_waited = since.get_or_insert_with(Instant::now).elapsed();
                if self.world.is_halted() || has_waited >= self.world.patience {
                    return status;
                }
            }
            status = poll();
        }
        status
    }

    // By threads that move freely, or again: makes it, and orders at once what it orders, so that no access after it comes before.
    #[cold]
    fn make_judged(&self, number: u16, access: Access, caller: Caller, order: impl Fn(&mut Memory, u64)) -> u64 {
        let mut out = 0;
        let mut part = self.part.borrow_mut();
        let mut is_begun = false;
        let mut attempt = || {
            let mut memory = self.memory();
            let status = if is_begun { part.handle.poll(&mut out) } else { part.handle.access(number, access, &mut out) };
            is_begun = true;
            if status == raw::READY {
                order(&mut memory, out);
            }
            status
        };
        let status = attempt();
        let status = if status == raw::READY { status } else { self.polled(status, attempt) };
        part.accesses += 1;
        drop(part);
        if status != raw::READY {
            self.not_made(status, out, caller);
        }
        out
    }

    #[cold]
    fn not_made(&self, status: i32, out: u64, caller: Caller) -> ! {
        let error = match status {
            raw::PENDING if self.world.is_halted() => self.stay(),
            raw::OVER => self.recording_ends(),
            raw::PENDING => {
                let at = Place::from(caller);
                self.refuse(format!("thread {} has waited at {at} for too long for its access", self.seat))
            }
            raw::DIVERGED => Error::Diverged { thread: self.seat, accesses: out, place: Some(caller.into()) },
            status => crate::error::checked(status, self.seat).err().unwrap_or(Error::Status(status)),
        };
        self.fail(error)
    }

    /// An access to the object: the value read or found, or the one written.
    #[inline(always)]
    pub(crate) fn access<R: Real>(&self, slot: &Slot, real: &R, access: Access, kind: Kind, caller: Caller) -> u64 {
        if self.finds_races {
            return self.access_judged(slot, real, access, kind, caller);
        }
        let number = self.number(slot, real, caller) as u16;
        self.make_of::<R>(number, access, caller)
    }

    fn access_judged<R: Real>(&self, slot: &Slot, real: &R, access: Access, kind: Kind, caller: Caller) -> u64 {
        if self.way == Way::Turns {
            return self.access_in_turn(slot, real, access, kind, self.placed(caller));
        }
        let number = self.number(slot, real, caller);
        let has_addresses = self.holds_addresses::<R>();
        let access = if has_addresses { self.access_in_numbers(access) } else { access };
        let order = |memory: &mut Memory, found| memory.order(self.seat, number, kind, access.changes(found), caller);
        let found = self.make_judged(number as u16, access, caller, order);
        if has_addresses { self.world.pointers.pointer(found) } else { found }
    }

    #[inline(always)]
    fn make_of<R: Real>(&self, number: u16, access: Access, caller: Caller) -> u64 {
        if self.holds_addresses::<R>() {
            self.make_of_pointers(number, access, caller)
        } else {
            self.make(number, access, caller)
        }
    }

    fn make_of_pointers(&self, number: u16, access: Access, caller: Caller) -> u64 {
        self.world.pointers.pointer(self.make(number, self.access_in_numbers(access), caller))
    }

    // The access with the numbers for which its pointers stand.
    fn access_in_numbers(&self, access: Access) -> Access {
        match access {
            Access::Read => Access::Read,
            Access::Write { value } => Access::Write { value: self.pointer_in(value) },
            Access::Update { change, operand, expected } => {
                Access::Update { change, operand: self.pointer_in(operand), expected: self.pointer_in(expected) }
            }
        }
    }

    fn access_in_turn<R: Real>(&self, slot: &Slot, real: &R, access: Access, kind: Kind, caller: Caller) -> u64 {
        let key = std::ptr::from_ref(slot) as usize;
        self.pass(caller, if matches!(access, Access::Read) { Does::Reads(key) } else { Does::Writes(key) });
        let number = self.number(slot, real, caller);
        let found =
            if self.has_heap { self.make_of::<R>(number as u16, access, caller) } else { self.memory().make(number, access) };
        self.memory().order(self.seat, number, kind, access.changes(found), caller);
        found
    }

    /// By turns: waits until this thread is picked, which then does this.
    pub(crate) fn pass(&self, caller: Caller, does: Does) {
        if self.way != Way::Turns || self.has_turn.replace(false) {
            return;
        }
        self.placed(caller);
        if std::thread::panicking() {
            self.panic_begun();
        }
        self.picked(self.world.turns().pass(self.seat, self.place.get(), does));
    }

    /// By turns: lets the others go first, as the seed has it.
    pub(crate) fn yield_in_turn(&self, caller: Caller) {
        if self.picked(self.world.turns().yield_now(self.seat, caller)) {
            self.place.set(Some(caller));
            self.has_turn.set(!self.is_fine);
        }
    }

    /// By turns: waits until the key is rung. Whether it was, and the time was not over before.
    pub(crate) fn block(&self, key: usize, wake: Wake, is_timed: bool) -> bool {
        let came = self.picked(self.world.turns().block(self.seat, key, wake, is_timed, Does::Nothing));
        self.has_turn.set(came.was_picked && !self.is_fine);
        came.is_rung
    }

    /// This thread panics: it began to after so many others.
    pub(crate) fn panic_begun(&self) -> u64 {
        let begun = self.panic.get().unwrap_or_else(|| self.world.panic_begins());
        self.panic.set(Some(begun));
        begun
    }

    /// By turns: waits until this thread is picked, and what follows is one step with it, which does this.
    pub(crate) fn pass_and_keep(&self, caller: Caller, does: Does) {
        self.pass(caller, does);
        self.has_turn.set(true);
    }

    /// Whether an exchange fails here that may fail for nothing.
    pub(crate) fn fails_for_nothing(&self) -> bool {
        match self.world.whims {
            Whims::None => false,
            Whims::Noted => self.note(|| 0) != 0,
            Whims::Drawn { seed } => {
                let count = self.exchanges.get();
                self.exchanges.set(count + 1);
                let drawn = mixed(seed ^ mixed((self.seat as u64) << 32 | count)) % 4 == 0;
                self.note(|| drawn.into()) != 0
            }
        }
    }

    /// To be asked before the access that may fail: what `wait` waits by.
    #[inline]
    pub(crate) fn ticket(&self, key: usize) -> u64 {
        if self.way == Way::Free { self.world.bells.ticket(key) } else { 0 }
    }

    /// Waits until the key is rung, or for no reason, or, answering false, until the time is over. Again it does not wait.
    pub(crate) fn wait(&self, key: usize, ticket: u64, wake: Wake, most: Option<Duration>) -> bool {
        let wake = Wake { place: self.placed(wake.place), ..wake };
        match self.way {
            Way::Again => true,
            Way::Turns => {
                let is_rung = self.block(key, wake, most.is_some());
                if let (false, Some(most)) = (is_rung, most) {
                    self.memory().passed += most;
                }
                is_rung
            }
            Way::Free => {
                let limit = most.unwrap_or(self.world.patience);
                let is_rung = self.stopped(|| self.world.bells.wait(key, ticket, limit, || self.world.is_halted()));
                if self.world.is_halted() {
                    self.stay();
                }
                if !is_rung && most.is_none() {
                    let (what, place) = (wake.what, Place::from(wake.place));
                    self.refuse(format!("thread {} has waited {limit:?} for {what} at {place}", self.seat));
                }
                is_rung
            }
        }
    }

    /// Rings the key: one thread that waits for it goes on, or all do.
    pub(crate) fn wake(&self, key: usize, all: bool) {
        match self.way {
            Way::Again => {}
            Way::Turns => self.world.turns().wake(key, all),
            Way::Free => self.world.bells.ring(key),
        }
    }

    /// Does the work while no other thread waits for this one.
    pub(crate) fn stopped<T>(&self, work: impl FnOnce() -> T) -> T {
        if self.way == Way::Turns {
            return work();
        }
        self.part.borrow_mut().handle.stop();
        let done = work();
        self.part.borrow_mut().handle.start();
        done
    }

    pub(crate) fn safe_point(&self) {
        if self.way != Way::Turns {
            self.part.borrow_mut().handle.safe_point();
        }
    }

    /// `&mut` access to the value itself: it is what `real` has from here on, and the object is given up.
    pub(crate) fn take_out<R: Real>(&self, slot: &Slot, real: &R, caller: Caller) {
        if slot.number_in(self.epoch).is_none() {
            return self.settle(slot, real, caller);
        }
        let number = self.number(slot, real, caller);
        let value =
            if self.has_heap { self.make_of::<R>(number as u16, Access::Read, caller) } else { self.memory().value(number) };
        real.end(value);
        slot.leave();
    }
}
