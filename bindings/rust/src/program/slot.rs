//! An object of a run, beside the value of `std` that it is outside of runs; and which runs go on.
//!
//! A run that is explored leaves the values outside as they were, so each seed begins with the same ones. A run that is recorded
//! hands on what it leaves: an object takes that over when it is next used.
#![allow(clippy::cast_possible_truncation, reason = "a word has several numbers, each in so many of its bits")]
use super::clocks::Kind;
use super::ctx::{Ctx, with};
use super::held;
use super::pointers::Pointers;
use super::world::Way;
use crate::raw::{Access, Change};
use std::collections::BTreeMap;
use std::sync::Mutex;
use std::sync::atomic::{AtomicU64, Ordering};

pub(crate) use crate::turns::Caller;
use crate::turns::Holder;

/// What an object's values are.
#[derive(Clone, Copy, PartialEq, Eq)]
pub(crate) enum Holds {
    Numbers,
    /// Integers as wide as a pointer: they may be addresses where the program says so.
    Words,
    Pointers,
}

/// Why an object cannot come into a run.
pub(crate) type Refused = &'static str;

/// What an object is outside of runs.
pub(crate) trait Real {
    const HOLDS: Holds = Holds::Numbers;
    /// The value with which it comes into a run.
    fn begin(&self) -> Result<u64, Refused>;
    /// Takes what a run has left.
    fn end(&self, value: u64);
    /// What an explored run has changed beside the object, and nobody sets back; it is asked once.
    fn spoilt(&self) -> Option<Refused> {
        None
    }
}

/// What is known of a run by the number of its epoch. One that is not here was explored, and is over.
enum Run {
    GoesOn,
    Over(Over),
}

/// What a recorded run has left, until each object that outlives it has taken its own.
struct Over {
    values: Vec<u64>,
    pointers: Option<Pointers>,
    left: usize,
}

static RUNS: Mutex<BTreeMap<u32, Run>> = Mutex::new(BTreeMap::new());

/// A run begins.
pub(crate) fn begin_run(epoch: u32) {
    held(&RUNS).insert(epoch, Run::GoesOn);
}

/// A run is over that leaves nothing.
pub(crate) fn end_run(epoch: u32) {
    held(&RUNS).remove(&epoch);
}

/// A run is over that leaves these values to so many objects.
pub(crate) fn leave_run(epoch: u32, values: Vec<u64>, pointers: Option<Pointers>, left: usize) {
    if left == 0 {
        return end_run(epoch);
    }
    held(&RUNS).insert(epoch, Run::Over(Over { values, pointers, left }));
}

fn epoch_of(word: u64) -> u32 {
    (word >> 32) as u32
}

/// Which object something is in the run of this epoch, and which threads have met it: the epoch, a bit for each seat, the number.
/// All zero before its first run, so that memory which is all zero is one.
#[derive(Debug)]
pub(crate) struct Slot {
    word: AtomicU64,
}

impl Slot {
    pub(crate) const fn new() -> Slot {
        Slot { word: AtomicU64::new(0) }
    }

    /// Its number in the run of this epoch, if it is one of its objects.
    #[inline(always)]
    pub(crate) fn number_in(&self, epoch: u32) -> Option<u32> {
        let word = self.word.load(Ordering::Acquire);
        (epoch_of(word) == epoch).then_some(u32::from(word as u16))
    }

    /// Its number, where the thread of this bit has met it.
    #[inline(always)]
    pub(crate) fn met_by(&self, epoch: u32, bit: u64) -> Option<u32> {
        let word = self.word.load(Ordering::Relaxed);
        (epoch_of(word) == epoch && word & bit != 0).then_some(u32::from(word as u16))
    }

    /// The thread of this bit has met it, under this number.
    pub(crate) fn meet(&self, epoch: u32, bit: u64, number: u32) {
        let mut word = self.word.load(Ordering::Relaxed);
        loop {
            let met = if epoch_of(word) == epoch { word } else { u64::from(epoch) << 32 | u64::from(number) };
            match self.word.compare_exchange_weak(word, met | bit, Ordering::SeqCst, Ordering::Relaxed) {
                Ok(_) => return,
                Err(other) => word = other,
            }
        }
    }

    /// Takes over what the last run has left. Refused where that run goes on, and is none of this epoch.
    #[inline(always)]
    pub(crate) fn settle<R: Real>(&self, real: &R, mine: Option<u32>) -> Result<(), Refused> {
        if self.word.load(Ordering::SeqCst) == 0 { Ok(()) } else { self.settle_now(real, mine) }
    }

    #[cold]
    fn settle_now<R: Real>(&self, real: &R, mine: Option<u32>) -> Result<(), Refused> {
        let mut runs = held(&RUNS);
        let word = self.word.load(Ordering::Relaxed);
        let epoch = epoch_of(word);
        match runs.get_mut(&epoch) {
            // Another thread of this run may have met it meanwhile.
            _ if word == 0 || mine == Some(epoch) => {}
            None => self.word.store(0, Ordering::Release),
            Some(Run::GoesOn) => return Err("is in a run that goes on"),
            Some(Run::Over(over)) => {
                if let Some(&value) = over.values.get(usize::from(word as u16)) {
                    let pointers = over.pointers.as_ref().filter(|_| R::HOLDS != Holds::Numbers);
                    real.end(pointers.map_or(value, |pointers| pointers.pointer(value)));
                }
                self.word.store(0, Ordering::Release);
                give_up(&mut runs, epoch);
            }
        }
        Ok(())
    }

    /// It is no object of its run any more: its value stands outside.
    pub(crate) fn leave(&self) {
        let word = self.word.swap(0, Ordering::Relaxed);
        if word == 0 {
            return;
        }
        let epoch = epoch_of(word);
        let is_here = with(|ctx| match ctx {
            Some(ctx) if ctx.epoch == epoch => {
                ctx.give_back(u32::from(word as u16));
                true
            }
            _ => false,
        });
        if !is_here {
            give_up(&mut held(&RUNS), epoch);
        }
    }
}

// One object less takes what the run has left.
fn give_up(runs: &mut BTreeMap<u32, Run>, epoch: u32) {
    if let Some(Run::Over(over)) = runs.get_mut(&epoch) {
        over.left -= 1;
        if over.left == 0 {
            runs.remove(&epoch);
        }
    }
}

impl Drop for Slot {
    fn drop(&mut self) {
        if *self.word.get_mut() != 0 {
            self.leave();
        }
    }
}

/// A value of `std` that is an object while a run goes on.
#[derive(Debug)]
pub(crate) struct Object<R> {
    slot: Slot,
    real: R,
}

impl<R> Object<R> {
    pub(crate) const fn new(real: R) -> Object<R> {
        Object { slot: Slot::new(), real }
    }

    /// By turns: who holds it, and where that was stored.
    pub(crate) fn held_by(&self, ctx: &Ctx, seat: u64) -> Option<Holder> {
        let number = self.slot.number_in(ctx.epoch).filter(|_| ctx.way == Way::Turns);
        Some(Holder { seat: usize::try_from(seat).ok()?, at: number.and_then(|number| ctx.memory().stored_at(number)) })
    }

    /// By this key threads wait for it.
    pub(crate) fn key(&self) -> usize {
        std::ptr::from_ref(&self.slot) as usize
    }
}

impl<R: Real> Object<R> {
    /// An access by a thread of a run: the value read or found, or the one written.
    #[inline(always)]
    pub(crate) fn access(&self, ctx: &Ctx, access: Access, kind: Kind, caller: Caller) -> u64 {
        ctx.access(&self.slot, &self.real, access, kind, caller)
    }

    /// What it is outside of runs.
    ///
    /// # Panics
    /// Where a run has it that goes on.
    #[inline(always)]
    pub(crate) fn outside(&self, caller: Caller) -> &R {
        if let Err(why) = self.slot.settle(&self.real, None) {
            used_outside(why, caller);
        }
        &self.real
    }

    /// What it is outside of runs, as it stands. Whoever holds it there asks `outside` after that.
    pub(crate) fn real(&self) -> &R {
        &self.real
    }

    /// What it is outside of runs, since nobody else has it.
    pub(crate) fn taken_out(&mut self, caller: Caller) -> &mut R {
        with(|ctx| match ctx {
            Some(ctx) => ctx.take_out(&self.slot, &self.real, caller),
            None => {
                self.outside(caller);
            }
        });
        &mut self.real
    }

    /// Puts `new` there where `current` is found. Acquires by that, and orders nothing where it fails.
    pub(crate) fn exchange(&self, ctx: &Ctx, current: u64, new: u64, caller: Caller) -> Result<(), u64> {
        let exchange = Access::Update { change: Change::CompareExchange, operand: new, expected: current };
        let found = self.access(ctx, exchange, Kind::Exchange(Ordering::Acquire, Ordering::Relaxed), caller);
        if found == current { Ok(()) } else { Err(found) }
    }

    /// Loads with `Acquire`.
    pub(crate) fn load(&self, ctx: &Ctx, caller: Caller) -> u64 {
        self.access(ctx, Access::Read, Kind::Load(Ordering::Acquire), caller)
    }

    /// Stores with `Release`.
    pub(crate) fn store(&self, ctx: &Ctx, value: u64, caller: Caller) {
        self.access(ctx, Access::Write { value }, Kind::Store(Ordering::Release), caller);
    }

    /// An update with this order: the value found.
    pub(crate) fn update(&self, ctx: &Ctx, change: Change, operand: u64, order: Ordering, caller: Caller) -> u64 {
        self.access(ctx, Access::Update { change, operand, expected: 0 }, Kind::Update(order), caller)
    }
}

#[cold]
fn used_outside(why: Refused, caller: Caller) -> ! {
    let at = crate::Place::from(caller);
    panic!("what is used at {at} {why}, and this thread is none of that run's")
}
