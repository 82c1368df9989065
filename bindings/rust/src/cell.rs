//! As `std::cell`, with an `UnsafeCell` whose accesses may be told.
#![allow(clippy::cast_possible_truncation, reason = "a word has two numbers of 32 bits")]
use crate::program::ctx::{Ctx, with};
use crate::program::slot::Caller;
use crate::turns::Does;
pub use std::cell::{BorrowError, BorrowMutError, Cell, LazyCell, OnceCell, Ref, RefCell, RefMut};
use std::fmt;
use std::panic::Location;
use std::sync::atomic::{AtomicU64, Ordering};

/// As [`std::cell::UnsafeCell`]; `with` and `with_mut` are those of loom. By a schedule two accesses by these, of different threads
/// and one of them `with_mut`, are a data race where no lock, join or release and acquire orders them, and the run fails. In a
/// recorded run they are by [`Program::data_races`](crate::Program::data_races).
///
/// `get` answers a pointer, and what is done with it is not seen; [`Program::strict_cells`](crate::Program::strict_cells) counts
/// it as a write. Nor is what a `static mut` or raw memory is used for.
///
/// ```
/// let cell = octet::cell::UnsafeCell::new(5);
/// cell.with_mut(|value| unsafe { *value += 1 });
/// assert_eq!(cell.with(|value| unsafe { *value }), 6);
/// ```
pub struct UnsafeCell<T: ?Sized> {
    // Which cell it is in the run of this epoch, the upper half.
    word: AtomicU64,
    value: std::cell::UnsafeCell<T>,
}

impl<T> UnsafeCell<T> {
    /// As that of `std`.
    #[must_use]
    pub const fn new(value: T) -> UnsafeCell<T> {
        UnsafeCell { word: AtomicU64::new(0), value: std::cell::UnsafeCell::new(value) }
    }

    /// As that of `std`.
    #[must_use]
    pub fn into_inner(self) -> T {
        self.value.into_inner()
    }
}

impl<T: Default> Default for UnsafeCell<T> {
    fn default() -> UnsafeCell<T> {
        UnsafeCell::new(T::default())
    }
}

impl<T> From<T> for UnsafeCell<T> {
    fn from(value: T) -> UnsafeCell<T> {
        UnsafeCell::new(value)
    }
}

impl<T: ?Sized> fmt::Debug for UnsafeCell<T> {
    fn fmt(&self, out: &mut fmt::Formatter<'_>) -> fmt::Result {
        out.debug_struct("UnsafeCell").finish_non_exhaustive()
    }
}

impl<T: ?Sized> UnsafeCell<T> {
    fn touch(&self, ctx: &Ctx, writes: bool, caller: Caller) {
        let race = {
            let mut memory = ctx.memory();
            let mut word = self.word.load(Ordering::Relaxed);
            if (word >> 32) as u32 != ctx.epoch {
                word = u64::from(ctx.epoch) << 32 | u64::from(memory.new_cell());
                self.word.store(word, Ordering::Relaxed);
            }
            memory.touch(ctx.seat, word as u32, writes, caller)
        };
        if let Some(race) = race {
            ctx.world.note_race(ctx, race);
        }
    }

    fn judge(&self, writes: bool, caller: Caller) {
        with(|ctx| ctx.filter(|ctx| ctx.finds_races).map(|ctx| self.touch(ctx, writes, caller)));
    }

    /// As that of loom: a read.
    #[track_caller]
    pub fn with<R>(&self, read: impl FnOnce(*const T) -> R) -> R {
        self.judge(false, Location::caller());
        read(self.value.get())
    }

    /// As that of loom: a write.
    #[track_caller]
    pub fn with_mut<R>(&self, write: impl FnOnce(*mut T) -> R) -> R {
        self.judge(true, Location::caller());
        write(self.value.get())
    }

    /// As that of `std`. By a schedule it is a point of preemption.
    #[must_use]
    #[track_caller]
    pub fn get(&self) -> *mut T {
        let caller = Location::caller();
        with(|ctx| {
            let ctx = ctx.filter(|ctx| ctx.finds_races)?;
            // What comes next is not one step with it.
            ctx.pass(caller, Does::Writes(std::ptr::from_ref(&self.word) as usize));
            if ctx.world.is_strict {
                self.touch(ctx, true, caller);
            }
            Some(())
        });
        self.value.get()
    }

    /// As that of `std`.
    pub const fn get_mut(&mut self) -> &mut T {
        self.value.get_mut()
    }
}
