//! As `std::sync::atomic`. In a run each access is one of an object of 64 bits, and sequentially consistent; its `Ordering` says
//! only what it orders, by which data races are found. So a program that needs a stronger order than it names fails where that
//! leaves a cell unordered, and not where the value of another atomic would be stale.
//!
//! ```
//! use octet::sync::atomic::{AtomicUsize, Ordering};
//!
//! static COUNT: AtomicUsize = AtomicUsize::new(0);
//! assert_eq!(COUNT.fetch_add(1, Ordering::Relaxed), 0);
//! ```
#![allow(
    clippy::cast_lossless,
    clippy::cast_possible_truncation,
    clippy::cast_possible_wrap,
    clippy::cast_sign_loss,
    reason = "each type is kept in 64 bits, and comes back as it was"
)]
use crate::program::ctx::{Ctx, is_in_run, with};
use crate::program::slot::{Caller, Holds, Object, Real, Refused};
use crate::program::{Kind, world::Way};
use crate::raw::{Access, Change};
use crate::turns::Does;
use std::fmt;
use std::panic::Location;
use std::sync::atomic as real;
pub use std::sync::atomic::{Ordering, compiler_fence};

/// As [`std::sync::atomic::fence`].
///
/// # Panics
/// Where the order is `Relaxed`.
///
/// ```
/// octet::sync::atomic::fence(octet::sync::atomic::Ordering::SeqCst);
/// ```
#[track_caller]
pub fn fence(order: Ordering) {
    let is_told = with(|ctx| match ctx {
        Some(ctx) if ctx.finds_races && order != Ordering::Relaxed => {
            ctx.memory().fence(ctx.seat, order);
            ctx.way == Way::Turns
        }
        _ => false,
    });
    if !is_told {
        real::fence(order);
    }
}

/// As [`std::hint::spin_loop`], under its old name.
///
/// ```
/// octet::sync::atomic::spin_loop_hint();
/// ```
#[track_caller]
pub fn spin_loop_hint() {
    crate::hint::spin_loop();
}

const fn update(change: Change, operand: u64) -> Access {
    Access::Update { change, operand, expected: 0 }
}

// As `std` has it: a load releases nothing.
#[inline(always)]
#[track_caller]
fn judge_load(order: Ordering) {
    assert!(
        !matches!(order, Ordering::Release | Ordering::AcqRel),
        "there is no such thing as a release or acquire-release load"
    );
}

#[inline(always)]
#[track_caller]
fn judge_store(order: Ordering) {
    assert!(
        !matches!(order, Ordering::Acquire | Ordering::AcqRel),
        "there is no such thing as an acquire or acquire-release store"
    );
}

// A read and an exchange, again until nothing comes between. By turns nothing does.
#[inline(never)]
fn by_exchange<R: Real>(object: &Object<R>, ctx: &Ctx, order: Ordering, caller: Caller, new: impl Fn(u64) -> u64) -> u64 {
    loop {
        ctx.pass_and_keep(caller, Does::Writes(object.key()));
        let found = object.access(ctx, Access::Read, Kind::Load(Ordering::Relaxed), caller);
        ctx.has_turn.set(true);
        let exchange = Access::Update { change: Change::CompareExchange, operand: new(found), expected: found };
        if object.access(ctx, exchange, Kind::Exchange(order, Ordering::Relaxed), caller) == found {
            return found;
        }
    }
}

macro_rules! atomic {
    ($name:ident, $value:ty, [$($generic:tt)*], $real:ty, $of:expr, $from:expr, $holds:expr) => {
        impl<$($generic)*> Real for $real {
            const HOLDS: Holds = $holds;

            fn begin(&self) -> Result<u64, Refused> {
                Ok(($of)(self.load(Ordering::Relaxed)))
            }

            fn end(&self, value: u64) {
                self.store(($from)(value), Ordering::Relaxed);
            }
        }

        impl<$($generic)*> $name<$($generic)*> {
            /// As that of `std`.
            #[must_use]
            pub const fn new(value: $value) -> Self {
                Self { object: Object::new(<$real>::new(value)) }
            }

            #[inline(always)]
            fn access(&self, access: Access, kind: Kind, caller: Caller) -> Option<$value> {
                if is_in_run() { Some(($from)(self.in_run(access, kind, caller))) } else { None }
            }

            // A function of its own, so that a thread which is outside of a run keeps no registers for it.
            #[inline(never)]
            fn in_run(&self, access: Access, kind: Kind, caller: Caller) -> u64 {
                with(|ctx| self.object.access(ctx.expect("the thread is one of a run"), access, kind, caller))
            }

            // Whether an exchange of this thread's fails here for nothing: what it then finds.
            #[inline(always)]
            fn whim(&self, order: Ordering, caller: Caller) -> Option<$value> {
                if is_in_run() { self.whim_in_run(order, caller) } else { None }
            }

            #[inline(never)]
            fn whim_in_run(&self, order: Ordering, caller: Caller) -> Option<$value> {
                with(|ctx| {
                    let ctx = ctx.filter(|ctx| ctx.fails_for_nothing())?;
                    Some(($from)(self.object.access(ctx, Access::Read, Kind::Load(order), caller)))
                })
            }

            /// As that of `std`.
            ///
            /// # Panics
            /// Where the order is `Release` or `AcqRel`.
            #[inline]
            #[must_use]
            #[track_caller]
            pub fn load(&self, order: Ordering) -> $value {
                judge_load(order);
                let caller = Location::caller();
                let found = self.access(Access::Read, Kind::Load(order), caller);
                found.unwrap_or_else(|| self.object.outside(caller).load(order))
            }

            /// As that of `std`.
            ///
            /// # Panics
            /// Where the order is `Acquire` or `AcqRel`.
            #[inline]
            #[track_caller]
            pub fn store(&self, value: $value, order: Ordering) {
                judge_store(order);
                let caller = Location::caller();
                if self.access(Access::Write { value: ($of)(value) }, Kind::Store(order), caller).is_none() {
                    self.object.outside(caller).store(value, order);
                }
            }

            /// As that of `std`.
            #[inline]
            #[track_caller]
            pub fn swap(&self, value: $value, order: Ordering) -> $value {
                let caller = Location::caller();
                let found = self.access(update(Change::Swap, ($of)(value)), Kind::Update(order), caller);
                found.unwrap_or_else(|| self.object.outside(caller).swap(value, order))
            }

            /// As that of `std`.
            ///
            /// # Errors
            /// The value found, where it is another one.
            ///
            /// # Panics
            /// Where the order of a failure is `Release` or `AcqRel`.
            #[inline]
            #[track_caller]
            pub fn compare_exchange(
                &self,
                current: $value,
                new: $value,
                success: Ordering,
                failure: Ordering,
            ) -> Result<$value, $value> {
                judge_load(failure);
                let caller = Location::caller();
                let exchange = Access::Update { change: Change::CompareExchange, operand: ($of)(new), expected: ($of)(current) };
                match self.access(exchange, Kind::Exchange(success, failure), caller) {
                    Some(found) if found == current => Ok(found),
                    Some(found) => Err(found),
                    None => self.object.outside(caller).compare_exchange(current, new, success, failure),
                }
            }

            /// As that of `std`. By a third of the seeds it fails now and then for nothing; in a recorded run it never does.
            ///
            /// # Errors
            /// The value found.
            ///
            /// # Panics
            /// Where the order of a failure is `Release` or `AcqRel`.
            #[inline]
            #[track_caller]
            pub fn compare_exchange_weak(
                &self,
                current: $value,
                new: $value,
                success: Ordering,
                failure: Ordering,
            ) -> Result<$value, $value> {
                judge_load(failure);
                match self.whim(failure, Location::caller()) {
                    Some(found) => Err(found),
                    None => self.compare_exchange(current, new, success, failure),
                }
            }

            /// As that of `std`, which names it no more.
            #[track_caller]
            pub fn compare_and_swap(&self, current: $value, new: $value, order: Ordering) -> $value {
                let failure = match order {
                    Ordering::Relaxed | Ordering::Release => Ordering::Relaxed,
                    Ordering::Acquire | Ordering::AcqRel => Ordering::Acquire,
                    _ => Ordering::SeqCst,
                };
                self.compare_exchange(current, new, order, failure).unwrap_or_else(|found| found)
            }

            /// As that of `std`.
            ///
            /// # Errors
            /// The value for which there is no new one.
            ///
            /// # Panics
            /// Where the order of a load is `Release` or `AcqRel`.
            #[track_caller]
            pub fn fetch_update(
                &self,
                set: Ordering,
                fetch: Ordering,
                mut change: impl FnMut($value) -> Option<$value>,
            ) -> Result<$value, $value> {
                let mut found = self.load(fetch);
                while let Some(new) = change(found) {
                    match self.compare_exchange_weak(found, new, set, fetch) {
                        Ok(before) => return Ok(before),
                        Err(other) => found = other,
                    }
                }
                Err(found)
            }

            /// As that of `std`.
            #[track_caller]
            pub fn get_mut(&mut self) -> &mut $value {
                self.object.taken_out(Location::caller()).get_mut()
            }

            /// As that of `std`.
            #[must_use]
            #[track_caller]
            pub fn into_inner(mut self) -> $value {
                *self.get_mut()
            }

            /// As that of loom.
            #[track_caller]
            pub fn with_mut<R>(&mut self, work: impl FnOnce(&mut $value) -> R) -> R {
                work(self.get_mut())
            }

            /// As that of loom: a load that no other thread's store may meet.
            ///
            /// # Safety
            /// No other thread writes it meanwhile. Here nothing goes wrong where one does.
            #[must_use]
            #[track_caller]
            pub unsafe fn unsync_load(&self) -> $value {
                self.load(Ordering::Relaxed)
            }
        }

        impl<$($generic)*> fmt::Debug for $name<$($generic)*> {
            fn fmt(&self, out: &mut fmt::Formatter<'_>) -> fmt::Result {
                fmt::Debug::fmt(&self.load(Ordering::Relaxed), out)
            }
        }

        impl<$($generic)*> From<$value> for $name<$($generic)*> {
            fn from(value: $value) -> Self {
                Self::new(value)
            }
        }
    };
}

// Whether one of the library's updates of 64 bits is that of the type.
const WIDE: bool = true;

macro_rules! integer {
    ($name:ident, $value:ty, $holds:expr, $is_wide:expr, $is_signed:expr) => {
        #[doc = concat!("As [`std::sync::atomic::", stringify!($name), "`].")]
        ///
        /// ```
        #[doc = concat!("use octet::sync::atomic::{", stringify!($name), ", Ordering::SeqCst};")]
        ///
        #[doc = concat!("let seven = ", stringify!($name), "::new(7);")]
        /// assert_eq!((seven.fetch_sub(2, SeqCst), seven.fetch_max(6, SeqCst), seven.into_inner()), (7, 5, 6));
        /// ```
        pub struct $name {
            object: Object<real::$name>,
        }

        atomic!($name, $value, [], real::$name, |value: $value| value as u64, |word: u64| word as $value, $holds);

        impl Default for $name {
            fn default() -> Self {
                Self::new(Default::default())
            }
        }

        integer!(@ $name, $value, fetch_add, Add, $is_wide, |found: $value, by: $value| found.wrapping_add(by));
        integer!(@ $name, $value, fetch_sub, Sub, $is_wide, |found: $value, by: $value| found.wrapping_sub(by));
        integer!(@ $name, $value, fetch_and, And, WIDE, |found: $value, by: $value| found & by);
        integer!(@ $name, $value, fetch_nand, And, !WIDE, |found: $value, by: $value| !(found & by));
        integer!(@ $name, $value, fetch_or, Or, WIDE, |found: $value, by: $value| found | by);
        integer!(@ $name, $value, fetch_xor, Xor, WIDE, |found: $value, by: $value| found ^ by);
        integer!(@ $name, $value, fetch_max, Max, !$is_signed, |found: $value, by: $value| found.max(by));
        integer!(@ $name, $value, fetch_min, Min, !$is_signed, |found: $value, by: $value| found.min(by));
    };
    (@ $name:ident, $value:ty, $fetch:ident, $change:ident, $is_one:expr, $new:expr) => {
        impl $name {
            /// As that of `std`.
            #[inline]
            #[track_caller]
            pub fn $fetch(&self, by: $value, order: Ordering) -> $value {
                let caller = Location::caller();
                if !is_in_run() {
                    return self.object.outside(caller).$fetch(by, order);
                }
                if $is_one {
                    self.in_run(update(Change::$change, by as u64), Kind::Update(order), caller) as $value
                } else {
                    let new = |found| ($new)(found as $value, by) as u64;
                    let found = with(|ctx| ctx.map(|ctx| by_exchange(&self.object, ctx, order, caller, new)));
                    found.expect("the thread is one of a run") as $value
                }
            }
        }
    };
}

integer!(AtomicU64, u64, Holds::Words, WIDE, false);
integer!(AtomicUsize, usize, Holds::Words, WIDE, false);
integer!(AtomicU32, u32, Holds::Numbers, !WIDE, false);
integer!(AtomicU16, u16, Holds::Numbers, !WIDE, false);
integer!(AtomicU8, u8, Holds::Numbers, !WIDE, false);
integer!(AtomicI64, i64, Holds::Words, WIDE, true);
integer!(AtomicIsize, isize, Holds::Words, WIDE, true);
integer!(AtomicI32, i32, Holds::Numbers, !WIDE, true);
integer!(AtomicI16, i16, Holds::Numbers, !WIDE, true);
integer!(AtomicI8, i8, Holds::Numbers, !WIDE, true);

/// As [`std::sync::atomic::AtomicBool`].
///
/// ```
/// use octet::sync::atomic::{AtomicBool, Ordering::SeqCst};
///
/// let flag = AtomicBool::new(false);
/// assert_eq!((flag.fetch_or(true, SeqCst), flag.fetch_nand(true, SeqCst), flag.into_inner()), (false, true, false));
/// ```
#[derive(Default)]
pub struct AtomicBool {
    object: Object<real::AtomicBool>,
}

impl Default for Object<real::AtomicBool> {
    fn default() -> Self {
        Object::new(real::AtomicBool::new(false))
    }
}

atomic!(AtomicBool, bool, [], real::AtomicBool, u64::from, |word: u64| word != 0, Holds::Numbers);

macro_rules! of_bool {
    ($($fetch:ident $change:ident),*) => {
        impl AtomicBool {
            $(
                /// As that of `std`.
                #[track_caller]
                pub fn $fetch(&self, by: bool, order: Ordering) -> bool {
                    let caller = Location::caller();
                    let found = self.access(update(Change::$change, by.into()), Kind::Update(order), caller);
                    found.unwrap_or_else(|| self.object.outside(caller).$fetch(by, order))
                }
            )*

            /// As that of `std`.
            #[track_caller]
            pub fn fetch_nand(&self, by: bool, order: Ordering) -> bool {
                let caller = Location::caller();
                let new = |found| u64::from(!((found != 0) & by));
                let found = with(|ctx| Some(by_exchange(&self.object, ctx?, order, caller, new) != 0));
                found.unwrap_or_else(|| self.object.outside(caller).fetch_nand(by, order))
            }

            /// As that of `std`.
            #[track_caller]
            pub fn fetch_not(&self, order: Ordering) -> bool {
                self.fetch_xor(true, order)
            }
        }
    };
}

of_bool!(fetch_and And, fetch_or Or, fetch_xor Xor);

/// As [`std::sync::atomic::AtomicPtr`]. In a run that is kept, a pointer is a number, with its three lowest bits as tags: the same
/// number in a second run, whose pointers are others.
///
/// ```
/// use octet::sync::atomic::{AtomicPtr, Ordering::SeqCst};
///
/// let five = &mut 5;
/// let pointer = AtomicPtr::new(five);
/// assert_eq!(unsafe { *pointer.swap(std::ptr::null_mut(), SeqCst) }, 5);
/// ```
pub struct AtomicPtr<T> {
    object: Object<real::AtomicPtr<T>>,
}

atomic!(
    AtomicPtr,
    *mut T,
    [T],
    real::AtomicPtr<T>,
    |value: *mut T| value.expose_provenance() as u64,
    |word: u64| std::ptr::with_exposed_provenance_mut(word as usize),
    Holds::Pointers
);

macro_rules! of_pointer {
    ($($fetch:ident ($by:ident: $operand:ty) $new:expr),*) => {
        impl<T> AtomicPtr<T> {
            $(
                /// As that of `std`.
                #[track_caller]
                pub fn $fetch(&self, $by: $operand, order: Ordering) -> *mut T {
                    let failure = Ordering::Relaxed;
                    let mut found = self.load(failure);
                    loop {
                        match self.compare_exchange(found, ($new)(found, $by), order, failure) {
                            Ok(before) => return before,
                            Err(other) => found = other,
                        }
                    }
                }
            )*
        }
    };
}

of_pointer!(
    fetch_ptr_add(by: usize) |found: *mut T, by| found.wrapping_add(by),
    fetch_ptr_sub(by: usize) |found: *mut T, by| found.wrapping_sub(by),
    fetch_byte_add(by: usize) |found: *mut T, by| found.wrapping_byte_add(by),
    fetch_byte_sub(by: usize) |found: *mut T, by| found.wrapping_byte_sub(by),
    fetch_or(tags: usize) |found: *mut T, tags: usize| found.map_addr(|address| address | tags),
    fetch_and(tags: usize) |found: *mut T, tags: usize| found.map_addr(|address| address & tags),
    fetch_xor(tags: usize) |found: *mut T, tags: usize| found.map_addr(|address| address ^ tags)
);

impl<T> Default for AtomicPtr<T> {
    fn default() -> AtomicPtr<T> {
        AtomicPtr::new(std::ptr::null_mut())
    }
}

impl<T> fmt::Pointer for AtomicPtr<T> {
    fn fmt(&self, out: &mut fmt::Formatter<'_>) -> fmt::Result {
        fmt::Pointer::fmt(&self.load(Ordering::Relaxed), out)
    }
}

/// What the counts of `Arc` need: accesses that are no points of preemption, since no thread can tell whether another came before.
impl AtomicUsize {
    fn in_step(&self, access: Access, kind: Kind, caller: Caller) -> Option<usize> {
        with(|ctx| {
            let ctx = ctx?;
            let had_turn = ctx.has_turn.replace(true);
            let found = self.object.access(ctx, access, kind, caller) as usize;
            ctx.has_turn.set(had_turn);
            Some(found)
        })
    }

    #[track_caller]
    pub(super) fn add_in_step(&self, by: usize) -> usize {
        let caller = Location::caller();
        let found = self.in_step(update(Change::Add, by as u64), Kind::Update(Ordering::Relaxed), caller);
        found.unwrap_or_else(|| self.object.outside(caller).fetch_add(by, Ordering::Relaxed))
    }

    #[track_caller]
    pub(super) fn sub_in_step(&self, by: usize, order: Ordering) -> usize {
        let caller = Location::caller();
        let found = self.in_step(update(Change::Sub, by as u64), Kind::Update(order), caller);
        found.unwrap_or_else(|| self.object.outside(caller).fetch_sub(by, order))
    }

    #[track_caller]
    pub(super) fn load_in_step(&self) -> usize {
        let caller = Location::caller();
        let found = self.in_step(Access::Read, Kind::Load(Ordering::Relaxed), caller);
        found.unwrap_or_else(|| self.object.outside(caller).load(Ordering::Relaxed))
    }

    #[track_caller]
    pub(super) fn exchange_in_step(&self, current: usize, new: usize) -> bool {
        let caller = Location::caller();
        let exchange = Access::Update { change: Change::CompareExchange, operand: new as u64, expected: current as u64 };
        match self.in_step(exchange, Kind::Exchange(Ordering::Acquire, Ordering::Relaxed), caller) {
            Some(found) => found == current,
            None => self.object.outside(caller).compare_exchange(current, new, Ordering::Acquire, Ordering::Relaxed).is_ok(),
        }
    }
}
