//! Values that are made once.
use super::Once;
use super::once::Poison;
use crate::program::slot::Caller;
use std::any::TypeId;
use std::cell::{Cell, UnsafeCell};
use std::convert::Infallible;
use std::fmt;
use std::marker::PhantomData;
use std::mem::{self, ManuallyDrop};
use std::ops::Deref;
use std::panic::{Location, RefUnwindSafe, UnwindSafe};
use std::ptr;

/// As [`std::sync::OnceLock`]. Its value stands in memory of its own: in a static, each explored seed makes it anew, and what an
/// earlier one has made stays where it is.
///
/// ```
/// use octet::sync::OnceLock;
///
/// static NAME: OnceLock<String> = OnceLock::new();
/// assert_eq!(NAME.get_or_init(|| "octet".to_string()), "octet");
/// assert_eq!(NAME.set("other".to_string()), Err("other".to_string()));
/// ```
pub struct OnceLock<T> {
    once: Once,
    value: UnsafeCell<Option<ManuallyDrop<Box<T>>>>,
}

// SAFETY: as that of `std`: the value goes to the thread that drops it.
unsafe impl<T: Send> Send for OnceLock<T> {}
// SAFETY: as that of `std`: beside that, threads share it. One of them writes it, once, before the others read it.
unsafe impl<T: Send + Sync> Sync for OnceLock<T> {}
impl<T: UnwindSafe> UnwindSafe for OnceLock<T> {}
impl<T: UnwindSafe + RefUnwindSafe> RefUnwindSafe for OnceLock<T> {}

impl<T> OnceLock<T> {
    /// As that of `std`.
    #[must_use]
    pub const fn new() -> OnceLock<T> {
        OnceLock { once: Once::new(), value: UnsafeCell::new(None) }
    }

    // The value, which is there once it is made.
    fn made(&self) -> &T {
        // SAFETY: `once` is done, so the value is written, and nobody writes it again while this run goes on. A later run may write
        // another one there, and leaves this one's memory as it is.
        let value = unsafe { &*self.value.get() };
        let value = &raw const ***value.as_ref().expect("it is made");
        // SAFETY: the box is dropped by `take` and with the whole alone, which have it to themselves.
        unsafe { &*value }
    }

    /// As that of `std`.
    #[must_use]
    #[track_caller]
    pub fn get(&self) -> Option<&T> {
        self.once.is_completed().then(|| self.made())
    }

    /// As that of `std`.
    ///
    /// # Errors
    /// The value, where there is one already.
    #[track_caller]
    pub fn set(&self, value: T) -> Result<(), T> {
        let mut value = Some(value);
        // It is asked once, so that there is one.
        self.init(Poison::Ignored, || value.take().ok_or(()), Location::caller());
        value.map_or(Ok(()), Err)
    }

    fn init<E>(&self, poison: Poison, make: impl FnOnce() -> Result<T, E>, caller: Caller) -> Option<E> {
        let work = |_: &super::OnceState| {
            let made = Some(ManuallyDrop::new(Box::new(make()?)));
            // SAFETY: one thread does this, and nobody reads the value before it is done. What an earlier seed has made is not
            // dropped, since one of its threads may still have it.
            unsafe { self.value.get().write(made) };
            Ok(())
        };
        self.once.try_call(poison, work, caller).err()
    }

    /// As that of `std`.
    #[track_caller]
    pub fn get_or_init(&self, make: impl FnOnce() -> T) -> &T {
        self.init(Poison::Ignored, || Ok::<T, Infallible>(make()), Location::caller());
        self.made()
    }

    /// As that of `std`, which has it no more than as a feature.
    ///
    /// # Errors
    /// What the work has answered.
    #[track_caller]
    pub fn get_or_try_init<E>(&self, make: impl FnOnce() -> Result<T, E>) -> Result<&T, E> {
        match self.init(Poison::Ignored, make, Location::caller()) {
            Some(error) => Err(error),
            None => Ok(self.made()),
        }
    }

    /// As that of `std`.
    #[track_caller]
    pub fn wait(&self) -> &T {
        self.once.wait_force();
        self.made()
    }

    /// As that of `std`.
    #[must_use]
    #[track_caller]
    pub fn get_mut(&mut self) -> Option<&mut T> {
        let is_there = self.once.is_completed();
        self.value.get_mut().as_mut().filter(|_| is_there).map(|value| &mut ***value)
    }

    /// As that of `std`.
    #[must_use]
    #[track_caller]
    pub fn take(&mut self) -> Option<T> {
        let is_there = self.once.is_completed();
        self.once = Once::new();
        self.value.get_mut().take().filter(|_| is_there).map(|value| *ManuallyDrop::into_inner(value))
    }

    /// As that of `std`.
    #[must_use]
    #[track_caller]
    pub fn into_inner(mut self) -> Option<T> {
        self.take()
    }
}

impl<T> Drop for OnceLock<T> {
    fn drop(&mut self) {
        drop(self.take());
    }
}

impl<T> Default for OnceLock<T> {
    fn default() -> OnceLock<T> {
        OnceLock::new()
    }
}

impl<T> From<T> for OnceLock<T> {
    fn from(value: T) -> OnceLock<T> {
        let lock = OnceLock::new();
        let _ = lock.set(value);
        lock
    }
}

impl<T: Clone> Clone for OnceLock<T> {
    fn clone(&self) -> OnceLock<T> {
        self.get().map_or_else(OnceLock::new, |value| value.clone().into())
    }
}

impl<T: PartialEq> PartialEq for OnceLock<T> {
    fn eq(&self, other: &OnceLock<T>) -> bool {
        self.get() == other.get()
    }
}

impl<T: Eq> Eq for OnceLock<T> {}

impl<T: fmt::Debug> fmt::Debug for OnceLock<T> {
    fn fmt(&self, out: &mut fmt::Formatter<'_>) -> fmt::Result {
        match self.get() {
            Some(value) => out.debug_tuple("OnceLock").field(value).finish(),
            None => out.debug_tuple("OnceLock").field(&format_args!("<uninit>")).finish(),
        }
    }
}

/// As [`std::sync::LazyLock`]. In a static, each explored seed makes it anew.
///
/// ```
/// use octet::sync::LazyLock;
///
/// static SQUARES: LazyLock<Vec<u32>> = LazyLock::new(|| (0..4).map(|number| number * number).collect());
/// assert_eq!(*SQUARES, [0, 1, 4, 9]);
/// ```
pub struct LazyLock<T, F = fn() -> T> {
    value: OnceLock<T>,
    make: Cell<Option<F>>,
}

// SAFETY: as that of `std`: `make` is taken by the one thread that makes the value.
unsafe impl<T: Send + Sync, F: Send> Sync for LazyLock<T, F> {}
impl<T: UnwindSafe, F: UnwindSafe> UnwindSafe for LazyLock<T, F> {}
impl<T: UnwindSafe + RefUnwindSafe, F: UnwindSafe> RefUnwindSafe for LazyLock<T, F> {}

trait Named {
    fn name(&self) -> TypeId
    where
        Self: 'static;
}

impl<T> Named for PhantomData<T> {
    fn name(&self) -> TypeId
    where
        Self: 'static,
    {
        TypeId::of::<T>()
    }
}

// The type but for its lifetimes.
fn id_of<T>() -> TypeId {
    let of: &dyn Named = &PhantomData::<T>;
    // SAFETY: nothing is read by the reference, and the number of a type is the same for all its lifetimes.
    Named::name(unsafe { mem::transmute::<&dyn Named, &(dyn Named + 'static)>(of) })
}

impl<T, F: FnOnce() -> T> LazyLock<T, F> {
    /// As that of `std`.
    #[must_use]
    pub const fn new(make: F) -> LazyLock<T, F> {
        LazyLock { value: OnceLock::new(), make: Cell::new(Some(make)) }
    }

    // What makes the value. A function is there for the next seed, too.
    fn maker(&self) -> Option<F> {
        let make = self.make.take()?;
        if id_of::<F>() == id_of::<fn() -> T>() {
            // SAFETY: it is a pointer to a function, which may be copied.
            self.make.set(Some(unsafe { ptr::read(&raw const make) }));
        }
        Some(make)
    }

    /// As that of `std`.
    ///
    /// # Panics
    /// Where an earlier call has panicked; and where an earlier seed has taken what makes the value, and that is no function.
    #[track_caller]
    pub fn force(this: &LazyLock<T, F>) -> &T {
        let work = || {
            let make = this.maker().expect("what makes the LazyLock is no function, and an earlier seed has taken it");
            Ok::<T, Infallible>(make())
        };
        this.value.init(Poison::Told("LazyLock"), work, Location::caller());
        this.value.made()
    }
}

impl<T, F: FnOnce() -> T> Deref for LazyLock<T, F> {
    type Target = T;

    #[track_caller]
    fn deref(&self) -> &T {
        LazyLock::force(self)
    }
}

impl<T: Default> Default for LazyLock<T> {
    fn default() -> LazyLock<T> {
        LazyLock::new(T::default)
    }
}

impl<T: fmt::Debug, F> fmt::Debug for LazyLock<T, F> {
    fn fmt(&self, out: &mut fmt::Formatter<'_>) -> fmt::Result {
        match self.value.get() {
            Some(value) => out.debug_tuple("LazyLock").field(value).finish(),
            None => out.debug_tuple("LazyLock").field(&format_args!("<uninit>")).finish(),
        }
    }
}
