//! Pointers to a value of an `Arc` that do not keep it.
use super::Arc;
use super::arc::{Inner, LOCKED, freed, offset_of};
use super::atomic::{AtomicUsize, fence};
use std::fmt;
use std::mem::ManuallyDrop;
use std::panic::{RefUnwindSafe, UnwindSafe};
use std::ptr::{self, NonNull};
use std::sync::atomic::Ordering::{Acquire, Relaxed, Release};

/// As [`std::sync::Weak`].
///
/// ```
/// use octet::sync::{Arc, Weak};
///
/// let shared = Arc::new(5);
/// let weak: Weak<i32> = Arc::downgrade(&shared);
/// assert_eq!(weak.upgrade().as_deref(), Some(&5));
/// drop(shared);
/// assert_eq!(weak.upgrade(), None);
/// ```
pub struct Weak<T: ?Sized> {
    // Of one that `new` has made, no memory: this is no address then.
    inner: NonNull<Inner<T>>,
}

// SAFETY: as that of `std`: what it is upgraded to may be shared and dropped by any thread.
unsafe impl<T: ?Sized + Send + Sync> Send for Weak<T> {}
// SAFETY: as above.
unsafe impl<T: ?Sized + Send + Sync> Sync for Weak<T> {}
impl<T: RefUnwindSafe + ?Sized> UnwindSafe for Weak<T> {}
impl<T: RefUnwindSafe + ?Sized> RefUnwindSafe for Weak<T> {}

/// The counts, which are there as long as a weak pointer is.
struct Counts<'a> {
    strong: &'a AtomicUsize,
    weak: &'a AtomicUsize,
}

impl<T> Weak<T> {
    /// As that of `std`.
    #[must_use]
    pub const fn new() -> Weak<T> {
        // SAFETY: the greatest number is not zero.
        Weak { inner: unsafe { NonNull::new_unchecked(ptr::without_provenance_mut(usize::MAX)) } }
    }
}

impl<T: ?Sized> Weak<T> {
    pub(super) fn of(inner: NonNull<Inner<T>>) -> Weak<T> {
        Weak { inner }
    }

    fn is_dangling(&self) -> bool {
        self.inner.cast::<()>().addr().get() == usize::MAX
    }

    fn counts(&self) -> Option<Counts<'_>> {
        if self.is_dangling() {
            return None;
        }
        let inner = self.inner.cast::<Inner<()>>().as_ptr();
        // SAFETY: the counts are there while this pointer is, and stand first. Of the value nothing is borrowed.
        Some(unsafe { Counts { strong: &(*inner).strong, weak: &(*inner).weak } })
    }

    /// As that of `std`.
    #[must_use = "the value may be dropped again where this is"]
    #[track_caller]
    pub fn upgrade(&self) -> Option<Arc<T>> {
        let strong = self.counts()?.strong;
        let more = |count: usize| (count != 0).then(|| count.checked_add(1)).flatten();
        strong.fetch_update(Acquire, Relaxed, more).is_ok().then(|| Arc::of(self.inner))
    }

    /// As that of `std`.
    #[must_use]
    #[track_caller]
    pub fn strong_count(&self) -> usize {
        self.counts().map_or(0, |counts| counts.strong.load(Relaxed))
    }

    /// As that of `std`.
    #[must_use]
    #[track_caller]
    pub fn weak_count(&self) -> usize {
        let Some(Counts { strong, weak }) = self.counts() else {
            return 0;
        };
        let count = weak.load(Acquire);
        if strong.load(Relaxed) == 0 || count == LOCKED { 0 } else { count - 1 }
    }

    /// As that of `std`.
    #[must_use]
    pub fn ptr_eq(&self, other: &Weak<T>) -> bool {
        ptr::addr_eq(self.inner.as_ptr(), other.inner.as_ptr())
    }
}

impl<T> Weak<T> {
    /// As that of `std`, of sized values.
    #[must_use]
    pub fn as_ptr(&self) -> *const T {
        let value = std::mem::MaybeUninit::<T>::uninit();
        self.inner.as_ptr().cast::<T>().wrapping_byte_add(offset_of(&value)).cast_const()
    }

    /// As that of `std`, of sized values.
    #[must_use = "the memory is given back by `from_raw` alone"]
    pub fn into_raw(self) -> *const T {
        ManuallyDrop::new(self).as_ptr()
    }

    /// As that of `std`, of sized values.
    ///
    /// # Safety
    /// As that of `std`: `into_raw` has answered the pointer, and it is taken back once.
    #[must_use]
    pub unsafe fn from_raw(value: *const T) -> Weak<T> {
        let like = std::mem::MaybeUninit::<T>::uninit();
        let inner = value.cast_mut().wrapping_byte_sub(offset_of(&like)).cast::<Inner<T>>();
        // SAFETY: the pointer of `into_raw` stands behind another one that is not null.
        Weak { inner: unsafe { NonNull::new_unchecked(inner) } }
    }
}

impl<T: ?Sized> Clone for Weak<T> {
    #[track_caller]
    fn clone(&self) -> Weak<T> {
        if let Some(counts) = self.counts() {
            counts.weak.add_in_step(1);
        }
        Weak { inner: self.inner }
    }
}

impl<T: ?Sized> Drop for Weak<T> {
    #[track_caller]
    fn drop(&mut self) {
        let is_last = self.counts().is_some_and(|counts| counts.weak.sub_in_step(1, Release) == 1);
        if is_last {
            fence(Acquire);
            // SAFETY: the memory was made for an `Arc`, whose strong pointers were this one's part, and nobody else has it.
            unsafe { freed(self.inner) };
        }
    }
}

impl<T> Default for Weak<T> {
    fn default() -> Weak<T> {
        Weak::new()
    }
}

impl<T: ?Sized> fmt::Debug for Weak<T> {
    fn fmt(&self, out: &mut fmt::Formatter<'_>) -> fmt::Result {
        out.write_str("(Weak)")
    }
}
