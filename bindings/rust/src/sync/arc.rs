//! An `Arc` whose counts are objects: a second run drops the value in the same thread, and by a schedule another thread may come
//! before the last drop.
use super::Weak;
use super::atomic::{AtomicUsize, fence};
use std::alloc::{Layout, alloc, dealloc, handle_alloc_error};
use std::any::Any;
use std::borrow::Borrow;
use std::cmp::Ordering as Compared;
use std::fmt;
use std::hash::{Hash, Hasher};
use std::marker::PhantomData;
use std::mem::{self, ManuallyDrop, MaybeUninit};
use std::ops::Deref;
use std::panic::{RefUnwindSafe, UnwindSafe};
use std::pin::Pin;
use std::ptr::{self, NonNull};
use std::sync::atomic::Ordering::{Acquire, Relaxed, Release};

/// More would overflow before a thread that sees it could stop: that of `std` aborts there, too.
const MOST: usize = isize::MAX as usize;

/// The weak count while one looks whether it is alone.
pub(super) const LOCKED: usize = usize::MAX;

/// What both kinds of pointers share. All strong ones together are one weak one, so that the memory outlives the value.
#[repr(C)]
pub(super) struct Inner<T: ?Sized> {
    pub(super) strong: AtomicUsize,
    pub(super) weak: AtomicUsize,
    pub(super) value: T,
}

/// As [`std::sync::Arc`], but for what the compiler knows of that alone: `Arc<dyn Trait>` is made by `Arc::from`.
///
/// ```
/// use octet::sync::Arc;
///
/// let shared = Arc::new(5);
/// let other = Arc::clone(&shared);
/// assert_eq!((*other, Arc::strong_count(&shared)), (5, 2));
/// let doubles: Arc<dyn Fn(u32) -> u32> = Arc::from(Box::new(|number: u32| 2 * number) as Box<dyn Fn(u32) -> u32>);
/// assert_eq!(doubles(4), 8);
/// ```
pub struct Arc<T: ?Sized> {
    inner: NonNull<Inner<T>>,
    owns: PhantomData<Inner<T>>,
}

// SAFETY: as that of `std`: threads share the value, and any of them may drop it.
unsafe impl<T: ?Sized + Send + Sync> Send for Arc<T> {}
// SAFETY: as above.
unsafe impl<T: ?Sized + Send + Sync> Sync for Arc<T> {}
impl<T: ?Sized> Unpin for Arc<T> {}
impl<T: RefUnwindSafe + ?Sized> UnwindSafe for Arc<T> {}
impl<T: RefUnwindSafe + ?Sized> RefUnwindSafe for Arc<T> {}

/// Where the value stands behind the counts.
pub(super) fn offset_of<T: ?Sized>(value: &T) -> usize {
    let counts = Layout::new::<Inner<()>>();
    counts.extend(Layout::for_value(value)).map_or(0, |(_, offset)| offset)
}

fn layout_of<T: ?Sized>(value: &T) -> Layout {
    let whole = Layout::new::<Inner<()>>().extend(Layout::for_value(value));
    whole.expect("a value fits into memory with its counts").0.pad_to_align()
}

// Memory for a value like this, with one strong pointer.
fn allocated<T: ?Sized>(value: &T) -> NonNull<u8> {
    let layout = layout_of(value);
    // SAFETY: with the counts it is not of size zero.
    let Some(memory) = NonNull::new(unsafe { alloc(layout) }) else {
        handle_alloc_error(layout);
    };
    let counts = memory.cast::<Inner<()>>().as_ptr();
    // SAFETY: the memory is large enough for the counts, and has them first.
    unsafe { counts.write(Inner { strong: AtomicUsize::new(1), weak: AtomicUsize::new(1), value: () }) };
    memory
}

/// Drops the counts and gives back the memory; the value is dropped already, or moved out.
///
/// # Safety
/// `allocated` has made it for such a value, and nobody else has it.
pub(super) unsafe fn freed<T: ?Sized>(inner: NonNull<Inner<T>>) {
    // SAFETY: as the caller promises. A reference to the value is of its layout alone, and reads nothing.
    unsafe {
        let layout = Layout::for_value(inner.as_ref());
        let counts = inner.cast::<Inner<()>>().as_ptr();
        ptr::drop_in_place(&raw mut (*counts).strong);
        ptr::drop_in_place(&raw mut (*counts).weak);
        dealloc(inner.cast().as_ptr(), layout);
    }
}

impl<T> Arc<T> {
    /// As that of `std`.
    #[must_use]
    pub fn new(value: T) -> Arc<T> {
        let inner = allocated(&value).cast::<Inner<T>>();
        // SAFETY: the memory is for a value of this type.
        unsafe { (&raw mut (*inner.as_ptr()).value).write(value) };
        Arc { inner, owns: PhantomData }
    }

    /// As that of `std`.
    #[must_use]
    #[track_caller]
    pub fn new_cyclic(make: impl FnOnce(&Weak<T>) -> T) -> Arc<T> {
        let value = MaybeUninit::<T>::uninit();
        let inner = allocated(&value).cast::<Inner<T>>();
        // SAFETY: the counts are written.
        let strong = unsafe { &(*inner.as_ptr()).strong };
        // Until the value is there, no strong pointer is, and the weak one has the memory.
        strong.store(0, Relaxed);
        let weak = Weak::of(inner);
        let value = make(&weak);
        // SAFETY: the memory is for a value of this type, and nobody reads it while there is no strong pointer.
        unsafe { (&raw mut (*inner.as_ptr()).value).write(value) };
        strong.store(1, Release);
        // It is the one that all strong ones have together.
        mem::forget(weak);
        Arc { inner, owns: PhantomData }
    }

    /// As that of `std`.
    #[must_use]
    pub fn pin(value: T) -> Pin<Arc<T>> {
        // SAFETY: the value does not move while an `Arc` has it.
        unsafe { Pin::new_unchecked(Arc::new(value)) }
    }

    /// As that of `std`.
    ///
    /// # Errors
    /// The pointer, where it is not the last one.
    #[track_caller]
    pub fn try_unwrap(this: Arc<T>) -> Result<T, Arc<T>> {
        if this.inner().strong.compare_exchange(1, 0, Relaxed, Relaxed).is_err() {
            return Err(this);
        }
        fence(Acquire);
        let this = ManuallyDrop::new(this);
        // SAFETY: this was the last one, and is no more; so the value is moved out once.
        let value = unsafe { ptr::read(&raw const (*this.inner.as_ptr()).value) };
        drop(Weak::of(this.inner));
        Ok(value)
    }

    /// As that of `std`.
    #[must_use]
    #[track_caller]
    pub fn into_inner(this: Arc<T>) -> Option<T> {
        let this = ManuallyDrop::new(this);
        if this.inner().strong.fetch_sub(1, Release) != 1 {
            return None;
        }
        fence(Acquire);
        // SAFETY: as in `try_unwrap`.
        let value = unsafe { ptr::read(&raw const (*this.inner.as_ptr()).value) };
        drop(Weak::of(this.inner));
        Some(value)
    }
}

impl<T: Clone> Arc<T> {
    /// As that of `std`.
    #[must_use]
    #[track_caller]
    pub fn unwrap_or_clone(this: Arc<T>) -> T {
        Arc::try_unwrap(this).unwrap_or_else(|shared| (*shared).clone())
    }

    /// As that of `std`.
    #[track_caller]
    pub fn make_mut(this: &mut Arc<T>) -> &mut T {
        if this.inner().strong.compare_exchange(1, 0, Acquire, Relaxed).is_err() {
            *this = Arc::new((**this).clone());
        } else if this.inner().weak.load(Relaxed) == 1 {
            this.inner().strong.store(1, Release);
        } else {
            // SAFETY: there is no strong pointer any more, so the value is moved out once.
            let value = unsafe { ptr::read(&raw const (*this.inner.as_ptr()).value) };
            let moved = ManuallyDrop::new(Arc::new(value));
            drop(Weak::of(mem::replace(&mut this.inner, moved.inner)));
        }
        // SAFETY: there is no other one, as was found or since it is new.
        unsafe { &mut (*this.inner.as_ptr()).value }
    }
}

impl<T: ?Sized> Arc<T> {
    pub(super) fn of(inner: NonNull<Inner<T>>) -> Arc<T> {
        Arc { inner, owns: PhantomData }
    }

    pub(super) fn inner(&self) -> &Inner<T> {
        // SAFETY: the value is there while a strong pointer is.
        unsafe { self.inner.as_ref() }
    }

    /// As that of `std`.
    #[must_use]
    pub fn as_ptr(this: &Arc<T>) -> *const T {
        // SAFETY: the pointer is to memory that is there.
        unsafe { &raw const (*this.inner.as_ptr()).value }
    }

    /// As that of `std`.
    #[must_use = "the value is dropped by `from_raw` alone"]
    pub fn into_raw(this: Arc<T>) -> *const T {
        Arc::as_ptr(&ManuallyDrop::new(this))
    }

    /// As that of `std`.
    ///
    /// # Safety
    /// As that of `std`: `into_raw` has answered the pointer, and it is taken back once.
    #[must_use]
    pub unsafe fn from_raw(value: *const T) -> Arc<T> {
        // SAFETY: the value is there, and stands behind the counts.
        let inner = unsafe { value.byte_sub(offset_of(&*value)) } as *mut Inner<T>;
        // SAFETY: a pointer that `into_raw` answers is not null.
        Arc::of(unsafe { NonNull::new_unchecked(inner) })
    }

    /// As that of `std`.
    ///
    /// # Safety
    /// As that of `std`: `into_raw` has answered the pointer, and a strong one is there.
    #[track_caller]
    pub unsafe fn increment_strong_count(value: *const T) {
        // SAFETY: as the caller promises. It is not dropped here.
        let this = ManuallyDrop::new(unsafe { Arc::from_raw(value) });
        mem::forget(Arc::clone(&this));
    }

    /// As that of `std`.
    ///
    /// # Safety
    /// As that of `std`: `into_raw` has answered the pointer, and a strong one is there.
    #[track_caller]
    pub unsafe fn decrement_strong_count(value: *const T) {
        // SAFETY: as the caller promises.
        drop(unsafe { Arc::from_raw(value) });
    }

    /// As that of `std`.
    #[must_use]
    #[track_caller]
    pub fn downgrade(this: &Arc<T>) -> Weak<T> {
        let weak = &this.inner().weak;
        loop {
            let found = weak.load_in_step();
            if found == LOCKED {
                crate::hint::spin_loop();
            } else if weak.exchange_in_step(found, found + 1) {
                return Weak::of(this.inner);
            }
        }
    }

    /// As that of `std`.
    #[must_use]
    #[track_caller]
    pub fn strong_count(this: &Arc<T>) -> usize {
        this.inner().strong.load(Relaxed)
    }

    /// As that of `std`.
    #[must_use]
    #[track_caller]
    pub fn weak_count(this: &Arc<T>) -> usize {
        match this.inner().weak.load(Relaxed) {
            LOCKED => 0,
            count => count - 1,
        }
    }

    /// As that of `std`.
    #[must_use]
    pub fn ptr_eq(this: &Arc<T>, other: &Arc<T>) -> bool {
        ptr::addr_eq(this.inner.as_ptr(), other.inner.as_ptr())
    }

    /// As that of `std`.
    #[must_use]
    #[track_caller]
    pub fn get_mut(this: &mut Arc<T>) -> Option<&mut T> {
        if this.inner().weak.compare_exchange(1, LOCKED, Acquire, Relaxed).is_err() {
            return None;
        }
        // There is no weak pointer, and none is made of another strong one meanwhile.
        let is_alone = this.inner().strong.load(Acquire) == 1;
        this.inner().weak.store(1, Release);
        // SAFETY: there is no other one, and none can be made while this is borrowed.
        is_alone.then(|| unsafe { &mut (*this.inner.as_ptr()).value })
    }
}

impl Arc<dyn Any + Send + Sync> {
    /// As that of `std`.
    ///
    /// # Errors
    /// The pointer, where the value is of another type.
    pub fn downcast<T: Any + Send + Sync>(self) -> Result<Arc<T>, Arc<dyn Any + Send + Sync>> {
        if !(*self).is::<T>() {
            return Err(self);
        }
        Ok(Arc::of(ManuallyDrop::new(self).inner.cast()))
    }
}

impl<T: ?Sized> Deref for Arc<T> {
    type Target = T;

    fn deref(&self) -> &T {
        &self.inner().value
    }
}

impl<T: ?Sized> Clone for Arc<T> {
    #[track_caller]
    fn clone(&self) -> Arc<T> {
        if self.inner().strong.add_in_step(1) > MOST {
            std::process::abort();
        }
        Arc::of(self.inner)
    }
}

impl<T: ?Sized> Drop for Arc<T> {
    #[track_caller]
    fn drop(&mut self) {
        if self.inner().strong.fetch_sub(1, Release) != 1 {
            return;
        }
        fence(Acquire);
        // The memory goes with the last weak pointer, also where the value's destructor panics.
        let _memory = Weak::of(self.inner);
        // SAFETY: this was the last one, so nobody else has the value.
        unsafe { ptr::drop_in_place(&raw mut (*self.inner.as_ptr()).value) };
    }
}

impl<T: ?Sized> From<Box<T>> for Arc<T> {
    fn from(value: Box<T>) -> Arc<T> {
        let memory = allocated(&*value);
        let (layout, offset) = (Layout::for_value(&*value), offset_of(&*value));
        let value = Box::into_raw(value);
        // SAFETY: the memory has room for the value behind the counts; what was in the box is moved, and the box's memory given
        // back, if it had any.
        unsafe {
            memory.as_ptr().add(offset).copy_from_nonoverlapping(value.cast::<u8>(), layout.size());
            if layout.size() > 0 {
                dealloc(value.cast(), layout);
            }
        }
        // What the pointer says of the value beside its address stays as it is.
        let inner = (value as *mut Inner<T>).with_address_of(memory.as_ptr());
        // SAFETY: it is the address of the memory.
        Arc::of(unsafe { NonNull::new_unchecked(inner) })
    }
}

trait WithAddress {
    fn with_address_of(self, address: *mut u8) -> Self;
}

impl<T: ?Sized> WithAddress for *mut T {
    fn with_address_of(mut self, address: *mut u8) -> *mut T {
        // SAFETY: a pointer, also one with a length or a table of methods, has its address first.
        unsafe { (&raw mut self).cast::<*mut u8>().write(address) };
        self
    }
}

impl<T> From<T> for Arc<T> {
    fn from(value: T) -> Arc<T> {
        Arc::new(value)
    }
}

impl From<&str> for Arc<str> {
    fn from(value: &str) -> Arc<str> {
        Box::<str>::from(value).into()
    }
}

impl From<String> for Arc<str> {
    fn from(value: String) -> Arc<str> {
        value.into_boxed_str().into()
    }
}

impl<T: Clone> From<&[T]> for Arc<[T]> {
    fn from(value: &[T]) -> Arc<[T]> {
        Box::<[T]>::from(value).into()
    }
}

impl<T> From<Vec<T>> for Arc<[T]> {
    fn from(value: Vec<T>) -> Arc<[T]> {
        value.into_boxed_slice().into()
    }
}

impl<T> FromIterator<T> for Arc<[T]> {
    fn from_iter<I: IntoIterator<Item = T>>(values: I) -> Arc<[T]> {
        values.into_iter().collect::<Vec<T>>().into()
    }
}

impl<T: Default> Default for Arc<T> {
    fn default() -> Arc<T> {
        Arc::new(T::default())
    }
}

impl<T: ?Sized> AsRef<T> for Arc<T> {
    fn as_ref(&self) -> &T {
        self
    }
}

impl<T: ?Sized> Borrow<T> for Arc<T> {
    fn borrow(&self) -> &T {
        self
    }
}

impl<T: ?Sized + PartialEq> PartialEq for Arc<T> {
    fn eq(&self, other: &Arc<T>) -> bool {
        **self == **other
    }
}

impl<T: ?Sized + Eq> Eq for Arc<T> {}

impl<T: ?Sized + PartialOrd> PartialOrd for Arc<T> {
    fn partial_cmp(&self, other: &Arc<T>) -> Option<Compared> {
        (**self).partial_cmp(&**other)
    }
}

impl<T: ?Sized + Ord> Ord for Arc<T> {
    fn cmp(&self, other: &Arc<T>) -> Compared {
        (**self).cmp(&**other)
    }
}

impl<T: ?Sized + Hash> Hash for Arc<T> {
    fn hash<H: Hasher>(&self, state: &mut H) {
        (**self).hash(state);
    }
}

impl<T: ?Sized + fmt::Debug> fmt::Debug for Arc<T> {
    fn fmt(&self, out: &mut fmt::Formatter<'_>) -> fmt::Result {
        (**self).fmt(out)
    }
}

impl<T: ?Sized + fmt::Display> fmt::Display for Arc<T> {
    fn fmt(&self, out: &mut fmt::Formatter<'_>) -> fmt::Result {
        (**self).fmt(out)
    }
}

impl<T: ?Sized> fmt::Pointer for Arc<T> {
    fn fmt(&self, out: &mut fmt::Formatter<'_>) -> fmt::Result {
        fmt::Pointer::fmt(&Arc::as_ptr(self), out)
    }
}
