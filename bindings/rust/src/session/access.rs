//! What a thread does with objects.
use super::{Caller, Object, Session};
use crate::Error;
use crate::given_up::Begun;
use crate::raw::{self, Access, Change, Handle};
use crate::turns::Does;
use crate::waits::key_of;
use std::panic::Location;

/// # Accesses
///
/// # Errors
/// Each fails with `OtherHeap` at an object of another heap, `Resting` where the thread does not run, `Spent` where it has made all
/// that its heap allows, and `Patience` where it has waited too long. In a second run it may fail with `Diverged`, `Halted` or
/// `RecordingEnds`, and by a schedule with `Deadlock`, `NotBack` or `Spins`.
impl Session {
    // An access from this place. Where it is written which one it is, this comes to one call of the library.
    #[inline(always)]
    pub(super) fn make(&mut self, object: u16, access: Access, caller: Caller) -> Result<u64, Error> {
        let mut out = 0;
        let status = self.handle.access(object, access, &mut out);
        if status != raw::READY {
            return self.make_later(status, out, Begun { caller, object, access });
        }
        self.places.note(caller, object, access, out);
        Ok(out)
    }

    // An access that was begun, or refused.
    #[cold]
    fn make_later(&mut self, status: i32, mut out: u64, begun: Begun) -> Result<u64, Error> {
        let Begun { caller, object, access } = begun;
        self.places.before_wait(caller);
        let status = self.until_made(status, &mut out, Handle::poll).inspect_err(|_| self.give_up(begun))?;
        if status != raw::READY {
            self.answered(status, out, Some(caller))?;
        }
        self.places.note(caller, object, access, out);
        Ok(out)
    }

    #[inline(always)]
    #[track_caller]
    fn access(&mut self, object: Object, access: Access) -> Result<u64, Error> {
        let caller = self.caller.unwrap_or(Location::caller());
        if object.heap != self.at_once {
            return self.access_in_turn(object, access, caller);
        }
        self.make(object.place, access, caller)
    }

    // Waits for the thread's turn, if the object is one of its heap.
    #[cold]
    fn access_in_turn(&mut self, object: Object, access: Access, caller: Caller) -> Result<u64, Error> {
        if object.heap != self.heap {
            return Err(Error::OtherHeap);
        }
        let key = key_of(object.place);
        self.take_turn(Some(caller), if matches!(access, Access::Read) { Does::Reads(key) } else { Does::Writes(key) })?;
        self.make_noted(object.place, access, caller)
    }

    // By a schedule it is noted what the thread sees, so that one that waits in a loop is told from one that goes on.
    pub(super) fn make_noted(&mut self, object: u16, access: Access, caller: Caller) -> Result<u64, Error> {
        let made = self.make(object, access, caller);
        if self.at_once == self.heap {
            return made;
        }
        match made {
            Ok(told) => {
                self.recent.note(caller, told);
                Ok(told)
            }
            Err(Error::Spent { thread }) => {
                let spins = self.recent.spins_at();
                Err(spins.map_or(Error::Spent { thread }, |place| Error::Spins { thread, place }))
            }
            Err(error) => Err(error),
        }
    }

    #[inline]
    #[track_caller]
    fn update(&mut self, object: Object, change: Change, operand: u64) -> Result<u64, Error> {
        self.access(object, Access::Update { change, operand, expected: 0 })
    }

    /// The object's value.
    ///
    /// ```
    /// # octet::Heap::builder().object("x", 12).run(|threads| threads.spawn(|session| {
    /// # let x = session.object("x")?;
    /// assert_eq!(session.load(x)?, 12);
    /// # Ok(())
    /// # }))?;
    /// # Ok::<(), octet::Error>(())
    /// ```
    ///
    /// # Errors
    /// Those of all accesses.
    #[inline]
    #[track_caller]
    pub fn load(&mut self, object: Object) -> Result<u64, Error> {
        self.access(object, Access::Read)
    }

    /// Gives the object a value.
    ///
    /// ```
    /// # octet::Heap::builder().object("x", 12).run(|threads| threads.spawn(|session| {
    /// # let x = session.object("x")?;
    /// session.store(x, 5)?;
    /// assert_eq!(session.load(x)?, 5);
    /// # Ok(())
    /// # }))?;
    /// # Ok::<(), octet::Error>(())
    /// ```
    ///
    /// # Errors
    /// Those of all accesses.
    #[inline]
    #[track_caller]
    pub fn store(&mut self, object: Object, value: u64) -> Result<(), Error> {
        self.access(object, Access::Write { value }).map(|_| ())
    }

    /// Gives the object a value, and answers the one before.
    ///
    /// ```
    /// # octet::Heap::builder().object("x", 12).run(|threads| threads.spawn(|session| {
    /// # let x = session.object("x")?;
    /// assert_eq!(session.swap(x, 5)?, 12);
    /// assert_eq!(session.load(x)?, 5);
    /// # Ok(())
    /// # }))?;
    /// # Ok::<(), octet::Error>(())
    /// ```
    ///
    /// # Errors
    /// Those of all accesses.
    #[inline]
    #[track_caller]
    pub fn swap(&mut self, object: Object, value: u64) -> Result<u64, Error> {
        self.update(object, Change::Swap, value)
    }

    /// Stores the new value where the object has the current one. The inner answer is that of `AtomicU64`: the value found, as
    /// `Ok` where it was the current one, else as `Err`.
    ///
    /// ```
    /// # octet::Heap::builder().object("x", 12).run(|threads| threads.spawn(|session| {
    /// # let x = session.object("x")?;
    /// assert_eq!(session.compare_exchange(x, 5, 0)?, Err(12));
    /// assert_eq!(session.compare_exchange(x, 12, 8)?, Ok(12));
    /// assert_eq!(session.load(x)?, 8);
    /// # Ok(())
    /// # }))?;
    /// # Ok::<(), octet::Error>(())
    /// ```
    ///
    /// # Errors
    /// Those of all accesses.
    #[inline]
    #[track_caller]
    pub fn compare_exchange(&mut self, object: Object, current: u64, new: u64) -> Result<Result<u64, u64>, Error> {
        let change = Access::Update { change: Change::CompareExchange, operand: new, expected: current };
        let found = self.access(object, change)?;
        Ok(if found == current { Ok(found) } else { Err(found) })
    }

    /// The same: it fails only where another value is found.
    ///
    /// ```
    /// # octet::Heap::builder().object("x", 12).run(|threads| threads.spawn(|session| {
    /// # let x = session.object("x")?;
    /// assert_eq!(session.compare_exchange_weak(x, 12, 8)?, Ok(12));
    /// assert_eq!(session.load(x)?, 8);
    /// # Ok(())
    /// # }))?;
    /// # Ok::<(), octet::Error>(())
    /// ```
    ///
    /// # Errors
    /// Those of all accesses.
    #[inline]
    #[track_caller]
    pub fn compare_exchange_weak(&mut self, object: Object, current: u64, new: u64) -> Result<Result<u64, u64>, Error> {
        self.compare_exchange(object, current, new)
    }

    /// Adds, modulo 2^64, and answers the value before.
    ///
    /// ```
    /// # octet::Heap::builder().object("x", 12).run(|threads| threads.spawn(|session| {
    /// # let x = session.object("x")?;
    /// assert_eq!(session.fetch_add(x, 4)?, 12);
    /// assert_eq!(session.load(x)?, 16);
    /// # Ok(())
    /// # }))?;
    /// # Ok::<(), octet::Error>(())
    /// ```
    ///
    /// # Errors
    /// Those of all accesses.
    #[inline]
    #[track_caller]
    pub fn fetch_add(&mut self, object: Object, value: u64) -> Result<u64, Error> {
        self.update(object, Change::Add, value)
    }

    /// Subtracts, modulo 2^64, and answers the value before.
    ///
    /// ```
    /// # octet::Heap::builder().object("x", 12).run(|threads| threads.spawn(|session| {
    /// # let x = session.object("x")?;
    /// assert_eq!(session.fetch_sub(x, 13)?, 12);
    /// assert_eq!(session.load(x)?, u64::MAX);
    /// # Ok(())
    /// # }))?;
    /// # Ok::<(), octet::Error>(())
    /// ```
    ///
    /// # Errors
    /// Those of all accesses.
    #[inline]
    #[track_caller]
    pub fn fetch_sub(&mut self, object: Object, value: u64) -> Result<u64, Error> {
        self.update(object, Change::Sub, value)
    }

    /// Keeps the bits that the mask has too, and answers the value before.
    ///
    /// ```
    /// # octet::Heap::builder().object("x", 0b1100).run(|threads| threads.spawn(|session| {
    /// # let x = session.object("x")?;
    /// assert_eq!(session.fetch_and(x, 0b1001)?, 0b1100);
    /// assert_eq!(session.load(x)?, 0b1000);
    /// # Ok(())
    /// # }))?;
    /// # Ok::<(), octet::Error>(())
    /// ```
    ///
    /// # Errors
    /// Those of all accesses.
    #[inline]
    #[track_caller]
    pub fn fetch_and(&mut self, object: Object, mask: u64) -> Result<u64, Error> {
        self.update(object, Change::And, mask)
    }

    /// Clears the bits that the mask has too and sets all others, and answers the value before. It is made of several accesses, as
    /// `fetch_update` is.
    ///
    /// ```
    /// # octet::Heap::builder().object("x", 0b1100).run(|threads| threads.spawn(|session| {
    /// # let x = session.object("x")?;
    /// assert_eq!(session.fetch_nand(x, 0b1001)?, 0b1100);
    /// assert_eq!(session.load(x)?, !0b1000);
    /// # Ok(())
    /// # }))?;
    /// # Ok::<(), octet::Error>(())
    /// ```
    ///
    /// # Errors
    /// Those of all accesses.
    #[inline]
    #[track_caller]
    pub fn fetch_nand(&mut self, object: Object, mask: u64) -> Result<u64, Error> {
        self.fetch_update(object, |value| Some(!(value & mask))).map(|done| done.unwrap_or_else(|found| found))
    }

    /// Sets the bits of the mask, and answers the value before.
    ///
    /// ```
    /// # octet::Heap::builder().object("x", 0b1100).run(|threads| threads.spawn(|session| {
    /// # let x = session.object("x")?;
    /// assert_eq!(session.fetch_or(x, 0b1001)?, 0b1100);
    /// assert_eq!(session.load(x)?, 0b1101);
    /// # Ok(())
    /// # }))?;
    /// # Ok::<(), octet::Error>(())
    /// ```
    ///
    /// # Errors
    /// Those of all accesses.
    #[inline]
    #[track_caller]
    pub fn fetch_or(&mut self, object: Object, mask: u64) -> Result<u64, Error> {
        self.update(object, Change::Or, mask)
    }

    /// Turns the bits of the mask, and answers the value before.
    ///
    /// ```
    /// # octet::Heap::builder().object("x", 0b1100).run(|threads| threads.spawn(|session| {
    /// # let x = session.object("x")?;
    /// assert_eq!(session.fetch_xor(x, 0b1001)?, 0b1100);
    /// assert_eq!(session.load(x)?, 0b0101);
    /// # Ok(())
    /// # }))?;
    /// # Ok::<(), octet::Error>(())
    /// ```
    ///
    /// # Errors
    /// Those of all accesses.
    #[inline]
    #[track_caller]
    pub fn fetch_xor(&mut self, object: Object, mask: u64) -> Result<u64, Error> {
        self.update(object, Change::Xor, mask)
    }

    /// Keeps the greater of the two values, and answers the one before.
    ///
    /// ```
    /// # octet::Heap::builder().object("x", 12).run(|threads| threads.spawn(|session| {
    /// # let x = session.object("x")?;
    /// assert_eq!(session.fetch_max(x, 20)?, 12);
    /// assert_eq!(session.load(x)?, 20);
    /// # Ok(())
    /// # }))?;
    /// # Ok::<(), octet::Error>(())
    /// ```
    ///
    /// # Errors
    /// Those of all accesses.
    #[inline]
    #[track_caller]
    pub fn fetch_max(&mut self, object: Object, value: u64) -> Result<u64, Error> {
        self.update(object, Change::Max, value)
    }

    /// Keeps the lesser of the two values, and answers the one before.
    ///
    /// ```
    /// # octet::Heap::builder().object("x", 12).run(|threads| threads.spawn(|session| {
    /// # let x = session.object("x")?;
    /// assert_eq!(session.fetch_min(x, 20)?, 12);
    /// assert_eq!(session.load(x)?, 12);
    /// # Ok(())
    /// # }))?;
    /// # Ok::<(), octet::Error>(())
    /// ```
    ///
    /// # Errors
    /// Those of all accesses.
    #[inline]
    #[track_caller]
    pub fn fetch_min(&mut self, object: Object, value: u64) -> Result<u64, Error> {
        self.update(object, Change::Min, value)
    }

    /// Gives the object what the change makes of its value, if it makes anything of it. The inner answer is the value before, as
    /// `Ok` where it was changed. This is a read, and then a `compare_exchange` as often as another thread comes between: each time
    /// the change is asked again.
    ///
    /// ```
    /// # octet::Heap::builder().object("x", 12).run(|threads| threads.spawn(|session| {
    /// # let x = session.object("x")?;
    /// assert_eq!(session.fetch_update(x, |value| value.checked_sub(20))?, Err(12));
    /// assert_eq!(session.fetch_update(x, |value| value.checked_sub(5))?, Ok(12));
    /// assert_eq!(session.load(x)?, 7);
    /// # Ok(())
    /// # }))?;
    /// # Ok::<(), octet::Error>(())
    /// ```
    ///
    /// # Errors
    /// Those of all accesses.
    #[inline]
    #[track_caller]
    pub fn fetch_update(
        &mut self,
        object: Object,
        mut change: impl FnMut(u64) -> Option<u64>,
    ) -> Result<Result<u64, u64>, Error> {
        let mut found = self.load(object)?;
        while let Some(new) = change(found) {
            match self.compare_exchange(object, found, new)? {
                Ok(before) => return Ok(Ok(before)),
                Err(other) => found = other,
            }
        }
        Ok(Err(found))
    }
}
