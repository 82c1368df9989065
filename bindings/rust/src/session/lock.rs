//! How a thread holds locks, and waits for conditions.
use super::{Caller, Session};
use crate::Error;
use crate::raw::{Access, Change};
use crate::turns::Does;
use crate::waits::key_of;
use std::panic::Location;

const READ: Access = Access::Read;
const FREE: Access = Access::Write { value: 0 };

fn update(change: Change, operand: u64, expected: u64) -> Access {
    Access::Update { change, operand, expected }
}

/// # Locks and conditions
///
/// Each call is an access to the object of the lock or of the condition. So the order of a lock's holders, and of waits and notices,
/// is recorded, and a second run has the same one. In a trace `update door 0 2` says that thread 1 takes the lock, and `write door 0`
/// that it frees it. `update opened 0 1` says that a thread begins to wait for the condition, and `update opened 1 0` that one is
/// woken. `read opened 0` is a notice that wakes nobody.
///
/// # Errors
/// Each call fails as an access does, and with `NoName` where the builder has made no such thing.
impl Session {
    // What a call of several accesses does: all of them stand where it stands.
    pub(super) fn standing_at<T>(&mut self, caller: Caller, work: impl FnOnce(&mut Session) -> T) -> T {
        let before = self.caller.replace(self.caller.unwrap_or(caller));
        let done = work(self);
        self.caller = before;
        done
    }

    // Tells that the thread takes the lock, which it has.
    fn note_taken(&mut self, lock: usize, caller: Caller) -> Result<(), Error> {
        let taken = update(Change::Swap, self.number as u64 + 1, 0);
        self.make_noted(self.shared.locks[lock].object, taken, caller).map(|_| ())
    }

    fn take(&mut self, lock: usize, caller: Caller) -> Result<(), Error> {
        if self.held.contains(&lock) {
            return Err(Error::Held { name: self.shared.locks[lock].name.clone() });
        }
        self.take_turn_if_any(caller, Does::Writes(self.key_of_lock(lock)))?;
        self.wait_stopped(|shared, thread| {
            let taken = shared.waits().map_or(Ok(()), |waits| shared.locks[lock].take(waits, thread, caller));
            taken.map_err(|missed| shared.missed(thread, missed))
        })?;
        self.held.push(lock);
        self.note_taken(lock, caller).inspect_err(|_| self.free(lock))
    }

    // Waits for a turn, where threads take turns.
    fn take_turn_if_any(&mut self, caller: Caller, does: Does) -> Result<(), Error> {
        if self.at_once == self.heap { Ok(()) } else { self.take_turn(Some(caller), does) }
    }

    fn key_of_lock(&self, lock: usize) -> usize {
        key_of(self.shared.locks[lock].object)
    }

    // Tells that the thread frees the lock, which it has still.
    fn note_freed(&mut self, lock: usize, caller: Caller) -> Result<(), Error> {
        self.make_noted(self.shared.locks[lock].object, FREE, caller).map(|_| ())
    }

    // Frees the lock, if it is held.
    fn free(&mut self, lock: usize) {
        let Some(at) = self.held.iter().rposition(|&held| held == lock) else {
            return;
        };
        self.held.remove(at);
        if let Some(waits) = self.shared.waits() {
            self.shared.locks[lock].free(waits);
        }
    }

    /// Does the work while the thread holds the lock, which a builder's `lock` has made. Other threads that ask for it wait.
    ///
    /// ```
    /// use octet::{Error, Heap};
    ///
    /// let run = Heap::builder().object("balance", 100).lock("account").run(|threads| {
    ///     for amount in [30, 50] {
    ///         threads.spawn(move |session| {
    ///             session.locked("account", |session| {
    ///                 let balance = session.object("balance")?;
    ///                 let found = session.load(balance)?;
    ///                 session.store(balance, found + amount)
    ///             })
    ///         });
    ///     }
    /// })?;
    /// assert_eq!(run.value("balance"), Some(180));
    /// # Ok::<(), Error>(())
    /// ```
    ///
    /// # Errors
    /// `Held` where the thread holds it already, and what the work fails with.
    #[track_caller]
    pub fn locked<T, E: From<Error>>(&mut self, name: &str, work: impl FnOnce(&mut Session) -> Result<T, E>) -> Result<T, E> {
        struct Free<'a>(&'a mut Session, usize);
        impl Drop for Free<'_> {
            fn drop(&mut self) {
                self.0.free(self.1);
            }
        }
        let caller = self.caller.unwrap_or(Location::caller());
        let lock = self.shared.lock(name)?;
        self.take(lock, caller)?;
        let holding = Free(self, lock);
        let done = work(holding.0);
        // A wait that failed has freed it.
        if holding.0.held.contains(&lock) {
            let frees = Does::Writes(holding.0.key_of_lock(lock));
            let noted = holding.0.take_turn_if_any(caller, frees).and_then(|()| holding.0.note_freed(lock, caller));
            return done.and_then(|done| noted.map(|()| done).map_err(E::from));
        }
        done
    }

    /// Frees the lock that was taken last, waits until another thread notifies the condition, which a builder's `condition` has
    /// made, and takes the lock again. Ask then whether what you wait for is so: another thread may have come first.
    ///
    /// ```
    /// use octet::{Error, Heap};
    ///
    /// Heap::builder().object("ready", 0).lock("door").condition("opened").run(|threads| {
    ///     threads.spawn(|session| {
    ///         session.locked("door", |session| {
    ///             while session.load(session.object("ready")?)? == 0 {
    ///                 session.wait("opened")?;
    ///             }
    ///             Ok(())
    ///         })
    ///     });
    ///     threads.spawn(|session| {
    ///         session.locked("door", |session| {
    ///             session.store(session.object("ready")?, 1)?;
    ///             session.notify_all("opened")
    ///         })
    ///     });
    /// })?;
    /// # Ok::<(), Error>(())
    /// ```
    ///
    /// # Errors
    /// `NotHeld` where the thread holds no lock. After any other failure it holds this one no more.
    #[track_caller]
    pub fn wait(&mut self, condition: &str) -> Result<(), Error> {
        let caller = self.caller.unwrap_or(Location::caller());
        let at = self.shared.condition(condition)?;
        let Some(&lock) = self.held.last() else {
            return Err(Error::NotHeld { name: condition.to_string() });
        };
        // That it waits, and that it frees the lock, is one step of a schedule.
        let condition = self.shared.conditions[at].object;
        self.take_turn_if_any(caller, Does::WritesBoth(key_of(condition), self.key_of_lock(lock)))?;
        self.make_noted(condition, update(Change::Add, 1, 0), caller)?;
        let place = self.shared.waits().map_or(0, |waits| self.shared.conditions[at].come(waits, self.number));
        self.note_freed(lock, caller)?;
        let waited = self.wait_stopped(|shared, thread| {
            let Some(waits) = shared.waits() else {
                return Ok(());
            };
            shared.locks[lock].free(waits);
            let woken = shared.conditions[at].wait(waits, place, &shared.locks[lock], thread, caller);
            let taken = woken.and_then(|()| shared.locks[lock].take(waits, thread, caller));
            taken.map_err(|missed| shared.missed(thread, missed))
        });
        if let Err(error) = waited {
            // It holds the lock no more.
            self.held.retain(|&held| held != lock);
            return Err(error);
        }
        self.note_taken(lock, caller)
    }

    /// Wakes the thread that has waited longest for the condition, if there is one.
    ///
    /// ```
    /// use octet::{Heap, Session};
    ///
    /// Heap::builder().object("open", 0).lock("door").condition("opened").run(|threads| {
    ///     threads.spawn(|session| {
    ///         session.locked("door", |session: &mut Session| {
    ///             while session.load(session.object("open")?)? == 0 {
    ///                 session.wait("opened")?;
    ///             }
    ///             Ok(())
    ///         })
    ///     });
    ///     threads.spawn(|session| {
    ///         session.locked("door", |session| session.store(session.object("open")?, 1))?;
    ///         session.notify_one("opened")
    ///     });
    /// })?;
    /// # Ok::<(), octet::Error>(())
    /// ```
    ///
    /// # Errors
    /// Those of all calls for locks and conditions.
    #[track_caller]
    pub fn notify_one(&mut self, condition: &str) -> Result<(), Error> {
        self.notify(condition, Session::count_one, Location::caller())
    }

    /// Wakes all threads that wait for the condition.
    ///
    /// ```
    /// use octet::{Heap, Session};
    ///
    /// Heap::builder().object("open", 0).lock("door").condition("opened").run(|threads| {
    ///     threads.spawn(|session| {
    ///         session.locked("door", |session: &mut Session| {
    ///             while session.load(session.object("open")?)? == 0 {
    ///                 session.wait("opened")?;
    ///             }
    ///             Ok(())
    ///         })
    ///     });
    ///     threads.spawn(|session| {
    ///         session.locked("door", |session| session.store(session.object("open")?, 1))?;
    ///         session.notify_all("opened")
    ///     });
    /// })?;
    /// # Ok::<(), octet::Error>(())
    /// ```
    ///
    /// # Errors
    /// Those of all calls for locks and conditions.
    #[track_caller]
    pub fn notify_all(&mut self, condition: &str) -> Result<(), Error> {
        self.notify(condition, Session::count_all, Location::caller())
    }

    // Wakes as many as are counted.
    fn notify(
        &mut self,
        condition: &str,
        counted: fn(&mut Session, u16, Caller) -> Result<u64, Error>,
        caller: Caller,
    ) -> Result<(), Error> {
        let caller = self.caller.unwrap_or(caller);
        let at = self.shared.condition(condition)?;
        let object = self.shared.conditions[at].object;
        self.take_turn_if_any(caller, Does::Writes(key_of(object)))?;
        let count = counted(self, object, caller)?;
        if let Some(waits) = self.shared.waits() {
            self.shared.conditions[at].wake(waits, count);
        }
        Ok(())
    }

    // Counts one thread that waits as woken, if there is one.
    fn count_one(&mut self, condition: u16, caller: Caller) -> Result<u64, Error> {
        loop {
            let waiting = self.make_noted(condition, READ, caller)?;
            if waiting == 0 {
                return Ok(0);
            }
            let one_less = update(Change::CompareExchange, waiting - 1, waiting);
            if self.make_noted(condition, one_less, caller)? == waiting {
                return Ok(1);
            }
        }
    }

    // Counts all that wait as woken.
    fn count_all(&mut self, condition: u16, caller: Caller) -> Result<u64, Error> {
        self.make_noted(condition, update(Change::Swap, 0, 0), caller)
    }
}
