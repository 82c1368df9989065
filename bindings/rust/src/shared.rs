//! What the sessions of a heap share, beside the heap itself.
use crate::bells::Bells;
use crate::error::Wait;
use crate::given_up::AllGivenUp;
use crate::turns::{Stuck, Turns, Waiter};
use crate::waits::{Condition, Lock, Missed, Waits, key_of};
use crate::{Error, Object, Place};
use std::collections::HashMap;
use std::time::Duration;

/// How the threads come to their accesses.
pub(crate) enum Order {
    /// As they run.
    Free(Bells),
    /// One at a time.
    Turns(Box<Turns>),
    /// As they were recorded: no thread waits for a lock, since its access waits.
    Again,
}

pub(crate) struct Shared {
    pub(crate) heap: u64,
    pub(crate) objects: HashMap<String, u16>,
    pub(crate) locks: Vec<Lock>,
    pub(crate) conditions: Vec<Condition>,
    pub(crate) barriers: Vec<(String, u64)>,
    pub(crate) channels: Vec<(String, u64)>,
    pub(crate) order: Order,
    pub(crate) patience: Duration,
    pub(crate) given_up: AllGivenUp,
}

fn found<T>(found: Option<T>, name: &str) -> Result<T, Error> {
    found.ok_or_else(|| Error::NoName { name: name.to_string() })
}

impl Shared {
    pub(crate) fn object(&self, name: &str) -> Result<Object, Error> {
        let place = found(self.objects.get(name), name)?;
        Ok(Object { heap: self.heap, place: *place })
    }

    pub(crate) fn lock(&self, name: &str) -> Result<usize, Error> {
        found(self.locks.iter().position(|lock| lock.name == name), name)
    }

    pub(crate) fn condition(&self, name: &str) -> Result<usize, Error> {
        found(self.conditions.iter().position(|condition| condition.name == name), name)
    }

    /// For how many threads the barrier is.
    pub(crate) fn barrier(&self, name: &str) -> Result<u64, Error> {
        found(self.barriers.iter().find(|barrier| barrier.0 == name).map(|barrier| barrier.1), name)
    }

    /// How many values the channel holds.
    pub(crate) fn channel(&self, name: &str) -> Result<u64, Error> {
        found(self.channels.iter().find(|channel| channel.0 == name).map(|channel| channel.1), name)
    }

    /// By what its threads wait for each other, if they do.
    pub(crate) fn waits(&self) -> Option<Waits<'_>> {
        match &self.order {
            Order::Free(bells) => Some(Waits::Free(bells, self.patience)),
            Order::Turns(turns) => Some(Waits::Turns(turns)),
            Order::Again => None,
        }
    }

    /// Why the thread has not got what it has waited for.
    pub(crate) fn missed(&self, thread: usize, missed: Missed) -> Error {
        match missed {
            Missed::Late => Error::Patience { thread },
            Missed::Stuck(stuck) => self.stuck(thread, stuck),
        }
    }

    /// Why the thread was not picked.
    pub(crate) fn stuck(&self, thread: usize, stuck: Stuck) -> Error {
        match stuck {
            Stuck::Absent { thread, at, why } => Error::NotBack { thread, place: at.map(Place::from), why },
            Stuck::Deadlock(waiters) => {
                Error::Deadlock { waits: waiters.into_iter().map(|waiter| self.wait_of(waiter)).collect() }
            }
            // Those of sessions have no end but these.
            Stuck::TooLong { .. } | Stuck::Stopped => Error::Patience { thread },
        }
    }

    fn wait_of(&self, Waiter { thread, key, wake }: Waiter) -> Wait {
        let locks = self.locks.iter().map(|lock| (lock.object, &lock.name));
        let mut named = locks.chain(self.conditions.iter().map(|condition| (condition.object, &condition.name)));
        Wait {
            thread,
            name: named.find(|(object, _)| key_of(*object) == key).map(|(_, name)| name.clone()).unwrap_or_default(),
            holder: wake.holder.map(|holder| holder.seat),
            place: Some(wake.place.into()),
            held_at: wake.holder.and_then(|holder| holder.at).map(Place::from),
        }
    }
}
