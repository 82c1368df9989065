//! Where a thread's accesses stand.
use super::Caller;
use crate::Place;
use crate::checks::{Checks, Found, Ledger};
use crate::raw::Access;
use std::collections::VecDeque;
use std::sync::Arc;

/// What is kept of a thread's accesses.
#[derive(Clone, Debug)]
pub(crate) enum Keeps {
    /// Checks, in a file of their own: the run may be of any length.
    Checks(Arc<Ledger>),
    /// Where each of them stands.
    Each,
    /// Where the last ones stand, so many.
    Last(u16),
}

/// Where the accesses stand that were made.
#[derive(Debug)]
pub(super) enum Places {
    Nothing,
    Checks(Box<Checks>),
    Each(Vec<Caller>),
    Last(Box<LastPlaces>),
}

#[derive(Debug)]
pub(super) struct LastPlaces {
    room: usize,
    places: VecDeque<Caller>,
}

/// Where the accesses of a thread stand, or the last ones of them.
#[derive(Debug, Default)]
pub(crate) struct Noted {
    pub(crate) places: Vec<Place>,
}

impl Noted {
    /// Where the last accesses stand, so many.
    pub(crate) fn last(mut self, many: usize) -> Vec<Place> {
        self.places.split_off(self.places.len().saturating_sub(many))
    }
}

impl Places {
    pub(super) fn new(keeps: &Keeps, thread: usize) -> Places {
        match keeps {
            Keeps::Checks(ledger) => Places::Checks(Box::new(Checks::new(ledger, thread))),
            Keeps::Each => Places::Each(Vec::new()),
            Keeps::Last(room) => Places::Last(Box::new(LastPlaces { room: (*room).into(), places: VecDeque::new() })),
        }
    }

    #[inline(always)]
    pub(super) fn note(&mut self, caller: Caller, object: u16, access: Access, told: u64) {
        match self {
            Places::Nothing => {}
            Places::Checks(checks) => checks.note(caller, object, access, told),
            Places::Each(places) => places.push(caller),
            Places::Last(last) => last.note(caller),
        }
    }

    /// The thread has to wait before it makes the access that stands here.
    pub(super) fn before_wait(&mut self, caller: Caller) {
        if let Places::Checks(checks) = self {
            checks.before_wait(caller);
        }
    }

    /// The thread that has left its recording first, as far as is known.
    pub(super) fn first_left(&self) -> Option<Found> {
        match self {
            Places::Checks(checks) => checks.first_left(),
            Places::Nothing | Places::Each(_) | Places::Last(_) => None,
        }
    }

    pub(super) fn noted(self) -> Noted {
        match self {
            Places::Nothing | Places::Checks(_) => Noted::default(),
            Places::Each(places) => Noted { places: places.into_iter().map(Place::from).collect() },
            Places::Last(last) => Noted { places: last.places.into_iter().map(Place::from).collect() },
        }
    }
}

impl LastPlaces {
    fn note(&mut self, caller: Caller) {
        if self.room == 0 {
            return;
        }
        if self.places.len() == self.room {
            self.places.pop_front();
        }
        self.places.push_back(caller);
    }
}
