//! Whether a thread waits in a loop.
use super::Caller;
use crate::Place;
use std::collections::VecDeque;

// How many of its last accesses are looked at, and how many accesses a loop may have.
const LAST: usize = 64;
const LONGEST_LOOP: usize = 16;

/// Where the last accesses of a thread stand, and what they were told.
#[derive(Default)]
pub(super) struct Recent {
    accesses: VecDeque<(Caller, u64)>,
}

impl Recent {
    pub(super) fn note(&mut self, at: Caller, told: u64) {
        if self.accesses.len() == LAST {
            self.accesses.pop_front();
        }
        self.accesses.push_back((at, told));
    }

    /// Where the last access stands, if they are the same few ones again and again, which were told the same.
    pub(super) fn spins_at(&self) -> Option<Place> {
        let repeats = |by: usize| self.accesses.iter().skip(by).eq(self.accesses.iter().take(LAST - by));
        let spins = self.accesses.len() == LAST && (1..=LONGEST_LOOP).any(repeats);
        self.accesses.back().filter(|_| spins).map(|(at, _)| Place::from(*at))
    }
}

#[cfg(test)]
mod tests {
    use super::{LAST, Recent};
    use std::panic::Location;

    fn spins(told: impl Fn(u64) -> u64) -> bool {
        let mut recent = Recent::default();
        (0..2 * LAST as u64).for_each(|number| recent.note(Location::caller(), told(number)));
        recent.spins_at().is_some()
    }

    #[test]
    fn a_loop_sees_the_same_again_and_again() {
        assert!(spins(|_| 7));
        assert!(spins(|number| number % 3));
        assert!(!spins(|number| number));
        assert!(!spins(|number| number % 40));
        assert!(Recent::default().spins_at().is_none());
    }
}
