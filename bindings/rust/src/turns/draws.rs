//! Which thread goes on by a seed: any of them, or one of them for a while.
//!
//! The library's own draws begin at a number below that of all threads, and take the next one that is ready. Here seats are mostly
//! empty, so that one thread would come nearly always; these draw among those that are ready.
use super::SEATS;

/// By odd seeds a thread goes on for up to so many picks more.
const LONGEST_BURST: u64 = 8;

/// A number whose bits hang together with all of this one (`SplitMix64`: Steele, Lea and Flood, OOPSLA 2014).
pub(crate) fn mixed(number: u64) -> u64 {
    let number = number.wrapping_add(0x9e37_79b9_7f4a_7c15);
    let number = (number ^ number >> 30).wrapping_mul(0xbf58_476d_1ce4_e5b9);
    let number = (number ^ number >> 27).wrapping_mul(0x94d0_49bb_1331_11eb);
    number ^ number >> 31
}

pub(crate) struct Draws {
    seed: u64,
    drawn: u64,
    // How many picks more the thread at work has, where threads go on for a while.
    burst: Option<u64>,
}

impl Draws {
    pub(crate) fn new(seed: u64) -> Draws {
        Draws { seed, drawn: 0, burst: (seed % 2 == 1).then_some(0) }
    }

    fn below(&mut self, end: u64) -> u64 {
        self.drawn += 1;
        mixed(mixed(self.seed) ^ self.drawn) % end
    }

    /// One of those that are ready, if one is. The last one goes on while its burst does.
    pub(crate) fn pick(&mut self, ready: &[bool; SEATS], last: Option<usize>) -> Option<usize> {
        let last = last.filter(|&last| ready[last]);
        match (self.burst, last) {
            (Some(left @ 1..), Some(last)) => {
                self.burst = Some(left - 1);
                return Some(last);
            }
            (Some(_), _) => self.burst = Some(self.below(LONGEST_BURST)),
            (None, _) => {}
        }
        // After a burst another one comes, if there is one.
        let passed_over = last.filter(|_| self.burst.is_some());
        let others = || (0..SEATS).filter(|&seat| ready[seat] && Some(seat) != passed_over);
        match others().count() {
            0 => last,
            count => others().nth(usize::try_from(self.below(count as u64)).unwrap_or(0)),
        }
    }
}

#[cfg(test)]
mod tests {
    use super::{Draws, SEATS};

    fn ready(seats: &[usize]) -> [bool; SEATS] {
        std::array::from_fn(|seat| seats.contains(&seat))
    }

    #[test]
    fn each_that_is_ready_comes_as_often() {
        for seats in [&[1, 2][..], &[0, 7, 15], &[3]] {
            let mut counts = [0_usize; SEATS];
            for seed in 0..500 {
                let mut draws = Draws::new(2 * seed);
                (0..6).for_each(|_| counts[draws.pick(&ready(seats), None).expect("one is ready")] += 1);
            }
            let share = 3000 / seats.len();
            assert!(seats.iter().all(|&seat| counts[seat].abs_diff(share) < 200), "{counts:?}");
        }
        assert_eq!(Draws::new(0).pick(&ready(&[]), Some(1)), None);
    }

    #[test]
    fn by_odd_seeds_threads_go_on_for_a_while() {
        let (mut lengths, mut last, mut length) = ([0; 10], None, 0);
        let mut draws = Draws::new(7);
        for _ in 0..2000 {
            let picked = draws.pick(&ready(&[1, 2, 3]), last);
            if picked == last {
                length += 1;
            } else {
                lengths[length] += 1;
                (last, length) = (picked, 1);
            }
        }
        // From one to eight picks, each about as often.
        assert!(lengths[1..=8].iter().all(|&count| count > 25) && lengths[9] == 0, "{lengths:?}");
    }
}
