//! Depth first over the picks of a program, until there is no schedule that could show anything new.
//!
//! A thread whose step was tried at a node sleeps in what is tried there after it, until a step is made that matters to its own
//! one: an order that brings the same is not tried twice (sleep sets: Godefroid, 1996). The picks are kept, and no states: each run
//! begins anew, and comes to its node by the picks before.
use super::{Does, SEATS};
use std::sync::{Arc, Mutex};

/// Threads, a bit for each seat.
type Set = u32;

#[derive(Debug)]
struct Node {
    // Who could be picked, who slept, whose step was tried before this one's, and who is picked now.
    ready: Set,
    sleep: Set,
    done: Set,
    picked: usize,
}

/// How much was tried, once there is nothing left.
#[derive(Clone, Copy, Debug, PartialEq, Eq)]
pub(crate) enum Ended {
    Whole,
    /// Some picks were left out where a thread has yielded.
    ButYields,
    /// The program has not done the same by the same picks, or waits for what they do not order.
    Unsure,
}

/// The search through all schedules of a program.
#[derive(Debug, Default)]
pub(crate) struct Search {
    path: Vec<Node>,
    // How many picks this run has made by the path, and who sleeps after them.
    made: usize,
    sleep: Set,
    // All that may be picked sleep: this run goes on in an order that brings what another one has brought.
    is_redundant: bool,
    is_unsure: bool,
    has_left_out: bool,
}

fn set_of(threads: &[bool]) -> Set {
    threads.iter().enumerate().fold(0, |set, (at, &is_in)| set | Set::from(is_in) << at)
}

// The thread that goes on, or, where it is tired or cannot, the next one.
fn usual(from: Set, last: Option<usize>, is_tired: bool) -> usize {
    let first = last.map_or(0, |last| last + usize::from(is_tired));
    let in_turn = (first..SEATS).chain(0..first);
    in_turn.into_iter().find(|&at| from >> at & 1 == 1).unwrap_or(0)
}

impl Search {
    pub(crate) fn shared() -> Arc<Mutex<Search>> {
        Arc::default()
    }

    /// A run begins; or, of a run, its next heap.
    pub(crate) fn begin_heap(&mut self) {
        self.sleep = 0;
    }

    /// Nobody can say any more that all was tried.
    pub(crate) fn unsure(&mut self) {
        self.is_unsure = true;
    }

    /// Threads that could go on have let others go first.
    pub(crate) fn leave_out(&mut self) {
        self.has_left_out = true;
    }

    /// One of those that are ready.
    pub(crate) fn pick(&mut self, ready: &[bool], does: impl Fn(usize) -> Does, last: Option<usize>, is_tired: bool) -> usize {
        let ready = set_of(ready);
        if self.is_redundant {
            return usual(ready, last, is_tired);
        }
        if self.made == self.path.len() {
            let awake = ready & !self.sleep;
            if awake == 0 {
                self.is_redundant = true;
                return usual(ready, last, is_tired);
            }
            self.path.push(Node { ready, sleep: self.sleep, done: 0, picked: usual(awake, last, is_tired) });
        }
        let node = &self.path[self.made];
        if node.ready != ready {
            (self.is_unsure, self.is_redundant) = (true, true);
            return usual(ready, last, is_tired);
        }
        let step = does(node.picked);
        let sleeping = (0..SEATS).filter(|&at| (node.sleep | node.done) >> at & 1 == 1 && !does(at).matters_to(step));
        self.sleep = sleeping.fold(0, |set, at| set | 1 << at);
        self.made += 1;
        node.picked
    }

    /// Whether the run that has ended was none of those before it, in another order.
    pub(crate) fn is_new(&self) -> bool {
        !self.is_redundant
    }

    /// Begins the next run, if there is one.
    pub(crate) fn next_run(&mut self) -> Result<(), Ended> {
        if self.is_unsure || self.made < self.path.len() {
            return Err(Ended::Unsure);
        }
        (self.made, self.is_redundant) = (0, false);
        while let Some(node) = self.path.last_mut() {
            node.done |= 1 << node.picked;
            let left = node.ready & !node.sleep & !node.done;
            if left != 0 {
                node.picked = left.trailing_zeros() as usize;
                return Ok(());
            }
            self.path.pop();
        }
        Err(if self.has_left_out { Ended::ButYields } else { Ended::Whole })
    }
}

#[cfg(test)]
mod tests {
    use super::{Ended, Search};
    use crate::turns::Does;

    // How many orders there are of threads that make these steps, and how many runs were made for that.
    fn orders(threads: &[&[Does]]) -> (u64, u64) {
        let (mut search, mut orders, mut runs) = (Search::default(), 0, 0);
        loop {
            let mut made = vec![0; threads.len()];
            let mut last = None;
            search.begin_heap();
            while made.iter().zip(threads).any(|(&made, steps)| made < steps.len()) {
                let ready: Vec<bool> = made.iter().zip(threads).map(|(&made, steps)| made < steps.len()).collect();
                let does = |at: usize| threads.get(at).and_then(|steps| steps.get(made[at])).copied().unwrap_or(Does::Nothing);
                let picked = search.pick(&ready, does, last, false);
                made[picked] += 1;
                last = Some(picked);
            }
            (orders, runs) = (orders + u64::from(search.is_new()), runs + 1);
            if let Err(ended) = search.next_run() {
                assert_eq!(ended, Ended::Whole);
                return (orders, runs);
            }
        }
    }

    #[test]
    fn each_order_that_matters_is_tried_once() {
        use Does::{Anything, Nothing, Reads, Writes, WritesBoth};
        // All interleavings of two and two, three and three, and of three threads of two each: 4!/(2!2!), 6!/(3!3!), 6!/(2!2!2!).
        assert_eq!(orders(&[&[Writes(1); 2][..]; 2]), (6, 6));
        assert_eq!(orders(&[&[Writes(1); 3][..]; 2]), (20, 20));
        assert_eq!(orders(&[&[Anything; 2][..]; 3]), (90, 90));
        // Where nothing matters to anything there is one.
        assert_eq!(orders(&[&[Writes(1); 2], &[Writes(2); 2]]).0, 1);
        assert_eq!(orders(&[&[Reads(1); 2][..]; 3]).0, 1);
        assert_eq!(orders(&[&[Nothing; 2], &[Writes(1); 2]]).0, 1);
        // Each of two reads stands before or after the write.
        assert_eq!(orders(&[&[Reads(1)], &[Reads(1)], &[Writes(1)]]).0, 4);
        // Store and load, crosswise: of four final orders of the two objects one is a circle.
        assert_eq!(orders(&[&[Writes(1), Reads(2)], &[Writes(2), Reads(1)]]).0, 3);
        // What writes both meets either.
        assert_eq!(orders(&[&[WritesBoth(1, 2)], &[Writes(2)], &[Reads(1)]]).0, 4);
        assert_eq!(orders(&[&[Writes(1)][..]; 4]), (24, 24));
    }

    #[test]
    fn a_program_that_does_another_thing_is_told() {
        let mut search = Search::default();
        search.pick(&[true, true], |_| Does::Anything, None, false);
        search.pick(&[false, true], |_| Does::Anything, None, false);
        assert_eq!(search.next_run(), Ok(()));
        search.pick(&[true, false], |_| Does::Anything, None, false);
        assert_eq!(search.next_run(), Err(Ended::Unsure));
    }
}
