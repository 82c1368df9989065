//! A failure with fewer preemptions. The search is bounded, and may miss the fewest.
use crate::Schedule;
use crate::explore::{Failure, play};
use crate::quiet::Quiet;
use crate::schedule::{Pick, Picker};
use std::collections::HashSet;
use std::error::Error;
use std::hash::{BuildHasher, BuildHasherDefault, DefaultHasher};
use std::sync::mpsc;
use std::time::{Duration, Instant};
use std::{iter, thread};

/// How many runs are made at most, and how much they may do in all: a pick of another thread than before, or the start of one,
/// costs as much as so many other picks. So the same seed is shrunk to the same failure, whatever else the machine does, within a
/// second or two.
const MOST_RUNS: usize = 200;
const MOST_COST: usize = 120_000;
const COST_OF_SWITCH: usize = 20;
/// A program that is slow by itself, as one that sleeps, is ended by the clock. Where the machine is busy, so that two threads take
/// as long as this to hand a word to each other, it ends nothing.
const MOST_TIME: Duration = Duration::from_millis(2_500);
const BUSY_SWITCH: Duration = Duration::from_micros(300);
const LOOKS: u32 = 8;
/// How many of them are made at first without a preemption, and how many with one.
const FIRST_RUNS: usize = 40;

/// The threads in the order in which they are to be picked.
type Picked = Vec<usize>;

fn threads(picks: &[Pick]) -> Picked {
    picks.iter().map(|pick| pick.thread).collect()
}

/// A preemption at this place: where the last burst of the thread before it begins, and where its next one begins and ends.
struct Preemption {
    begin: usize,
    at: usize,
    next: usize,
    end: usize,
}

impl Preemption {
    fn of(threads: &[usize], at: usize) -> Preemption {
        let thread = threads[at - 1];
        let from = |from: usize, is_it: bool| {
            let later = threads[from..].iter().position(|&other| (other == thread) == is_it);
            later.map_or(threads.len(), |later| from + later)
        };
        let next = from(at, true);
        let begin = threads[..at].iter().rposition(|&other| other != thread).map_or(0, |before| before + 1);
        Preemption { begin, at, next, end: from(next, false) }
    }

    // The thread goes on with its next burst.
    fn with_next_sooner(&self, threads: &[usize]) -> Picked {
        [&threads[..self.at], &threads[self.next..self.end], &threads[self.at..self.next], &threads[self.end..]].concat()
    }

    // The thread waits with the last burst until its next one.
    fn with_last_later(&self, threads: &[usize]) -> Picked {
        [&threads[..self.begin], &threads[self.at..self.next], &threads[self.begin..self.at], &threads[self.next..]].concat()
    }
}

struct Search<'a, E> {
    program: &'a mut dyn FnMut(Schedule) -> Result<(), E>,
    best: Box<Failure<E>>,
    // How often each thread was picked in the run that is shrunk.
    lengths: Vec<usize>,
    draws: Picker,
    // The hashes of the picks that were played, and what they cost.
    played: HashSet<u64>,
    cost: usize,
    // When the clock is looked at, and whether no more runs are made.
    until: Instant,
    is_ended: bool,
}

// Whether threads of any program wait long for a processor.
fn machine_is_busy() -> bool {
    let ((ask, asked), (answer, answered)) = (mpsc::channel(), mpsc::channel());
    thread::scope(|scope| {
        scope.spawn(move || asked.iter().try_for_each(|()| answer.send(())));
        let began = Instant::now();
        let is_answered = (0..LOOKS).all(|_| ask.send(()).is_ok() && answered.recv().is_ok());
        drop(ask);
        is_answered && began.elapsed() > 2 * LOOKS * BUSY_SWITCH
    })
}

impl<E: Error + 'static> Search<'_, E> {
    // A number that the seed draws, below this one: each pick of sixteen threads is a digit.
    fn below(&mut self, end: usize) -> usize {
        let mut digit = || self.draws.pick(&[true; 16], None).map_or(0, |picked| picked.thread);
        (0..6).fold(0, |number, _| 16 * number + digit()) % end
    }

    fn is_over(&self) -> bool {
        self.is_ended || self.played.len() >= MOST_RUNS || self.cost >= MOST_COST
    }

    fn cost_of(&self, picks: usize, switches: usize) -> usize {
        picks + COST_OF_SWITCH * (switches + self.lengths.len())
    }

    // The failure by these picks, if it is like the best one.
    fn failure_by(&mut self, picks: Picked) -> Option<Box<Failure<E>>> {
        let hash = BuildHasherDefault::<DefaultHasher>::default().hash_one(&picks);
        if self.is_over() || !self.played.insert(hash) {
            return None;
        }
        let played = play(self.program, &self.best.by_picks(picks, self.lengths.clone()));
        self.cost += self.cost_of(played.picks, played.switches);
        if Instant::now() >= self.until {
            self.is_ended = !machine_is_busy();
            self.until = Instant::now() + MOST_TIME;
        }
        let failure = played.failure?;
        if failure.is_impatient() {
            // More tries would wait as long.
            self.is_ended = true;
        }
        failure.is_like(&self.best).then_some(failure)
    }

    // Whether these picks make a better failure. It is the best one then.
    fn is_better(&mut self, picks: Picked) -> bool {
        let Some(failure) = self.failure_by(picks) else {
            return false;
        };
        let keeps_run = failure.recording().is_some() || self.best.recording().is_none();
        let is_better = keeps_run && failure.preemptions() < self.best.preemptions();
        if is_better {
            self.best = failure;
        }
        is_better
    }

    // Picks by which so many threads are stopped, if they go on as they did.
    fn draw(&mut self, preemptions: usize) -> Picked {
        let (mut left, mut picks, mut made) = (self.lengths.clone(), Picked::new(), 0);
        loop {
            let others = (0..left.len()).filter(|&thread| left[thread] > 0 && picks.last() != Some(&thread));
            let others: Picked = others.collect();
            if others.is_empty() {
                return picks;
            }
            let thread = others[self.below(others.len())];
            if made == preemptions {
                picks.push(thread);
                return picks;
            }
            // Every third time or so a thread goes on to its end.
            let burst = left[thread].min(1 + self.below(left[thread] + left[thread] / 2));
            picks.extend(iter::repeat_n(thread, burst));
            left[thread] -= burst;
            made += usize::from(left[thread] > 0);
        }
    }

    // Makes so many runs at most with this many preemptions.
    fn by_draws(&mut self, preemptions: usize, runs: usize) {
        let upto = self.played.len() + runs;
        // Some draws were played before.
        for _ in 0..4 * runs {
            if preemptions >= self.best.preemptions() || self.played.len() >= upto || self.is_over() {
                return;
            }
            let picks = self.draw(preemptions);
            self.is_better(picks);
        }
    }

    // Lets each thread go on as long as it can, from an earlier place on.
    fn by_shorter_picks(&mut self) {
        let mut step = self.best.picks().len() / 2;
        while step > 0 && !self.is_over() {
            let picks = self.best.picks();
            let upto = picks.iter().rposition(|pick| pick.preempts).map_or(0, |last| last + 1);
            let shorter = threads(&picks[..upto.saturating_sub(step)]);
            if !self.is_better(shorter) {
                step /= 2;
            }
        }
    }

    // Drops one preemption after the other. Whether there was one to drop.
    fn by_drops(&mut self) -> bool {
        let (mut dropped, mut from) = (false, 1);
        while let Some(later) = self.best.picks().iter().skip(from).position(|pick| pick.preempts) {
            let at = from + later;
            let picks = threads(self.best.picks());
            let preemption = Preemption::of(&picks, at);
            if self.is_better(preemption.with_next_sooner(&picks)) || self.is_better(preemption.with_last_later(&picks)) {
                (dropped, from) = (true, preemption.begin.max(1));
            } else if self.is_over() {
                return false;
            } else {
                from = at + 1;
            }
        }
        dropped
    }

    // Few preemptions come first, since a failure may have too many to drop them one by one.
    fn all(&mut self) {
        self.by_draws(0, FIRST_RUNS);
        self.by_draws(1, FIRST_RUNS);
        self.by_shorter_picks();
        while self.by_drops() {}
        for preemptions in 1..self.best.preemptions() {
            let share = (MOST_RUNS - self.played.len()) / self.best.preemptions().saturating_sub(preemptions).max(1);
            self.by_draws(preemptions, share);
        }
    }
}

/// The failure with the fewest preemptions that is found; this one, where the program does not fail so again.
pub(crate) fn with_fewer_preemptions<E: Error + 'static>(
    failure: Box<Failure<E>>,
    program: &mut dyn FnMut(Schedule) -> Result<(), E>,
) -> Box<Failure<E>> {
    if failure.preemptions() == 0 || failure.is_impatient() {
        return failure;
    }
    let Ok(draws) = Schedule::uniform(failure.seed()).picker() else {
        return failure;
    };
    let _quiet = Quiet::new();
    let picks = threads(failure.picks());
    let count = |thread| picks.iter().filter(|&&picked| picked == thread).count();
    let lengths = (0..=picks.iter().copied().max().unwrap_or(0)).map(count).collect();
    let switches = picks.windows(2).filter(|pair| pair[0] != pair[1]).count();
    let (played, until) = (HashSet::new(), Instant::now() + MOST_TIME);
    let mut search = Search { program, best: failure, lengths, draws, played, cost: 0, until, is_ended: false };
    // A run that does very much is not made once more by the picks that it has: what is found of it fails all the same.
    if search.cost_of(picks.len(), switches) > MOST_COST / 4 || search.failure_by(picks).is_some() {
        search.all();
    }
    if search.best.recording().is_none() {
        // A file that the program has written is of the last run, which is to be this one.
        let picks = threads(search.best.picks());
        play(search.program, &search.best.by_picks(picks, search.lengths));
    }
    search.best
}

#[cfg(test)]
mod tests {
    use super::Preemption;

    #[test]
    fn a_burst_comes_sooner_or_later() {
        let threads = [1, 0, 0, 1, 2, 0, 1];
        let preemption = Preemption::of(&threads, 3);
        assert_eq!(preemption.with_next_sooner(&threads), [1, 0, 0, 0, 1, 2, 1]);
        assert_eq!(preemption.with_last_later(&threads), [1, 1, 2, 0, 0, 0, 1]);
        // It is not picked again.
        let last = Preemption::of(&threads, 5);
        assert_eq!(last.with_next_sooner(&threads), threads);
        assert_eq!(last.with_last_later(&threads), [1, 0, 0, 1, 0, 1, 2]);
    }
}
