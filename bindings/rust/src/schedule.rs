//! Which thread goes on: a seed picks it, or it is given.
use crate::error::checked;
use crate::heap::MAX_THREADS;
use crate::raw::{self, Way};
use crate::turns::search::Search;
use crate::{Error, Place, Recording};
use std::iter::repeat_n;
use std::str::FromStr;
use std::sync::{Arc, Mutex, MutexGuard, PoisonError};
use std::{fmt, mem};

/// A thread that was picked, and whether the one before could have gone on.
#[derive(Clone, Copy, Debug)]
pub(crate) struct Pick {
    pub(crate) thread: usize,
    pub(crate) preempts: bool,
}

/// Where a thread of a run has panicked.
#[derive(Clone, Debug)]
pub(crate) struct Panicked {
    pub(crate) thread: usize,
    pub(crate) at: Option<Place>,
}

/// What was made by a schedule last: the picks of its run, a run that has ended, and the first of its threads that has panicked.
#[derive(Debug, Default)]
pub(crate) struct Kept {
    pub(crate) is_taken: bool,
    pub(crate) picks: Vec<Pick>,
    pub(crate) recording: Option<Recording>,
    pub(crate) panicked: Option<Panicked>,
}

/// By it the threads of a heap take turns: before each access, each call that takes or frees a lock, waits, notifies, or ends the
/// thread, a thread waits until it is picked. The same seed gives the same run again, as far as the threads wait for each other by
/// the heap alone. It prints as a text that `parse` reads, but for one of `explore_all`, which is no schedule without those before.
///
/// ```
/// use octet::{Error, Heap, Run, Schedule};
///
/// let run = |seed| -> Result<Run<()>, Error> {
///     Heap::builder().object("x", 0).schedule(Schedule::new(seed)).run(|threads| {
///         threads.spawn(|session| session.store(session.object("x")?, 1));
///         threads.spawn(|session| session.store(session.object("x")?, 2));
///     })
/// };
/// assert_eq!(run(7)?.script(), run(7)?.script());
/// assert_eq!(run(7)?.log(), run(7)?.log());
/// # Ok::<(), Error>(())
/// ```
#[derive(Clone, Debug)]
pub struct Schedule {
    seed: u64,
    picks: Picks,
    // Of a program over look-alikes: that a thread starts, or goes on after a wait, is a step by itself.
    is_fine: bool,
    kept: Arc<Mutex<Kept>>,
}

#[derive(Clone, Debug)]
enum Picks {
    /// By draws of the seed.
    Drawn { way: Way, most: u32 },
    /// As they are given, and how often each thread was picked in the run that is shrunk.
    Given { threads: Arc<[usize]>, lengths: Arc<[usize]> },
    /// All of them in turn, depth first.
    Searched(Arc<Mutex<Search>>),
}

/// By odd seeds a thread makes up to so many accesses in a row.
const LONGEST_BURST: u32 = 8;
/// A thread that was picked so often in a row lets others go on, if there are any. `octet_pick` has the same number.
const MOST_IN_A_ROW: usize = 64;
/// How many picks a text may have.
const MOST_PICKS: usize = 1 << 20;

impl Schedule {
    /// Any thread comes before each access.
    pub(crate) fn uniform(seed: u64) -> Schedule {
        Schedule { seed, picks: Picks::Drawn { way: Way::Uniform, most: 0 }, is_fine: false, kept: Arc::default() }
    }

    /// Even seeds pick any thread before each access. Odd ones let a thread make up to 8 accesses in a row, so that threads
    /// change less often.
    ///
    /// ```
    /// use octet::{Heap, Schedule};
    ///
    /// let run = Heap::builder().object("x", 0).schedule(Schedule::new(7)).run(|threads| {
    ///     for number in 1..=2 {
    ///         threads.spawn(move |session| session.store(session.object("x")?, number));
    ///     }
    /// })?;
    /// assert!(run.value("x") > Some(0));
    /// # Ok::<(), octet::Error>(())
    /// ```
    #[must_use]
    pub fn new(seed: u64) -> Schedule {
        if seed % 2 == 0 {
            return Schedule::uniform(seed);
        }
        Schedule { picks: Picks::Drawn { way: Way::Bursts, most: LONGEST_BURST }, ..Schedule::uniform(seed) }
    }

    /// By priorities that the seed draws: of the threads that can move, the one with the highest goes on. At `depth - 1` places,
    /// which are drawn too, the thread at work gets the lowest (PCT, ASPLOS 2010). So it stops threads seldom, and finds what
    /// needs a few switches with long ways between them. A thread that has made 64 accesses in a row gets the lowest too.
    ///
    /// ```
    /// use octet::{Heap, explore};
    ///
    /// // The second thread has to make all its accesses between two of the first one.
    /// let failure = explore(0..1000, |schedule| {
    ///     let run = Heap::builder().object("x", 0).schedule(schedule.pct(2)).run(|threads| {
    ///         threads.spawn(|session| {
    ///             let x = session.object("x")?;
    ///             (1..=2).try_for_each(|value| session.store(x, value))?;
    ///             Ok(Vec::new())
    ///         });
    ///         threads.spawn(|session| (0..20).map(|_| session.load(session.object("x")?)).collect());
    ///     })?;
    ///     assert_ne!(run.values()[1], [1; 20]);
    ///     Ok(())
    /// });
    /// assert_eq!(failure.expect_err("some schedule does so").preemptions(), 1);
    /// ```
    #[must_use]
    pub fn pct(mut self, depth: u32) -> Schedule {
        // One by which a failure is shrunk stays what it is, and so does one of a search.
        if matches!(self.picks, Picks::Drawn { .. }) {
            self.picks = Picks::Drawn { way: Way::Priorities, most: depth.saturating_sub(1) };
        }
        self
    }

    /// Its seed.
    ///
    /// ```
    /// assert_eq!(octet::Schedule::new(7).pct(3).seed(), 7);
    /// ```
    #[must_use]
    pub fn seed(&self) -> u64 {
        self.seed
    }

    /// The schedule that such a text tells, as it is printed: `uniform SEED`, `bursts SEED MOST`, `priorities SEED SWITCHES`, or
    /// `picks SEED` with the threads that are picked, where `1*3` is thread 1 three times. After these picks each thread goes on as
    /// long as it can.
    ///
    /// ```
    /// use octet::{Heap, Schedule};
    ///
    /// // The first thread, twice the second one, and the first one again.
    /// let schedule = Schedule::parse("picks 0 0*2 1*3 0")?;
    /// assert_eq!(schedule.to_string(), "picks 0 0*2 1*3 0");
    /// let run = Heap::builder().object("x", 0).schedule(schedule).run(|threads| {
    ///     for number in 1..=2 {
    ///         threads.spawn(move |session| session.swap(session.object("x")?, number));
    ///     }
    /// })?;
    /// // Each has a pick for its start first.
    /// assert_eq!(run.values(), [0, 1]);
    /// # Ok::<(), octet::Error>(())
    /// ```
    ///
    /// # Errors
    /// `BadSchedule` where it is no such text.
    pub fn parse(text: &str) -> Result<Schedule, Error> {
        let bad = || Error::BadSchedule { text: text.chars().take(80).collect() };
        let mut words = text.split_whitespace();
        let (kind, seed) = (words.next(), words.next().and_then(|seed| seed.parse().ok()));
        let (Some(kind), Some(seed)) = (kind, seed) else { return Err(bad()) };
        let mut most = |way| {
            let most = words.next().and_then(|most| most.parse().ok()).ok_or_else(bad)?;
            Ok(Picks::Drawn { way, most })
        };
        let picks = match kind {
            "uniform" => Picks::Drawn { way: Way::Uniform, most: 0 },
            "bursts" => most(Way::Bursts)?,
            "priorities" => most(Way::Priorities)?,
            "picks" => Schedule::given(seed, picks_of(words.by_ref()).ok_or_else(bad)?, Vec::new()).picks,
            _ => return Err(bad()),
        };
        if words.next().is_some() { Err(bad()) } else { Ok(Schedule { picks, ..Schedule::uniform(seed) }) }
    }

    /// One that picks these threads in turn, but for those that cannot move then. After them each thread goes on as long as it
    /// can. One that was picked more often than the run that is shrunk has picks of it may wait in a loop: it goes on for 64 picks
    /// in a row.
    pub(crate) fn given(seed: u64, threads: Vec<usize>, lengths: Vec<usize>) -> Schedule {
        let picks = Picks::Given { threads: threads.into(), lengths: lengths.into() };
        Schedule { picks, ..Schedule::uniform(seed) }
    }

    /// The next one of a search.
    pub(crate) fn searched(search: &Arc<Mutex<Search>>) -> Schedule {
        Schedule { picks: Picks::Searched(Arc::clone(search)), is_fine: true, ..Schedule::uniform(0) }
    }

    pub(crate) fn search(&self) -> Option<&Arc<Mutex<Search>>> {
        match &self.picks {
            Picks::Searched(search) => Some(search),
            Picks::Drawn { .. } | Picks::Given { .. } => None,
        }
    }

    /// The same, with these steps.
    pub(crate) fn with_steps_of(self, is_fine: bool) -> Schedule {
        Schedule { is_fine, ..self }
    }

    pub(crate) fn is_fine(&self) -> bool {
        self.is_fine
    }

    /// Whether a failure is shrunk by it.
    pub(crate) fn is_given(&self) -> bool {
        matches!(self.picks, Picks::Given { .. })
    }

    /// Whether threads go on by priorities.
    pub(crate) fn is_by_ranks(&self) -> bool {
        matches!(self.picks, Picks::Drawn { way: Way::Priorities, .. })
    }

    /// A heap or a program runs by it from here on.
    pub(crate) fn take(&self) {
        let mut kept = self.kept_now();
        kept.is_taken = true;
        kept.picks.clear();
    }

    pub(crate) fn picker(&self) -> Result<Picker, Error> {
        match &self.picks {
            // Its search picks.
            Picks::Searched(_) => Ok(Picker::Given(Given::default())),
            Picks::Drawn { way, most } => {
                let (turns, status) = raw::schedule(*way, self.seed, *most);
                checked(status, 0).map(|()| Picker::Drawn(turns))
            }
            Picks::Given { threads, lengths } => Ok(Picker::Given(Given {
                threads: Arc::clone(threads),
                next: 0,
                lengths: Arc::clone(lengths),
                made: Vec::new(),
                row: 0,
            })),
        }
    }

    fn kept_now(&self) -> MutexGuard<'_, Kept> {
        self.kept.lock().unwrap_or_else(PoisonError::into_inner)
    }

    pub(crate) fn note(&self, pick: Pick) {
        self.kept_now().picks.push(pick);
    }

    pub(crate) fn keep(&self, recording: &Recording) {
        self.kept_now().recording = Some(recording.clone());
    }

    /// Notes that a thread panics, if it is the first one.
    pub(crate) fn note_panic(&self, thread: usize, at: Option<Place>) {
        self.kept_now().panicked.get_or_insert(Panicked { thread, at });
    }

    pub(crate) fn kept(&self) -> Kept {
        mem::take(&mut self.kept_now())
    }
}

impl fmt::Display for Schedule {
    fn fmt(&self, out: &mut fmt::Formatter<'_>) -> fmt::Result {
        match &self.picks {
            Picks::Drawn { way: Way::Uniform, .. } => write!(out, "uniform {}", self.seed),
            Picks::Drawn { way: Way::Bursts, most } => write!(out, "bursts {} {most}", self.seed),
            Picks::Drawn { way: Way::Priorities, most } => write!(out, "priorities {} {most}", self.seed),
            Picks::Searched(_) => write!(out, "all {}", self.seed),
            Picks::Given { threads, .. } => {
                write!(out, "picks {}", self.seed)?;
                threads.chunk_by(|one, other| one == other).try_for_each(|burst| match burst.len() {
                    1 => write!(out, " {}", burst[0]),
                    times => write!(out, " {}*{times}", burst[0]),
                })
            }
        }
    }
}

impl FromStr for Schedule {
    type Err = Error;

    fn from_str(text: &str) -> Result<Schedule, Error> {
        Schedule::parse(text)
    }
}

// The threads that such words tell.
fn picks_of<'a>(words: impl Iterator<Item = &'a str>) -> Option<Vec<usize>> {
    let mut picks = Vec::new();
    for word in words {
        let (thread, times) = word.split_once('*').unwrap_or((word, "1"));
        let (thread, times): (usize, usize) = (thread.parse().ok()?, times.parse().ok()?);
        if thread >= MAX_THREADS || times > MOST_PICKS - picks.len() {
            return None;
        }
        picks.extend(repeat_n(thread, times));
    }
    Some(picks)
}

/// A thread that is to go on.
#[derive(Clone, Copy, Debug, PartialEq, Eq)]
pub(crate) struct Picked {
    pub(crate) thread: usize,
    /// Whether the one before has gone on for so long that it seems to wait in a loop.
    pub(crate) is_forced: bool,
}

/// Picks the threads of one run.
pub(crate) enum Picker {
    Drawn(raw::Handle),
    Given(Given),
}

/// Threads that are picked as they are given, and then go on as long as they can.
#[derive(Default)]
pub(crate) struct Given {
    threads: Arc<[usize]>,
    // Which of them comes next.
    next: usize,
    lengths: Arc<[usize]>,
    // How often each thread was picked, and the last one in a row.
    made: Vec<usize>,
    row: usize,
}

impl Picker {
    /// One of those that are ready, if one is.
    pub(crate) fn pick(&mut self, ready: &[bool], last: Option<usize>) -> Option<Picked> {
        match self {
            Picker::Drawn(turns) => turns.pick(ready).map(|thread| Picked { thread, is_forced: false }),
            Picker::Given(given) => given.pick(ready, last),
        }
    }
}

impl Given {
    fn pick(&mut self, ready: &[bool], last: Option<usize>) -> Option<Picked> {
        let picked = self.next_given(ready).or_else(|| self.after_given(ready, last))?;
        self.made.resize(ready.len(), 0);
        self.made[picked.thread] += 1;
        self.row = if last == Some(picked.thread) { self.row + 1 } else { 1 };
        Some(picked)
    }

    fn next_given(&mut self, ready: &[bool]) -> Option<Picked> {
        let left = &self.threads[self.next..];
        let at = left.iter().position(|&thread| ready.get(thread) == Some(&true));
        self.next += at.map_or(left.len(), |at| at + 1);
        at.map(|at| Picked { thread: left[at], is_forced: false })
    }

    fn after_given(&self, ready: &[bool], last: Option<usize>) -> Option<Picked> {
        let from = last.unwrap_or(0);
        let spins = |thread: usize| {
            let [made, length] = [&self.made, &self.lengths[..]].map(|each| each.get(thread).copied().unwrap_or(0));
            last == Some(thread) && self.row >= MOST_IN_A_ROW && made >= length
        };
        let mut in_turn = (from..ready.len()).chain(0..from).filter(|&thread| ready[thread]);
        let first = in_turn.next()?;
        let other = if spins(first) { in_turn.next() } else { None };
        Some(Picked { thread: other.unwrap_or(first), is_forced: other.is_some() })
    }
}

#[cfg(test)]
mod tests {
    use super::Schedule;

    // How often another thread was picked than the one before, of three that can always move.
    fn switches(schedule: &Schedule, picks: usize) -> usize {
        let mut picker = schedule.picker().expect("there is memory");
        let picked: Vec<_> = (0..picks).map(|_| picker.pick(&[true; 3], None)).collect();
        picked.windows(2).filter(|pair| pair[0] != pair[1]).count()
    }

    #[test]
    fn ranks_switch_as_often_as_their_depth_allows() {
        for depth in 1..=4 {
            let found = (0..200).map(|seed| switches(&Schedule::new(seed).pct(depth), 60));
            assert_eq!(found.max(), Some(depth as usize - 1));
        }
        // A thread that waits in a loop lets the others go on.
        assert_eq!(switches(&Schedule::new(0).pct(1), 640), 9);
    }

    fn given(threads: Vec<usize>, lengths: Vec<usize>) -> impl FnMut(&[bool], Option<usize>) -> Option<usize> {
        let mut picker = Schedule::given(0, threads, lengths).picker().expect("there is memory");
        move |ready, last| picker.pick(ready, last).map(|picked| picked.thread)
    }

    #[test]
    fn given_picks_are_taken_in_turn_and_then_each_goes_on() {
        let mut pick = given(vec![2, 0, 1, 1], Vec::new());
        assert_eq!(pick(&[true; 3], None), Some(2));
        // Thread 0 cannot move, so its pick is passed over.
        assert_eq!(pick(&[false, true, true], Some(2)), Some(1));
        assert_eq!(pick(&[true; 3], Some(1)), Some(1));
        assert_eq!(pick(&[true; 3], Some(1)), Some(1));
        assert_eq!(pick(&[true, false, true], Some(1)), Some(2));
        assert_eq!(pick(&[true, false, false], Some(2)), Some(0));
        assert_eq!(pick(&[false; 3], Some(2)), None);
    }

    // How often each of three threads is picked in a row, where nothing is given.
    fn rows(lengths: Vec<usize>, picks: usize) -> Vec<usize> {
        let (mut pick, mut last) = (given(Vec::new(), lengths), None);
        let picked: Vec<_> = (0..picks)
            .map(|_| {
                last = pick(&[true; 3], last);
                last
            })
            .collect();
        picked.chunk_by(|one, other| one == other).map(<[_]>::len).collect()
    }

    #[test]
    fn a_thread_that_seems_to_wait_in_a_loop_lets_others_go_on() {
        assert_eq!(rows(Vec::new(), 256), [64; 4]);
        // The first one made 100 picks in the run that is shrunk, so there it did not wait so long.
        assert_eq!(rows(vec![100, 0, 0], 228), [100, 64, 64]);
        let mut alone = given(Vec::new(), Vec::new());
        assert!((0..200).all(|_| alone(&[false, true, false], Some(1)) == Some(1)));
    }

    #[test]
    fn a_schedule_is_read_as_it_is_printed() {
        for text in ["uniform 6", "bursts 7 8", "priorities 7 2", "picks 9", "picks 9 0 1*3 0*12 15"] {
            assert_eq!(Schedule::parse(text).map(|it| it.to_string()).ok().as_deref(), Some(text));
        }
        assert_eq!(Schedule::new(7).to_string(), "bursts 7 8");
        for text in
            ["", "uniform", "uniform x", "uniform 6 7", "bursts 7", "picks 9 16", "picks 9 0*", "picks 9 0*9999999", "other 1"]
        {
            assert!(Schedule::parse(text).is_err(), "{text}");
        }
    }
}
