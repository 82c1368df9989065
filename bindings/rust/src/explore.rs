//! Many schedules, until one fails.
use crate::program::held;
use crate::quiet::{self, Watch};
use crate::schedule::{Panicked, Pick};
use crate::shrink::with_fewer_preemptions;
use crate::turns::search::{Ended, Search};
use crate::{Error, Place, Recording, Schedule};
use std::any::Any;
use std::iter::successors;
use std::panic::{self, AssertUnwindSafe};
use std::path::Path;
use std::{error, fmt, mem};

/// Why an exploration ended.
///
/// ```
/// use octet::{Cause, Error, explore};
///
/// let failure = explore([0], |_| panic!("at once")).expect_err("it panics");
/// assert!(matches!(failure.cause(), Cause::Panic(message) if message == "at once"));
/// let failure = explore([0], |_| Err(Error::Resting)).expect_err("it fails");
/// assert!(matches!(failure.cause(), Cause::Error(Error::Resting)));
/// ```
#[derive(Debug)]
#[non_exhaustive]
pub enum Cause<E = Error> {
    /// An assertion failed, in a thread or after the run, with this message.
    Panic(String),
    /// The program failed: its run did, or what it did with it.
    Error(E),
    /// The program passed, and handed its schedule to no heap: give it to `Builder::schedule`.
    Unscheduled,
}

/// A schedule that failed: its seed, why it failed, and its run, which is shrunk to few preemptions.
///
/// ```
/// use octet::{Heap, explore};
///
/// let failure = explore(0..100, |schedule| {
///     let run = Heap::builder().object("x", 0).schedule(schedule).run(|threads| {
///         for number in 1..=2 {
///             threads.spawn(move |session| session.store(session.object("x")?, number));
///         }
///     })?;
///     assert_eq!(run.value("x"), Some(2), "the first thread writes last");
///     Ok(())
/// })
/// .expect_err("some schedule does so");
/// println!("{failure}");
/// # assert!(failure.to_string().contains("the first thread writes last"));
/// ```
pub struct Failure<E = Error> {
    seed: u64,
    cause: Cause<E>,
    // The thread that has panicked, if one of the run has, and where it did.
    thread: Option<usize>,
    place: Option<Place>,
    picks: Vec<Pick>,
    // Whether its schedule has the finer steps of a search.
    is_fine: bool,
    recording: Option<Recording>,
}

impl<E> Failure<E> {
    /// The seed of the schedule, before it was shrunk.
    ///
    /// ```
    /// let failure = octet::explore(3..9, |_| panic!("always")).expect_err("it panics");
    /// assert_eq!(failure.seed(), 3);
    /// ```
    #[must_use]
    pub fn seed(&self) -> u64 {
        self.seed
    }

    /// The thread of the run that has panicked, if one has.
    ///
    /// ```
    /// use octet::{Heap, explore};
    ///
    /// let failure = explore([0], |schedule| {
    ///     Heap::builder().schedule(schedule).run(|threads| threads.spawn(|_| if true { panic!("always") } else { Ok(()) }))?;
    ///     Ok(())
    /// })
    /// .expect_err("it panics");
    /// assert_eq!(failure.thread(), Some(0));
    /// ```
    #[must_use]
    pub fn thread(&self) -> Option<usize> {
        self.thread
    }

    /// Where the panic stands, in a thread or after the run.
    ///
    /// ```
    /// let failure = octet::explore([0], |_| panic!("always")).expect_err("it panics");
    /// assert_eq!(failure.place().map(|place| place.file()), Some(file!()));
    /// ```
    #[must_use]
    pub fn place(&self) -> Option<&Place> {
        self.place.as_ref()
    }

    /// The schedule by which it fails, as it was shrunk. It prints as a text, and `Schedule::parse` reads it.
    ///
    /// ```
    /// use octet::{Error, Heap, Run, Schedule, explore};
    ///
    /// fn add(schedule: Schedule) -> Result<Run<()>, Error> {
    ///     Heap::builder().object("x", 0).schedule(schedule).run(|threads| {
    ///         for _ in 0..2 {
    ///             threads.spawn(|session| {
    ///                 let x = session.object("x")?;
    ///                 let found = session.load(x)?;
    ///                 session.store(x, found + 1)
    ///             });
    ///         }
    ///     })
    /// }
    ///
    /// let failure = explore(0..100, |schedule| {
    ///     assert_eq!(add(schedule)?.value("x"), Some(2));
    ///     Ok(())
    /// })
    /// .expect_err("some schedule loses an addition");
    /// let text = failure.schedule().to_string();
    /// assert_eq!(add(Schedule::parse(&text)?)?.value("x"), Some(1));
    /// # Ok::<(), Error>(())
    /// ```
    #[must_use]
    pub fn schedule(&self) -> Schedule {
        self.by_picks(self.picks.iter().map(|pick| pick.thread).collect(), Vec::new())
    }

    /// A schedule of its steps that picks these threads; where a thread was picked as often as its length says, it may wait in a loop.
    pub(crate) fn by_picks(&self, threads: Vec<usize>, lengths: Vec<usize>) -> Schedule {
        Schedule::given(self.seed, threads, lengths).with_steps_of(self.is_fine)
    }

    /// Why it failed.
    ///
    /// ```
    /// let failure = octet::explore([0], |_| panic!("always")).expect_err("it panics");
    /// assert!(matches!(failure.cause(), octet::Cause::Panic(message) if message == "always"));
    /// ```
    #[must_use]
    pub fn cause(&self) -> &Cause<E> {
        &self.cause
    }

    /// How often a thread was picked though the one before could have gone on.
    ///
    /// ```
    /// use octet::{Heap, explore};
    ///
    /// let failure = explore(0..100, |schedule| {
    ///     let run = Heap::builder().object("x", 0).schedule(schedule).run(|threads| {
    ///         for _ in 0..2 {
    ///             threads.spawn(|session| {
    ///                 let x = session.object("x")?;
    ///                 let found = session.load(x)?;
    ///                 session.store(x, found + 1)
    ///             });
    ///         }
    ///     })?;
    ///     assert_eq!(run.value("x"), Some(2));
    ///     Ok(())
    /// });
    /// assert_eq!(failure.expect_err("some schedule loses an addition").preemptions(), 1);
    /// ```
    #[must_use]
    pub fn preemptions(&self) -> usize {
        self.picks.iter().filter(|pick| pick.preempts).count()
    }

    /// The run by the schedule, as far as it came. Threads of a deadlock, run again, leave it where they waited. None where no run
    /// of it has ended, or where `Builder::record` has kept it.
    ///
    /// ```
    /// let failure = octet::explore([0], |schedule| {
    ///     octet::Heap::builder().object("x", 5).schedule(schedule).run(|threads| threads.spawn(|_| Ok(())))?;
    ///     panic!("always")
    /// })
    /// .expect_err("it panics");
    /// assert_eq!(failure.recording().expect("its run has ended").value("x"), Some(5));
    /// ```
    #[must_use]
    pub fn recording(&self) -> Option<&Recording> {
        self.recording.as_ref()
    }

    /// Saves the run under this stem.
    ///
    /// ```
    /// let failure = octet::explore([0], |schedule| {
    ///     octet::Heap::builder().object("x", 5).schedule(schedule).run(|threads| threads.spawn(|_| Ok(())))?;
    ///     panic!("always")
    /// })
    /// .expect_err("it panics");
    /// # let stem = std::env::temp_dir().join(format!("octet-failure-{}", std::process::id()));
    /// failure.save(&stem)?;
    /// assert_eq!(Some(&octet::Recording::load(&stem)?), failure.recording());
    /// # Ok::<(), octet::Error>(())
    /// ```
    ///
    /// # Errors
    /// `NoRecording` where there is none, and those of `Recording::save`.
    pub fn save(&self, stem: impl AsRef<Path>) -> Result<(), Error> {
        self.recording.as_ref().ok_or(Error::NoRecording)?.save(stem)
    }

    fn unscheduled(seed: u64) -> Failure<E> {
        Failure {
            seed,
            cause: Cause::Unscheduled,
            thread: None,
            place: None,
            picks: Vec::new(),
            is_fine: false,
            recording: None,
        }
    }

    pub(crate) fn picks(&self) -> &[Pick] {
        &self.picks
    }

    /// Whether both fail by the same kind of error, or by panics whose messages differ in numbers alone.
    pub(crate) fn is_like(&self, other: &Failure<E>) -> bool {
        match (&self.cause, &other.cause) {
            (Cause::Panic(message), Cause::Panic(other)) => without_numbers(message).eq(without_numbers(other)),
            (Cause::Error(error), Cause::Error(other)) => mem::discriminant(error) == mem::discriminant(other),
            _ => false,
        }
    }
}

impl<E: error::Error + 'static> Failure<E> {
    /// Whether a thread has waited too long, as the error says or one of its sources.
    pub(crate) fn is_impatient(&self) -> bool {
        let Cause::Error(first) = &self.cause else {
            return false;
        };
        let causes = successors(Some(first as &(dyn error::Error + 'static)), |cause| cause.source());
        causes
            .filter_map(|cause| cause.downcast_ref())
            .any(|error| matches!(error, Error::Patience { .. } | Error::NotBack { .. }))
    }
}

impl<E: fmt::Display> fmt::Display for Failure<E> {
    fn fmt(&self, out: &mut fmt::Formatter<'_>) -> fmt::Result {
        write!(out, "seed {}: ", self.seed)?;
        match &self.cause {
            Cause::Panic(message) => {
                if let Some(thread) = self.thread {
                    write!(out, "thread {thread} ")?;
                }
                if let Some(place) = &self.place {
                    write!(out, "at {place}: ")?;
                }
                out.write_str(message)
            }
            Cause::Error(error) => write!(out, "{error}"),
            Cause::Unscheduled => out.write_str(
                "the program has handed its schedule to no heap; give it to Builder::schedule, else each run is free",
            ),
        }
    }
}

// Short, since a program that ends with it prints this. The run is in files once it is saved.
impl<E: fmt::Debug> fmt::Debug for Failure<E> {
    fn fmt(&self, out: &mut fmt::Formatter<'_>) -> fmt::Result {
        let mut told = out.debug_struct("Failure");
        told.field("seed", &self.seed).field("cause", &self.cause);
        if let Some(thread) = self.thread {
            told.field("thread", &thread);
        }
        if let Some(place) = &self.place {
            told.field("place", &format_args!("{place}"));
        }
        told.field("preemptions", &self.preemptions()).finish_non_exhaustive()
    }
}

impl<E: error::Error + 'static> error::Error for Failure<E> {
    fn source(&self) -> Option<&(dyn error::Error + 'static)> {
        match &self.cause {
            Cause::Panic(_) | Cause::Unscheduled => None,
            Cause::Error(error) => Some(error),
        }
    }
}

fn without_numbers(message: &str) -> impl Iterator<Item = char> {
    message.chars().filter(|letter| !letter.is_ascii_digit())
}

pub(crate) fn message_of(panic: &(dyn Any + Send)) -> String {
    let text = panic.downcast_ref::<&str>().map(ToString::to_string);
    text.or_else(|| panic.downcast_ref::<String>().cloned()).unwrap_or_else(|| "a panic".to_string())
}

/// What a run of a program came to, how many picks it was of, and how often another thread was picked than before.
pub(crate) struct Played<E> {
    pub(crate) failure: Option<Box<Failure<E>>>,
    pub(crate) picks: usize,
    pub(crate) switches: usize,
    is_taken: bool,
}

/// Runs a program by this schedule.
pub(crate) fn play<E>(program: &mut dyn FnMut(Schedule) -> Result<(), E>, schedule: &Schedule) -> Played<E> {
    quiet::last_panic();
    let cause = match panic::catch_unwind(AssertUnwindSafe(|| program(schedule.clone()))) {
        Ok(ended) => ended.err().map(Cause::Error),
        Err(panic) => Some(Cause::Panic(message_of(panic.as_ref()))),
    };
    let kept = schedule.kept();
    let (picks, is_taken) = (kept.picks.len(), kept.is_taken);
    let switches = kept.picks.windows(2).filter(|pair| pair[0].thread != pair[1].thread).count();
    let here = quiet::last_panic();
    let (thread, place) = kept.panicked.map_or((None, here), |Panicked { thread, at }| (Some(thread), at));
    let (seed, is_fine) = (schedule.seed(), schedule.is_fine());
    let of = |cause| Failure { seed, cause, thread, place, picks: kept.picks, is_fine, recording: kept.recording };
    Played { failure: cause.map(of).map(Box::new), picks, switches, is_taken }
}

/// Runs a program by the schedule of each seed, in order, until it fails, and answers how many seeds passed. An assertion that
/// fails, in a thread or after the run, is a failure too: it has the seed, and keeps the run.
///
/// A failure is shrunk: the program runs up to 200 times more, and within 120,000 picks or 6,000 switches between threads, by
/// schedules with fewer preemptions, and the failure of the same kind with the fewest is kept. So a seed is always shrunk to the
/// same failure. Where the program does more than that, as one that sleeps, the clock ends it within three seconds, and one seed may
/// be shrunk to several failures. Panics are of the same kind where their messages differ in numbers alone.
/// Those of the runs that shrink are not printed. Where the program keeps its runs by `Builder::record`, its file is of the
/// failure that is told.
///
/// All accesses of sessions are sequentially consistent. So a mistake that only a weaker order of memory shows, as a missing
/// `Acquire` or `Release`, is not found here. [`program::explore`](crate::program::explore) runs programs over look-alikes of `std`,
/// whose accesses name their orders: there a data race that such an order leaves is found, as [`cell`](crate::cell) shows.
///
/// ```
/// use octet::{Builder, Error, Heap, Run, explore};
///
/// fn pay(bank: Builder) -> Result<Run<()>, Error> {
///     bank.run(|threads| {
///         for amount in [30, 50] {
///             threads.spawn(move |session| {
///                 let balance = session.object("balance")?;
///                 let found = session.load(balance)?;
///                 session.store(balance, found + amount)
///             });
///         }
///     })
/// }
///
/// let bank = Heap::builder().object("balance", 100);
/// let failure = explore(0..1000, |schedule| {
///     let run = pay(bank.clone().schedule(schedule))?;
///     assert_eq!(run.value("balance"), Some(180));
///     Ok(())
/// })
/// .expect_err("some schedule loses a payment");
/// let lost = failure.recording().expect("its run has ended");
/// assert_eq!(pay(bank.rerun(lost))?.value("balance"), lost.value("balance"));
/// # Ok::<(), Error>(())
/// ```
///
/// # Errors
/// The first failure. A program that passes and has handed its schedule to no heap has failed too: as `Cause::Unscheduled`.
pub fn explore(
    seeds: impl IntoIterator<Item = u64>,
    program: impl FnMut(Schedule) -> Result<(), Error>,
) -> Result<u64, Box<Failure>> {
    try_explore(seeds, program)
}

/// Explores a program that may fail with errors of its own, as `explore` does. Errors are of the same kind where they are of the
/// same variant.
///
/// ```
/// use octet::{Cause, Heap, try_explore};
///
/// #[derive(Debug)]
/// enum Fault {
///     Lost(u64),
///     Heap(octet::Error),
/// }
///
/// impl std::fmt::Display for Fault {
///     fn fmt(&self, out: &mut std::fmt::Formatter<'_>) -> std::fmt::Result {
///         match self {
///             Fault::Lost(balance) => write!(out, "the balance is {balance}"),
///             Fault::Heap(error) => write!(out, "{error}"),
///         }
///     }
/// }
///
/// impl std::error::Error for Fault {}
///
/// impl From<octet::Error> for Fault {
///     fn from(error: octet::Error) -> Fault {
///         Fault::Heap(error)
///     }
/// }
///
/// let failure = try_explore(0..1000, |schedule| {
///     let run = Heap::builder().object("balance", 0).schedule(schedule).run(|threads| {
///         for _ in 0..2 {
///             threads.spawn(|session| {
///                 let balance = session.object("balance")?;
///                 let found = session.load(balance)?;
///                 session.store(balance, found + 1)
///             });
///         }
///     })?;
///     match run.value("balance") {
///         Some(2) => Ok(()),
///         balance => Err(Fault::Lost(balance.unwrap_or_default())),
///     }
/// })
/// .expect_err("some schedule loses an addition");
/// assert!(matches!(failure.cause(), Cause::Error(Fault::Lost(1))));
/// ```
///
/// # Errors
/// As `explore`.
pub fn try_explore<E: error::Error + 'static>(
    seeds: impl IntoIterator<Item = u64>,
    mut program: impl FnMut(Schedule) -> Result<(), E>,
) -> Result<u64, Box<Failure<E>>> {
    let mut passed = 0;
    let _watch = Watch::new();
    for seed in seeds {
        let played = play(&mut program, &Schedule::new(seed));
        if let Some(failure) = played.failure {
            return Err(with_fewer_preemptions(failure, &mut program));
        }
        if !played.is_taken {
            return Err(Box::new(Failure::unscheduled(seed)));
        }
        passed += 1;
    }
    Ok(passed)
}

/// How much of a program was tried by `explore_all`, and by how many runs, none of which is another one in an order that nothing
/// in it tells apart.
///
/// ```
/// use octet::{Heap, Tried, explore_all};
///
/// let tried = explore_all(1_000, |schedule| {
///     Heap::builder().object("x", 0).schedule(schedule).run(|threads| {
///         for number in 1..=2 {
///             threads.spawn(move |session| session.store(session.object("x")?, number));
///         }
///     })?;
///     Ok(())
/// });
/// assert_eq!(tried.expect("nothing fails"), Tried::All { runs: 2 });
/// ```
#[derive(Clone, Copy, Debug, PartialEq, Eq, Hash)]
#[non_exhaustive]
pub enum Tried {
    /// All schedules.
    All {
        /// How many runs there are.
        runs: u64,
    },
    /// All of those by which a thread that yields lets another one go first. A thread that spins without that makes a run of any
    /// length, so there is no end of schedules.
    ButYields {
        /// How many runs there are.
        runs: u64,
    },
    /// Not all: there are more than the most that were to be made, or a run has not followed from its picks alone.
    NotAll {
        /// How many runs were made.
        runs: u64,
    },
}

/// Runs a program by all its schedules, depth first, and says whether all were tried: it makes at most so many runs, and ends at the
/// first failure. Of runs that differ only in the order of what does not matter to each other one is enough, as of two accesses to
/// different objects, or of two that read (sleep sets: Godefroid, 1996). Some runs are begun before that is known, and they count for
/// the most, too.
///
/// This is a test, and proves nothing: what threads do has to follow from the accesses that they make. Where it does not, as where a
/// thread reads a clock or is blocked, the answer is `NotAll` as far as that is seen. A lock that is asked for while it is held is a
/// run of its own. A failure has the seed 0, and its schedule prints.
///
/// ```
/// use octet::{Error, Heap, Tried, explore_all};
///
/// let adds = |most| explore_all(most, |schedule| {
///     let run = Heap::builder().object("x", 0).schedule(schedule).run(|threads| {
///         for _ in 0..2 {
///             threads.spawn(|session| session.fetch_add(session.object("x")?, 1));
///         }
///     })?;
///     assert_eq!(run.value("x"), Some(2));
///     Ok(())
/// });
/// assert_eq!(adds(1_000).expect("nothing fails"), Tried::All { runs: 2 });
/// assert_eq!(adds(1).expect("nothing fails"), Tried::NotAll { runs: 1 });
/// ```
///
/// # Errors
/// As `explore`.
pub fn explore_all(most: u64, program: impl FnMut(Schedule) -> Result<(), Error>) -> Result<Tried, Box<Failure>> {
    try_explore_all(most, program)
}

/// The same, of a program that may fail with errors of its own, as `try_explore`.
///
/// ```
/// use octet::{Error, Tried, try_explore_all};
///
/// let tried = try_explore_all(10, |schedule| {
///     octet::Heap::builder().schedule(schedule).run(|threads| threads.spawn(|_| Ok(())))?;
///     Ok::<(), Error>(())
/// });
/// assert_eq!(tried.expect("nothing fails"), Tried::All { runs: 1 });
/// ```
///
/// # Errors
/// As `explore`.
pub fn try_explore_all<E: error::Error + 'static>(
    most: u64,
    mut program: impl FnMut(Schedule) -> Result<(), E>,
) -> Result<Tried, Box<Failure<E>>> {
    let search = Search::shared();
    let _watch = Watch::new();
    let mut runs = 0;
    for _ in 0..most {
        let played = play(&mut program, &Schedule::searched(&search));
        if let Some(failure) = played.failure {
            return Err(with_fewer_preemptions(failure, &mut program));
        }
        if !played.is_taken {
            return Err(Box::new(Failure::unscheduled(0)));
        }
        let mut search = held(&search);
        runs += u64::from(search.is_new());
        match search.next_run() {
            Ok(()) => {}
            Err(Ended::Whole) => return Ok(Tried::All { runs }),
            Err(Ended::ButYields) => return Ok(Tried::ButYields { runs }),
            Err(Ended::Unsure) => return Ok(Tried::NotAll { runs }),
        }
    }
    Ok(Tried::NotAll { runs })
}
