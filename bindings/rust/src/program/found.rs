//! What an exploration has found.
use super::notes::{Notes, with_ending};
use crate::{Error, Failure};
use std::ops::Deref;
use std::path::Path;
use std::{error, fmt};

/// A schedule by which a program failed, and its run: a [`Failure`] that can be run again by [`replay`](crate::program::replay).
///
/// ```
/// use octet::sync::Arc;
/// use octet::sync::atomic::{AtomicU64, Ordering::SeqCst};
/// use octet::{program, thread};
///
/// fn twice() {
///     let sum = Arc::new(AtomicU64::new(0));
///     let other = Arc::clone(&sum);
///     let adds = thread::spawn(move || other.store(other.load(SeqCst) + 1, SeqCst));
///     sum.store(sum.load(SeqCst) + 1, SeqCst);
///     adds.join().expect("it does not panic");
///     assert_eq!(sum.load(SeqCst), 2, "an addition is lost");
/// }
///
/// let found = program::explore(0..1000, twice).expect_err("some schedule loses an addition");
/// assert_eq!(found.preemptions(), 1);
/// assert!(found.to_string().contains("an addition is lost"), "{found}");
/// ```
pub struct Found {
    failure: Box<Failure>,
    notes: Option<Notes>,
    left_behind: usize,
}

impl Found {
    pub(crate) fn new(failure: Box<Failure>, notes: Option<Notes>, left_behind: usize) -> Found {
        Found { failure, notes, left_behind }
    }

    /// Saves the run under this stem: `STEM.octet`, `STEM.log` and `STEM.places`, which the commands of `octet` read, and
    /// `STEM.notes`, by which [`replay`](crate::program::replay) runs the program again beside them.
    ///
    /// # Errors
    /// `NoRecording` where there is no run, and `File` where a file cannot be written.
    ///
    /// ```
    /// let found = octet::program::explore([0], || panic!("always")).expect_err("it panics");
    /// # let stem = std::env::temp_dir().join(format!("octet-found-{}", std::process::id()));
    /// found.save(&stem)?;
    /// assert_eq!(Some(&octet::Recording::load(&stem)?), found.recording());
    /// # Ok::<(), octet::Error>(())
    /// ```
    pub fn save(&self, stem: impl AsRef<Path>) -> Result<(), Error> {
        self.failure.save(&stem)?;
        self.notes.as_ref().ok_or(Error::NoRecording)?.write(with_ending(stem.as_ref(), ".notes"))
    }

    /// How many threads stay where they are until the process ends. Where all threads wait for each other, or a run cannot go on,
    /// none of them is unwound, since its destructors would go on with a state that no run has.
    ///
    /// ```
    /// let found = octet::program::explore([0], octet::thread::park).expect_err("nobody unparks it");
    /// assert!(found.left_behind() > 0);
    /// ```
    #[must_use]
    pub fn left_behind(&self) -> usize {
        self.left_behind
    }
}

impl Deref for Found {
    type Target = Failure;

    fn deref(&self) -> &Failure {
        &self.failure
    }
}

impl fmt::Display for Found {
    fn fmt(&self, out: &mut fmt::Formatter<'_>) -> fmt::Result {
        self.failure.fmt(out)
    }
}

impl fmt::Debug for Found {
    fn fmt(&self, out: &mut fmt::Formatter<'_>) -> fmt::Result {
        write!(out, "{self}, with {} preemptions", self.preemptions())?;
        match self.left_behind {
            0 => Ok(()),
            count => write!(out, "; {count} threads of runs that failed stay until the process ends"),
        }
    }
}

impl error::Error for Found {
    fn source(&self) -> Option<&(dyn error::Error + 'static)> {
        self.failure.source()
    }
}
