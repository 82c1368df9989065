//! The last accesses of a run of any length.
use crate::error::checked;
use crate::heap::within;
use crate::marks_file::feed_all;
use crate::{Error, LongBuilder, Recording, Threads};

/// How many accesses of each thread a window has: its last ones. `last` makes it.
///
/// ```
/// let accesses: octet::Last = octet::last(1_000);
/// # let file = std::env::temp_dir().join("octet-no-file.octm");
/// let window = octet::Heap::builder().object("x", 0).rerun(&file).window(accesses);
/// # drop(window);
/// ```
#[derive(Clone, Copy, Debug, PartialEq, Eq, Hash)]
pub struct Last(u16);

impl From<u16> for Last {
    fn from(accesses: u16) -> Last {
        Last(accesses)
    }
}

/// So many last accesses of each thread, for `LongBuilder::window`, which takes the number alone too.
///
/// ```
/// assert_eq!(octet::last(1_000), octet::last(1_000));
/// ```
#[must_use]
pub fn last(accesses: u16) -> Last {
    Last(accesses)
}

/// The last accesses of a run of any length, which `run` makes a recording of: so many of each thread, or fewer where what came
/// before what does not allow for them. The threads run once more, to their ends.
///
/// The recording has the objects that are accessed, by their names, and where each access stands in the program. An object begins
/// with the value that its first access finds there, or with 0 where that is a write. Threads cannot be run again by it, since they would have to begin in the middle.
///
/// ```
/// use octet::{Error, Heap, Threads, Window, last};
///
/// fn threads(threads: &mut Threads<'_, u64, Error>) {
///     for _ in 0..2 {
///         threads.spawn(|session| (0..100_000).try_fold(0, |_, _| session.fetch_add(session.object("x")?, 1)));
///     }
/// }
///
/// # let file = std::env::temp_dir().join(format!("octet-window-{}.octm", std::process::id()));
/// # let stem = std::env::temp_dir().join(format!("octet-window-{}", std::process::id()));
/// let heap = Heap::builder().object("x", 0);
/// heap.clone().record(&file).run(threads)?;
/// let window: Window = heap.rerun(&file).window(last(1_000));
/// let recording = window.run(threads)?;
/// recording.save(&stem)?; // for `octet trace`, `octet regions` and the other commands
/// assert!((1_000..=2_000).contains(&recording.script().matches("\nbump x ").count()));
/// # std::fs::remove_file(&file).expect("the file is there");
/// # Ok::<(), Error>(())
/// ```
#[derive(Clone, Debug)]
#[must_use]
pub struct Window {
    long: LongBuilder,
    last: Last,
}

impl Window {
    pub(crate) fn new(long: LongBuilder, last: Last) -> Window {
        Window { long, last }
    }

    /// Runs the threads, and makes a recording of the window.
    ///
    /// ```
    /// use octet::{Error, Heap, Threads};
    ///
    /// fn threads(threads: &mut Threads<'_, u64, Error>) {
    ///     threads.spawn(|session| (0..9).try_fold(0, |_, _| session.fetch_add(session.object("x")?, 1)));
    /// }
    ///
    /// # let file = std::env::temp_dir().join(format!("octet-window-run-{}.octm", std::process::id()));
    /// let heap = Heap::builder().object("x", 0);
    /// heap.clone().record(&file).run(threads)?;
    /// assert_eq!(heap.rerun(&file).window(3).run(threads)?.script().matches("\nbump x ").count(), 3);
    /// # std::fs::remove_file(&file).expect("the file is there");
    /// # Ok::<(), Error>(())
    /// ```
    ///
    /// # Errors
    /// Those of `LongBuilder::run`, and of a file that is damaged. `BadSize` where no accesses are wanted. `TooLong` where the
    /// accesses need more than a script holds: ask for fewer. `OtherRecording` where the threads did not make the accesses of the file.
    ///
    /// # Panics
    /// Where a thread does.
    pub fn run<'a, T: Send>(self, spawn: impl FnOnce(&mut Threads<'a, T, Error>)) -> Result<Recording, Error> {
        self.try_run(spawn)
    }

    /// As `run`, with threads that fail with errors of their own.
    ///
    /// ```
    /// use octet::{Heap, Threads};
    /// use std::error::Error;
    ///
    /// type Fault = Box<dyn Error + Send + Sync>;
    ///
    /// fn threads(threads: &mut Threads<'_, (), Fault>) {
    ///     threads.spawn(|session| match session.fetch_add(session.object("x")?, 1)? {
    ///         0 => Ok(()),
    ///         _ => Err("somebody came first".into()),
    ///     });
    /// }
    ///
    /// # let file = std::env::temp_dir().join(format!("octet-window-fault-{}.octm", std::process::id()));
    /// let heap = Heap::builder().object("x", 0);
    /// heap.clone().record(&file).try_run(threads)?;
    /// assert!(heap.rerun(&file).window(1).try_run(threads)?.script().contains("bump x "));
    /// # std::fs::remove_file(&file).expect("the file is there");
    /// # Ok::<(), Fault>(())
    /// ```
    ///
    /// # Errors
    /// As `run`.
    ///
    /// # Panics
    /// Where a thread does.
    pub fn try_run<'a, T, E>(self, spawn: impl FnOnce(&mut Threads<'a, T, E>)) -> Result<Recording, E>
    where
        T: Send,
        E: From<Error> + Send,
    {
        let Window { long, last: Last(last) } = self;
        within("accesses of each thread", last.into(), 1, u16::MAX.into())?;
        let mut left = long.rerun_noting(last, spawn)?;
        let (mut search, status) = left.record.search();
        checked(status, 0)?;
        feed_all(&mut search, long.path())?;
        let (window, status) = search.window();
        checked(status, 0)?;
        Ok(Recording::of_last(window, left.noted)?.with_names(&long.names()))
    }
}
