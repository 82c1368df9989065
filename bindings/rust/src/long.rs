//! Runs of any length. Their marks go into a file while they go on, and by it they are run again.
use crate::checks::Ledger;
use crate::error::checked;
use crate::heap::{Failed, Rank, Threads, all_ended, values_of};
use crate::marks_file::{Feeding, Writing};
use crate::session::{Keeps, Noted};
use crate::{Builder, Error, Heap, Last, Object, Session, Window, raw};
use std::fmt;
use std::path::{Path, PathBuf};
use std::sync::Arc;
use std::sync::atomic::{AtomicBool, Ordering};
use std::thread::{self, JoinHandle};

/// The most objects that a marks file names.
const MAX_OBJECTS: usize = 65_535;

/// Whether a run is recorded, or run again.
#[derive(Clone, Copy, Debug)]
pub(crate) enum Way {
    Record,
    Rerun,
}

/// What a heap is to have, and the file of marks by which its threads are recorded, or run again. The file keeps which accesses came
/// before which ones, and no value. So a run of 2^42 accesses of each thread may be recorded, and memory does not grow with it.
///
/// The threads that run again have to make the same accesses by themselves: each one follows from the values that the thread was
/// told. That is not so where it reads a clock, or asks the system.
///
/// ```
/// use octet::{Error, Heap, Threads};
///
/// fn threads(threads: &mut Threads<'_, u64, Error>) {
///     for _ in 0..2 {
///         threads.spawn(|session| {
///             let x = session.object("x")?;
///             (0..100_000).try_fold(0, |sum: u64, _| Ok(sum.wrapping_add(session.fetch_add(x, 1)?)))
///         });
///     }
/// }
///
/// # let file = std::env::temp_dir().join(format!("octet-long-{}.octm", std::process::id()));
/// let heap = Heap::builder().object("x", 0);
/// let first = heap.clone().record(&file).run(threads)?;
/// let second = heap.rerun(&file).run(threads)?;
/// assert_eq!(second.values(), first.values());
/// assert_eq!(second.value("x"), Some(200_000));
/// # std::fs::remove_file(&file).expect("the file is there");
/// # Ok::<(), Error>(())
/// ```
#[derive(Clone, Debug)]
#[must_use]
pub struct LongBuilder {
    heap: Builder,
    way: Way,
    path: PathBuf,
    // How many last accesses of each thread are noted, where it runs again for a window.
    last: Option<u16>,
}

/// What a run of any length has left, for a window of it.
pub(crate) struct Left {
    pub(crate) record: raw::Handle,
    pub(crate) noted: Vec<Noted>,
}

// What is written or read beside the threads, and by what.
pub(crate) enum Work {
    Writing(Writing),
    Feeding(Feeding),
}

/// A thread that writes or reads the file until it is told that the others have ended.
pub(crate) struct Beside {
    are_done: Arc<AtomicBool>,
    thread: Option<JoinHandle<Result<(), Error>>>,
}

impl Beside {
    pub(crate) fn start(work: Work) -> Beside {
        let are_done = Arc::new(AtomicBool::new(false));
        let told = Arc::clone(&are_done);
        let thread = thread::spawn(move || {
            let are_done = || told.load(Ordering::Acquire);
            match work {
                Work::Writing(writing) => writing.write_until(are_done),
                Work::Feeding(feeding) => feeding.feed_until(are_done),
            }
        });
        Beside { are_done, thread: Some(thread) }
    }

    // What went wrong with the file, once all of it is written or read.
    pub(crate) fn end(&mut self) -> Result<(), Error> {
        self.are_done.store(true, Ordering::Release);
        let Some(thread) = self.thread.take() else {
            return Ok(());
        };
        thread.join().unwrap_or_else(|panic| std::panic::resume_unwind(panic))
    }
}

impl Drop for Beside {
    fn drop(&mut self) {
        // One that is not handed in has nobody to tell.
        let _ = self.end();
    }
}

impl LongBuilder {
    pub(crate) fn new(heap: Builder, way: Way, path: PathBuf) -> LongBuilder {
        LongBuilder { heap, way, path, last: None }
    }

    // What the file's head declares by its digest, beside the number of threads and the objects' values.
    fn declared(&self) -> String {
        self.heap.objects.iter().fold(String::new(), |text, (name, _)| text + "object " + name + "\n")
    }

    // The sessions' handles, and what goes on beside them.
    fn opened(&self) -> Result<(Vec<raw::Handle>, Work), Error> {
        self.heap.judged(1, MAX_OBJECTS)?;
        let starts: Vec<u64> = self.heap.objects.iter().map(|(_, start)| *start).collect();
        let (threads, declared) = (self.heap.threads, self.declared());
        match self.way {
            Way::Record => {
                let (head, status) = raw::head(&starts, threads, declared.as_bytes());
                checked(status, 0)?;
                let (sessions, streams, status) = raw::open_long(&starts, threads);
                checked(status, 0)?;
                Ok((sessions, Work::Writing(Writing::begin(&self.path, &head, streams)?)))
            }
            Way::Rerun => {
                let last = self.last.unwrap_or(0);
                let (sessions, streams, status) = raw::follow_long(&starts, declared.as_bytes(), last, threads);
                checked(status, 0)?;
                Ok((sessions, Work::Feeding(Feeding::open(&self.path, streams)?)))
            }
        }
    }

    /// The heap, and a session for each of its threads, for threads that the program starts itself. From now on until
    /// `LongHeap::finish` a thread of the heap's own writes the file, or reads it.
    ///
    /// # Errors
    /// `BadName`, `NamedTwice` and `BadSize` of what the heap is to have, `File` and `NoMemory`.
    ///
    /// ```
    /// use octet::{Error, Heap};
    /// use std::thread;
    ///
    /// # let file = std::env::temp_dir().join(format!("octet-built-{}.octm", std::process::id()));
    /// let builder = Heap::builder().object("x", 0).threads(2);
    /// for long in [builder.clone().record(&file), builder.rerun(&file)] {
    ///     let (heap, mut sessions) = long.build()?;
    ///     thread::scope(|scope| {
    ///         for session in &mut sessions {
    ///             scope.spawn(|| session.running(|session| session.fetch_add(session.object("x")?, 1)));
    ///         }
    ///     });
    ///     assert_eq!(heap.finish(sessions)?.value("x"), Some(2));
    /// }
    /// # std::fs::remove_file(&file).expect("the file is there");
    /// # Ok::<(), Error>(())
    /// ```
    pub fn build(self) -> Result<(LongHeap, Vec<Session>), Error> {
        let (handles, work) = self.opened()?;
        let names = self.heap.objects.iter().map(|(name, _)| name.clone()).collect();
        let order = self.heap.order(matches!(self.way, Way::Rerun))?;
        let keeps = match (self.last, self.way) {
            (Some(last), _) => Keeps::Last(last),
            (None, Way::Record) => Keeps::Checks(Ledger::recorded(&self.path)),
            (None, Way::Rerun) => Keeps::Checks(Ledger::compared(&self.path)),
        };
        let (heap, sessions) = self.heap.with_sessions(handles, order, &keeps);
        Ok((LongHeap { heap, names, beside: Beside::start(work) }, sessions))
    }

    /// Starts the threads that `spawn` is called for, and waits for all of them. Meanwhile the file is written, or read.
    ///
    /// ```
    /// # let file = std::env::temp_dir().join(format!("octet-long-run-{}.octm", std::process::id()));
    /// let run = octet::Heap::builder().object("x", 0).record(&file).run(|threads| {
    ///     threads.spawn(|session| session.fetch_add(session.object("x")?, 1));
    ///     threads.spawn(|session| session.fetch_add(session.object("x")?, 1));
    /// })?;
    /// assert_eq!(run.value("x"), Some(2));
    /// # std::fs::remove_file(&file).expect("the file is there");
    /// # Ok::<(), octet::Error>(())
    /// ```
    ///
    /// # Errors
    /// Those of `build`; of a file that is followed `OtherRecording` and `BadMarks`. Else that of the first thread that failed by
    /// itself, and not for another one's failure.
    ///
    /// # Panics
    /// Where a thread does.
    pub fn run<'a, T: Send>(self, spawn: impl FnOnce(&mut Threads<'a, T, Error>)) -> Result<LongRun<T>, Error> {
        self.try_run(spawn)
    }

    /// As `run`, with threads that fail with errors of their own.
    ///
    /// ```
    /// use std::error::Error;
    ///
    /// # let file = std::env::temp_dir().join(format!("octet-long-fault-{}.octm", std::process::id()));
    /// let heap = octet::Heap::builder().object("purse", 0).record(&file);
    /// let run = heap.try_run::<u64, Box<dyn Error + Send + Sync>>(|threads| {
    ///     threads.spawn(|session| match session.load(session.object("purse")?)? {
    ///         0 => Err("the purse is empty".into()),
    ///         coins => Ok(coins),
    ///     });
    /// });
    /// assert_eq!(run.expect_err("it is empty").to_string(), "the purse is empty");
    /// # std::fs::remove_file(&file).expect("the file is there");
    /// ```
    ///
    /// # Errors
    /// As `run`.
    ///
    /// # Panics
    /// Where a thread does.
    pub fn try_run<'a, T, E>(self, spawn: impl FnOnce(&mut Threads<'a, T, E>)) -> Result<LongRun<T>, E>
    where
        T: Send,
        E: From<Error> + Send,
    {
        Ok(self.ended(spawn)?.0)
    }

    /// The last accesses of the run that the file has: `Window::run` makes a recording of them.
    ///
    /// ```
    /// use octet::{Error, Heap, Threads};
    ///
    /// fn threads(threads: &mut Threads<'_, (), Error>) {
    ///     threads.spawn(|session| (0..9).try_for_each(|value| session.store(session.object("x")?, value)));
    /// }
    ///
    /// # let file = std::env::temp_dir().join(format!("octet-last-{}.octm", std::process::id()));
    /// let heap = Heap::builder().object("x", 0);
    /// heap.clone().record(&file).run(threads)?;
    /// let window = heap.rerun(&file).window(2).run(threads)?;
    /// assert!(window.script().contains("object x 0\nthread\nset r0 7\nwrite x r0\n"));
    /// # std::fs::remove_file(&file).expect("the file is there");
    /// # Ok::<(), Error>(())
    /// ```
    pub fn window(self, last: impl Into<Last>) -> Window {
        Window::new(self, last.into())
    }

    // Runs the threads again by the file, while each notes so many last accesses.
    pub(crate) fn rerun_noting<'a, T, E>(&self, last: u16, spawn: impl FnOnce(&mut Threads<'a, T, E>)) -> Result<Left, E>
    where
        T: Send,
        E: From<Error> + Send,
    {
        let again = LongBuilder { heap: self.heap.clone(), way: Way::Rerun, path: self.path.clone(), last: Some(last) };
        again.ended(spawn).map(|(_, left)| left)
    }

    /// The names of the heap's objects, in order.
    pub(crate) fn names(&self) -> Vec<&str> {
        self.heap.objects.iter().map(|(name, _)| name.as_str()).collect()
    }

    pub(crate) fn path(&self) -> &Path {
        &self.path
    }

    // What the run came to, and what it has left.
    fn ended<'a, T, E>(mut self, spawn: impl FnOnce(&mut Threads<'a, T, E>)) -> Result<(LongRun<T>, Left), E>
    where
        T: Send,
        E: From<Error> + Send,
    {
        let threads = Threads::named_by(spawn);
        self.heap.threads = threads.works.len();
        let (mut heap, mut sessions) = self.build()?;
        let ended = all_ended(&mut sessions, threads.works, false);
        heap.beside.end()?;
        let ranks: Vec<Rank> = sessions.iter().map(Session::rank).collect();
        let values = ended.into_iter().zip(&sessions).map(|(thread, session)| match thread {
            Ok(Err(_)) if session.is_cut() => Ok(Ok(None)),
            thread => thread.map(|done| done.map(Some)),
        });
        let values = values_of(values, &ranks).map_err(Failed::into_error)?;
        Ok(heap.closed(sessions, values)?)
    }
}

/// A heap whose run may have any length, and whose threads the program starts itself. It has none of the objects: the sessions
/// have. Where it is dropped the file has what was written until then.
///
/// ```
/// # let file = std::env::temp_dir().join(format!("octet-long-heap-{}.octm", std::process::id()));
/// let (heap, mut sessions) = octet::Heap::builder().object("x", 0).record(&file).build()?;
/// sessions[0].running(|session| session.store(session.object("x")?, 1))?;
/// assert_eq!(heap.finish(sessions)?.value("x"), Some(1));
/// # std::fs::remove_file(&file).expect("the file is there");
/// # Ok::<(), octet::Error>(())
/// ```
pub struct LongHeap {
    heap: Heap,
    names: Vec<String>,
    beside: Beside,
}

impl fmt::Debug for LongHeap {
    fn fmt(&self, out: &mut fmt::Formatter<'_>) -> fmt::Result {
        out.debug_struct("LongHeap").field("heap", &self.heap).finish_non_exhaustive()
    }
}

impl LongHeap {
    /// The object of this name.
    ///
    /// ```
    /// # let file = std::env::temp_dir().join(format!("octet-long-object-{}.octm", std::process::id()));
    /// let (heap, mut sessions) = octet::Heap::builder().object("x", 0).record(&file).build()?;
    /// let x = heap.object("x")?;
    /// sessions[0].running(|session| session.store(x, 1))?;
    /// # heap.finish(sessions)?;
    /// # std::fs::remove_file(&file).expect("the file is there");
    /// # Ok::<(), octet::Error>(())
    /// ```
    ///
    /// # Errors
    /// `NoName` where there is none.
    pub fn object(&self, name: &str) -> Result<Object, Error> {
        self.heap.object(name)
    }

    /// Ends the run. All sessions of the heap are given back, in any order, each stopped. A thread gives nothing back, so
    /// `LongRun::values` tells only which of them have come to their ends.
    ///
    /// ```
    /// # let file = std::env::temp_dir().join(format!("octet-long-finish-{}.octm", std::process::id()));
    /// let (heap, mut sessions) = octet::Heap::builder().object("x", 0).record(&file).build()?;
    /// sessions[0].running(|session| session.fetch_add(session.object("x")?, 1))?;
    /// let run = heap.finish(sessions)?;
    /// assert_eq!((run.values(), run.value("x")), (&[Some(())][..], Some(1)));
    /// # std::fs::remove_file(&file).expect("the file is there");
    /// # Ok::<(), octet::Error>(())
    /// ```
    ///
    /// # Errors
    /// `File` and `NoMemory`; of a file that is followed `OtherRecording` and `BadMarks`. `OtherSessions`. The sessions are gone
    /// then.
    pub fn finish(mut self, sessions: Vec<Session>) -> Result<LongRun<()>, Error> {
        self.beside.end()?;
        let mut ends: Vec<_> = sessions.iter().map(|session| (session.number(), !session.is_cut())).collect();
        ends.sort_unstable();
        let values = ends.into_iter().map(|(_, is_whole)| is_whole.then_some(())).collect();
        Ok(self.closed(sessions, values)?.0)
    }

    // What the run came to, and what it has left.
    fn closed<T>(self, sessions: Vec<Session>, values: Vec<Option<T>>) -> Result<(LongRun<T>, Left), Error> {
        let LongHeap { heap, names, beside } = self;
        drop(beside);
        let (mut record, noted) = heap.closed(sessions)?;
        let (last, status) = record.values();
        checked(status, 0)?;
        Ok((LongRun { names, last, values }, Left { record, noted }))
    }
}

/// A run of any length that has ended: what its threads gave back, and the objects' values.
///
/// ```
/// # let file = std::env::temp_dir().join(format!("octet-long-ended-{}.octm", std::process::id()));
/// let run = octet::Heap::builder().object("x", 5).record(&file).run(|threads| {
///     threads.spawn(|session| session.fetch_add(session.object("x")?, 1));
/// })?;
/// assert_eq!((run.values(), run.value("x")), (&[Some(5)][..], Some(6)));
/// # std::fs::remove_file(&file).expect("the file is there");
/// # Ok::<(), octet::Error>(())
/// ```
#[derive(Clone, Debug)]
pub struct LongRun<T> {
    names: Vec<String>,
    last: Vec<u64>,
    values: Vec<Option<T>>,
}

impl<T> LongRun<T> {
    /// What the threads gave back, in the order in which they were named. None of a thread that was run again, and whose
    /// recording ends before it does: the recorded run was stopped, or its file was cut.
    ///
    /// ```
    /// # let file = std::env::temp_dir().join(format!("octet-long-values-{}.octm", std::process::id()));
    /// let run = octet::Heap::builder().object("x", 5).record(&file).run(|threads| {
    ///     threads.spawn(|session| session.fetch_add(session.object("x")?, 1));
    /// })?;
    /// assert_eq!(run.values(), [Some(5)]);
    /// # std::fs::remove_file(&file).expect("the file is there");
    /// # Ok::<(), octet::Error>(())
    /// ```
    #[must_use]
    pub fn values(&self) -> &[Option<T>] {
        &self.values
    }

    /// The same, by value.
    ///
    /// ```
    /// # let file = std::env::temp_dir().join(format!("octet-long-into-{}.octm", std::process::id()));
    /// let run = octet::Heap::builder().object("x", 5).record(&file).run(|threads| {
    ///     threads.spawn(|session| session.fetch_add(session.object("x")?, 1));
    /// })?;
    /// let values: Vec<Option<u64>> = run.into_values();
    /// assert_eq!(values, [Some(5)]);
    /// # std::fs::remove_file(&file).expect("the file is there");
    /// # Ok::<(), octet::Error>(())
    /// ```
    #[must_use]
    pub fn into_values(self) -> Vec<Option<T>> {
        self.values
    }

    /// Whether each thread has come to its end.
    ///
    /// ```
    /// use octet::{Error, Heap, Threads};
    ///
    /// fn threads(threads: &mut Threads<'_, u64, Error>) {
    ///     threads.spawn(|session| session.fetch_add(session.object("x")?, 1));
    /// }
    ///
    /// # let file = std::env::temp_dir().join(format!("octet-long-whole-{}.octm", std::process::id()));
    /// let heap = Heap::builder().object("x", 5);
    /// assert!(heap.clone().record(&file).run(threads)?.is_whole());
    /// // Nothing is left of the file.
    /// std::fs::write(&file, "").expect("it may be written");
    /// assert!(!heap.rerun(&file).run(threads)?.is_whole());
    /// # std::fs::remove_file(&file).expect("the file is there");
    /// # Ok::<(), Error>(())
    /// ```
    #[must_use]
    pub fn is_whole(&self) -> bool {
        self.values.iter().all(Option::is_some)
    }

    /// The object's value at the end, or where the recording ends.
    ///
    /// ```
    /// # let file = std::env::temp_dir().join(format!("octet-long-value-{}.octm", std::process::id()));
    /// let run = octet::Heap::builder().object("x", 5).record(&file).run(|threads| {
    ///     threads.spawn(|session| session.fetch_add(session.object("x")?, 1));
    /// })?;
    /// assert_eq!((run.value("x"), run.value("y")), (Some(6), None));
    /// # std::fs::remove_file(&file).expect("the file is there");
    /// # Ok::<(), octet::Error>(())
    /// ```
    #[must_use]
    pub fn value(&self, name: &str) -> Option<u64> {
        let place = self.names.iter().position(|other| other == name)?;
        self.last.get(place).copied()
    }
}
