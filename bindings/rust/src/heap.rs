//! A heap, and how its threads are run.
use crate::bells::Bells;
use crate::error::checked;
use crate::given_up::AllGivenUp;
use crate::long::{LongBuilder, Way};
use crate::run::Run;
use crate::session::{Keeps, Noted};
use crate::shared::{Order, Shared};
use crate::turns::Turns;
use crate::waits::{Condition, Lock};
use crate::{Error, Object, Recording, Rerun, Schedule, Session, quiet, raw};
use std::collections::HashSet;
use std::path::PathBuf;
use std::sync::Arc;
use std::sync::atomic::{AtomicU64, Ordering};
use std::time::{Duration, Instant};
use std::{fmt, panic, thread};

/// The fuel of all threads together, how much of it an access may take, and how many threads and objects there may be.
const ALL_FUEL: u32 = 262_144;
const FUEL_OF_ACCESS: u32 = 3;
/// How many accesses of all threads there are by a schedule, if nothing is said: a script of so many can be saved.
const SCHEDULED_ACCESSES: u32 = 16_384;
/// For how long sessions that are given back may still be at an access.
const MOST_CLOSING: Duration = Duration::from_secs(1);
pub(crate) const MAX_THREADS: usize = 16;
const MAX_OBJECTS: usize = 1024;
const MAX_NAME: usize = 32;

fn is_name(name: &str) -> bool {
    let begins = |byte: u8| byte.is_ascii_alphabetic() || byte == b'_';
    name.len() <= MAX_NAME
        && name.bytes().next().is_some_and(begins)
        && name.bytes().all(|byte| begins(byte) || byte.is_ascii_digit())
}

/// What a heap is to have, and how its threads are to run.
///
/// ```
/// use octet::{Error, Heap};
///
/// let run = Heap::builder().object("x", 1).object("y", 2).accesses(100).run(|threads| {
///     threads.spawn(|session| session.load(session.object("y")?));
/// })?;
/// assert_eq!(run.values(), [2]);
/// assert_eq!(run.value("x"), Some(1));
/// # Ok::<(), Error>(())
/// ```
#[derive(Clone, Debug)]
#[must_use]
pub struct Builder {
    pub(crate) objects: Vec<(String, u64)>,
    locks: Vec<(String, u16)>,
    conditions: Vec<(String, u16)>,
    barriers: Vec<(String, u64)>,
    channels: Vec<(String, u64)>,
    pub(crate) threads: usize,
    accesses: Option<u32>,
    schedule: Option<Schedule>,
    rerun: Option<Recording>,
    patience: Duration,
    failing: Option<PathBuf>,
}

// Whether there are as many of these as there may be.
pub(crate) fn within(what: &'static str, found: u64, least: u64, most: u64) -> Result<(), Error> {
    if (least..=most).contains(&found) { Ok(()) } else { Err(Error::BadSize { what, found, least, most }) }
}

impl Builder {
    /// An object of this name, and the value that it starts with.
    ///
    /// ```
    /// let run = octet::Heap::builder().object("x", 5).run(|threads| {
    ///     threads.spawn(|session| session.load(session.object("x")?));
    /// })?;
    /// assert_eq!(run.values(), [5]);
    /// # Ok::<(), octet::Error>(())
    /// ```
    pub fn object(mut self, name: &str, start: u64) -> Builder {
        self.objects.push((name.to_string(), start));
        self
    }

    /// A lock for `Session::locked`. It is an object of this name too: the number of the thread that holds it, counted from 1, or 0.
    ///
    /// ```
    /// let run = octet::Heap::builder().object("x", 0).lock("door").run(|threads| {
    ///     threads.spawn(|session| session.locked("door", |session| session.store(session.object("x")?, 1)));
    /// })?;
    /// assert_eq!(run.value("x"), Some(1));
    /// # Ok::<(), octet::Error>(())
    /// ```
    pub fn lock(mut self, name: &str) -> Builder {
        self.locks.push(self.next_object(name));
        self.object(name, 0)
    }

    // What is to have the next object. Where there are too many objects, `judged` says so.
    fn next_object(&self, name: &str) -> (String, u16) {
        (name.to_string(), u16::try_from(self.objects.len()).unwrap_or(u16::MAX))
    }

    /// A condition for `Session::wait`. It is an object of this name too: how many threads wait for it.
    ///
    /// ```
    /// octet::Heap::builder().condition("opened").run(|threads| {
    ///     threads.spawn(|session| session.notify_all("opened"));
    /// })?;
    /// # Ok::<(), octet::Error>(())
    /// ```
    pub fn condition(mut self, name: &str) -> Builder {
        self.conditions.push(self.next_object(name));
        self.object(name, 0)
    }

    /// A barrier for so many threads, for `Session::arrive`. It has a lock, a condition and objects, whose names begin with its
    /// own.
    ///
    /// ```
    /// let run = octet::Heap::builder().barrier("start", 2).run(|threads| {
    ///     for _ in 0..2 {
    ///         threads.spawn(|session| session.arrive("start"));
    ///     }
    /// })?;
    /// assert_eq!(run.values().iter().filter(|&&is_last| is_last).count(), 1);
    /// # Ok::<(), octet::Error>(())
    /// ```
    pub fn barrier(mut self, name: &str, threads: u64) -> Builder {
        // One for no thread lets each pass, as one for one thread does.
        self.barriers.push((name.to_string(), threads.max(1)));
        let objects = ["here", "round"].map(|part| format!("{name}_{part}"));
        let with = objects.iter().fold(self.lock(name), |builder, object| builder.object(object, 0));
        with.condition(&format!("{name}_passed"))
    }

    /// A channel that holds up to so many values, for `Session::send` and `Session::receive`. It has a lock, conditions and
    /// objects, whose names begin with its own.
    ///
    /// ```
    /// let run = octet::Heap::builder().channel("numbers", 1).run(|threads| {
    ///     threads.spawn(|session| session.send("numbers", 7).map(|_| None));
    ///     threads.spawn(|session| session.receive("numbers"));
    /// })?;
    /// assert_eq!(run.values(), [None, Some(7)]);
    /// # Ok::<(), octet::Error>(())
    /// ```
    pub fn channel(mut self, name: &str, room: u64) -> Builder {
        // One of no room would let no value pass.
        let room = room.max(1);
        self.channels.push((name.to_string(), room));
        let cells = (0..room.min(MAX_OBJECTS as u64)).map(|cell| format!("{name}_{cell}"));
        let parts = ["first", "count", "closed"].map(|part| format!("{name}_{part}"));
        let with = parts.into_iter().chain(cells).fold(self.lock(name), |builder, object| builder.object(&object, 0));
        with.condition(&format!("{name}_filled")).condition(&format!("{name}_emptied"))
    }

    /// How many threads there are, 1 to 16. `run` counts them itself.
    ///
    /// ```
    /// let (_heap, sessions) = octet::Heap::builder().threads(3).build()?;
    /// assert_eq!(sessions.len(), 3);
    /// # Ok::<(), octet::Error>(())
    /// ```
    pub fn threads(mut self, threads: usize) -> Builder {
        self.threads = threads;
        self
    }

    /// How many accesses each thread may make at least. As many as there may be, if nothing is said: 87,381 divided by the
    /// number of threads, and by a schedule 16,384. So a run that fails since threads wait in loops ends soon, and can be saved.
    ///
    /// ```
    /// use octet::{Error, Heap};
    ///
    /// let run = Heap::builder().object("x", 0).accesses(1).run(|threads| {
    ///     threads.spawn(|session| {
    ///         let x = session.object("x")?;
    ///         session.store(x, 1)?;
    ///         session.store(x, 2)
    ///     });
    /// });
    /// assert!(matches!(run, Err(Error::Spent { thread: 0 })));
    /// ```
    pub fn accesses(mut self, accesses: u32) -> Builder {
        self.accesses = Some(accesses);
        self
    }

    /// The threads take turns by this schedule, one access at a time. Before each access, and each call by which threads meet, as
    /// `locked` and `notify_one`, the schedule picks which thread goes on.
    ///
    /// ```
    /// use octet::{Error, Heap, Schedule};
    ///
    /// let last = |seed| -> Result<Option<u64>, Error> {
    ///     let run = Heap::builder().object("x", 0).schedule(Schedule::new(seed)).run(|threads| {
    ///         for number in 1..=9 {
    ///             threads.spawn(move |session| session.store(session.object("x")?, number));
    ///         }
    ///     })?;
    ///     Ok(run.value("x"))
    /// };
    /// assert_eq!(last(7)?, last(7)?);
    /// # Ok::<(), Error>(())
    /// ```
    pub fn schedule(mut self, schedule: Schedule) -> Builder {
        self.schedule = Some(schedule);
        self
    }

    /// The threads run again as they were recorded, by a recording, or by the file of marks that `record` has written: each access
    /// waits until all that was recorded before it is made, and gets the value that it had. A thread that asks for another access
    /// has diverged, and fails.
    ///
    /// ```
    /// use octet::{Builder, Error, Heap, Run};
    ///
    /// fn race(heap: Builder) -> Result<Run<u64>, Error> {
    ///     heap.run(|threads| {
    ///         for number in 1..=2 {
    ///             threads.spawn(move |session| session.swap(session.object("x")?, number));
    ///         }
    ///     })
    /// }
    /// let heap = Heap::builder().object("x", 0);
    /// let first = race(heap.clone())?;
    /// let second = race(heap.rerun(&first))?;
    /// assert_eq!(second.values(), first.values());
    /// # Ok::<(), Error>(())
    /// ```
    pub fn rerun<K: Rerun>(self, kept: K) -> K::Builder {
        kept.rerun(self)
    }

    pub(crate) fn repeating(mut self, recording: &Recording) -> Builder {
        self.rerun = Some(recording.clone());
        self
    }

    /// The run may have any length, and its marks go into this file while it goes on. A marks file that is there is written over, so
    /// keep one that you need under another name. Any other file is left alone, and the run fails. Beside it `FILE.checks` is written:
    /// by it a second run that leaves the recording tells which thread has left it, and where.
    ///
    /// ```
    /// # let file = std::env::temp_dir().join(format!("octet-record-{}.octm", std::process::id()));
    /// let run = octet::Heap::builder().object("x", 0).record(&file).run(|threads| {
    ///     threads.spawn(|session| {
    ///         let x = session.object("x")?;
    ///         (1..=100_000).try_for_each(|number| session.store(x, number))
    ///     });
    /// })?;
    /// assert_eq!(run.value("x"), Some(100_000));
    /// # std::fs::remove_file(&file).expect("the file is there");
    /// # Ok::<(), octet::Error>(())
    /// ```
    pub fn record(self, path: impl Into<PathBuf>) -> LongBuilder {
        LongBuilder::new(self, Way::Record, path.into())
    }

    /// For how long a thread waits for others before it fails; ten seconds if nothing is said.
    ///
    /// ```
    /// use octet::{Error, Heap};
    /// use std::time::Duration;
    ///
    /// let heap = Heap::builder().lock("door").condition("opened").patience(Duration::from_millis(10));
    /// let run = heap.run(|threads| {
    ///     threads.spawn(|session| session.locked("door", |session| session.wait("opened")));
    /// });
    /// assert!(matches!(run, Err(Error::Patience { thread: 0 })), "nobody opens the door");
    /// ```
    pub fn patience(mut self, patience: Duration) -> Builder {
        self.patience = patience;
        self
    }

    /// Where a thread of `run` fails or panics, the run is saved under this stem, as far as it came, over what is there. Of an
    /// exploration this is the run before it is shrunk. Standard error says where it is, or why it is not kept.
    ///
    /// ```
    /// use octet::{Heap, Recording};
    ///
    /// # let stem = std::env::temp_dir().join(format!("octet-keep-{}", std::process::id()));
    /// let run = Heap::builder().object("x", 0).keep_failing(&stem).run(|threads| {
    ///     threads.spawn(|session| session.load(session.object("y")?));
    /// });
    /// assert!(run.is_err(), "there is no y");
    /// assert!(Recording::load(&stem)?.script().contains("object x 0"));
    /// # Ok::<(), octet::Error>(())
    /// ```
    pub fn keep_failing(mut self, stem: impl Into<PathBuf>) -> Builder {
        self.failing = Some(stem.into());
        self
    }

    // That each name is one, and stands once; and how many objects and threads there are.
    pub(crate) fn judged(&self, least_objects: u64, most_objects: usize) -> Result<(), Error> {
        let mut seen = HashSet::new();
        for (name, _) in &self.objects {
            if !is_name(name) {
                return Err(Error::BadName { name: name.clone() });
            }
            if !seen.insert(name) {
                return Err(Error::NamedTwice { name: name.clone() });
            }
        }
        within("objects", self.objects.len() as u64, least_objects, most_objects as u64)?;
        within("threads", self.threads as u64, 1, MAX_THREADS as u64)
    }

    fn fuel(&self) -> Result<u32, Error> {
        self.judged(0, MAX_OBJECTS)?;
        let threads = u32::try_from(self.threads).unwrap_or(u32::MAX);
        let most = ALL_FUEL / threads;
        match self.accesses {
            Some(accesses) => {
                within("accesses of each thread", accesses.into(), 1, (most / FUEL_OF_ACCESS).into())?;
                Ok(accesses * FUEL_OF_ACCESS)
            }
            None if self.schedule.is_some() => Ok(most.min(SCHEDULED_ACCESSES * FUEL_OF_ACCESS / threads)),
            None => Ok(most),
        }
    }

    // The script that declares it.
    fn text(&self) -> Result<String, Error> {
        let mut text = format!("fuel {}\n", self.fuel()?);
        for (name, start) in &self.objects {
            text += "object ";
            text += name;
            text += " ";
            text += &start.to_string();
            text += "\n";
        }
        text += &"thread\n".repeat(self.threads);
        Ok(text)
    }

    // How threads come to their accesses, which may be run again.
    pub(crate) fn order(&self, again: bool) -> Result<Order, Error> {
        Ok(match &self.schedule {
            _ if again => Order::Again,
            Some(schedule) => Order::Turns(Box::new(Turns::of_sessions(schedule, self.threads, self.patience)?)),
            None => Order::Free(Bells::new()),
        })
    }

    fn opened(&self) -> Result<Vec<raw::Handle>, Error> {
        let text = self.text()?;
        let (sessions, status) = match &self.rerun {
            None => raw::open(text.as_bytes(), self.threads),
            Some(recording) => {
                let objects = self.objects.iter().map(|(name, start)| (name.as_str(), *start));
                if !recording.objects().eq(objects) || recording.threads() != self.threads {
                    return Err(Error::OtherRecording);
                }
                raw::follow(recording.script().as_bytes(), recording.log(), self.threads)
            }
        };
        checked(status, 0).map(|()| sessions)
    }

    /// The heap, and a session for each of its threads, for threads that the program starts itself.
    ///
    /// ```
    /// let (heap, mut sessions) = octet::Heap::builder().object("x", 0).build()?;
    /// sessions[0].running(|session| session.store(session.object("x")?, 3))?;
    /// assert_eq!(heap.finish(sessions)?.value("x"), Some(3));
    /// # Ok::<(), octet::Error>(())
    /// ```
    ///
    /// # Errors
    /// `BadName`, `NamedTwice` and `BadSize` of what the heap is to have. Of a recording `OtherRecording`, `NoRecording`,
    /// `Unordered` and `TooLong`. `NoMemory`.
    pub fn build(self) -> Result<(Heap, Vec<Session>), Error> {
        let handles = self.opened()?;
        let order = self.order(self.rerun.is_some())?;
        Ok(self.with_sessions(handles, order, &Keeps::Each))
    }

    // The heap whose sessions are opened.
    pub(crate) fn with_sessions(self, handles: Vec<raw::Handle>, order: Order, keeps: &Keeps) -> (Heap, Vec<Session>) {
        static NEXT: AtomicU64 = AtomicU64::new(1);
        let names = self.objects.into_iter().zip(0..);
        let shared = Arc::new(Shared {
            heap: NEXT.fetch_add(1, Ordering::Relaxed),
            objects: names.map(|((name, _), place)| (name, place)).collect(),
            locks: self.locks.into_iter().map(|(name, object)| Lock::new(name, object)).collect(),
            conditions: self.conditions.into_iter().map(|(name, object)| Condition::new(name, object)).collect(),
            barriers: self.barriers,
            channels: self.channels,
            order,
            patience: self.patience,
            given_up: AllGivenUp::default(),
        });
        let sessions = handles.into_iter().enumerate();
        let sessions: Vec<Session> = sessions.map(|(number, handle)| Session::new(handle, number, &shared, keeps)).collect();
        (Heap { threads: sessions.len(), shared }, sessions)
    }

    /// Starts the threads that `spawn` is called for, waits for all of them, and gives what they gave back and the recording
    /// of their run.
    ///
    /// ```
    /// let run = octet::Heap::builder().object("x", 0).run(|threads| {
    ///     for _ in 0..2 {
    ///         threads.spawn(|session| session.fetch_add(session.object("x")?, 1));
    ///     }
    /// })?;
    /// assert_eq!(run.value("x"), Some(2));
    /// assert_eq!(run.values().iter().sum::<u64>(), 1);
    /// # Ok::<(), octet::Error>(())
    /// ```
    ///
    /// # Errors
    /// Those of `build`, and else that of the first thread that failed by itself, and not for another one's failure. Where no
    /// thread has failed, those of `Heap::finish`.
    ///
    /// # Panics
    /// Where a thread does.
    pub fn run<'a, T: Send>(self, spawn: impl FnOnce(&mut Threads<'a, T, Error>)) -> Result<Run<T>, Error> {
        self.try_run(spawn)
    }

    /// As `run`, with threads that fail with errors of their own.
    ///
    /// ```
    /// use octet::Heap;
    ///
    /// #[derive(Debug)]
    /// enum Fault {
    ///     Empty,
    ///     Heap(octet::Error),
    /// }
    ///
    /// impl From<octet::Error> for Fault {
    ///     fn from(error: octet::Error) -> Fault {
    ///         Fault::Heap(error)
    ///     }
    /// }
    ///
    /// let run = Heap::builder().object("purse", 0).try_run(|threads| {
    ///     threads.spawn(|session| match session.load(session.object("purse")?)? {
    ///         0 => Err(Fault::Empty),
    ///         coins => Ok(coins),
    ///     });
    /// });
    /// assert!(matches!(run, Err(Fault::Empty)));
    /// ```
    ///
    /// # Errors
    /// As `run`.
    ///
    /// # Panics
    /// Where a thread does.
    pub fn try_run<'a, T, E>(mut self, spawn: impl FnOnce(&mut Threads<'a, T, E>)) -> Result<Run<T>, E>
    where
        T: Send,
        E: From<Error> + Send,
    {
        let threads = Threads::named_by(spawn);
        self.threads = threads.works.len();
        let failing = self.failing.take();
        let shrinks = self.schedule.as_ref().is_some_and(Schedule::is_given);
        let (heap, mut sessions) = self.build()?;
        let ended = all_ended(&mut sessions, threads.works, shrinks);
        let ranks: Vec<Rank> = sessions.iter().map(Session::rank).collect();
        let recording = heap.finish(sessions);
        match values_of(ended, &ranks) {
            Ok(values) => Ok(Run { recording: recording?, values }),
            Err(failed) => {
                if let (Some(stem), false) = (failing, shrinks) {
                    match recording.and_then(|recording| recording.save(&stem)) {
                        Ok(()) => eprintln!("octet: the run that failed is kept in {}.octet and .log", stem.display()),
                        Err(error) => eprintln!("octet: the run that failed is not kept: {error}"),
                    }
                }
                Err(failed.into_error())
            }
        }
    }
}

type Task<'a, T, E> = Box<dyn FnOnce(&mut Session) -> Result<T, E> + Send + 'a>;

/// What a thread does, and what it is named.
pub(crate) struct Work<'a, T, E> {
    name: Option<String>,
    work: Task<'a, T, E>,
}

// Runs each work on a thread with its session.
pub(crate) fn all_ended<T: Send, E: From<Error> + Send>(
    sessions: &mut [Session],
    works: Vec<Work<'_, T, E>>,
    quietly: bool,
) -> Vec<thread::Result<Result<T, E>>> {
    thread::scope(|scope| {
        let works = sessions.iter_mut().zip(works);
        let running = works.map(|(session, Work { name, work })| {
            let name = name.unwrap_or_else(|| format!("octet {}", session.number()));
            let started = thread::Builder::new().name(name).spawn_scoped(scope, move || {
                quiet::set(quietly);
                session.running(work)
            });
            // As `std::thread::spawn` does where the system gives no thread.
            started.expect("a thread could not be started")
        });
        let running: Vec<_> = running.collect();
        running.into_iter().map(thread::ScopedJoinHandle::join).collect()
    })
}

/// Which of several errors is told: the lowest one.
#[derive(Clone, Copy, Debug, PartialEq, Eq, PartialOrd, Ord)]
pub(crate) enum Rank {
    /// It is the thread's own.
    Own,
    /// The thread has left its recording, as was found after so many accesses.
    Left(u64),
    /// It follows from an error of another thread.
    Follows,
}

pub(crate) enum Failed<E> {
    Error(E),
    Panic(Box<dyn std::any::Any + Send>),
}

impl<E> Failed<E> {
    /// The error; or it panics as the thread did.
    pub(crate) fn into_error(self) -> E {
        match self {
            Failed::Error(error) => error,
            Failed::Panic(panic) => panic::resume_unwind(panic),
        }
    }
}

// What all threads gave back; or the first panic, or the first error that follows from no other thread's, or the first one. Of
// threads that have left their recording the first is the one that was found after the fewest accesses.
pub(crate) fn values_of<T, E>(
    ended: impl IntoIterator<Item = thread::Result<Result<T, E>>>,
    ranks: &[Rank],
) -> Result<Vec<T>, Failed<E>> {
    let (mut values, mut errors) = (Vec::new(), Vec::new());
    for (thread, rank) in ended.into_iter().zip(ranks) {
        match thread {
            Ok(Ok(value)) => values.push(value),
            Ok(Err(error)) => errors.push((*rank, error)),
            Err(panic) => return Err(Failed::Panic(panic)),
        }
    }
    match errors.into_iter().min_by_key(|(rank, _)| *rank) {
        Some((_, error)) => Err(Failed::Error(error)),
        None => Ok(values),
    }
}

/// The threads of a run.
///
/// ```
/// use octet::{Error, Heap, Threads};
///
/// fn both(threads: &mut Threads<'_, u64, Error>) {
///     for number in 1..=2 {
///         threads.spawn(move |session| session.swap(session.object("x")?, number));
///     }
/// }
///
/// let heap = Heap::builder().object("x", 0);
/// let first = heap.clone().run(both)?;
/// assert_eq!(heap.rerun(&first).run(both)?.values(), first.values());
/// # Ok::<(), Error>(())
/// ```
pub struct Threads<'a, T, E> {
    pub(crate) works: Vec<Work<'a, T, E>>,
}

impl<T, E> fmt::Debug for Threads<'_, T, E> {
    fn fmt(&self, out: &mut fmt::Formatter<'_>) -> fmt::Result {
        out.debug_struct("Threads").field("threads", &self.works.len()).finish_non_exhaustive()
    }
}

impl<'a, T, E> Threads<'a, T, E> {
    pub(crate) fn named_by(spawn: impl FnOnce(&mut Threads<'a, T, E>)) -> Threads<'a, T, E> {
        let mut threads = Threads { works: Vec::new() };
        spawn(&mut threads);
        threads
    }

    /// One more thread, which does this. It starts once all are named. It is called `octet N`, by its number N.
    ///
    /// ```
    /// let names = ["x", "y"];
    /// let run = octet::Heap::builder().object("x", 1).object("y", 2).run(|threads| {
    ///     for name in &names {
    ///         threads.spawn(move |session| session.load(session.object(name)?));
    ///     }
    /// })?;
    /// assert_eq!(run.values(), [1, 2]);
    /// # Ok::<(), octet::Error>(())
    /// ```
    pub fn spawn(&mut self, work: impl FnOnce(&mut Session) -> Result<T, E> + Send + 'a) {
        self.works.push(Work { name: None, work: Box::new(work) });
    }

    /// The same, with a name of the program's for the thread, which debuggers and panics tell.
    ///
    /// ```
    /// let run = octet::Heap::builder().run(|threads| {
    ///     threads.spawn(|_| Ok(std::thread::current().name().map(str::to_string)));
    ///     threads.spawn_named("payer", |_| Ok(std::thread::current().name().map(str::to_string)));
    /// })?;
    /// assert_eq!(run.values(), [Some("octet 0".to_string()), Some("payer".to_string())]);
    /// # Ok::<(), octet::Error>(())
    /// ```
    pub fn spawn_named(&mut self, name: &str, work: impl FnOnce(&mut Session) -> Result<T, E> + Send + 'a) {
        // A name with a zero byte would be none.
        self.works.push(Work { name: Some(name.replace('\0', " ")), work: Box::new(work) });
    }
}

/// A heap whose threads the program starts itself. It has none of the objects: the sessions have.
///
/// ```
/// let (heap, mut sessions) = octet::Heap::builder().object("x", 0).threads(2).build()?;
/// let x = heap.object("x")?;
/// std::thread::scope(|scope| {
///     for session in &mut sessions {
///         scope.spawn(move || session.running(|session| session.fetch_add(x, 1)));
///     }
/// });
/// let recording = heap.finish(sessions)?;
/// assert_eq!(recording.value("x"), Some(2));
/// # Ok::<(), octet::Error>(())
/// ```
pub struct Heap {
    threads: usize,
    shared: Arc<Shared>,
}

impl fmt::Debug for Heap {
    fn fmt(&self, out: &mut fmt::Formatter<'_>) -> fmt::Result {
        let objects = self.shared.objects.len();
        out.debug_struct("Heap").field("threads", &self.threads).field("objects", &objects).finish_non_exhaustive()
    }
}

impl Heap {
    /// A heap without an object, of one thread.
    ///
    /// ```
    /// let run = octet::Heap::builder().run(|threads| threads.spawn(|_| Ok(1)))?;
    /// assert_eq!(run.values(), [1]);
    /// # Ok::<(), octet::Error>(())
    /// ```
    pub fn builder() -> Builder {
        Builder {
            objects: Vec::new(),
            locks: Vec::new(),
            conditions: Vec::new(),
            barriers: Vec::new(),
            channels: Vec::new(),
            threads: 1,
            accesses: None,
            schedule: None,
            rerun: None,
            patience: Duration::from_secs(10),
            failing: None,
        }
    }

    /// The object of this name.
    ///
    /// ```
    /// let (heap, mut sessions) = octet::Heap::builder().object("x", 4).build()?;
    /// let x = heap.object("x")?;
    /// assert_eq!(sessions[0].running(|session| session.load(x))?, 4);
    /// assert!(matches!(heap.object("y"), Err(octet::Error::NoName { name }) if name == "y"));
    /// # Ok::<(), octet::Error>(())
    /// ```
    ///
    /// # Errors
    /// `NoName` where there is none.
    pub fn object(&self, name: &str) -> Result<Object, Error> {
        self.shared.object(name)
    }

    /// Ends the run. All sessions of the heap are given back, in any order, each stopped. Threads that were run again must have
    /// made all that was recorded of them.
    ///
    /// ```
    /// let (heap, mut sessions) = octet::Heap::builder().object("x", 0).build()?;
    /// sessions[0].running(|session| session.store(session.object("x")?, 1))?;
    /// let recording = heap.finish(sessions)?;
    /// assert!(recording.script().ends_with("write x r0\n"), "{}", recording.script());
    /// # Ok::<(), octet::Error>(())
    /// ```
    ///
    /// # Errors
    /// `OtherSessions`, `NotWhole`, `TooLong` and `NoMemory`. The sessions are gone then.
    pub fn finish(self, sessions: Vec<Session>) -> Result<Recording, Error> {
        let shared = Arc::clone(&self.shared);
        let (record, noted) = self.closed(sessions)?;
        let recording = Recording::of(record, noted.into_iter().map(|noted| noted.places).collect())?;
        if let Order::Turns(turns) = &shared.order {
            turns.schedule().keep(&recording);
        }
        Ok(recording)
    }

    // Accesses that were given up are made now, since nobody is at work any more.
    fn make_given_up(&self, sessions: &mut [Session]) {
        let until = Instant::now() + MOST_CLOSING;
        while self.shared.given_up.go_on() && Instant::now() < until {
            thread::yield_now();
        }
        for given_up in self.shared.given_up.take() {
            if let Some(session) = sessions.get_mut(given_up.thread) {
                session.take_back(given_up);
            }
        }
    }

    pub(crate) fn closed(self, mut sessions: Vec<Session>) -> Result<(raw::Handle, Vec<Noted>), Error> {
        sessions.sort_by_key(Session::number);
        if sessions.len() != self.threads || !sessions.iter().all(|session| session.is_of(self.shared.heap)) {
            return Err(Error::OtherSessions);
        }
        self.make_given_up(&mut sessions);
        let (handles, noted) = sessions.into_iter().map(Session::into_parts).unzip();
        let (record, status) = raw::close(handles);
        checked(status, 0)?;
        Ok((record, noted))
    }
}
