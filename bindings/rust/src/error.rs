//! Why a call was refused.
use crate::heap::Rank;
use crate::program::Race;
use crate::{Place, raw};
use std::path::PathBuf;
use std::{error, fmt, io};

/// Why a call was refused, or a thread goes on no more.
///
/// ```
/// use octet::{Error, Heap};
///
/// let refused = Heap::builder().object("x", 0).object("x", 1).run(|threads| {
///     threads.spawn(|_| Ok(()));
/// });
/// let Err(Error::NamedTwice { name }) = refused else { panic!("two objects have one name") };
/// assert_eq!(name, "x");
/// ```
// The text of a variant says what its fields are.
#[allow(missing_docs)]
#[derive(Debug)]
#[non_exhaustive]
pub enum Error {
    /// A name is not a letter or `_`, followed by letters, digits and `_`, of at most 32 bytes.
    BadName { name: String },
    /// Two objects have this name.
    NamedTwice { name: String },
    /// A heap has 1 to 16 threads, at most 1,024 objects, and 87,381 accesses of all threads; in a run of any length 1 to 65,535
    /// objects. Here are so many of these, and there may be as few and as many.
    BadSize { what: &'static str, found: u64, least: u64, most: u64 },
    /// The heap has no object, lock or other thing of this name.
    NoName { name: String },
    /// The object is of another heap.
    OtherHeap,
    /// The thread is not started, or was stopped.
    Resting,
    /// The thread is started already.
    Running,
    /// The thread has made all accesses that its heap allows.
    Spent { thread: usize },
    /// By a schedule: the thread has made all accesses that its heap allows, and sees the same values again and again here. It waits
    /// in a loop for what does not come.
    Spins { thread: usize, place: Place },
    /// The text is no schedule.
    BadSchedule { text: String },
    /// The thread asks for a lock that it holds.
    Held { name: String },
    /// The thread waits for a condition, and holds no lock.
    NotHeld { name: String },
    /// There was no memory.
    NoMemory,
    /// Not all sessions of the heap were given back, or one was not stopped.
    OtherSessions,
    /// The script is longer than 1 MiB, or the log longer than 64 MiB.
    TooLong,
    /// The bytes are no script and its log.
    NoRecording,
    /// The log leaves two conflicting accesses without an order.
    Unordered,
    /// The recording is of other objects, or of another number of threads.
    OtherRecording,
    /// The thread, run again, asked for another access than was recorded, after this many. Where it ended too early there is
    /// no place. By a file of marks with its checks this is found up to 64 accesses later, and without them up to 65,536: then another
    /// thread, from which this one took a value, may have left its recording before.
    Diverged { thread: usize, accesses: u64, place: Option<Place> },
    /// The thread would wait for another one, which has diverged.
    Halted { thread: usize },
    /// The threads, run again, ended before their recording.
    NotWhole,
    /// The recording of the thread, which is run again, ends here: the recorded run was stopped, or its file was cut.
    RecordingEnds { thread: usize },
    /// The marks file is damaged at this place, counted in bytes.
    BadMarks { path: PathBuf, place: u64 },
    /// The file is no marks file, but a log: `Recording::load` loads it, and `Builder::rerun` takes what it gives.
    IsLog { path: PathBuf },
    /// The file is there, is no marks file, and is not written over by one.
    OtherFile { path: PathBuf },
    /// Threads wait for each other.
    Deadlock { waits: Vec<Wait> },
    /// The thread has waited for longer than the heap's patience.
    Patience { thread: usize },
    /// By a schedule: the others have waited for this thread, which stood here last, for longer than the heap's patience.
    NotBack { thread: usize, place: Option<Place>, why: Absence },
    /// A file could not be read or written.
    File { path: PathBuf, source: io::Error },
    /// Two accesses to a cell of a program's, by different threads, which nothing orders.
    DataRace(Box<Race>),
    /// What a program does that its run does not allow: this is told, with its line.
    Refused { what: String },
    /// The library has answered a status that no call of this crate expects.
    Status(i32),
}

/// Why a thread has not come back to its schedule.
///
/// ```
/// use octet::{Absence, Error, Heap, Schedule};
/// use std::time::Duration;
///
/// let heap = Heap::builder().object("x", 0).schedule(Schedule::new(0)).patience(Duration::from_millis(20));
/// let run = heap.run(|threads| {
///     threads.spawn(|session| {
///         // This belongs into `blocked`.
///         std::thread::sleep(Duration::from_millis(200));
///         session.store(session.object("x")?, 1)
///     });
///     threads.spawn(|session| session.store(session.object("x")?, 2));
/// });
/// let Err(Error::NotBack { thread: 0, why, .. }) = run else { panic!("it sleeps") };
/// assert_eq!(why, Absence::Picked);
/// ```
#[derive(Clone, Copy, Debug, PartialEq, Eq, Hash)]
#[non_exhaustive]
pub enum Absence {
    /// It was picked, and makes no call: it may wait elsewhere.
    Picked,
    /// It is not started.
    NotStarted,
    /// It does what `Session::blocked` was given.
    Blocked,
    /// It is one of a program over look-alikes, was picked, and comes to none of their calls.
    Elsewhere,
}

/// A thread that waits, in a deadlock.
///
/// ```
/// use octet::{Error, Heap, Schedule};
///
/// let run = Heap::builder().lock("door").condition("opened").schedule(Schedule::new(0)).run(|threads| {
///     threads.spawn(|session| session.locked("door", |session| session.wait("opened")));
/// });
/// let Err(Error::Deadlock { waits }) = run else { panic!("nobody opens the door") };
/// assert_eq!((waits[0].thread, waits[0].name.as_str(), waits[0].holder), (0, "opened", None));
/// let place = waits[0].place.as_ref().expect("it waits in this program");
/// assert_eq!(waits[0].to_string(), format!("thread 0 waits for opened at {place}"));
/// ```
#[derive(Clone, Debug, PartialEq, Eq, Hash)]
pub struct Wait {
    /// The thread.
    pub thread: usize,
    /// The lock or the condition that it waits for.
    pub name: String,
    /// The thread that holds the lock.
    pub holder: Option<usize>,
    /// Where it waits.
    pub place: Option<Place>,
    /// Where the lock was taken.
    pub held_at: Option<Place>,
}

// Where something stands, if that is known.
fn at(place: Option<&Place>) -> String {
    place.map_or_else(String::new, |place| format!(" at {place}"))
}

impl fmt::Display for Wait {
    fn fmt(&self, out: &mut fmt::Formatter<'_>) -> fmt::Result {
        write!(out, "thread {} waits for {}{}", self.thread, self.name, at(self.place.as_ref()))?;
        match (self.holder, &self.held_at) {
            (Some(holder), Some(place)) => write!(out, ", which thread {holder} has taken at {place}"),
            (Some(holder), None) => write!(out, ", which thread {holder} holds"),
            (None, _) => Ok(()),
        }
    }
}

impl fmt::Display for Error {
    fn fmt(&self, out: &mut fmt::Formatter<'_>) -> fmt::Result {
        match self {
            Error::BadName { name } => write!(out, "{name:?} is no name of an object"),
            Error::NamedTwice { name } => write!(out, "two objects are named {name}"),
            Error::BadSize { what, found, least, most } => write!(out, "{found} {what}: there may be {least} to {most}"),
            Error::NoName { name } => write!(out, "the heap has nothing named {name}"),
            Error::OtherHeap => out.write_str("an object of another heap"),
            Error::Resting => out.write_str("the thread is stopped"),
            Error::Running => out.write_str("the thread is started already"),
            Error::Spent { thread } => write!(
                out,
                "thread {thread} has made all accesses that its heap allows; Builder::accesses gives each thread more, and \
                 Builder::record as many as it wants"
            ),
            Error::Spins { thread, place } => {
                write!(
                    out,
                    "thread {thread} spins at {place}: it sees the same values again and again, until it may go on no more"
                )
            }
            Error::BadSchedule { text } => write!(out, "{text:?} is no schedule, as one is printed"),
            Error::Held { name } => write!(out, "the thread holds {name} already"),
            Error::NotHeld { name } => write!(out, "the thread waits for {name}, and holds no lock"),
            Error::NoMemory => out.write_str("no memory"),
            Error::OtherSessions => out.write_str("not all sessions of one heap, each stopped"),
            Error::TooLong => out.write_str("the recording is too long for its files"),
            Error::NoRecording => out.write_str("no script and its log"),
            Error::Unordered => out.write_str("the log leaves conflicts without an order"),
            Error::OtherRecording => out.write_str("a recording of another heap"),
            Error::Diverged { thread, accesses, place } => {
                write!(out, "thread {thread} leaves its recording after {accesses} accesses")?;
                match place {
                    Some(place) => write!(out, ", at {place}"),
                    None => Ok(()),
                }
            }
            Error::Halted { thread } => write!(out, "thread {thread} would wait for one that has left its recording"),
            Error::NotWhole => out.write_str("the threads ended before their recording"),
            Error::RecordingEnds { thread } => write!(out, "the recording of thread {thread} ends here"),
            Error::BadMarks { path, place } => write!(out, "{} is damaged at byte {place}", path.display()),
            Error::IsLog { path } => {
                write!(out, "{} is no marks file: this is a log; load it by Recording::load", path.display())
            }
            Error::OtherFile { path } => {
                write!(out, "{} is there, and is no marks file; it is not written over", path.display())
            }
            Error::Deadlock { waits } => {
                let waits: Vec<String> = waits.iter().map(Wait::to_string).collect();
                write!(out, "deadlock: {}", waits.join("; "))
            }
            Error::Patience { thread } => write!(
                out,
                "thread {thread} has waited for too long; does another one wait elsewhere, or make no access for long? use blocked \
                 and safe_point there"
            ),
            Error::NotBack { thread, place, why } => {
                let place = at(place.as_ref());
                match why {
                    Absence::Picked => write!(
                        out,
                        "thread {thread} was picked{place} and has not come back; does it wait elsewhere? use blocked"
                    ),
                    Absence::Elsewhere => write!(
                        out,
                        "thread {thread} was picked{place} and has not come back; does it wait for what no schedule knows, as a lock \
                         of std? use the one of octet::sync; or Program::patience gives it longer"
                    ),
                    Absence::NotStarted => {
                        write!(out, "thread {thread} is not started, and by a schedule the others wait for it")
                    }
                    Absence::Blocked => write!(out, "thread {thread} is blocked{place}, and no other one can go on"),
                }
            }
            Error::File { path, source } => write!(out, "{} could not be read or written: {source}", path.display()),
            Error::DataRace(race) => race.fmt(out),
            Error::Refused { what } => out.write_str(what),
            Error::Status(status) => write!(out, "status {status} of the library"),
        }
    }
}

impl error::Error for Error {
    fn source(&self) -> Option<&(dyn error::Error + 'static)> {
        match self {
            Error::File { source, .. } => Some(source),
            _ => None,
        }
    }
}

impl Error {
    // Whether it is the thread's own, or follows from an error of another thread.
    pub(crate) fn rank(&self) -> Rank {
        match self {
            Error::Halted { .. }
            | Error::Patience { .. }
            | Error::NotBack { .. }
            | Error::Deadlock { .. }
            | Error::RecordingEnds { .. } => Rank::Follows,
            _ => Rank::Own,
        }
    }
}

/// Ok where a call has answered that all is well; a thread's errors name it.
pub(crate) fn checked(status: i32, thread: usize) -> Result<(), Error> {
    Err(match status {
        raw::READY | raw::PENDING => return Ok(()),
        raw::OVER => Error::RecordingEnds { thread },
        raw::RESTING => Error::Resting,
        raw::RUNNING => Error::Running,
        raw::SPENT => Error::Spent { thread },
        raw::NO_MEMORY => Error::NoMemory,
        raw::BAD_TEXT | raw::MISFIT | raw::BAD_LOG => Error::NoRecording,
        // Its access was given up, and others may make it.
        raw::BEGUN | raw::NO_SESSION => Error::Patience { thread },
        raw::OTHER_SESSIONS | raw::STILL_RUNNING | raw::TWO_RUNS | raw::OUT_OF_ORDER => Error::OtherSessions,
        raw::TOO_LONG => Error::TooLong,
        raw::HALTED => Error::Halted { thread },
        raw::UNORDERED => Error::Unordered,
        raw::NOT_WHOLE => Error::NotWhole,
        raw::OTHER_RUN => Error::OtherRecording,
        other => Error::Status(other),
    })
}
