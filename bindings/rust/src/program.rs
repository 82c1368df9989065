//! A program over the types of [`sync`](crate::sync), [`thread`](crate::thread), [`cell`](crate::cell) and
//! [`hint`](crate::hint), and how it is run: explored, recorded, and run again.
//!
//! The program is one function. What it makes in a run is of that run alone, and no two runs have one object at a time: where
//! tests that run beside each other share a static, the one that comes later is refused with its line. What outlives an explored
//! run has afterwards what it had before, so no seed depends on another; a lock whose value nobody can set back is refused when a
//! second seed asks for it. What the seeds are to gather stands in types of `std`. Plain memory of a static stays as it was left: one
//! that a crate of others makes of atomics and such memory, as a cell that is filled once, is as new only for the first seed.
mod clocks;
mod crash;
pub(crate) mod ctx;
mod found;
mod notes;
mod pointers;
pub(crate) mod slot;
pub(crate) mod world;

pub(crate) use clocks::Kind;
pub use clocks::{Race, Touch};
pub use found::Found;
pub(crate) use notes::NotesFile;

use crate::error::checked;
use crate::explore::play;
use crate::long::{Beside, Work};
use crate::marks_file::{Feeding, Writing};
use crate::raw::{self, Handle};
use crate::turns::{SEATS, Turns};
use crate::{Error, Failure, Recording, Schedule, Tried, thread, try_explore, try_explore_all};
use notes::{Notes, with_ending};
use std::panic;
use std::path::Path;
use std::sync::{Arc, Mutex, MutexGuard, PoisonError};
use std::time::{Duration, Instant};
use world::{MOST_OBJECTS, Setup, Sizes, Way, Whims, World};

type Body = Arc<dyn Fn() + Send + Sync>;

/// What the head of a marks file declares.
const DECLARED: &[u8] = b"octet::Program 2";
/// A failure is shrunk no more once its tries have left so many threads behind.
const MOST_LEFT_BEHIND: usize = 256;

/// Nothing panics while it holds one of these.
pub(crate) fn held<T: ?Sized>(mutex: &Mutex<T>) -> MutexGuard<'_, T> {
    mutex.lock().unwrap_or_else(PoisonError::into_inner)
}

/// How a program is run, which names the types of `octet::sync` and `octet::thread` where it would name those of `std`.
///
/// ```
/// use octet::sync::Arc;
/// use octet::sync::atomic::{AtomicU64, Ordering};
/// use octet::{Program, program, thread};
///
/// fn deposits() {
///     let balance = Arc::new(AtomicU64::new(100));
///     let pays = [30, 50].map(|amount| {
///         let balance = Arc::clone(&balance);
///         thread::spawn(move || balance.store(balance.load(Ordering::SeqCst) + amount, Ordering::SeqCst))
///     });
///     pays.into_iter().for_each(|pay| pay.join().expect("it does not panic"));
///     assert_eq!(balance.load(Ordering::SeqCst), 180);
/// }
///
/// let found = Program::new().explore(0..1000, deposits).expect_err("some schedule loses a payment");
/// println!("{found}");
/// # let stem = std::env::temp_dir().join(format!("octet-program-{}", std::process::id()));
/// found.save(&stem)?; // for `octet regions`, and the other commands
/// assert!(std::panic::catch_unwind(|| program::replay(&stem, deposits)).is_err(), "it is lost again");
/// # Ok::<(), octet::Error>(())
/// ```
#[derive(Clone, Debug)]
#[must_use]
pub struct Program {
    sizes: Sizes,
    steps: u64,
    depth: Option<u32>,
}

impl Default for Program {
    fn default() -> Program {
        Program::new()
    }
}

/// Runs it as the program's own thread, and waits until no thread moves any more. None where the run was halted.
fn run_in<T: Send + 'static>(world: &Arc<World>, work: impl FnOnce() -> T + Send + 'static) -> Option<std::thread::Result<T>> {
    let seat = world.take_seat(None).expect("no seat is taken");
    if world.way == Way::Turns {
        world.turns().seat(seat, true);
    }
    let main = thread::start(world, seat, thread::Builder::new().name("octet-main".to_string()), work);
    let main = main.expect("the system has a thread for the program");
    world.wait_ended();
    if world.is_halted() { None } else { Some(main.join()) }
}

// What a run by turns came to, which is kept where it was asked for.
#[derive(Default)]
struct Told {
    sizes: (u32, usize),
    kept: Option<Notes>,
}

impl Program {
    /// With room for 16 threads and 4,096 objects at once, at most 100,000 steps of a schedule, and a patience of ten seconds.
    ///
    /// ```
    /// assert_eq!(octet::Program::new().explore(0..10, || ()).expect("nothing fails"), 10);
    /// ```
    pub fn new() -> Program {
        let sizes = Sizes {
            objects: 4096,
            threads: SEATS,
            patience: Duration::from_secs(10),
            is_strict: false,
            finds_races: false,
            words_are_addresses: false,
        };
        Program { sizes, steps: 100_000, depth: None }
    }

    /// How many objects a recorded run may have at once: up to 65,535.
    ///
    /// ```
    /// # let file = std::env::temp_dir().join(format!("octet-objects-{}", std::process::id()));
    /// use octet::sync::atomic::{AtomicU8, Ordering::Relaxed};
    ///
    /// let two = || AtomicU8::new(1).load(Relaxed) + AtomicU8::new(2).load(Relaxed);
    /// assert!(octet::Program::new().objects(1).record(&file, two).is_err());
    /// assert_eq!(octet::Program::new().objects(2).record(&file, two)?, 3);
    /// # Ok::<(), octet::Error>(())
    /// ```
    pub fn objects(mut self, objects: u32) -> Program {
        self.sizes.objects = objects.clamp(1, MOST_OBJECTS);
        self
    }

    /// How many threads a recorded run may have at once, with the program's own: up to 16.
    ///
    /// ```
    /// # let file = std::env::temp_dir().join(format!("octet-threads-{}", std::process::id()));
    /// let spawns = || octet::thread::Builder::new().spawn(|| ()).is_err();
    /// assert!(octet::Program::new().threads(1).record(&file, spawns)?);
    /// # Ok::<(), octet::Error>(())
    /// ```
    pub fn threads(mut self, threads: usize) -> Program {
        self.sizes.threads = threads.clamp(1, SEATS);
        self
    }

    /// How many steps a run by a schedule may have.
    ///
    /// ```
    /// use octet::sync::atomic::{AtomicBool, Ordering::Relaxed};
    ///
    /// let spins = || while !AtomicBool::new(false).load(Relaxed) {};
    /// let found = octet::Program::new().steps(1_000).explore([0], spins).expect_err("it never ends");
    /// assert!(found.to_string().contains("has not ended after 1000 steps"), "{found}");
    /// ```
    pub fn steps(mut self, steps: u64) -> Program {
        self.steps = steps;
        self
    }

    /// How long a thread waits in a recorded run for an access, a lock or a wake-up. By a schedule, how long a thread that was picked
    /// may take until its next call: one that waits for what no schedule knows, as a lock of `std`, is told after that.
    ///
    /// ```
    /// # let file = std::env::temp_dir().join(format!("octet-patience-{}", std::process::id()));
    /// let program = octet::Program::new().patience(std::time::Duration::from_millis(10));
    /// let error = program.record(&file, octet::thread::park).expect_err("nobody unparks it");
    /// assert!(error.to_string().contains("has waited 10ms for an unpark"), "{error}");
    /// ```
    pub fn patience(mut self, patience: Duration) -> Program {
        self.sizes.patience = patience;
        self
    }

    /// Schedules by priorities, as [`Schedule::pct`] has them.
    ///
    /// ```
    /// assert_eq!(octet::Program::new().pct(3).explore(0..10, || ()).expect("nothing fails"), 10);
    /// ```
    pub fn pct(mut self, depth: u32) -> Program {
        self.depth = Some(depth);
        self
    }

    /// [`UnsafeCell::get`](crate::cell::UnsafeCell::get) counts as a write, so that data races by pointers are found. Threads that
    /// only read by them at once are said to race, too.
    ///
    /// ```
    /// use octet::cell::UnsafeCell;
    /// use octet::sync::Arc;
    /// use octet::{Program, thread};
    ///
    /// struct Shared(UnsafeCell<u32>);
    /// unsafe impl Sync for Shared {}
    ///
    /// let racy = || {
    ///     let here = Arc::new(Shared(UnsafeCell::new(0)));
    ///     let there = Arc::clone(&here);
    ///     let other = thread::spawn(move || unsafe { *there.0.get() += 1 });
    ///     unsafe { *here.0.get() += 1 };
    ///     other.join().expect("it does not panic");
    /// };
    /// assert!(Program::new().explore(0..10, racy).is_ok());
    /// let found = Program::new().strict_cells().explore(0..10, racy).expect_err("nothing orders them");
    /// assert!(found.to_string().contains("data race"), "{found}");
    /// ```
    pub fn strict_cells(mut self) -> Program {
        self.sizes.is_strict = true;
        self
    }

    /// A recorded run and a second run look for data races, too, as a run by a schedule does. The run goes on after one, and is
    /// kept; the first one is what `record` and `rerun` answer. It is found whichever thread comes first, but each access takes a
    /// lock for it.
    ///
    /// ```
    /// # let file = std::env::temp_dir().join(format!("octet-races-{}", std::process::id()));
    /// use octet::cell::UnsafeCell;
    /// use octet::{Error, Program, sync::Arc, thread};
    ///
    /// struct Shared(UnsafeCell<u32>);
    /// unsafe impl Sync for Shared {}
    ///
    /// let racy = || {
    ///     let here = Arc::new(Shared(UnsafeCell::new(0)));
    ///     let there = Arc::clone(&here);
    ///     let other = thread::spawn(move || there.0.with_mut(|value| unsafe { *value = 1 }));
    ///     here.0.with(|value| unsafe { *value });
    ///     other.join().expect("it does not panic");
    /// };
    /// let program = Program::new().data_races();
    /// assert!(matches!(program.record(&file, racy), Err(Error::DataRace(_))));
    /// assert!(matches!(program.rerun(&file, racy), Err(Error::DataRace(_))));
    /// assert!(Program::new().rerun(&file, racy).is_ok());
    /// ```
    pub fn data_races(mut self) -> Program {
        self.sizes.finds_races = true;
        self
    }

    /// Integers as wide as a pointer may be addresses, as where tags are put into them. Then a recorded run keeps numbers between
    /// 65,536 and 2^47 in `AtomicUsize`, `AtomicIsize`, `AtomicU64` and `AtomicI64` as it keeps the pointers of `AtomicPtr`, and a
    /// second run has its own addresses for them. Arithmetic on such numbers goes wrong there: only stores, swaps and exchanges
    /// of whole values, with their lowest three bits as tags, are what they are.
    ///
    /// ```
    /// # let file = std::env::temp_dir().join(format!("octet-words-{}", std::process::id()));
    /// use octet::sync::atomic::{AtomicUsize, Ordering::SeqCst};
    ///
    /// let program = octet::Program::new().addresses_in_integers();
    /// let kept = || {
    ///     let boxed = Box::into_raw(Box::new(5));
    ///     let word = AtomicUsize::new(boxed as usize);
    ///     unsafe { *Box::from_raw(word.load(SeqCst) as *mut i32) }
    /// };
    /// assert_eq!((program.record(&file, kept)?, program.rerun(&file, kept)?), (5, 5));
    /// # Ok::<(), octet::Error>(())
    /// ```
    pub fn addresses_in_integers(mut self) -> Program {
        self.sizes.words_are_addresses = true;
        self
    }

    // Octet's heap for as many objects and threads as the run has had.
    fn kept_heap(&self, told: &Mutex<Told>) -> Result<(Sizes, Vec<Handle>), Error> {
        let (objects, threads) = held(told).sizes;
        let sizes = Sizes { objects: objects.max(1), threads: threads.max(1), ..self.sizes };
        let mut text = format!("fuel {}\n", 262_144 / sizes.threads);
        for number in 0..sizes.objects {
            text += "object o";
            text += &number.to_string();
            text += " 0\n";
        }
        text += &"thread\n".repeat(sizes.threads);
        let (handles, status) = raw::open(text.as_bytes(), sizes.threads);
        checked(status, 0)?;
        Ok((sizes, handles))
    }

    // Runs it by the schedule. It panics where the program does.
    fn by_turns(&self, schedule: Schedule, body: &Body, keep: bool, told: &Mutex<Told>) -> Result<(), Error> {
        let schedule = match self.depth {
            Some(depth) => schedule.pct(depth),
            None => schedule,
        };
        let seed = schedule.seed();
        let whims = if (seed / 6) % 3 == 2 { Whims::Drawn { seed } } else { Whims::None };
        let (sizes, handles) = if keep { self.kept_heap(told)? } else { (self.sizes, Vec::new()) };
        let turns = Turns::of_program(&schedule, self.steps, self.sizes.patience)?;
        let world = World::new(Setup {
            way: Way::Turns,
            sizes,
            handles,
            notes: Notes { whims, ..Notes::none() },
            handed: Arc::default(),
            turns: Some(turns),
            seed: Some(seed).filter(|_| schedule.search().is_none()),
            is_quiet: schedule.is_given(),
        });
        let body = Arc::clone(body);
        let ended = run_in(&world, move || body());
        let left = world.left(matches!(ended, Some(Err(_))));
        world.close(None);
        held(told).sizes = world.sizes();
        if let Some(handles) = left.handles {
            let (record, status) = raw::close(handles);
            checked(status, 0)?;
            schedule.keep(&Recording::of(record, left.places)?);
            let threads = (0..sizes.threads).map(|seat| world.handed.take(seat)).collect();
            held(told).kept = Some(Notes { whims, threads, are_whole: true });
        }
        if let Some(message) = left.panic {
            panic::resume_unwind(Box::new(message));
        }
        match (left.why, ended) {
            (Some(error), _) => Err(error),
            (None, Some(Err(payload))) => panic::resume_unwind(payload),
            (None, _) => Ok(()),
        }
    }

    /// Runs the program by the schedule of each seed, until it fails, and answers how many passed. It fails where a thread panics
    /// that no other one joins, where all threads wait for each other, where two accesses to a cell race, and where the run does
    /// not end. The failure is shrunk as [`octet::explore`](crate::explore) does.
    ///
    /// Where explored code crashes, the process says on standard error which seed it was, with the line that the thread had come
    /// to: exploring that seed alone comes there again.
    ///
    /// # Errors
    /// The schedule that failed, with its run.
    ///
    /// ```
    /// use octet::sync::{Arc, Mutex};
    /// use octet::{Program, thread};
    ///
    /// let found = Program::new().explore(0..1000, || {
    ///     let locks = Arc::new((Mutex::new(0), Mutex::new(0)));
    ///     let others = Arc::clone(&locks);
    ///     let other = thread::spawn(move || *others.1.lock().unwrap() += *others.0.lock().unwrap());
    ///     *locks.0.lock().unwrap() += *locks.1.lock().unwrap();
    ///     other.join().expect("it does not panic");
    /// });
    /// let found = found.expect_err("they wait for each other");
    /// assert!(found.to_string().contains("waits for a Mutex at "), "{found}");
    /// ```
    pub fn explore(
        &self,
        seeds: impl IntoIterator<Item = u64>,
        program: impl Fn() + Send + Sync + 'static,
    ) -> Result<u64, Found> {
        self.explored(program, |by_turns| try_explore(seeds, by_turns))
    }

    /// Runs the program by all its schedules, as [`octet::explore_all`](crate::explore_all) does, and says whether all were tried. No
    /// exchange fails for nothing here; which thread drops an `Arc` last, and what clocks say, is not tried out.
    ///
    /// # Errors
    /// The first schedule that failed, with its run.
    ///
    /// ```
    /// use octet::sync::atomic::{AtomicU32, Ordering::SeqCst};
    /// use octet::{Program, Tried, thread};
    ///
    /// // Store and load, crosswise: by none of the three orders both threads find 0.
    /// let tried = Program::new().explore_all(1_000, || {
    ///     let objects = [AtomicU32::new(0), AtomicU32::new(0)];
    ///     let [x, y] = &objects;
    ///     let found = thread::scope(|scope| {
    ///         let threads = [(x, y), (y, x)].map(|(mine, its)| {
    ///             scope.spawn(move || {
    ///                 mine.store(1, SeqCst);
    ///                 its.load(SeqCst)
    ///             })
    ///         });
    ///         threads.map(|thread| thread.join().unwrap())
    ///     });
    ///     assert_ne!(found, [0, 0]);
    /// });
    /// assert_eq!(tried.expect("nothing fails"), Tried::All { runs: 3 });
    /// ```
    pub fn explore_all(&self, most: u64, program: impl Fn() + Send + Sync + 'static) -> Result<Tried, Found> {
        self.explored(program, |by_turns| try_explore_all(most, by_turns))
    }

    // Explores it so, and keeps the run that has failed.
    fn explored<T>(
        &self,
        program: impl Fn() + Send + Sync + 'static,
        explore: impl FnOnce(&mut dyn FnMut(Schedule) -> Result<(), Error>) -> Result<T, Box<Failure>>,
    ) -> Result<T, Found> {
        crash::watch();
        thread::know_parallelism();
        let before = world::staying();
        let body: Body = Arc::new(program);
        let told = Mutex::new(Told::default());
        let explored = explore(&mut |schedule| {
            if schedule.is_given() && world::staying() - before > MOST_LEFT_BEHIND {
                // It is shrunk no more.
                return Err(Error::Patience { thread: 0 });
            }
            self.by_turns(schedule, &body, false, &told)
        });
        let failure = match explored {
            Ok(explored) => return Ok(explored),
            Err(failure) => failure,
        };
        // One that waits for what no schedule knows would wait as long again, and may have left behind what it waits for.
        let kept = if failure.is_impatient() { None } else { self.kept(&failure, &body, &told) };
        let notes = held(&told).kept.take();
        Err(Found::new(kept.unwrap_or(failure), notes, world::staying() - before))
    }

    // The failure once more, to learn its sizes, and then on Octet's heap, to be kept.
    fn kept(&self, failure: &Failure, body: &Body, told: &Mutex<Told>) -> Option<Box<Failure>> {
        let _quiet = crate::quiet::Quiet::new();
        let threads: Vec<usize> = failure.picks().iter().map(|pick| pick.thread).collect();
        let mut lengths = vec![0; SEATS];
        threads.iter().for_each(|&thread| lengths[thread] += 1);
        let given = || failure.by_picks(threads.clone(), lengths.clone());
        let _ = play(&mut |schedule| self.by_turns(schedule, body, false, told), &given());
        let kept = play(&mut |schedule| self.by_turns(schedule, body, true, told), &given());
        kept.failure.filter(|kept| kept.is_like(failure))
    }

    // Lets each thread come to its end. Answers what went wrong first.
    fn end_all(&self, handles: &mut [Handle]) -> Option<Error> {
        let mut fault = None;
        for (thread, handle) in handles.iter_mut().enumerate() {
            handle.start();
            let mut out = 0;
            let since = Instant::now();
            let status = loop {
                match handle.end(&mut out) {
                    raw::PENDING if since.elapsed() < self.sizes.patience => std::thread::yield_now(),
                    status => break status,
                }
            };
            if status != raw::READY {
                handle.stop();
                fault.get_or_insert(match status {
                    raw::DIVERGED => Error::Diverged { thread, accesses: out, place: None },
                    raw::PENDING => Error::Patience { thread },
                    status => checked(status, thread).err().unwrap_or(Error::Status(status)),
                });
            }
        }
        fault
    }

    // Runs it freely or again, while something goes on beside it.
    fn by_marks<T: Send + 'static>(
        &self,
        setup: Setup,
        beside: Option<Beside>,
        program: impl FnOnce() -> T + Send + 'static,
    ) -> Result<T, Error> {
        let world = World::new(setup);
        let ended = run_in(&world, program);
        let left = world.left(false);
        let mut handles = left.handles.unwrap_or_default();
        let fault = self.end_all(&mut handles);
        if let Some(mut beside) = beside {
            beside.end()?;
        }
        let values = match left.why.or(fault) {
            Some(error) => Err(error),
            None => values_of(handles),
        };
        world.close(values.as_ref().ok().cloned());
        values?;
        if let Some(race) = left.race {
            return Err(Error::DataRace(Box::new(race)));
        }
        match ended {
            Some(Ok(value)) => Ok(value),
            Some(Err(payload)) => panic::resume_unwind(payload),
            None => Err(Error::NotWhole),
        }
    }

    fn setup(&self, way: Way, handles: Vec<Handle>, notes: Notes) -> Setup {
        let handed = Arc::default();
        Setup { way, sizes: self.sizes, handles, notes, handed, turns: None, seed: None, is_quiet: false }
    }

    /// Runs the program on threads that move freely, and keeps the run in this file and in `FILE.notes`. Both are written while it
    /// runs, so that one which is killed leaves what its threads have handed on by then.
    ///
    /// # Errors
    /// `Refused` where the run outgrows its room or its patience, `File`, and `DataRace` where it looks for those.
    ///
    /// # Panics
    /// Where the program does; its run is kept.
    ///
    /// ```
    /// # let file = std::env::temp_dir().join(format!("octet-record-{}", std::process::id()));
    /// use octet::sync::{Arc, Mutex};
    /// use octet::{Program, thread};
    ///
    /// let race = || {
    ///     let order = Arc::new(Mutex::new(Vec::new()));
    ///     thread::scope(|scope| (0..4).for_each(|number| {
    ///         let order = Arc::clone(&order);
    ///         scope.spawn(move || order.lock().unwrap().push(number));
    ///     }));
    ///     order.lock().unwrap().clone()
    /// };
    /// let first = Program::new().record(&file, race)?;
    /// assert_eq!(Program::new().rerun(&file, race)?, first);
    /// # Ok::<(), octet::Error>(())
    /// ```
    pub fn record<T: Send + 'static>(
        &self,
        path: impl AsRef<Path>,
        program: impl FnOnce() -> T + Send + 'static,
    ) -> Result<T, Error> {
        let path = path.as_ref();
        let starts = vec![0; self.sizes.objects as usize];
        let (head, status) = raw::head(&starts, self.sizes.threads, DECLARED);
        checked(status, 0)?;
        let (sessions, streams, status) = raw::open_long(&starts, self.sizes.threads);
        checked(status, 0)?;
        let setup = self.setup(Way::Free, sessions, Notes::none());
        let writing = Writing::begin(path, &head, streams)?;
        let writing = writing.with_notes(NotesFile::begin(path, Arc::clone(&setup.handed))?);
        self.by_marks(setup, Some(Beside::start(Work::Writing(writing))), program)
    }

    /// Runs the program again by the file. It must be as large as it was recorded with.
    ///
    /// # Errors
    /// `Diverged` and `NotWhole` where the program is another one, `RecordingEnds` where the recorded one was killed, `BadMarks` where
    /// a file is damaged, and as `record`.
    ///
    /// # Panics
    /// Where the program does.
    ///
    /// ```
    /// # let file = std::env::temp_dir().join(format!("octet-rerun-{}", std::process::id()));
    /// use octet::sync::atomic::{AtomicU8, Ordering::SeqCst};
    ///
    /// octet::Program::new().record(&file, || AtomicU8::new(1).load(SeqCst))?;
    /// let other = || AtomicU8::new(1).store(2, SeqCst);
    /// assert!(octet::Program::new().rerun(&file, other).is_err());
    /// # Ok::<(), octet::Error>(())
    /// ```
    pub fn rerun<T: Send + 'static>(
        &self,
        path: impl AsRef<Path>,
        program: impl FnOnce() -> T + Send + 'static,
    ) -> Result<T, Error> {
        let path = path.as_ref();
        let notes = Notes::read(with_ending(path, ".notes"))?;
        let starts = vec![0; self.sizes.objects as usize];
        let (sessions, streams, status) = raw::follow_long(&starts, DECLARED, 0, self.sizes.threads);
        checked(status, 0)?;
        let beside = Beside::start(Work::Feeding(Feeding::open(path, streams)?));
        self.by_marks(self.setup(Way::Again, sessions, notes), Some(beside), program)
    }

    /// Runs the program again by a run that [`Found::save`] has saved.
    ///
    /// # Errors
    /// As [`rerun`](Program::rerun), and `NoRecording` where the files are none.
    ///
    /// # Panics
    /// Where the program does.
    ///
    /// ```
    /// use octet::Program;
    ///
    /// let fails = || panic!("always");
    /// let found = Program::new().explore([0], fails).expect_err("it panics");
    /// # let stem = std::env::temp_dir().join(format!("octet-replay-{}", std::process::id()));
    /// found.save(&stem)?;
    /// assert!(std::panic::catch_unwind(|| Program::new().replay(&stem, fails)).is_err());
    /// # Ok::<(), octet::Error>(())
    /// ```
    pub fn replay<T: Send + 'static>(
        &self,
        stem: impl AsRef<Path>,
        program: impl FnOnce() -> T + Send + 'static,
    ) -> Result<T, Error> {
        let recording = Recording::load(&stem)?;
        let notes = Notes::read(with_ending(stem.as_ref(), ".notes"))?;
        let threads = recording.threads();
        let (sessions, status) = raw::follow(recording.script().as_bytes(), recording.log(), threads);
        checked(status, 0)?;
        let sized = Program { sizes: Sizes { threads, ..self.sizes }, ..self.clone() };
        sized.by_marks(sized.setup(Way::Again, sessions, notes), None, program)
    }
}

fn values_of(handles: Vec<Handle>) -> Result<Vec<u64>, Error> {
    let (mut record, status) = raw::close(handles);
    checked(status, 0)?;
    let (values, status) = record.values();
    checked(status, 0).map(|()| values)
}

/// As [`Program::explore`], of a new one.
///
/// # Errors
/// The schedule that failed, with its run.
///
/// ```
/// assert_eq!(octet::program::explore(0..10, || ()).expect("nothing fails"), 10);
/// ```
pub fn explore(seeds: impl IntoIterator<Item = u64>, program: impl Fn() + Send + Sync + 'static) -> Result<u64, Found> {
    Program::new().explore(seeds, program)
}

/// As [`Program::explore_all`], of a new one.
///
/// # Errors
/// The first schedule that failed, with its run.
///
/// ```
/// assert_eq!(octet::program::explore_all(10, || ()).expect("nothing fails"), octet::Tried::All { runs: 1 });
/// ```
pub fn explore_all(most: u64, program: impl Fn() + Send + Sync + 'static) -> Result<Tried, Found> {
    Program::new().explore_all(most, program)
}

/// As [`Program::record`], of a new one.
///
/// # Errors
/// As there.
///
/// # Panics
/// Where the program does; its run is kept.
///
/// ```
/// # let file = std::env::temp_dir().join(format!("octet-as-record-{}", std::process::id()));
/// assert_eq!(octet::program::record(&file, || 5)?, 5);
/// # Ok::<(), octet::Error>(())
/// ```
pub fn record<T: Send + 'static>(path: impl AsRef<Path>, program: impl FnOnce() -> T + Send + 'static) -> Result<T, Error> {
    Program::new().record(path, program)
}

/// As [`Program::rerun`], of a new one.
///
/// # Errors
/// As there.
///
/// # Panics
/// Where the program does.
///
/// ```
/// # let file = std::env::temp_dir().join(format!("octet-as-rerun-{}", std::process::id()));
/// octet::program::record(&file, || 5)?;
/// assert_eq!(octet::program::rerun(&file, || 5)?, 5);
/// # Ok::<(), octet::Error>(())
/// ```
pub fn rerun<T: Send + 'static>(path: impl AsRef<Path>, program: impl FnOnce() -> T + Send + 'static) -> Result<T, Error> {
    Program::new().rerun(path, program)
}

/// As [`Program::replay`], of a new one.
///
/// # Errors
/// As there.
///
/// # Panics
/// Where the program does.
///
/// ```
/// let fails = || panic!("always");
/// let found = octet::program::explore([0], fails).expect_err("it panics");
/// # let stem = std::env::temp_dir().join(format!("octet-as-replay-{}", std::process::id()));
/// found.save(&stem)?;
/// assert!(std::panic::catch_unwind(|| octet::program::replay(&stem, fails)).is_err());
/// # Ok::<(), octet::Error>(())
/// ```
pub fn replay<T: Send + 'static>(stem: impl AsRef<Path>, program: impl FnOnce() -> T + Send + 'static) -> Result<T, Error> {
    Program::new().replay(stem, program)
}

/// As `loom::model`: explores 1,000 schedules, and panics where one fails.
///
/// # Panics
/// Where a schedule fails.
///
/// ```
/// octet::model(|| assert_eq!(octet::thread::spawn(|| 5).join().unwrap(), 5));
/// ```
#[track_caller]
pub fn model(program: impl Fn() + Send + Sync + 'static) {
    if let Err(found) = explore(0..1000, program) {
        panic!("{found}");
    }
}
