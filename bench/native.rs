//! Threads that make the same accesses by the crate `octet`, on atomic words, or behind a mutex for each word. bench/run --native
//! builds and calls it, and bench/native.c says how: `native HOW KIND THREADS ACCESSES RUNS`.
use octet::{Error, Heap, Session};
use std::ffi::{c_int, c_long};
use std::iter::Sum;
use std::sync::atomic::{AtomicU64, Ordering};
use std::sync::{Barrier, Mutex};
use std::time::{Duration, Instant};
use std::{env, error, fs, process, thread};

const MAX_THREADS: usize = 16;

/// Each has lines of the processor's cache to itself.
#[repr(align(128))]
#[derive(Default)]
struct Apart<T>(T);

#[derive(Clone, Copy)]
struct Kind {
    is_update: bool,
    is_shared: bool,
}

impl Kind {
    fn parse(word: &str) -> Option<Kind> {
        let (is_update, is_shared) = match word {
            "read" => (false, false),
            "update" => (true, false),
            "shared" => (false, true),
            "wanted" => (true, true),
            _ => return None,
        };
        Some(Kind { is_update, is_shared })
    }

    fn word(self, thread: usize) -> usize {
        if self.is_shared { 0 } else { thread }
    }
}

/// C's `struct timespec`.
#[repr(C)]
#[derive(Default)]
struct Time {
    seconds: c_long,
    nanoseconds: c_long,
}

// As Linux numbers it.
const CLOCK_THREAD_CPUTIME_ID: c_int = 3;

unsafe extern "C" {
    fn clock_gettime(clock: c_int, time: *mut Time) -> c_int;
}

fn processor_time() -> Duration {
    let mut time = Time::default();
    // SAFETY: the call writes one `struct timespec`, and there is one.
    unsafe { clock_gettime(CLOCK_THREAD_CPUTIME_ID, &mut time) };
    Duration::new(time.seconds as u64, time.nanoseconds as u32)
}

/// How long a thread took, of its processor and by the clock.
#[derive(Clone, Copy, Default)]
struct Took {
    processor: Duration,
    clock: Duration,
}

impl Sum for Took {
    fn sum<I: Iterator<Item = Took>>(all: I) -> Took {
        all.fold(Took::default(), |sum, took| Took { processor: sum.processor + took.processor, clock: sum.clock + took.clock })
    }
}

// What the threads have read is summed up, so that no read is left out.
fn timed<E>(all: &Barrier, accesses: u64, mut access: impl FnMut() -> Result<u64, E>) -> Result<Took, E> {
    all.wait();
    let (processor, clock) = (processor_time(), Instant::now());
    let mut sum = 0_u64;
    for _ in 0..accesses {
        sum = sum.wrapping_add(access()?);
    }
    std::hint::black_box(sum);
    Ok(Took { processor: processor_time() - processor, clock: clock.elapsed() })
}

fn in_sessions(by_marks: bool, kind: Kind, threads: usize, accesses: u64) -> Result<Took, Error> {
    let all = &Barrier::new(threads);
    let names: Vec<String> = (0..threads).map(|number| format!("x{number}")).collect();
    let heap = names.iter().fold(Heap::builder(), |heap, name| heap.object(name, 0));
    let work = |session: &mut Session| {
        let object = session.object(&names[kind.word(session.number())])?;
        if kind.is_update {
            timed(all, accesses, || session.fetch_add(object, 1))
        } else {
            timed(all, accesses, || session.load(object))
        }
    };
    if by_marks {
        let file = env::temp_dir().join(format!("octet-native-{}.octm", process::id()));
        let run = heap.record(&file).run(|running| (0..threads).for_each(|_| running.spawn(work)))?;
        fs::remove_file(&file).map_err(|source| Error::File { path: file, source })?;
        return Ok(run.values().iter().flatten().copied().sum());
    }
    let run = heap.run(|running| (0..threads).for_each(|_| running.spawn(work)))?;
    Ok(run.values().iter().copied().sum())
}

fn on_words<T: Default + Sync>(kind: Kind, threads: usize, accesses: u64, access: impl Fn(&T) -> u64 + Sync) -> Took {
    let (all, access) = (&Barrier::new(threads), &access);
    let words: Vec<Apart<T>> = (0..MAX_THREADS).map(|_| Apart::default()).collect();
    let words = &words;
    thread::scope(|scope| {
        let running = (0..threads).map(|thread| {
            let word = &words[kind.word(thread)].0;
            scope.spawn(move || timed(all, accesses, || Ok::<u64, Error>(access(word))).unwrap_or_default())
        });
        let running: Vec<_> = running.collect();
        running.into_iter().map(|running| running.join().unwrap_or_default()).sum()
    })
}

fn run(how: &str, kind: Kind, threads: usize, accesses: u64) -> Result<Took, Error> {
    Ok(match (how, kind.is_update) {
        ("marks" | "script", _) => in_sessions(how == "marks", kind, threads, accesses)?,
        ("atomic", true) => on_words(kind, threads, accesses, |word: &AtomicU64| word.fetch_add(1, Ordering::SeqCst)),
        ("atomic", false) => on_words(kind, threads, accesses, |word: &AtomicU64| word.load(Ordering::SeqCst)),
        (_, is_update) => on_words(kind, threads, accesses, |word: &Mutex<u64>| {
            let mut value = word.lock().unwrap_or_else(|poisoned| poisoned.into_inner());
            *value += u64::from(is_update);
            *value
        }),
    })
}

fn main() -> Result<(), Box<dyn error::Error>> {
    let words: Vec<String> = env::args().skip(1).collect();
    let [how, kind, threads, accesses, runs] = words.as_slice() else { return Err("HOW KIND THREADS ACCESSES RUNS".into()) };
    let kind = Kind::parse(kind).ok_or("no such kind")?;
    let (threads, runs): (usize, u32) = (threads.parse()?, runs.parse()?);
    let accesses = accesses.parse::<u64>()? / threads as u64;
    let times = (0..runs).map(|_| run(how, kind, threads, accesses));
    let took = times.sum::<Result<Took, Error>>()?;
    let per_access = |time: Duration| time.as_nanos() as f64 / (accesses * threads as u64 * u64::from(runs)) as f64;
    println!("{:.2} {:.2}", per_access(took.processor), per_access(took.clock));
    Ok(())
}
