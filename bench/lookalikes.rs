//! What look-alikes of `std` cost: beside `std` outside of runs, beside a `Session` in a recorded run, and how many schedules there
//! are in a second. Each number is the best of rounds that take turns, so that a busy machine disturbs few of them.
//!
//!     rustc --edition 2024 -C opt-level=3 --extern octet=liboctet.rlib bench/lookalikes.rs
use octet::{Heap, Program};
use std::hint::black_box;
use std::sync::atomic::Ordering::{Relaxed, SeqCst};
use std::time::{Duration, Instant};

const ROUNDS: usize = 401;
/// Of runs, whose beginning and end take long.
const LONG_ROUNDS: usize = 21;
const ACCESSES: u32 = 20_000;
const SCHEDULES: u64 = 100;

fn timed(work: impl FnOnce()) -> Duration {
    let since = Instant::now();
    work();
    since.elapsed()
}

fn repeated<T>(work: impl Fn() -> T) -> Duration {
    timed(|| {
        for _ in 0..ACCESSES {
            black_box(work());
        }
    })
}

// The best round of each, where they take turns.
fn best<const COUNT: usize>(rounds: usize, works: [&dyn Fn() -> Duration; COUNT]) -> [Duration; COUNT] {
    let mut all = [Duration::MAX; COUNT];
    for _ in 0..rounds {
        all.iter_mut().zip(works).for_each(|(least, work)| *least = work().min(*least));
    }
    all
}

fn nanoseconds(time: Duration) -> f64 {
    time.as_nanos() as f64 / f64::from(ACCESSES)
}

fn told(what: &str, [mine, other]: [Duration; 2]) {
    let (mine, other) = (nanoseconds(mine), nanoseconds(other));
    println!("{what}: {mine:.2} ns beside {other:.2} ns: {:+.2} ns, {:.2} times", mine - other, mine / other);
}

fn outside() {
    let (mine, other) = (octet::sync::atomic::AtomicU64::new(0), std::sync::atomic::AtomicU64::new(0));
    let loads = || repeated(|| mine.load(Relaxed));
    let others = || repeated(|| other.load(Relaxed));
    told("outside of a run, a load", best(ROUNDS, [&loads, &others]));
    let adds = || repeated(|| mine.fetch_add(1, SeqCst));
    let others = || repeated(|| other.fetch_add(1, SeqCst));
    told("outside of a run, a fetch_add", best(ROUNDS, [&adds, &others]));
    let (mine, other) = (octet::sync::Mutex::new(0), std::sync::Mutex::new(0));
    let locks = || repeated(|| *black_box(&mine).lock().unwrap() += 1);
    let others = || repeated(|| *black_box(&other).lock().unwrap() += 1);
    told("outside of a run, a Mutex locked and unlocked", best(ROUNDS, [&locks, &others]));
}

fn recorded() {
    let file = std::env::temp_dir().join(format!("octet-lookalikes-{}", std::process::id()));
    let mine = || {
        let program = || {
            let x = octet::sync::atomic::AtomicU64::new(0);
            repeated(|| x.fetch_add(1, SeqCst))
        };
        Program::new().objects(16).threads(1).record(&file, program).expect("it is recorded")
    };
    let sessions = || {
        let run = Heap::builder().object("x", 0).record(&file).run(|threads| {
            threads.spawn(|session| {
                let x = session.object("x")?;
                let since = Instant::now();
                for _ in 0..ACCESSES {
                    black_box(session.fetch_add(x, 1)?);
                }
                Ok(since.elapsed())
            });
        });
        run.expect("it is recorded").values()[0].expect("it was recorded whole")
    };
    told("recorded, a fetch_add beside a Session's", best(LONG_ROUNDS, [&mine, &sessions]));
    for name in ["", ".notes", ".checks"] {
        let _ = std::fs::remove_file(format!("{}{name}", file.display()));
    }
}

fn fifteen() {
    let x = octet::sync::atomic::AtomicU32::new(0);
    octet::thread::scope(|scope| {
        for _ in 0..3 {
            scope.spawn(|| {
                for _ in 0..15 {
                    x.fetch_add(1, SeqCst);
                }
            });
        }
    });
}

fn explored() {
    let explores = |program: fn()| timed(|| assert!(Program::new().explore(0..SCHEDULES, program).is_ok()));
    let [full, empty] = best(LONG_ROUNDS, [&|| explores(fifteen), &|| explores(|| ())]);
    for (what, time) in [("three threads of fifteen accesses", full), ("an empty program", empty)] {
        println!("explored, {what}: {:.0} schedules a second", SCHEDULES as f64 / time.as_secs_f64());
    }
}

fn main() {
    outside();
    recorded();
    explored();
}
