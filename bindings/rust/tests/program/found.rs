//! What a failure says, and how its run is kept and made again.
use crate::scratch;
use octet::cell::UnsafeCell;
use octet::sync::atomic::{AtomicBool, AtomicU64, AtomicUsize, Ordering::*};
use octet::sync::{Arc, Mutex};
use octet::{Cause, Error, Program, hint, program, thread};
use std::panic::catch_unwind;

fn lost_update() {
    let sum = Arc::new(AtomicU64::new(0));
    let threads = [(); 2].map(|()| {
        let sum = Arc::clone(&sum);
        thread::spawn(move || sum.store(sum.load(SeqCst) + 1, SeqCst))
    });
    threads.into_iter().for_each(|thread| thread.join().unwrap());
    assert_eq!(sum.load(SeqCst), 2, "an addition is lost");
}

#[test]
fn it_is_shrunk_saved_and_replayed() {
    let found = program::explore(0..1000, lost_update).expect_err("it is lost");
    assert_eq!(found.preemptions(), 1);
    let stem = scratch("lost");
    found.save(&stem).unwrap();
    for _ in 0..3 {
        let payload = catch_unwind(|| program::replay(&stem, lost_update)).expect_err("it is lost again");
        assert!(payload.downcast_ref::<String>().is_some_and(|message| message.contains("an addition is lost")));
    }
    // Another program leaves the recording, and does not wait for what never comes.
    let other = || {
        let _ = AtomicU64::new(0).load(SeqCst);
    };
    assert!(matches!(program::replay(&stem, other), Err(Error::Diverged { .. } | Error::NotWhole)));
}

#[test]
fn a_deadlock_names_each_line_and_who_holds_what() {
    let lines = [line!() + 6, line!() + 9];
    let found = program::explore(0..1000, move || {
        let locks = Arc::new((Mutex::new(0), Mutex::new(0)));
        let other = Arc::clone(&locks);
        let thread = thread::spawn(move || {
            let second = other.1.lock().unwrap();
            drop((other.0.lock(), second));
        });
        let first = locks.0.lock().unwrap();
        drop((locks.1.lock(), first));
        thread.join().unwrap();
    })
    .expect_err("they wait for each other");
    let Cause::Error(Error::Deadlock { waits }) = found.cause() else { panic!("{found}") };
    // The program's own thread has seat 0, and the other one seat 1.
    for (thread, wait) in waits.iter().enumerate() {
        assert_eq!((wait.thread, wait.holder), (thread, Some(1 - thread)));
        let place = wait.place.as_ref().map(ToString::to_string).unwrap_or_default();
        assert!(place.ends_with(&format!("found.rs:{}", lines[1 - thread])), "{wait}");
        // The other one has taken it on the line before that on which it waits.
        let held_at = wait.held_at.as_ref().map(ToString::to_string).unwrap_or_default();
        assert!(held_at.ends_with(&format!("found.rs:{}", lines[thread] - 1)), "{wait}");
    }
    assert_eq!(waits.len(), 2);
    assert!(found.left_behind() >= 2, "{}", found.left_behind());
    assert!(format!("{found:?}").contains("threads of runs that failed stay"), "{found:?}");
}

#[test]
fn a_data_race_names_both_lines_and_what_is_missing() {
    struct Published(AtomicBool, UnsafeCell<u64>);
    // SAFETY: by a schedule one thread moves at a time.
    unsafe impl Sync for Published {}
    let begin = line!();
    let found = program::explore(0..1000, || {
        let here = Arc::new(Published(AtomicBool::new(false), UnsafeCell::new(0)));
        let there = Arc::clone(&here);
        let thread = thread::spawn(move || {
            there.1.with_mut(|value| unsafe { *value = 7 });
            there.0.store(true, Relaxed);
        });
        while !here.0.load(Acquire) {
            hint::spin_loop();
        }
        here.1.with(|value| assert_eq!(unsafe { *value }, 7));
        thread.join().unwrap();
    })
    .expect_err("nothing releases");
    let Cause::Error(Error::DataRace(race)) = found.cause() else { panic!("{found}") };
    assert_eq!((race.first.thread, race.first.writes, race.first.place.line()), (1, true, begin + 5));
    assert_eq!((race.second.thread, race.second.writes, race.second.place.line()), (0, false, begin + 11));
    let hint = race.hint.as_deref().expect("they have met");
    assert!(hint.contains(&format!("found.rs:{} would have to be a Release", begin + 6)), "{hint}");
}

#[test]
fn a_thread_that_panics_and_is_not_joined_is_told() {
    let found = program::explore([0], || {
        thread::spawn(|| panic!("nobody asks"));
    });
    assert!(found.expect_err("it panics").to_string().contains("nobody asks"));
    // One that is joined is the program's own affair.
    let joined = || assert!(thread::spawn(|| std::panic::resume_unwind(Box::new("asked"))).join().is_err());
    assert_eq!(program::explore(0..5, joined).unwrap(), 5);
}

#[test]
fn a_run_that_does_not_end_is_told_with_its_line() {
    let line = line!() + 1;
    let spins = || while !AtomicBool::new(false).load(Relaxed) {};
    let found = Program::new().steps(500).explore([0], spins).expect_err("it spins");
    let told = format!("has not ended after 500 steps; thread 0 moves, at tests/program/found.rs:{line}");
    assert!(found.to_string().contains(&told), "{found}");
}

#[test]
fn threads_that_are_left_behind_are_bounded() {
    let found = program::explore([0], || {
        let threads: Vec<_> = (0..14).map(|_| thread::spawn(thread::park)).collect();
        threads.into_iter().for_each(|thread| thread.join().unwrap());
    })
    .expect_err("nobody unparks them");
    // 256 by the tries that shrink it, and up to 15 by each of the last four runs.
    assert!(found.left_behind() <= 256 + 4 * 15, "{}", found.left_behind());
}

#[test]
fn seeds_do_not_depend_on_each_other() {
    static RUNS: AtomicUsize = AtomicUsize::new(7);
    let seen = std::sync::Arc::new(std::sync::Mutex::new(Vec::new()));
    let told = std::sync::Arc::clone(&seen);
    program::explore(0..5, move || told.lock().unwrap().push(RUNS.fetch_add(1, SeqCst))).unwrap();
    assert_eq!(*seen.lock().unwrap(), [7; 5]);
    assert_eq!(RUNS.load(SeqCst), 7);
}

#[test]
fn statics_are_made_anew_by_each_seed() {
    use octet::sync::{LazyLock, OnceLock};
    static ONCE: OnceLock<Mutex<u32>> = OnceLock::new();
    static LAZY: LazyLock<Mutex<u32>> = LazyLock::new(|| Mutex::new(1));
    program::explore(0..20, || {
        let other = thread::spawn(|| *ONCE.get_or_init(|| Mutex::new(0)).lock().unwrap() += 1);
        *ONCE.get_or_init(|| Mutex::new(0)).lock().unwrap() += 1;
        *LAZY.lock().unwrap() += 1;
        other.join().unwrap();
        assert_eq!((*ONCE.get().unwrap().lock().unwrap(), *LAZY.lock().unwrap()), (2, 2));
    })
    .unwrap();
    assert!(ONCE.get().is_none());
}

#[test]
fn a_recorded_run_hands_on_what_it_leaves() {
    let x = Arc::new(AtomicU64::new(1));
    let file = scratch("outlives");
    let other = Arc::clone(&x);
    crate::small().record(&file, move || other.fetch_add(4, SeqCst)).unwrap();
    assert_eq!(x.load(SeqCst), 5);
    let other = Arc::clone(&x);
    program::explore(0..2, move || {
        let _ = other.fetch_add(1, SeqCst);
    })
    .unwrap();
    assert_eq!(x.load(SeqCst), 5);
    // A second run begins with what the first one had.
    let other = Arc::clone(&x);
    assert_eq!(crate::small().rerun(&file, move || other.fetch_add(4, SeqCst)).unwrap(), 1);
}
