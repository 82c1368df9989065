//! All schedules of small programs over look-alikes, whose number was worked out by hand.
use octet::cell::UnsafeCell;
use octet::sync::atomic::Ordering::{Acquire, Relaxed, Release, SeqCst};
use octet::sync::atomic::{AtomicBool, AtomicU32, Ordering};
use octet::sync::{Arc, Mutex};
use octet::{Cause, Error, Tried, program, thread};

// Two threads store to these twice.
fn two_stores(objects: [usize; 2]) -> Tried {
    let stores = move || {
        let all = [AtomicU32::new(0), AtomicU32::new(0)];
        thread::scope(|scope| {
            for object in objects.map(|object| &all[object]) {
                scope.spawn(move || (0..2).for_each(|value| object.store(value, SeqCst)));
            }
        });
    };
    program::explore_all(1_000, stores).unwrap_or_else(|found| panic!("{found}"))
}

#[test]
fn each_interleaving_that_matters_is_run_once() {
    assert_eq!(two_stores([0, 0]), Tried::All { runs: 6 });
    assert_eq!(two_stores([0, 1]), Tried::All { runs: 1 });
    // One after the other in both orders; and either waits for the other.
    let locked = program::explore_all(1_000, || {
        let sum = Mutex::new(0);
        thread::scope(|scope| (0..2).for_each(|_| drop(scope.spawn(|| *sum.lock().unwrap() += 1))));
        assert_eq!(sum.into_inner().unwrap(), 2);
    });
    assert_eq!(locked.unwrap_or_else(|found| panic!("{found}")), Tried::All { runs: 4 });
}

// One thread publishes a value, and the other one takes it if it is there.
fn published(store: Ordering) -> Result<Tried, octet::Found> {
    struct Published(AtomicBool, UnsafeCell<u32>);
    unsafe impl Sync for Published {}
    program::explore_all(1_000, move || {
        let here = Arc::new(Published(AtomicBool::new(false), UnsafeCell::new(0)));
        let there = Arc::clone(&here);
        let other = thread::spawn(move || {
            there.1.with_mut(|value| unsafe { *value = 1 });
            there.0.store(true, store);
        });
        if here.0.load(Acquire) {
            assert_eq!(here.1.with(|value| unsafe { *value }), 1);
        }
        other.join().unwrap();
    })
}

#[test]
fn a_missing_release_is_found_and_a_right_one_is_tried_whole() {
    // The load comes before the store, or after it.
    assert_eq!(published(Release).unwrap_or_else(|found| panic!("{found}")), Tried::All { runs: 2 });
    let found = published(Relaxed).expect_err("nothing orders them");
    assert!(matches!(found.cause(), Cause::Error(Error::DataRace(_))), "{found}");
    // Its run is kept: what it is shrunk by has the same steps.
    let stem = crate::scratch("all");
    found.save(&stem).unwrap();
}

#[test]
fn who_yields_lets_others_go_first() {
    let tried = program::explore_all(10_000, || {
        let is_done = AtomicBool::new(false);
        thread::scope(|scope| {
            scope.spawn(|| is_done.store(true, SeqCst));
            while !is_done.load(SeqCst) {
                thread::yield_now();
            }
        });
    });
    assert!(matches!(tried, Ok(Tried::ButYields { .. })), "{tried:?}");
}
