//! Threads that wait for what no schedule knows are told, and nobody waits for them for ever.
use octet::sync::Arc;
use octet::sync::atomic::{AtomicU32, Ordering::SeqCst};
use octet::{Absence, Cause, Error, Program, thread};
use std::sync::mpsc;
use std::time::Duration;

#[test]
fn a_lock_of_std_is_told_after_the_patience() {
    // Whoever is stopped while it holds the lock lets the other one wait for ever.
    let program = || {
        let shared = Arc::new((std::sync::Mutex::new(()), AtomicU32::new(0)));
        let adds = |shared: &(std::sync::Mutex<()>, AtomicU32)| {
            let _lock = shared.0.lock();
            for _ in 0..2 {
                shared.1.fetch_add(1, SeqCst);
            }
        };
        let other = Arc::clone(&shared);
        let waits = thread::spawn(move || adds(&other));
        adds(&shared);
        waits.join().unwrap();
    };
    let found = Program::new().patience(Duration::from_millis(200)).explore(0..100, program).expect_err("some seed stops one");
    let Cause::Error(Error::NotBack { thread, why: Absence::Elsewhere, .. }) = found.cause() else { panic!("{found}") };
    let text = found.to_string();
    assert!(text.contains(&format!("thread {thread} was picked")) && text.contains("as a lock of std"), "{text}");
    // Both stay: the one that waits, and the one that holds the lock.
    assert!(found.left_behind() >= 2, "{}", found.left_behind());
}

#[test]
fn a_thread_that_waits_alone_is_told_too() {
    let program = || {
        let (_sender, receiver) = mpsc::channel::<()>();
        let _ = receiver.recv();
    };
    let found = Program::new().patience(Duration::from_millis(50)).explore([0], program).expect_err("it never comes back");
    assert!(matches!(found.cause(), Cause::Error(Error::NotBack { thread: 0, why: Absence::Elsewhere, .. })), "{found}");
}
