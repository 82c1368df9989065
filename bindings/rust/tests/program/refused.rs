//! What a run does not allow: it is said, with its line.
use crate::{scratch, small};
use octet::sync::atomic::{AtomicU64, Ordering::SeqCst};
use octet::sync::{Arc, Mutex, RwLock};
use octet::{Error, Program, program, thread};
use std::sync::mpsc;

fn refusal(found: Result<u64, octet::Found>) -> String {
    found.expect_err("it is refused").to_string()
}

#[test]
fn one_object_in_two_runs_at_once() {
    static X: AtomicU64 = AtomicU64::new(0);
    let (has_begun, begun) = mpsc::channel();
    let (may_end, end) = mpsc::channel();
    let file = scratch("first");
    let first = std::thread::spawn(move || {
        small().record(&file, move || {
            X.fetch_add(1, SeqCst);
            has_begun.send(()).unwrap();
            end.recv().unwrap();
            X.load(SeqCst)
        })
    });
    begun.recv().unwrap();
    let line = line!() + 2;
    let told = refusal(program::explore([0], || {
        let _ = X.fetch_add(1, SeqCst);
    }));
    assert!(told.contains(&format!("refused.rs:{line} is in a run that goes on, and this is another one")), "{told}");
    // Nor may a thread of no run use it.
    let outside = std::panic::catch_unwind(|| X.load(SeqCst)).expect_err("it is in a run");
    let outside = outside.downcast_ref::<String>().expect("it says why");
    assert!(outside.contains("is in a run that goes on, and this thread is none of that run's"), "{outside}");
    may_end.send(()).unwrap();
    assert_eq!(first.join().unwrap().unwrap(), 1);
    assert_eq!(X.load(SeqCst), 1);
}

#[test]
fn a_lock_whose_value_an_earlier_seed_has_changed() {
    let gathered = Arc::new(Mutex::new(Vec::new()));
    let line = line!() + 2;
    let told = Arc::clone(&gathered);
    let told = refusal(program::explore(0..2, move || told.lock().unwrap().push(1)));
    assert!(told.contains(&format!("refused.rs:{line} was locked by an earlier seed")), "{told}");
    let list = Arc::new(RwLock::new(0));
    let only_read = Arc::clone(&list);
    program::explore(0..2, move || drop(only_read.read().unwrap())).unwrap();
    let told = refusal(program::explore(0..2, move || *list.write().unwrap() += 1));
    assert!(told.contains("was locked for writing by an earlier seed"), "{told}");
    // One that each seed makes is its own.
    program::explore(0..2, || Mutex::new(Vec::new()).lock().unwrap().push(1)).unwrap();
}

#[test]
fn a_lock_that_is_held_outside() {
    let lock = Arc::new(Mutex::new(0));
    let held = lock.lock().unwrap();
    let other = Arc::clone(&lock);
    let told = refusal(program::explore([0], move || *other.lock().unwrap() += 1));
    assert!(told.contains("is held outside of the run"), "{told}");
    drop(held);
    let list = Arc::new(RwLock::new(0));
    let held = list.read().unwrap();
    let other = Arc::clone(&list);
    let told = refusal(program::explore([0], move || *other.write().unwrap() += 1));
    assert!(told.contains("is held outside of the run"), "{told}");
    drop(held);
}

#[test]
fn too_many_threads_and_objects() {
    let told = refusal(program::explore([0], || {
        let threads: Vec<_> = (0..16).map(|_| thread::spawn(|| ())).collect();
        threads.into_iter().for_each(|thread| thread.join().unwrap());
    }));
    assert!(told.contains("threads of the run are alive"), "{told}");
    let file = scratch("objects");
    let two = || AtomicU64::new(1).load(SeqCst) + AtomicU64::new(2).load(SeqCst);
    let error = Program::new().objects(1).record(&file, two).expect_err("there is room for one");
    assert!(error.to_string().contains("more than 1 objects at once"), "{error}");
}

#[test]
fn files_that_are_damaged_or_not_there() {
    let file = scratch("damaged");
    small().record(&file, || AtomicU64::new(1).load(SeqCst)).unwrap();
    let notes = format!("{}.notes", file.display());
    let bytes = std::fs::read(&notes).unwrap();
    // Any damage to the notes is refused or diverges; none of them aborts, or never ends.
    for at in 0..bytes.len() {
        let mut damaged = bytes.clone();
        damaged[at] ^= 0x41;
        std::fs::write(&notes, &damaged).unwrap();
        let again = small().patience(std::time::Duration::from_millis(200)).rerun(&file, || AtomicU64::new(1).load(SeqCst));
        if let Ok(value) = again {
            assert_ne!(value, 0, "byte {at}");
        }
    }
    std::fs::remove_file(&notes).unwrap();
    assert!(matches!(small().rerun(&file, || ()), Err(Error::File { .. })));
}
