//! Corners of `std` that a look-alike turns as `std` does.
use crate::{scratch, small};
use octet::sync::atomic::{AtomicBool, AtomicPtr, AtomicU32, AtomicU64, AtomicUsize, Ordering::*};
use octet::sync::{Arc, Condvar, LazyLock, Mutex, Once, OnceLock, RwLock, mpsc};
use octet::{program, thread};
use std::panic::{AssertUnwindSafe, catch_unwind, resume_unwind};
use std::time::Duration;

// Outside, by schedules, and recorded.
fn everywhere(name: &str, program: fn()) {
    program();
    small().record(scratch(name), program).unwrap();
    program::explore(0..60, program).unwrap_or_else(|found| panic!("{found:?}"));
}

fn message(work: impl FnOnce()) -> String {
    let payload = catch_unwind(AssertUnwindSafe(work)).expect_err("it panics");
    let text = payload.downcast_ref::<String>().cloned();
    text.or_else(|| payload.downcast_ref::<&str>().map(ToString::to_string)).expect("it says why")
}

#[test]
fn who_panics_with_a_lock_poisons_it() {
    everywhere("poison", || {
        let shared = Arc::new((Mutex::new(1), RwLock::new(1), Condvar::new()));
        let other = Arc::clone(&shared);
        let panics = thread::spawn(move || {
            let _lock = (other.0.lock(), other.1.write());
            resume_unwind(Box::new("on purpose"));
        });
        assert!(panics.join().is_err());
        assert!(shared.0.is_poisoned() && shared.1.is_poisoned());
        assert!(shared.1.read().is_err() && shared.0.try_lock().is_err());
        let guard = shared.0.lock().unwrap_err().into_inner();
        let waited = shared.2.wait_timeout(guard, Duration::from_millis(1));
        assert_eq!(*waited.unwrap_err().into_inner().0, 1);
        shared.0.clear_poison();
        shared.1.clear_poison();
        assert!(shared.0.lock().is_ok() && shared.1.write().is_ok());
    });
    // A reader poisons nothing, nor does one whose thread panicked before.
    everywhere("reader", || {
        let lock = Arc::new((RwLock::new(1), Mutex::new(1)));
        struct Locks(Arc<(RwLock<u32>, Mutex<u32>)>);
        impl Drop for Locks {
            fn drop(&mut self) {
                *self.0.1.lock().unwrap() += 1;
            }
        }
        let (other, locks) = (Arc::clone(&lock), Locks(Arc::clone(&lock)));
        let panics = thread::spawn(move || {
            let _locks = locks;
            let _read = other.0.read();
            resume_unwind(Box::new("on purpose"));
        });
        assert!(panics.join().is_err());
        assert!(!lock.0.is_poisoned());
        assert_eq!(*lock.1.lock().unwrap(), 2);
    });
}

#[test]
fn what_is_done_once_is_poisoned_by_a_panic() {
    everywhere("once", || {
        let (once, cell) = (Once::new(), OnceLock::new());
        let panics = || resume_unwind(Box::new("on purpose"));
        let makes = || -> u32 { resume_unwind(Box::new("on purpose")) };
        assert!(catch_unwind(AssertUnwindSafe(|| once.call_once(panics))).is_err());
        assert_eq!(message(|| once.call_once(|| ())), "Once instance has previously been poisoned");
        once.call_once_force(|state| assert!(state.is_poisoned()));
        once.call_once(|| unreachable!("it is done"));
        // A OnceLock is none the worse for it.
        assert!(catch_unwind(AssertUnwindSafe(|| cell.get_or_init(makes))).is_err());
        assert_eq!(cell.get_or_try_init(|| Err::<u32, _>(3)), Err(3));
        assert_eq!((cell.set(4), cell.set(5), cell.get()), (Ok(()), Err(5), Some(&4)));
        let lazy: LazyLock<u32> = LazyLock::new(|| resume_unwind(Box::new("on purpose")));
        assert!(catch_unwind(AssertUnwindSafe(|| *lazy)).is_err());
        assert_eq!(
            message(|| {
                let _ = *lazy;
            }),
            "LazyLock instance has previously been poisoned"
        );
    });
}

#[test]
fn a_condition_of_two_mutexes_in_turn() {
    everywhere("condition", || {
        let shared = Arc::new((Mutex::new(false), Mutex::new(false), Condvar::new()));
        let other = Arc::clone(&shared);
        let opens = thread::spawn(move || {
            for lock in [&other.0, &other.1] {
                *lock.lock().unwrap() = true;
                other.2.notify_all();
            }
        });
        for lock in [&shared.0, &shared.1] {
            assert!(*shared.2.wait_while(lock.lock().unwrap(), |is_open| !*is_open).unwrap());
        }
        opens.join().unwrap();
    });
}

#[test]
fn a_channel_of_no_room() {
    everywhere("no room", || {
        let (sender, receiver) = mpsc::sync_channel(0);
        // Nobody waits for it.
        assert_eq!(sender.try_send(1), Err(mpsc::TrySendError::Full(1)));
        let other = sender.clone();
        let sends = thread::spawn(move || other.send(2));
        // A sender that waits is met by a receiver that does not.
        let taken = loop {
            match receiver.try_recv() {
                Ok(value) => break value,
                Err(error) => assert_eq!(error, mpsc::TryRecvError::Empty),
            }
            thread::yield_now();
        };
        assert_eq!((taken, sends.join().unwrap()), (2, Ok(())));
        // A sender whose value nobody takes has it back.
        let sends = thread::spawn(move || sender.send(3));
        thread::yield_now();
        drop(receiver);
        assert_eq!(sends.join().unwrap(), Err(mpsc::SendError(3)));
    });
    everywhere("met", || {
        let (sender, receiver) = mpsc::sync_channel(0);
        let waits = thread::spawn(move || receiver.recv());
        // As soon as the receiver waits, it is let in.
        while sender.try_send(4).is_err() {
            thread::yield_now();
        }
        assert_eq!(waits.join().unwrap(), Ok(4));
    });
}

#[test]
fn guards_that_are_forgotten_keep_the_lock() {
    let locks = Arc::new((Mutex::new(1), RwLock::new(1), RwLock::new(1)));
    let other = Arc::clone(&locks);
    small()
        .record(scratch("forgotten"), move || {
            std::mem::forget((other.0.lock(), other.1.read(), other.2.write()));
        })
        .unwrap();
    // They are held for ever after the run, too.
    assert!(locks.0.try_lock().is_err());
    assert!(locks.1.try_write().is_err() && locks.1.try_read().is_ok());
    assert!(locks.2.try_read().is_err());
}

#[test]
fn an_exchange_may_fail_for_nothing() {
    // Outside and in a recorded run it does not here; by some seeds it does, and a loop comes to its end.
    let adds = || {
        let x = AtomicU32::new(0);
        for _ in 0..20 {
            let mut found = x.load(Relaxed);
            while let Err(other) = x.compare_exchange_weak(found, found + 1, AcqRel, Relaxed) {
                found = other;
            }
        }
        x.load(Relaxed)
    };
    assert_eq!((adds(), small().record(scratch("adds"), adds).unwrap()), (20, 20));
    program::explore(0..60, move || assert_eq!(adds(), 20)).unwrap();
    let once = || AtomicBool::new(false).compare_exchange_weak(false, true, SeqCst, SeqCst);
    let found = program::explore(0..2000, move || assert_eq!(once(), Ok(false))).expect_err("by some seed it fails");
    assert!(found.to_string().contains("Err(false)"), "{found}");
    let stem = scratch("for nothing");
    found.save(&stem).unwrap();
    assert_eq!(program::replay(&stem, once).unwrap(), Err(false));
}

#[test]
fn orders_that_there_are_not() {
    everywhere("orders", || {
        let x = AtomicU64::new(0);
        assert_eq!(
            message(|| {
                let _ = x.load(Release);
            }),
            "there is no such thing as a release or acquire-release load"
        );
        assert_eq!(message(|| x.store(0, Acquire)), "there is no such thing as an acquire or acquire-release store");
        assert!(
            message(|| {
                let _ = x.compare_exchange(0, 1, SeqCst, AcqRel);
            })
            .contains("no such thing")
        );
        assert!(message(|| octet::sync::atomic::fence(Relaxed)).contains("relaxed fence"));
    });
}

#[test]
fn numbers_that_look_like_addresses_are_numbers() {
    // Between 2^40 and 2^47, where a process has its memory.
    let sums = || {
        let (wide, sum) = (AtomicU64::new(1 << 41), AtomicUsize::new((1 << 46) + 8));
        wide.fetch_add(8, SeqCst);
        sum.fetch_add(usize::try_from(wide.load(SeqCst)).unwrap(), SeqCst);
        sum.fetch_max(1 << 44, SeqCst);
        (wide.load(SeqCst), sum.load(SeqCst))
    };
    let expected = ((1 << 41) + 8, (1 << 46) + (1 << 41) + 16);
    let file = scratch("numbers");
    assert_eq!(small().record(&file, sums).unwrap(), expected);
    assert_eq!(small().rerun(&file, sums).unwrap(), expected);
}

#[test]
fn small_numbers_in_pointers_stay_what_they_are() {
    let marks = || {
        let pointer = AtomicPtr::<u8>::new(std::ptr::without_provenance_mut(3));
        let first = pointer.swap(std::ptr::without_provenance_mut(usize::MAX), SeqCst).addr();
        (first, pointer.load(SeqCst).addr())
    };
    let file = scratch("marks");
    assert_eq!(small().record(&file, marks).unwrap(), (3, usize::MAX));
    assert_eq!(small().rerun(&file, marks).unwrap(), (3, usize::MAX));
}
