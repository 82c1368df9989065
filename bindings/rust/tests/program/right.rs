//! Right programs, of which no schedule says anything.
use octet::cell::UnsafeCell;
use octet::sync::atomic::{AtomicBool, AtomicU64, AtomicUsize, fence};
use octet::sync::{Arc, Barrier, Condvar, Mutex, Once, RwLock, mpsc};
use octet::{Program, hint, thread};
use std::sync::atomic::Ordering::{Acquire, Relaxed, Release, SeqCst};

#[derive(Default)]
struct Shared(UnsafeCell<u64>);
// SAFETY: what orders its accesses is what each program shows.
unsafe impl Sync for Shared {}

impl Shared {
    fn add(&self, more: u64) -> u64 {
        // SAFETY: as above.
        self.0.with_mut(|value| unsafe {
            *value += more;
            *value
        })
    }

    fn get(&self) -> u64 {
        // SAFETY: as above.
        self.0.with(|value| unsafe { *value })
    }
}

fn passes(program: fn()) {
    let passed = Program::new().explore(0..300, program);
    assert_eq!(passed.unwrap_or_else(|found| panic!("{found:?}")), 300);
}

fn both<T: Send + Sync + 'static>(shared: T, here: fn(&T), there: fn(&T)) {
    let shared = Arc::new(shared);
    let other = Arc::clone(&shared);
    let thread = thread::spawn(move || there(&other));
    here(&shared);
    thread.join().expect("it does not panic");
}

#[test]
fn a_cell_behind_locks_joins_and_starts() {
    passes(|| {
        let shared = Arc::new((Mutex::new(()), RwLock::new(()), Shared::default(), Shared::default()));
        shared.2.add(1);
        let threads = [1, 2].map(|more| {
            let shared = Arc::clone(&shared);
            thread::spawn(move || {
                let lock = shared.0.lock().unwrap();
                shared.2.add(more);
                drop(lock);
                let _read = shared.1.read().unwrap();
                shared.3.get()
            })
        });
        {
            let _write = shared.1.write().unwrap();
            shared.3.add(1);
        }
        threads.into_iter().for_each(|thread| assert!(thread.join().unwrap() <= 1));
        assert_eq!(shared.2.get(), 4);
    });
}

#[test]
fn releases_and_acquires_and_fences() {
    passes(|| {
        both(
            (AtomicBool::new(false), AtomicUsize::new(0), Shared::default()),
            |(flag, _, cell)| {
                cell.add(5);
                fence(Release);
                flag.store(true, Relaxed);
            },
            |(flag, spins, cell)| {
                while !flag.load(Relaxed) {
                    spins.fetch_add(1, Relaxed);
                    hint::spin_loop();
                }
                fence(Acquire);
                assert_eq!(cell.get(), 5);
            },
        );
    });
}

#[test]
fn conditions_barriers_channels_and_what_is_done_once() {
    passes(|| {
        both(
            (Mutex::new(false), Condvar::new(), Shared::default(), Barrier::new(2), Once::new()),
            |(is_open, opened, cell, barrier, once)| {
                cell.add(1);
                *is_open.lock().unwrap() = true;
                opened.notify_one();
                barrier.wait();
                once.call_once(|| {
                    let _ = cell.add(1);
                });
                barrier.wait();
                assert_eq!(cell.get(), 2);
            },
            |(is_open, opened, cell, barrier, once)| {
                drop(opened.wait_while(is_open.lock().unwrap(), |is_open| !*is_open).unwrap());
                assert_eq!(cell.get(), 1);
                barrier.wait();
                once.call_once(|| {
                    let _ = cell.add(1);
                });
                barrier.wait();
            },
        );
    });
    passes(|| {
        let (sender, receiver) = mpsc::sync_channel(1);
        let cell = Arc::new(Shared::default());
        let other = Arc::clone(&cell);
        let sends = thread::spawn(move || {
            for _ in 0..3 {
                other.add(1);
            }
            sender.send(3).unwrap();
        });
        assert_eq!(receiver.recv(), Ok(3));
        assert_eq!(cell.get(), 3);
        sends.join().unwrap();
    });
}

#[test]
fn the_last_of_several_pointers_drops_what_all_have_written() {
    struct Ends(Arc<AtomicU64>, Shared);
    impl Drop for Ends {
        fn drop(&mut self) {
            self.0.fetch_add(self.1.get(), SeqCst);
        }
    }
    passes(|| {
        let sum = Arc::new(AtomicU64::new(0));
        let shared = Arc::new(Mutex::new(Ends(Arc::clone(&sum), Shared::default())));
        let threads = [(); 2].map(|()| {
            let shared = Arc::clone(&shared);
            thread::spawn(move || {
                let _ = shared.lock().unwrap().1.add(1);
            })
        });
        drop(shared);
        threads.into_iter().for_each(|thread| thread.join().unwrap());
        assert_eq!(sum.load(SeqCst), 2);
    });
}

#[test]
fn loops_that_wait_end_by_every_seed() {
    passes(|| {
        both(
            [AtomicBool::new(false), AtomicBool::new(false)],
            |[here, there]| {
                here.store(true, SeqCst);
                while !there.load(SeqCst) {
                    thread::yield_now();
                }
            },
            |[here, there]| {
                // This one spins without a yield.
                while !here.load(SeqCst) {}
                there.store(true, SeqCst);
            },
        );
    });
}

#[test]
fn it_passes_by_priorities_too() {
    let lock = || both(Mutex::new(0), |count| *count.lock().unwrap() += 1, |count| *count.lock().unwrap() += 1);
    assert_eq!(Program::new().pct(3).explore(0..100, lock).expect("nothing fails"), 100);
}
