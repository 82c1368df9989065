//! Mistakes that the default way of exploring must find.
use octet::cell::UnsafeCell;
use octet::sync::atomic::{AtomicBool, AtomicU64, AtomicUsize, Ordering, fence};
use octet::sync::{Arc, Condvar, Mutex, RwLock, mpsc};
use octet::{Found, hint, program, thread};
use std::sync::atomic::Ordering::{AcqRel, Acquire, Relaxed, Release, SeqCst};

const SEEDS: std::ops::Range<u64> = 0..2000;

/// A value that threads share and that nothing orders but what the program does.
#[derive(Default)]
struct Shared(UnsafeCell<u64>);
// SAFETY: what goes wrong with it is what the tests look for; by a schedule one thread moves at a time.
unsafe impl Sync for Shared {}

impl Shared {
    fn get(&self) -> u64 {
        // SAFETY: as above.
        self.0.with(|value| unsafe { *value })
    }

    fn set(&self, new: u64) {
        // SAFETY: as above.
        self.0.with_mut(|value| unsafe { *value = new });
    }
}

/// Runs the work once in each of so many threads, over one thing that they share, and answers that.
fn together<T: Send + Sync + 'static>(shared: T, threads: usize, work: fn(&T, usize)) -> Arc<T> {
    let shared = Arc::new(shared);
    let started: Vec<_> = (0..threads)
        .map(|number| {
            let shared = Arc::clone(&shared);
            thread::spawn(move || work(&shared, number))
        })
        .collect();
    started.into_iter().for_each(|thread| thread.join().expect("what fails is told"));
    shared
}

fn lost_update() {
    let sum = together(AtomicU64::new(0), 2, |sum, _| sum.store(sum.load(SeqCst) + 1, SeqCst));
    assert_eq!(sum.load(SeqCst), 2, "an addition is lost");
}

fn lost_update_between_locks() {
    let sum = together(RwLock::new(0), 2, |sum, _| {
        let found = *sum.read().unwrap();
        *sum.write().unwrap() = found + 1;
    });
    assert_eq!(*sum.read().unwrap(), 2, "an addition is lost");
}

fn lock_freed_at_once() {
    let sum = together((Mutex::new(()), AtomicU64::new(0)), 2, |(lock, sum), _| {
        let _ = lock.lock();
        sum.store(sum.load(SeqCst) + 1, SeqCst);
    });
    assert_eq!(sum.1.load(SeqCst), 2, "an addition is lost");
}

fn checked_then_taken() {
    let left = together(AtomicUsize::new(1), 2, |left, _| {
        if left.load(SeqCst) > 0 {
            left.fetch_sub(1, SeqCst);
        }
    });
    assert_eq!(left.load(SeqCst), 0, "more was taken than was there");
}

fn made_twice() {
    let made = together((AtomicBool::new(false), AtomicU64::new(0)), 2, |(is_made, count), _| {
        if !is_made.load(SeqCst) {
            count.fetch_add(1, SeqCst);
            is_made.store(true, SeqCst);
        }
    });
    assert_eq!(made.1.load(SeqCst), 1, "it was made twice");
}

fn counted_by_what_was_loaded() {
    let count = together((AtomicUsize::new(2), AtomicUsize::new(0)), 2, |(left, last), _| {
        left.fetch_sub(1, SeqCst);
        if left.load(SeqCst) == 0 {
            last.fetch_add(1, SeqCst);
        }
    });
    assert_eq!(count.1.load(SeqCst), 1, "two threads are the last one");
}

fn two_halves() {
    let halves = [AtomicU64::new(0), AtomicU64::new(0)];
    together(halves, 2, |[low, high], number| {
        if number == 0 {
            low.store(1, SeqCst);
            high.store(1, SeqCst);
        } else {
            assert_eq!(high.load(SeqCst), low.load(SeqCst), "half of it was read");
        }
    });
}

fn failed_for_nothing() {
    let flag = AtomicBool::new(false);
    assert!(flag.compare_exchange_weak(false, true, SeqCst, SeqCst).is_ok(), "it has failed for nothing");
}

fn two_locks() {
    together([Mutex::new(()), Mutex::new(())], 2, |locks, number| {
        let _first = locks[number].lock().unwrap();
        let _second = locks[1 - number].lock().unwrap();
    });
}

fn three_philosophers() {
    together([Mutex::new(()), Mutex::new(()), Mutex::new(())], 3, |forks, number| {
        let _left = forks[number].lock().unwrap();
        let _right = forks[(number + 1) % 3].lock().unwrap();
    });
}

fn reads_while_one_waits_to_write() {
    together([RwLock::new(()), RwLock::new(())], 2, |locks, number| {
        let _read = locks[number].read().unwrap();
        let _write = locks[1 - number].write().unwrap();
    });
}

type Gate = (Mutex<u64>, Condvar);

fn notified_before_the_change() {
    together(Gate::default(), 2, |(count, some), number| {
        if number == 0 {
            some.notify_one();
            *count.lock().unwrap() += 1;
        } else {
            drop(some.wait_while(count.lock().unwrap(), |count| *count == 0).unwrap());
        }
    });
}

fn changed_without_the_lock() {
    type Flag = (AtomicBool, Mutex<()>, Condvar);
    together(Flag::default(), 2, |(flag, lock, some), number| {
        if number == 0 {
            flag.store(true, SeqCst);
            some.notify_one();
        } else {
            let guard = lock.lock().unwrap();
            if !flag.load(SeqCst) {
                drop(some.wait(guard).unwrap());
            }
        }
    });
}

fn waits_once() {
    together(Gate::default(), 2, |(count, some), number| {
        for _ in 0..2 {
            if number == 0 {
                *count.lock().unwrap() += 1;
                some.notify_one();
            } else {
                let mut count = count.lock().unwrap();
                if *count == 0 {
                    count = some.wait(count).unwrap();
                }
                *count = count.checked_sub(1).expect("it was woken, and nothing is there");
            }
        }
    });
}

fn one_is_woken_of_two_kinds() {
    together(Gate::default(), 3, |(turn, changed), number| {
        // Each waits for its own turn, and the one that is woken may be another.
        let mut turn = changed.wait_while(turn.lock().unwrap(), |turn| *turn != number as u64).unwrap();
        *turn += 1;
        changed.notify_one();
    });
}

fn parked_without_a_flag() {
    let ready = Arc::new(AtomicBool::new(false));
    let there = Arc::clone(&ready);
    let waits = thread::spawn(move || {
        thread::park();
        assert!(there.load(SeqCst), "it was unparked for something else");
    });
    waits.thread().unpark();
    ready.store(true, SeqCst);
    waits.thread().unpark();
    waits.join().expect("what fails is told");
}

fn bounded_channels_that_cross() {
    let (to_there, from_here) = mpsc::sync_channel(0);
    let (to_here, from_there) = mpsc::sync_channel(0);
    let other = thread::spawn(move || {
        to_here.send(1).unwrap();
        from_here.recv().unwrap()
    });
    to_there.send(2).unwrap();
    assert_eq!(from_there.recv().unwrap() + other.join().unwrap(), 3);
}

fn first_sender_comes_first() {
    let (sender, receiver) = mpsc::channel();
    for number in 0..2 {
        let sender = sender.clone();
        thread::spawn(move || {
            let _ = sender.send(number);
        });
    }
    assert_eq!(receiver.recv(), Ok(0), "the other sender came first");
}

fn tried_once() {
    let count = together(Mutex::new(0), 2, |count, _| *count.try_lock().expect("another one has it") += 1);
    assert_eq!(*count.lock().unwrap(), 2);
}

fn unwrapped_after_a_flag() {
    let (done, shared) = (Arc::new(AtomicBool::new(false)), Arc::new(5));
    let (there, other) = (Arc::clone(&done), Arc::clone(&shared));
    let ends = thread::spawn(move || {
        there.store(true, SeqCst);
        drop(other);
    });
    while !done.load(SeqCst) {
        hint::spin_loop();
    }
    assert!(Arc::try_unwrap(shared).is_ok(), "the other one is still there");
    ends.join().expect("it does not panic");
}

/// A stack of numbers whose head is exchanged without a count of its changes: another thread may take two and put one back.
fn head_that_comes_back() {
    const NONE: usize = 9;
    struct Stack {
        head: AtomicUsize,
        next: [AtomicUsize; 2],
        takers: [AtomicUsize; 2],
    }
    impl Stack {
        fn pop(&self) -> usize {
            loop {
                let head = self.head.load(SeqCst);
                if head == NONE {
                    return NONE;
                }
                let next = self.next[head].load(SeqCst);
                if self.head.compare_exchange(head, next, SeqCst, SeqCst).is_ok() {
                    assert_eq!(self.takers[head].fetch_add(1, SeqCst), 0, "it was taken twice");
                    return head;
                }
            }
        }

        fn push(&self, number: usize) {
            self.takers[number].fetch_sub(1, SeqCst);
            loop {
                let head = self.head.load(SeqCst);
                self.next[number].store(head, SeqCst);
                if self.head.compare_exchange(head, number, SeqCst, SeqCst).is_ok() {
                    return;
                }
            }
        }
    }
    let next = [AtomicUsize::new(1), AtomicUsize::new(NONE)];
    let stack = Stack { head: AtomicUsize::new(0), next, takers: Default::default() };
    together(stack, 2, |stack, number| {
        if number == 0 {
            stack.pop();
            stack.pop();
        } else if stack.pop() == 0 {
            stack.pop();
            stack.push(0);
        }
    });
}

fn published(store: Ordering, load: Ordering) {
    let shared = Arc::new((AtomicBool::new(false), Shared::default()));
    let there = Arc::clone(&shared);
    let publishes = thread::spawn(move || {
        there.1.set(7);
        there.0.store(true, store);
    });
    if shared.0.load(load) {
        shared.1.get();
    }
    publishes.join().expect("it does not panic");
}

fn published_relaxed() {
    published(Relaxed, Acquire);
}

fn loaded_relaxed() {
    published(Release, Relaxed);
}

fn spin_lock_freed_relaxed() {
    together((AtomicBool::new(false), Shared::default()), 2, |(is_taken, sum), _| {
        while is_taken.swap(true, Acquire) {
            hint::spin_loop();
        }
        sum.set(sum.get() + 1);
        is_taken.store(false, Relaxed);
    });
}

fn counted_down_relaxed() {
    together((AtomicUsize::new(2), [Shared::default(), Shared::default()]), 2, |(left, parts), number| {
        parts[number].set(1);
        if left.fetch_sub(1, Relaxed) == 1 {
            // The last one reads what the other has written.
            parts[1 - number].get();
        }
    });
}

fn fence_too_early() {
    together((AtomicBool::new(false), Shared::default()), 2, |(flag, shared), number| {
        if number == 0 {
            fence(Release);
            shared.set(1);
            flag.store(true, Relaxed);
        } else if flag.load(Acquire) {
            shared.get();
        }
    });
}

fn no_join() {
    let shared = Arc::new(Shared::default());
    let there = Arc::clone(&shared);
    let writes = thread::spawn(move || there.set(1));
    shared.get();
    writes.join().expect("it does not panic");
}

fn peterson_relaxed() {
    type Lock = ([AtomicBool; 2], AtomicUsize, Shared);
    together(Lock::default(), 2, |(wants, turn, shared), number| {
        wants[number].store(true, Relaxed);
        turn.store(1 - number, Relaxed);
        while wants[1 - number].load(Relaxed) && turn.load(Relaxed) == 1 - number {
            hint::spin_loop();
        }
        shared.set(shared.get() + 1);
        wants[number].store(false, Relaxed);
    });
}

fn exchanged_in_the_wrong_order() {
    let slot = (AtomicUsize::new(0), Shared::default());
    together(slot, 2, |(state, value), number| {
        if number == 0 {
            // It says that the value is there, and then writes it.
            if state.compare_exchange(0, 1, AcqRel, Relaxed).is_ok() {
                value.set(5);
            }
        } else if state.load(Acquire) == 1 {
            value.get();
        }
    });
}

/// Each mistake, and a part of what is told of it.
const MISTAKES: [(&str, fn(), &str); 30] = [
    ("lost update", lost_update, "an addition is lost"),
    ("lost update between locks", lost_update_between_locks, "an addition is lost"),
    ("lock freed at once", lock_freed_at_once, "an addition is lost"),
    ("checked, then taken", checked_then_taken, "more was taken"),
    ("made twice", made_twice, "made twice"),
    ("counted by what was loaded", counted_by_what_was_loaded, "two threads are the last one"),
    ("two halves", two_halves, "half of it was read"),
    ("failed for nothing", failed_for_nothing, "failed for nothing"),
    ("two locks", two_locks, "deadlock: "),
    ("three philosophers", three_philosophers, "deadlock: "),
    ("readers that would write", reads_while_one_waits_to_write, "deadlock: "),
    ("notified before the change", notified_before_the_change, "a Condvar at "),
    ("changed without the lock", changed_without_the_lock, "a Condvar at "),
    ("waits once", waits_once, "nothing is there"),
    ("one is woken of two kinds", one_is_woken_of_two_kinds, "a Condvar at "),
    ("parked without a flag", parked_without_a_flag, "unparked for something else"),
    ("channels that cross", bounded_channels_that_cross, "deadlock: "),
    ("first sender", first_sender_comes_first, "the other sender came first"),
    ("tried once", tried_once, "another one has it"),
    ("unwrapped after a flag", unwrapped_after_a_flag, "still there"),
    ("head that comes back", head_that_comes_back, "it was taken twice"),
    ("published relaxed", published_relaxed, "would have to be a Release"),
    ("loaded relaxed", loaded_relaxed, "would have to be an Acquire"),
    ("spin lock freed relaxed", spin_lock_freed_relaxed, "data race: "),
    ("counted down relaxed", counted_down_relaxed, "data race: "),
    ("fence too early", fence_too_early, "data race: "),
    ("no join", no_join, "data race: "),
    ("Peterson relaxed", peterson_relaxed, "data race: "),
    ("exchanged in the wrong order", exchanged_in_the_wrong_order, "data race: "),
    ("waits for one that is over", waits_for_one_that_is_over, "deadlock: "),
];

/// The last sender is kept by the thread that receives until there is none.
fn waits_for_one_that_is_over() {
    let (sender, receiver) = mpsc::channel();
    let other = sender.clone();
    thread::spawn(move || other.send(1).unwrap());
    receiver.iter().for_each(drop);
    drop(sender);
}

fn found(mistake: fn()) -> Result<Found, u64> {
    program::explore(SEEDS, mistake).err().ok_or(SEEDS.end)
}

#[test]
fn each_mistake_is_found_with_its_run() {
    let mut wrong = Vec::new();
    for (name, mistake, told) in MISTAKES {
        match found(mistake) {
            Err(passed) => wrong.push(format!("{name}: not found in {passed} seeds")),
            Ok(found) => {
                println!("{name}: seed {}, {} preemptions: {found}", found.seed(), found.preemptions());
                if !found.to_string().contains(told) {
                    wrong.push(format!("{name}: {found}"));
                }
                if found.recording().is_none() {
                    wrong.push(format!("{name}: its run is not kept"));
                }
            }
        }
    }
    assert!(wrong.is_empty(), "{wrong:#?}");
}
