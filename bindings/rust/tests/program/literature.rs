//! Twenty mistakes that others chose, years before this crate: from `SCTBench` (Thomson, Donaldson and Betts, 2014), from
//! Herlihy and Shavit's book, and from papers that are named. The default way has to find eighteen of them within 2,000 seeds.
use octet::cell::UnsafeCell;
use octet::sync::atomic::{AtomicBool, AtomicI64, AtomicUsize};
use octet::sync::mpsc::{TryRecvError, sync_channel};
use octet::sync::{Arc, Condvar, Mutex};
use octet::{Program, hint, program, thread};
use std::sync::atomic::Ordering::{AcqRel, Acquire, Relaxed, Release, SeqCst};

const SEEDS: u64 = 2_000;
const FOUND: usize = 18;

/// Each of the works is a thread over one thing that they share; it is answered when all are over.
fn among<T: Send + Sync + 'static>(shared: T, works: &[fn(&T)]) -> Arc<T> {
    let shared = Arc::new(shared);
    let start = |work: &fn(&T)| {
        let (shared, work) = (Arc::clone(&shared), *work);
        thread::spawn(move || work(&shared))
    };
    let started: Vec<_> = works.iter().map(start).collect();
    started.into_iter().for_each(|thread| thread.join().expect("what fails is told"));
    shared
}

// CS.account_bad: who checks takes it that both payments are withdrawn.
fn account() {
    type Account = Mutex<(i64, bool, bool)>;
    let deposit = |account: &Account| {
        let mut account = account.lock().unwrap();
        (account.0, account.1) = (account.0 + 4, true);
    };
    let withdraw = |account: &Account| {
        let mut account = account.lock().unwrap();
        (account.0, account.2) = (account.0 - 3, true);
    };
    let check = |account: &Account| {
        let account = account.lock().unwrap();
        assert!(!(account.1 && account.2) || account.0 == 10 - 4 - 3, "the balance is another one");
    };
    among(Mutex::new((10, false, false)), &[deposit, withdraw, check]);
}

// CS.bluetooth_driver_bad (Qadeer and Wu, 2004): the device is stopped between the check of the flag and the count.
fn bluetooth() {
    struct Device {
        pending: AtomicI64,
        is_stopping: AtomicBool,
        may_stop: AtomicBool,
        is_stopped: AtomicBool,
    }
    impl Device {
        fn leave(&self) {
            if self.pending.fetch_sub(1, SeqCst) == 1 {
                self.may_stop.store(true, SeqCst);
            }
        }
    }
    let works = |device: &Device| {
        if !device.is_stopping.load(SeqCst) {
            device.pending.fetch_add(1, SeqCst);
            assert!(!device.is_stopped.load(SeqCst), "it works on a stopped device");
            device.leave();
        }
    };
    let stops = |device: &Device| {
        device.is_stopping.store(true, SeqCst);
        device.leave();
        if device.may_stop.load(SeqCst) {
            device.is_stopped.store(true, SeqCst);
        }
    };
    let device = Device {
        pending: AtomicI64::new(1),
        is_stopping: AtomicBool::new(false),
        may_stop: AtomicBool::new(false),
        is_stopped: AtomicBool::new(false),
    };
    among(device, &[works, stops]);
}

// CS.carter01_bad: the lock of a group is taken and freed while the lock of the counts is held.
fn carter() {
    type Groups = (Mutex<[u32; 2]>, Mutex<()>);
    fn visit(groups: &Groups, group: usize) {
        let mut room = None;
        {
            let mut counts = groups.0.lock().unwrap();
            counts[group] += 1;
            if counts[group] == 1 {
                room = Some(groups.1.lock().unwrap());
            }
        }
        let mut counts = groups.0.lock().unwrap();
        counts[group] -= 1;
        if counts[group] == 0 {
            drop(room);
        }
    }
    among(Groups::default(), &[|groups| visit(groups, 0), |groups| visit(groups, 1)]);
}

// CS.lazy01_bad: each holds the lock, and who comes last finds what it takes for impossible.
fn lazy() {
    let one = |data: &Mutex<u32>| *data.lock().unwrap() += 1;
    let two = |data: &Mutex<u32>| *data.lock().unwrap() += 2;
    among(Mutex::new(0), &[one, two, |data| assert!(*data.lock().unwrap() < 3, "both came first")]);
}

// CS.reorder_5_bad: two stores of four threads, between which the fifth one looks.
fn reorder() {
    type Pair = (AtomicI64, AtomicI64);
    let set = |pair: &Pair| {
        pair.0.store(1, SeqCst);
        pair.1.store(-1, SeqCst);
    };
    let check = |pair: &Pair| {
        let found = (pair.0.load(SeqCst), pair.1.load(SeqCst));
        assert!(found == (0, 0) || found == (1, -1), "it has seen half of it");
    };
    among(Pair::default(), &[set, set, set, set, check]);
}

// CS.token_ring_bad: each takes its neighbour's value, but in no order.
fn token_ring() {
    type Ring = Mutex<([u32; 3], [bool; 3])>;
    fn pass(ring: &Ring, to: usize, value: impl Fn(&[u32; 3]) -> u32) {
        let mut ring = ring.lock().unwrap();
        ring.0[to] = value(&ring.0);
        ring.1[to] = true;
    }
    let check = |ring: &Ring| {
        let ring = ring.lock().unwrap();
        assert!(ring.1 != [true; 3] || ring.0.iter().all(|value| *value == ring.0[0]), "the values are different ones");
    };
    let first = |ring: &Ring| pass(ring, 0, |values| (values[2] + 1) % 4);
    let second = |ring: &Ring| pass(ring, 1, |values| values[0]);
    let third = |ring: &Ring| pass(ring, 2, |values| values[1]);
    among(Mutex::new(([1, 2, 1], [false; 3])), &[first, second, third, check]);
}

// CS.twostage_bad: two values that belong together, each under a lock of its own.
fn two_stages() {
    type Stages = (Mutex<u32>, Mutex<u32>);
    let write = |stages: &Stages| {
        *stages.0.lock().unwrap() = 1;
        *stages.1.lock().unwrap() = 2;
    };
    let read = |stages: &Stages| {
        let first = *stages.0.lock().unwrap();
        if first != 0 {
            assert_eq!(*stages.1.lock().unwrap(), first + 1, "the second stage is still to come");
        }
    };
    among(Stages::default(), &[write, read]);
}

// CS.wronglock_bad: the same data under two locks.
fn wrong_lock() {
    type Locks = (AtomicUsize, Mutex<()>, Mutex<()>);
    let right = |(data, lock, _): &Locks| {
        let _held = lock.lock().unwrap();
        let found = data.load(SeqCst);
        data.store(found + 1, SeqCst);
        assert_eq!(data.load(SeqCst), found + 1, "another one has changed it");
    };
    let wrong = |(data, _, other): &Locks| {
        let _held = other.lock().unwrap();
        data.store(data.load(SeqCst) + 1, SeqCst);
    };
    among(Locks::default(), &[right, wrong, wrong]);
}

// CHESS.WSQ: the owner of a work-stealing queue takes the last item without an exchange.
fn work_stealing() {
    #[derive(Default)]
    struct Queue {
        top: AtomicUsize,
        bottom: AtomicUsize,
        taken: [AtomicUsize; 2],
    }
    impl Queue {
        fn take(&self, item: usize) {
            assert_eq!(self.taken[item].fetch_add(1, SeqCst), 0, "an item is taken twice");
        }
    }
    let owns = |queue: &Queue| {
        for _ in 0..2 {
            let bottom = queue.bottom.load(SeqCst);
            if bottom == 0 {
                return;
            }
            queue.bottom.store(bottom - 1, SeqCst);
            let top = queue.top.load(SeqCst);
            if top >= bottom {
                queue.bottom.store(bottom, SeqCst);
                return;
            }
            queue.take(bottom - 1);
        }
    };
    let steals = |queue: &Queue| {
        let top = queue.top.load(SeqCst);
        if top < queue.bottom.load(SeqCst) && queue.top.compare_exchange(top, top + 1, SeqCst, SeqCst).is_ok() {
            queue.take(top);
        }
    };
    let queue = Queue::default();
    queue.bottom.store(2, SeqCst);
    among(queue, &[owns, steals]);
}

// inspect.boundedBuffer: one condition for who waits for an item and for who waits for room.
fn bounded_buffer() {
    type Buffer = (Mutex<bool>, Condvar);
    let put = |(is_full, changed): &Buffer| {
        for _ in 0..2 {
            *changed.wait_while(is_full.lock().unwrap(), |is_full| *is_full).unwrap() = true;
            changed.notify_one();
        }
    };
    let get = |(is_full, changed): &Buffer| {
        *changed.wait_while(is_full.lock().unwrap(), |is_full| !*is_full).unwrap() = false;
        changed.notify_one();
    };
    among(Buffer::default(), &[put, get, get]);
}

// CB.stringbuffer-jdk1.4: the length is asked under one hold of the lock, and the characters under another.
fn string_buffer() {
    let append = |buffer: &Mutex<Vec<u8>>| {
        let length = buffer.lock().unwrap().len();
        let buffer = buffer.lock().unwrap();
        assert!(buffer.get(..length).is_some(), "the buffer is shorter now");
    };
    let delete = |buffer: &Mutex<Vec<u8>>| buffer.lock().unwrap().clear();
    among(Mutex::new(b"abc".to_vec()), &[append, delete]);
}

// CB.pbzip2-0.9.4: the queue is given up when its producer is over, whom the consumer may not have followed yet.
fn compressor() {
    type Queue = (AtomicBool, Mutex<u32>);
    let queue = Arc::new((AtomicBool::new(true), Mutex::new(0)));
    let start = |work: fn(&Queue)| {
        let queue = Arc::clone(&queue);
        thread::spawn(move || work(&queue))
    };
    let consumes = start(|(is_there, blocks)| {
        for _ in 0..3 {
            assert!(is_there.load(SeqCst), "the queue is used after its end");
            let mut blocks = blocks.lock().unwrap();
            *blocks = blocks.saturating_sub(1);
        }
    });
    start(|(_, blocks)| *blocks.lock().unwrap() += 1).join().expect("it does not panic");
    while *queue.1.lock().unwrap() != 0 {
        thread::yield_now();
    }
    queue.0.store(false, SeqCst);
    consumes.join().expect("what fails is told");
}

// parsec.streamcluster and Herlihy and Shavit 17.2: a barrier that is used again before all have left it.
fn barrier_again() {
    fn waits(count: &AtomicUsize) {
        for _ in 0..2 {
            if count.fetch_add(1, SeqCst) == 1 {
                count.store(0, SeqCst);
            } else {
                while count.load(SeqCst) != 0 {
                    hint::spin_loop();
                }
            }
        }
    }
    among(AtomicUsize::new(0), &[waits, waits]);
}

// misc.safestack (Vyukov, 2010): three threads take cells of a stack whose head comes back.
fn safe_stack() {
    struct Stack {
        head: AtomicI64,
        count: AtomicI64,
        next: [AtomicI64; 3],
        values: [AtomicUsize; 3],
    }
    fn at(cell: i64) -> usize {
        usize::try_from(cell).expect("it is a cell")
    }
    impl Stack {
        fn pop(&self) -> Option<i64> {
            while self.count.load(SeqCst) > 1 {
                let head = self.head.load(SeqCst);
                let next = self.next[at(head)].swap(-1, SeqCst);
                if next >= 0 {
                    if self.head.compare_exchange(head, next, SeqCst, SeqCst).is_ok() {
                        self.count.fetch_sub(1, SeqCst);
                        return Some(head);
                    }
                    self.next[at(head)].swap(next, SeqCst);
                }
            }
            None
        }

        fn push(&self, cell: i64) {
            loop {
                let head = self.head.load(SeqCst);
                self.next[at(cell)].store(head, SeqCst);
                if self.head.compare_exchange(head, cell, SeqCst, SeqCst).is_ok() {
                    break;
                }
            }
            self.count.fetch_add(1, SeqCst);
        }

        fn works(&self, number: usize) {
            for _ in 0..2 {
                let cell = loop {
                    if let Some(cell) = self.pop() {
                        break cell;
                    }
                    thread::yield_now();
                };
                self.values[at(cell)].store(number, SeqCst);
                assert_eq!(self.values[at(cell)].load(SeqCst), number, "two threads have one cell");
                self.push(cell);
            }
        }
    }
    let next = [1, 2, -1].map(AtomicI64::new);
    let stack = Stack { head: AtomicI64::new(0), count: AtomicI64::new(3), next, values: Default::default() };
    among(stack, &[|stack| stack.works(0), |stack| stack.works(1), |stack| stack.works(2)]);
}

// Lamport's bakery without its flag of who chooses (Herlihy and Shavit 2.6).
fn bakery() {
    type Bakery = ([AtomicUsize; 2], AtomicBool);
    fn works((numbers, is_inside): &Bakery, me: usize) {
        let other = &numbers[1 - me];
        numbers[me].store(other.load(SeqCst) + 1, SeqCst);
        loop {
            let its = other.load(SeqCst);
            if its == 0 || (its, 1 - me) > (numbers[me].load(SeqCst), me) {
                break;
            }
            hint::spin_loop();
        }
        assert!(!is_inside.swap(true, SeqCst), "both are inside");
        is_inside.store(false, SeqCst);
        numbers[me].store(0, SeqCst);
    }
    among(Bakery::default(), &[|bakery| works(bakery, 0), |bakery| works(bakery, 1)]);
}

// A list with a lock in each node, that is looked through without locks and not judged again (Herlihy and Shavit 9.6).
fn optimistic_list() {
    // Node 0 is the head, and each node has the one that comes next.
    type List = [Mutex<usize>; 4];
    fn remove(list: &List, node: usize) {
        let mut before = 0;
        loop {
            let next = *list[before].lock().unwrap();
            if next == node {
                break;
            }
            if next == 0 {
                return;
            }
            before = next;
        }
        let mut link = list[before].lock().unwrap();
        *link = *list[node].lock().unwrap();
    }
    let list = among([1, 2, 3, 0].map(Mutex::new), &[|list| remove(list, 1), |list| remove(list, 2)]);
    assert_eq!(*list[0].lock().unwrap(), 3, "a node is still there that was removed");
}

/// A value that threads share and that nothing orders but what the program does.
#[derive(Default)]
struct Shared(UnsafeCell<u64>);
// SAFETY: what goes wrong with it is what the tests look for; by a schedule one thread moves at a time.
unsafe impl Sync for Shared {}

impl Shared {
    fn get(&self) -> u64 {
        // SAFETY: as above.
        self.0.with(|value| unsafe { *value })
    }

    fn set(&self, new: u64) {
        // SAFETY: as above.
        self.0.with_mut(|value| unsafe { *value = new });
    }
}

// Double-checked locking (Bacon and others, 2000): the flag orders nothing.
fn double_checked() {
    type Made = (AtomicBool, Mutex<()>, Shared);
    fn asks((is_made, lock, value): &Made) {
        if !is_made.load(Relaxed) {
            let _held = lock.lock().unwrap();
            if !is_made.load(Relaxed) {
                value.set(7);
                is_made.store(true, Relaxed);
            }
        }
        value.get();
    }
    among(Made::default(), &[asks, asks]);
}

// A sequence lock whose reader looks at the number only before it reads (after Boehm, 2012).
fn sequence_lock() {
    type Pair = (AtomicUsize, AtomicUsize, AtomicUsize);
    let writes = |(number, low, high): &Pair| {
        number.fetch_add(1, AcqRel);
        low.store(1, Relaxed);
        high.store(1, Relaxed);
        number.fetch_add(1, Release);
    };
    let reads = |(number, low, high): &Pair| {
        if number.load(Acquire) % 2 == 0 {
            assert_eq!(low.load(Relaxed), high.load(Relaxed), "the pair is torn");
        }
    };
    among(Pair::default(), &[writes, reads]);
}

// A count of references that is counted down without an order (the page of Boost's atomics; Qin and others, 2020).
fn dropped_last() {
    type Counted = (AtomicUsize, Shared);
    fn drops((count, value): &Counted) {
        value.get();
        if count.fetch_sub(1, Relaxed) == 1 {
            value.set(0);
        }
    }
    among((AtomicUsize::new(2), Shared::default()), &[drops, drops]);
}

// A channel that is looked into before it is asked whether it is closed (Tu and others, 2019).
fn closed_channel() {
    let (sender, receiver) = sync_channel(4);
    let is_closed = Arc::new(AtomicBool::new(false));
    let closes = Arc::clone(&is_closed);
    let sends = thread::spawn(move || {
        sender.send(1).unwrap();
        closes.store(true, SeqCst);
        sender
    });
    let mut received = 0;
    loop {
        match receiver.try_recv() {
            Ok(value) => received += value,
            Err(TryRecvError::Disconnected) => break,
            Err(TryRecvError::Empty) if is_closed.load(SeqCst) => break,
            Err(TryRecvError::Empty) => thread::yield_now(),
        }
    }
    assert_eq!(received, 1, "what was sent is lost");
    drop(sends.join());
}

type Mistake = (&'static str, u64, fn(), &'static str);

/// Each mistake, within how many seeds it is found, and a part of what is told of it. The stack needs five preemptions or more.
const MISTAKES: [Mistake; 20] = [
    ("account", 10, account, "the balance is another one"),
    ("bluetooth driver", 10, bluetooth, "a stopped device"),
    ("carter", 10, carter, "deadlock: "),
    ("lazy", 10, lazy, "both came first"),
    ("reorder", 10, reorder, "half of it"),
    ("token ring", 10, token_ring, "different ones"),
    ("two stages", 100, two_stages, "still to come"),
    ("wrong lock", 10, wrong_lock, "another one has changed it"),
    ("work-stealing queue", 100, work_stealing, "taken twice"),
    ("bounded buffer", 100, bounded_buffer, "a Condvar at "),
    ("string buffer", 10, string_buffer, "shorter now"),
    ("compressor", 10, compressor, "after its end"),
    ("barrier that is used again", 10, barrier_again, "has not ended"),
    ("safe stack", SEEDS, safe_stack, "two threads have one cell"),
    ("bakery", 100, bakery, "both are inside"),
    ("optimistic list", 10, optimistic_list, "still there"),
    ("double-checked lock", 10, double_checked, "data race: "),
    ("sequence lock", 10, sequence_lock, "torn"),
    ("dropped last", 10, dropped_last, "data race: "),
    ("closed channel", 1000, closed_channel, "is lost"),
];

#[test]
fn eighteen_of_twenty_are_found() {
    let mut missed = Vec::new();
    for (name, within, mistake, told) in MISTAKES {
        // Fewer steps, since one of them never ends.
        match Program::new().steps(5_000).explore(0..within, mistake) {
            Ok(passed) => missed.push(format!("{name}: not in {passed} seeds")),
            Err(found) => {
                println!("{name}: seed {}, {} preemptions: {found}", found.seed(), found.preemptions());
                assert!(found.to_string().contains(told), "{name}: {found}");
            }
        }
    }
    println!("missed: {missed:#?}");
    assert!(MISTAKES.len() - missed.len() >= FOUND, "{missed:#?}");
}

#[test]
fn what_never_ends_is_told_by_the_default_way() {
    let found = program::explore(0..SEEDS, barrier_again).expect_err("it never ends");
    assert!(found.to_string().contains("has not ended"), "{found}");
}
