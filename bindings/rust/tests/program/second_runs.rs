//! Runs that are recorded, and run again in processes of their own.
use crate::{scratch, small};
use octet::cell::UnsafeCell;
use octet::sync::atomic::{AtomicBool, AtomicPtr, AtomicU8, AtomicU64, AtomicUsize, Ordering, Ordering::*};
use octet::sync::{Arc, Barrier, Condvar, Mutex, Once, OnceLock, RwLock, mpsc};
use octet::{thread, time};
use std::process::Command;
use std::ptr;
use std::time::Duration;

const FILE: &str = "OCTET_TEST_SECOND";

// Lost updates, a stack of Treiber's kind whose nodes are freed, and a lock.
fn stack() -> Vec<u64> {
    struct Node(u64, *mut Node);
    let (count, top) = (AtomicU64::new(0), AtomicPtr::<Node>::new(ptr::null_mut()));
    let order = Mutex::new(Vec::new());
    thread::scope(|scope| {
        for number in 0..3 {
            let (count, top, order) = (&count, &top, &order);
            scope.spawn(move || {
                for round in 0..60 {
                    count.store(count.load(SeqCst) + 1, SeqCst);
                    let node = Box::into_raw(Box::new(Node(1000 * number + round, ptr::null_mut())));
                    loop {
                        let head = top.load(SeqCst);
                        // SAFETY: the node is this thread's own until it is on the stack.
                        unsafe { (*node).1 = head };
                        if top.compare_exchange_weak(head, node, SeqCst, SeqCst).is_ok() {
                            break;
                        }
                    }
                    if round % 20 == 0 {
                        order.lock().unwrap().push(number);
                    }
                }
            });
        }
    });
    let mut all = order.into_inner().unwrap();
    all.push(count.load(SeqCst));
    let mut at = top.load(SeqCst);
    while !at.is_null() {
        // SAFETY: no other thread is there, and each node is taken once.
        let node = unsafe { Box::from_raw(at) };
        all.push(node.0);
        at = node.1;
    }
    all
}

// A bit of everything; what it answers depends on who comes first.
fn everything() -> Vec<u64> {
    let (once, told, list) = (Once::new(), Mutex::new(Vec::new()), RwLock::new(0_u64));
    let (barrier, word, small) = (Barrier::new(3), OnceLock::new(), AtomicU8::new(250));
    let (sender, receiver) = mpsc::channel();
    let changed = (Mutex::new(0_u64), Condvar::new());
    let mut all = thread::scope(|scope| {
        let threads: Vec<_> = (0..3_u64)
            .map(|number| {
                let (told, list, barrier, word, small, once) = (&told, &list, &barrier, &word, &small, &once);
                let (sender, changed) = (sender.clone(), &changed);
                scope.spawn(move || {
                    once.call_once(|| told.lock().unwrap().push(number));
                    for round in 0..8 {
                        told.lock().unwrap().push(100 * number + round);
                        *list.write().unwrap() += number;
                        sender.send(*list.read().unwrap()).unwrap();
                        small.fetch_add(3, SeqCst);
                        let mut turn = changed.0.lock().unwrap();
                        *turn += 1;
                        changed.1.notify_all();
                        let want = *turn;
                        let most = Duration::from_micros(50);
                        drop(changed.1.wait_timeout_while(turn, most, |turn| *turn == want).unwrap());
                    }
                    barrier.wait();
                    *word.get_or_init(|| number)
                })
            })
            .collect();
        drop(sender);
        let mut all: Vec<u64> = receiver.iter().collect();
        all.extend(threads.into_iter().map(|thread| thread.join().unwrap()));
        all
    });
    all.extend(told.lock().unwrap().iter());
    all.push(small.load(SeqCst).into());
    all
}

struct Last(AtomicU64, Arc<AtomicU64>);
impl Drop for Last {
    fn drop(&mut self) {
        // Which thread's accesses these are is who drops the last pointer.
        self.1.fetch_add(*self.0.get_mut(), SeqCst);
    }
}

fn last_drop() -> Vec<u64> {
    let sum = Arc::new(AtomicU64::new(0));
    let last = Arc::new(Last(AtomicU64::new(1), Arc::clone(&sum)));
    let threads: Vec<_> = (1..4)
        .map(|more| {
            let last = Arc::clone(&last);
            thread::spawn(move || last.0.store(last.0.load(SeqCst) * 3 + more, SeqCst))
        })
        .collect();
    drop(last);
    threads.into_iter().for_each(|thread| thread.join().unwrap());
    vec![sum.load(SeqCst)]
}

// Threads that come and go take the seats and the numbers of others; clocks and time-outs are told again.
fn come_and_go() -> Vec<u64> {
    let begun = time::Instant::now();
    let mut all = Vec::new();
    for round in 0..12 {
        let counters: Vec<AtomicUsize> = (0..20).map(AtomicUsize::new).collect();
        thread::scope(|scope| {
            for _ in 0..3 {
                scope.spawn(|| counters.iter().for_each(|counter| counter.store(counter.load(Relaxed) + round, Relaxed)));
            }
        });
        all.extend(counters.iter().map(|counter| counter.load(Relaxed) as u64));
        thread::park_timeout(Duration::from_micros(20));
    }
    all.push(u64::from(begun.elapsed().subsec_nanos()));
    all
}

type Recorded = fn() -> Vec<u64>;

const PROGRAMS: [(&str, Recorded); 4] =
    [("stack", stack), ("everything", everything), ("last_drop", last_drop), ("come_and_go", come_and_go)];

fn in_process(name: &str, file: &std::path::Path) -> String {
    let mut command = Command::new(std::env::current_exe().unwrap());
    command.args(["--exact", "second_runs::each_is_the_first_one_again", "--nocapture"]);
    let output = command.env(FILE, format!("{name} {}", file.display())).output().unwrap();
    String::from_utf8_lossy(&output.stdout).into_owned()
}

#[test]
fn each_is_the_first_one_again() {
    if let Ok(asked) = std::env::var(FILE) {
        let (name, file) = asked.split_once(' ').unwrap();
        let program = PROGRAMS.iter().find(|(its, _)| *its == name).unwrap().1;
        for _ in 0..5 {
            println!("again {:?}", small().rerun(file, program));
        }
        return;
    }
    for (name, program) in PROGRAMS {
        let mut firsts = std::collections::HashSet::new();
        for run in 0..8 {
            let file = scratch(&format!("{name}{run}"));
            let first = small().record(&file, program).unwrap();
            let told = format!("again {:?}", Ok::<_, octet::Error>(&first));
            let said = in_process(name, &file);
            let same = said.matches(&told).count();
            assert_eq!(same, 5, "{name}, run {run}: {told}\n{said}");
            assert_eq!(small().rerun(&file, program).unwrap(), first, "{name}, run {run}");
            firsts.insert(first);
        }
        println!("{name}: {} different runs of 8", firsts.len());
    }
}

/// A value that threads share and that nothing orders but what the program does.
struct Shared(UnsafeCell<u64>);
// SAFETY: what goes wrong with it is what is looked for.
unsafe impl Sync for Shared {}

impl Shared {
    fn add(&self, more: u64) -> u64 {
        // SAFETY: as above.
        self.0.with_mut(|sum| unsafe {
            *sum += more;
            *sum
        })
    }
}

// Two threads add to a cell under a lock of their own, which is freed by this order.
fn under_a_lock(free: Ordering) {
    let (is_taken, sum) = (AtomicBool::new(false), Shared(UnsafeCell::new(0)));
    thread::scope(|scope| {
        for _ in 0..2 {
            scope.spawn(|| {
                for _ in 0..20 {
                    while is_taken.swap(true, Acquire) {
                        thread::yield_now();
                    }
                    sum.add(1);
                    is_taken.store(false, free);
                }
            });
        }
    });
    assert_eq!(sum.add(0), 40);
}

#[test]
fn data_races_are_told_in_free_runs_and_again() {
    let (program, file) = (small().data_races(), scratch("races"));
    for _ in 0..20 {
        program.record(&file, || under_a_lock(Release)).expect("all is ordered");
        program.rerun(&file, || under_a_lock(Release)).expect("all is ordered, again");
    }
    let told = |run: Result<(), octet::Error>| {
        let Err(octet::Error::DataRace(race)) = run else { panic!("{run:?}") };
        let hint = race.hint.expect("they have met");
        assert!(hint.contains("would have to be a Release"), "{hint}");
    };
    for _ in 0..20 {
        told(program.record(&file, || under_a_lock(Relaxed)));
        told(program.rerun(&file, || under_a_lock(Relaxed)));
        small().rerun(&file, || under_a_lock(Relaxed)).expect("the run is whole");
    }
}

#[test]
fn what_joins_locks_and_channels_order_is_no_race() {
    let (program, file) = (small().data_races(), scratch("ordered"));
    for (_, each) in PROGRAMS {
        for _ in 0..4 {
            let first = program.record(&file, each).expect("nothing races");
            assert_eq!(program.rerun(&file, each).expect("nothing races, again"), first);
        }
    }
}
