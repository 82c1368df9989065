//! Each look-alike outside of a run, by schedules, in a recorded run and in its second run: the same comes of it as of `std`.
use crate::{scratch, small};
use octet::sync::atomic::{self, Ordering::SeqCst};
use octet::sync::{Arc, Barrier, Condvar, LazyLock, Mutex, Once, OnceLock, RwLock, TryLockError, Weak, mpsc};
use octet::{cell, hint, program, thread, time};
use std::fmt::Debug;
use std::time::Duration;

// What comes of the program does not depend on who comes first.
fn everywhere<T: Debug + PartialEq + Send + Sync + 'static>(name: &str, program: fn() -> T, expected: T) {
    assert_eq!(program(), expected, "{name}, outside");
    let file = scratch(name);
    assert_eq!(small().record(&file, program).unwrap(), expected, "{name}, recorded");
    assert_eq!(small().rerun(&file, program).unwrap(), expected, "{name}, again");
    let explored = program::explore(0..40, move || assert_eq!(program(), expected, "by a schedule"));
    assert_eq!(explored.unwrap_or_else(|found| panic!("{name}: {found:?}")), 40);
}

macro_rules! integers {
    ($($name:ident $value:ident),*) => {
        #[test]
        fn atomic_integers() {
            $(
                fn $value() -> Vec<$value> {
                    let x = atomic::$name::new(<$value>::MAX);
                    let mut found = vec![x.fetch_add(3, SeqCst), x.fetch_sub(1, SeqCst), x.swap(0b1100, SeqCst)];
                    found.extend([x.fetch_and(0b0110, SeqCst), x.fetch_or(0b0001, SeqCst), x.fetch_xor(0b0111, SeqCst)]);
                    found.extend([x.fetch_nand(0b0010, SeqCst), x.fetch_max(5, SeqCst), x.fetch_min(3, SeqCst)]);
                    found.extend([x.compare_exchange(3, 7, SeqCst, SeqCst).unwrap(), x.compare_exchange(3, 8, SeqCst, SeqCst).unwrap_err()]);
                    found.extend([x.fetch_update(SeqCst, SeqCst, |found| found.checked_add(1)).unwrap()]);
                    found.extend([x.fetch_update(SeqCst, SeqCst, |_| None).unwrap_err(), x.load(SeqCst)]);
                    x.store(9, SeqCst);
                    found.push(x.into_inner());
                    found
                }
                let (max, min) = (<$value>::MAX, <$value>::MIN);
                // 0b0010 nand 0b0010 is all ones but that bit: -3, or the greatest but two. The greatest of it and 5 and the least
                // of that and 3 depend on its sign.
                let nand = !0b0010;
                let highest = nand.max(5);
                let expected = vec![max, min + 2, min + 1, 0b1100, 0b0100, 0b0101, 0b0010, nand, highest, 3, 7, 7, 8, 8, 9];
                everywhere(stringify!($name), $value, expected);
            )*
        }
    };
}

integers!(AtomicU8 u8, AtomicU16 u16, AtomicU32 u32, AtomicU64 u64, AtomicUsize usize,
    AtomicI8 i8, AtomicI16 i16, AtomicI32 i32, AtomicI64 i64, AtomicIsize isize);

#[test]
fn atomic_flags_and_pointers() {
    fn flags() -> Vec<bool> {
        let flag = atomic::AtomicBool::new(true);
        let mut found = vec![flag.fetch_and(false, SeqCst), flag.fetch_or(true, SeqCst), flag.fetch_xor(true, SeqCst)];
        found.extend([flag.fetch_nand(true, SeqCst), flag.fetch_not(SeqCst), flag.swap(true, SeqCst), flag.load(SeqCst)]);
        found
    }
    everywhere("flags", flags, vec![true, false, true, false, true, false, true]);
    fn pointers() -> (u64, bool, usize, bool) {
        let boxed = Box::into_raw(Box::new([4_u64, 5]));
        let pointer = atomic::AtomicPtr::new(boxed.cast::<u64>());
        let first = pointer.fetch_ptr_add(1, SeqCst);
        let second = pointer.fetch_or(1, SeqCst);
        let tagged = pointer.fetch_and(!1, SeqCst).addr() & 7;
        let is_back = pointer.compare_exchange(second, std::ptr::null_mut(), SeqCst, SeqCst).is_ok();
        // SAFETY: both are in the box, which is freed once.
        let sum = unsafe { *first + *second };
        drop(unsafe { Box::from_raw(boxed) });
        (sum, is_back, tagged, pointer.load(SeqCst).is_null())
    }
    everywhere("pointers", pointers, (9, true, 1, true));
}

#[test]
fn mutexes_and_locks() {
    fn mutex() -> (u32, bool, String) {
        let lock = Arc::new(Mutex::new(1));
        let other = Arc::clone(&lock);
        let held = lock.lock().unwrap();
        let is_held = thread::spawn(move || matches!(other.try_lock(), Err(TryLockError::WouldBlock))).join().unwrap();
        drop(held);
        *lock.lock().unwrap() += 1;
        let said = format!("{lock:?}");
        (Arc::into_inner(lock).unwrap().into_inner().unwrap(), is_held, said)
    }
    everywhere("mutex", mutex, (2, true, "Mutex { data: 2, poisoned: false, .. }".to_string()));
    fn rwlock() -> (u32, [bool; 4]) {
        let lock = RwLock::new(1);
        let tried = {
            let read = lock.read().unwrap();
            let tried = [lock.try_read().is_ok(), lock.try_write().is_ok()];
            drop(read);
            tried
        };
        let mut write = lock.write().unwrap();
        *write += 1;
        let more = [lock.try_read().is_ok(), lock.try_write().is_ok()];
        drop(write);
        (lock.into_inner().unwrap(), [tried[0], tried[1], more[0], more[1]])
    }
    everywhere("rwlock", rwlock, (2, [true, false, false, false]));
}

#[test]
fn conditions_and_barriers() {
    fn condition() -> (u32, bool) {
        let gate = Arc::new((Mutex::new(0), Condvar::new()));
        let other = Arc::clone(&gate);
        let opens = thread::spawn(move || {
            (0..3).for_each(|_| {
                *other.0.lock().unwrap() += 1;
                other.1.notify_all();
            });
        });
        let count = *gate.1.wait_while(gate.0.lock().unwrap(), |count| *count < 3).unwrap();
        opens.join().unwrap();
        let waited = gate.1.wait_timeout_while(gate.0.lock().unwrap(), Duration::from_millis(2), |count| *count < 4);
        let timed_out = waited.unwrap().1.timed_out();
        (count, timed_out)
    }
    everywhere("condition", condition, (3, true));
    fn barrier() -> usize {
        let barrier = Barrier::new(3);
        thread::scope(|scope| {
            let waits: Vec<_> = (0..3).map(|_| scope.spawn(|| (0..2).filter(|_| barrier.wait().is_leader()).count())).collect();
            waits.into_iter().map(|wait| wait.join().unwrap()).sum()
        })
    }
    everywhere("barrier", barrier, 2);
}

#[test]
fn what_is_done_once() {
    fn once() -> (usize, bool, String, usize, u8) {
        static LAZY: LazyLock<u8> = LazyLock::new(|| 6);
        let (once, cell, count) = (Once::new(), OnceLock::new(), atomic::AtomicUsize::new(0));
        thread::scope(|scope| {
            for _ in 0..3 {
                scope.spawn(|| {
                    once.call_once(|| {
                        let _ = count.fetch_add(1, SeqCst);
                    });
                    cell.get_or_init(|| count.fetch_add(10, SeqCst));
                });
            }
            once.wait();
        });
        (count.load(SeqCst), once.is_completed(), format!("{:?}", OnceLock::<u8>::new()), cell.into_inner().unwrap(), *LAZY)
    }
    everywhere("once", once, (11, true, "OnceLock(<uninit>)".to_string(), 1, 6));
}

#[test]
fn channels() {
    fn channel() -> (Vec<u32>, bool, bool) {
        let (sender, receiver) = mpsc::channel();
        let is_empty = receiver.try_recv() == Err(mpsc::TryRecvError::Empty);
        thread::spawn(move || (0..5).for_each(|number| sender.send(number).unwrap())).join().unwrap();
        (receiver.iter().collect(), is_empty, receiver.recv().is_err())
    }
    everywhere("channel", channel, (vec![0, 1, 2, 3, 4], true, true));
    fn bounded() -> (Vec<u32>, bool, bool) {
        let (sender, receiver) = mpsc::sync_channel(1);
        sender.send(0).unwrap();
        let is_full = matches!(sender.try_send(1), Err(mpsc::TrySendError::Full(1)));
        let sends = thread::spawn(move || (2..5).for_each(|number| sender.send(number).unwrap()));
        let all = receiver.iter().collect();
        sends.join().unwrap();
        let timed_out = receiver.recv_timeout(Duration::from_millis(1)) == Err(mpsc::RecvTimeoutError::Disconnected);
        (all, is_full, timed_out)
    }
    everywhere("bounded", bounded, (vec![0, 2, 3, 4], true, true));
}

#[test]
fn shared_pointers() {
    fn arc() -> (usize, usize, bool, u32, Option<u32>, bool) {
        let mut shared = Arc::new(1);
        let weak: Weak<u32> = Arc::downgrade(&shared);
        let other = Arc::clone(&shared);
        let is_shared = Arc::get_mut(&mut shared).is_none();
        let counts = (Arc::strong_count(&shared), Arc::weak_count(&shared));
        *Arc::make_mut(&mut shared) += 1;
        let value = thread::spawn(move || Arc::try_unwrap(other).unwrap()).join().unwrap();
        (
            counts.0,
            counts.1,
            is_shared,
            value + *shared,
            weak.upgrade().map(|value| *value),
            Weak::<u32>::new().upgrade().is_none(),
        )
    }
    everywhere("arc", arc, (2, 1, true, 3, None, true));
    fn unsized_values() -> (u32, usize, String, bool) {
        let doubles: Arc<dyn Fn(u32) -> u32 + Send + Sync> =
            Arc::from(Box::new(|number: u32| 2 * number) as Box<dyn Fn(u32) -> u32 + Send + Sync>);
        let other = Arc::clone(&doubles);
        let doubled = thread::spawn(move || other(4)).join().unwrap();
        let list: Arc<[String]> = ["a", "bc"].iter().map(ToString::to_string).collect();
        let name: Arc<str> = "name".into();
        let any: Arc<dyn std::any::Any + Send + Sync> = Arc::from(Box::new(5_u8) as Box<dyn std::any::Any + Send + Sync>);
        let raw = Arc::into_raw(name);
        // SAFETY: `into_raw` has answered it, and it is taken back once.
        let name = unsafe { Arc::from_raw(raw) };
        (doubled, list[1].len(), name.to_string(), any.downcast::<u8>().is_ok_and(|five| *five == 5))
    }
    everywhere("unsized", unsized_values, (8, 2, "name".to_string(), true));
    fn cyclic() -> (u32, bool) {
        struct Knot(Weak<Knot>, u32);
        let knot = Arc::new_cyclic(|weak| Knot(weak.clone(), 5));
        let same = knot.0.upgrade().unwrap();
        (same.1, Arc::ptr_eq(&knot, &same))
    }
    everywhere("cyclic", cyclic, (5, true));
}

#[test]
fn threads_and_parks() {
    fn threads() -> (Option<String>, Option<String>, bool, u32, bool) {
        let named = thread::Builder::new().name("worker".to_string()).spawn(|| thread::current().name().map(str::to_string));
        let other = thread::spawn(|| thread::current().name().map(str::to_string));
        let parked = thread::spawn(|| {
            thread::park();
            7
        });
        parked.thread().unpark();
        let panicked = thread::spawn(|| std::panic::resume_unwind(Box::new(5))).join();
        let panicked: Result<(), _> = panicked;
        let parked = parked.join().unwrap();
        (named.unwrap().join().unwrap(), other.join().unwrap(), panicked.is_err(), parked, thread::panicking())
    }
    everywhere("threads", threads, (Some("worker".to_string()), None, true, 7, false));
    fn pauses() -> (bool, bool) {
        let before = time::Instant::now();
        thread::sleep(Duration::from_millis(2));
        thread::park_timeout(Duration::from_millis(1));
        thread::yield_now();
        hint::spin_loop();
        let waits = thread::spawn(|| ());
        while !waits.is_finished() {
            thread::yield_now();
        }
        (before.elapsed() >= Duration::from_millis(2), waits.join().is_ok())
    }
    everywhere("pauses", pauses, (true, true));
}

struct AtEnd(Arc<atomic::AtomicUsize>);
impl Drop for AtEnd {
    fn drop(&mut self) {
        self.0.fetch_add(1, SeqCst);
    }
}

octet::thread_local! {
    static LEFT: cell::RefCell<Option<AtEnd>> = const { cell::RefCell::new(None) };
}

#[test]
fn thread_locals_and_cells() {
    fn locals() -> usize {
        let count = Arc::new(atomic::AtomicUsize::new(0));
        let threads = [(); 3].map(|()| {
            let count = Arc::clone(&count);
            thread::spawn(move || LEFT.with(|left| *left.borrow_mut() = Some(AtEnd(count))))
        });
        threads.into_iter().for_each(|thread| thread.join().unwrap());
        count.load(SeqCst)
    }
    everywhere("locals", locals, 3);
    fn cells() -> (u32, u32, u32) {
        let mut here = cell::UnsafeCell::new(1);
        here.with_mut(|value| unsafe { *value += 1 });
        let read = here.with(|value| unsafe { *value });
        unsafe { *here.get() += 1 };
        *here.get_mut() += 1;
        (read, here.into_inner(), cell::UnsafeCell::<u32>::default().into_inner())
    }
    everywhere("cells", cells, (2, 4, 0));
}
