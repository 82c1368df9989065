//! Alone in its program, since the hook of panics is all threads'.
use octet::{Heap, Recording, Session, explore};
use std::panic;
use std::sync::Arc;
use std::sync::atomic::{AtomicUsize, Ordering};

#[test]
fn tries_print_nothing_and_save_nothing() {
    let told = Arc::new(AtomicUsize::new(0));
    let (before, counted) = (panic::take_hook(), Arc::clone(&told));
    panic::set_hook(Box::new(move |panic| {
        if panic.to_string().contains("this one is counted") {
            counted.fetch_add(1, Ordering::Relaxed);
        }
        before(panic);
    }));
    let stem = std::env::temp_dir().join(format!("octet-shrinking-{}", std::process::id()));
    let check = |session: &mut Session| {
        let x = session.object("x")?;
        let found = session.load(x)?;
        assert_eq!(session.load(x)?, found, "this one is counted");
        session.store(x, found + 1)
    };
    let mut runs = 0;
    let failure = explore((0..100).map(|seed| 2 * seed), |schedule| {
        runs += 1;
        let heap = Heap::builder().object("x", 0).schedule(schedule).keep_failing(&stem);
        heap.run(|threads| (0..2).for_each(|_| threads.spawn(check))).map(|_| ())
    });
    assert_eq!((failure.unwrap_err().preemptions(), told.load(Ordering::Relaxed)), (1, 1));
    assert!(runs > 2);
    assert!(Recording::load(&stem).is_ok());
    assert!(panic::catch_unwind(|| panic!("this one is counted")).is_err());
    assert_eq!(told.load(Ordering::Relaxed), 2);
}
