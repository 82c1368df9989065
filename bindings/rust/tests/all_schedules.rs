//! All schedules of small programs, whose number was worked out by hand.
use octet::{Builder, Cause, Error, Heap, Session, Threads, Tried, explore_all};

// Runs the threads by all schedules.
fn tried(heap: &Builder, threads: impl Fn(&mut Threads<'_, (), Error>)) -> Tried {
    explore_all(20_000, |schedule| heap.clone().schedule(schedule).run(&threads).map(|_| ())).expect("nothing fails")
}

fn stores(session: &mut Session, name: &str, count: u64) -> Result<(), Error> {
    let object = session.object(name)?;
    (0..count).try_for_each(|value| session.store(object, value))
}

fn loads(session: &mut Session, name: &str, count: u64) -> Result<(), Error> {
    let object = session.object(name)?;
    (0..count).try_for_each(|_| session.load(object).map(|_| ()))
}

#[test]
fn each_interleaving_that_matters_is_run_once() {
    let heap = Heap::builder().object("x", 0).object("y", 0);
    let both = |names: [&'static str; 2], count| {
        tried(&heap, |threads| names.into_iter().for_each(|name| threads.spawn(move |session| stores(session, name, count))))
    };
    // Two accesses in the places of four, and three in those of six.
    assert_eq!(both(["x", "x"], 2), Tried::All { runs: 6 });
    assert_eq!(both(["x", "x"], 3), Tried::All { runs: 20 });
    assert_eq!(both(["x", "y"], 2), Tried::All { runs: 1 });
    // Who only read come in one order.
    let reads = tried(&heap, |threads| (0..3).for_each(|_| threads.spawn(|session| loads(session, "x", 2))));
    assert_eq!(reads, Tried::All { runs: 1 });
    // Each of two reads comes before or after the write.
    let mixed = tried(&heap, |threads| {
        (0..2).for_each(|_| threads.spawn(|session| loads(session, "x", 1)));
        threads.spawn(|session| stores(session, "x", 1));
    });
    assert_eq!(mixed, Tried::All { runs: 4 });
    // Three threads of two accesses each: 6! / (2! 2! 2!).
    let three = tried(&heap, |threads| (0..3).for_each(|_| threads.spawn(|session| stores(session, "x", 2))));
    assert_eq!(three, Tried::All { runs: 90 });
}

#[test]
fn a_lock_that_is_held_is_asked_for_or_not() {
    let heap = Heap::builder().lock("door");
    let locked = tried(&heap, |threads| (0..2).for_each(|_| threads.spawn(|session| session.locked("door", |_| Ok(())))));
    // One after the other, in both orders; and either waits for the other.
    assert_eq!(locked, Tried::All { runs: 4 });
}

#[test]
fn the_first_failure_is_told_and_shrunk() {
    let failure = explore_all(1_000, |schedule| {
        let run = Heap::builder().object("x", 0).schedule(schedule).run(|threads| {
            for _ in 0..2 {
                threads.spawn(|session| {
                    let x = session.object("x")?;
                    let found = session.load(x)?;
                    session.store(x, found + 1)
                });
            }
        })?;
        assert_eq!(run.value("x"), Some(2), "an addition is lost");
        Ok(())
    });
    let failure = failure.expect_err("an addition is lost by some");
    assert_eq!((failure.preemptions(), failure.recording().and_then(|run| run.value("x"))), (1, Some(1)));
    // A notice that comes too early: only if the second thread ends before the first one waits.
    let failure = explore_all(1_000, |schedule| {
        let run = Heap::builder().lock("door").condition("opened").schedule(schedule).run(|threads| {
            threads.spawn(|session| session.locked("door", |session| session.wait("opened")));
            threads.spawn(|session| session.notify_one("opened"));
        });
        run.map(|_| ())
    });
    let failure = failure.expect_err("by some it waits for ever");
    assert!(matches!(failure.cause(), Cause::Error(Error::Deadlock { .. })), "{failure}");
}

#[test]
fn not_all_is_said_where_it_is_so() {
    let run = |most, work: fn(&mut Session) -> Result<(), Error>| {
        explore_all(most, |schedule| {
            let heap = Heap::builder().object("x", 0).schedule(schedule);
            heap.run(|threads| (0..2).for_each(|_| threads.spawn(work))).map(|_| ())
        })
        .expect("nothing fails")
    };
    assert_eq!(run(0, |session| stores(session, "x", 2)), Tried::NotAll { runs: 0 });
    assert_eq!(run(1, |session| stores(session, "x", 2)), Tried::NotAll { runs: 1 });
    // What a thread does while it is blocked follows from no pick.
    let blocked = run(1_000, |session| session.blocked(|| ()).and_then(|()| stores(session, "x", 1)));
    assert!(matches!(blocked, Tried::NotAll { .. }), "{blocked:?}");
    let failure = explore_all(10, |_| Ok(())).expect_err("it hands its schedule to nobody");
    assert!(matches!(failure.cause(), Cause::Unscheduled), "{failure}");
}
