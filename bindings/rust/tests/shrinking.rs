//! Failures are shrunk to few preemptions.
use octet::{Builder, Cause, Error, Failure, Heap, Run, Schedule, Session, explore};

// Two threads add to x, each by a read and a write.
fn add(heap: Builder) -> Result<Run<()>, Error> {
    heap.object("x", 0).run(|threads| {
        for _ in 0..2 {
            threads.spawn(|session| {
                let x = session.object("x")?;
                let found = session.load(x)?;
                session.store(x, found + 1)
            });
        }
    })
}

fn loses(schedule: Schedule) -> Result<(), Error> {
    assert_eq!(add(Heap::builder().schedule(schedule))?.value("x"), Some(2), "an addition is lost");
    Ok(())
}

// What each seed's failure is shrunk to, and how many seeds fail.
fn shrunk(seeds: u64, program: impl Fn(Schedule) -> Result<(), Error>) -> Vec<Failure> {
    (0..seeds).filter_map(|seed| explore([seed], &program).err().map(|failure| *failure)).collect()
}

fn preemptions(failures: &[Failure]) -> Vec<usize> {
    failures.iter().map(Failure::preemptions).collect()
}

#[test]
fn a_lost_update_needs_one_preemption() {
    let failures = shrunk(100, loses);
    assert!(failures.len() > 3);
    assert_eq!(preemptions(&failures), vec![1; failures.len()]);
    for failure in failures {
        let recording = failure.recording().unwrap();
        assert_eq!(recording.value("x"), Some(1));
        assert_eq!(add(Heap::builder().rerun(recording)).unwrap().value("x"), Some(1));
    }
}

#[test]
fn threads_that_the_program_starts_itself_are_explored_too() {
    let failures = shrunk(20, |schedule| {
        let (heap, mut sessions) = Heap::builder().object("x", 0).threads(2).schedule(schedule).build()?;
        let x = heap.object("x")?;
        let add = |session: &mut Session| {
            let found = session.load(x)?;
            session.store(x, found + 1)
        };
        std::thread::scope(|scope| sessions.iter_mut().for_each(|session| drop(scope.spawn(|| session.running(add)))));
        assert_eq!(heap.finish(sessions)?.value("x"), Some(2));
        Ok(())
    });
    assert!(failures.len() > 3);
    assert_eq!(preemptions(&failures), vec![1; failures.len()]);
    assert!(failures.iter().all(|failure| failure.recording().and_then(|run| run.value("x")) == Some(1)));
}

#[test]
fn of_two_heaps_by_one_schedule_the_last_one_is_told() {
    let failures = shrunk(40, |schedule| {
        add(Heap::builder().schedule(schedule.clone()))?;
        loses(schedule)
    });
    assert!(failures.len() > 3);
    assert_eq!(preemptions(&failures), vec![1; failures.len()]);
}

#[test]
fn a_deadlock_needs_one_preemption() {
    let both =
        |session: &mut Session, first: &str, second: &str| session.locked(first, |session| session.locked(second, |_| Ok(())));
    let failures = shrunk(30, |schedule| {
        Heap::builder().lock("a").lock("b").schedule(schedule).run(|threads| {
            threads.spawn(move |session| both(session, "a", "b"));
            threads.spawn(move |session| both(session, "b", "a"));
        })?;
        Ok(())
    });
    assert!(failures.len() > 3);
    assert!(failures.iter().all(|failure| matches!(failure.cause(), Cause::Error(Error::Deadlock { .. }))));
    assert_eq!(preemptions(&failures), vec![1; failures.len()]);
}

// The first thread reads twice, and the second one writes twice. Only if each is stopped once, the first thread reads 0 and
// then 1: the second one writes 1 after the first read, and 2 after the second read.
#[test]
fn two_preemptions_where_two_are_needed() {
    let failures = shrunk(200, |schedule| {
        let run = Heap::builder().object("x", 0).schedule(schedule).run(|threads| {
            threads.spawn(|session| {
                let x = session.object("x")?;
                Ok([session.load(x)?, session.load(x)?])
            });
            threads.spawn(|session| {
                let x = session.object("x")?;
                session.store(x, 1)?;
                session.store(x, 2)?;
                Ok([0, 0])
            });
        })?;
        assert_ne!(run.values()[0], [0, 1], "half of it is seen");
        Ok(())
    });
    assert!(failures.len() > 3);
    assert_eq!(preemptions(&failures), vec![2; failures.len()]);
}

#[test]
fn a_failure_without_a_schedule_needs_no_preemption() {
    let failures = shrunk(10, |schedule| {
        add(Heap::builder().schedule(schedule))?;
        panic!("always");
    });
    assert_eq!(preemptions(&failures), [0; 10]);
}

#[test]
fn a_failure_that_does_not_come_again_stays() {
    let run = |seed| add(Heap::builder().schedule(Schedule::new(seed))).unwrap();
    let seed = (0..1000).find(|&seed| run(seed).value("x") == Some(1)).unwrap();
    let first = run(seed);
    let mut runs = 0;
    let failure = explore([seed], |schedule| {
        runs += 1;
        add(Heap::builder().schedule(schedule))?;
        assert!(runs > 1, "the first run");
        Ok(())
    });
    let failure = failure.unwrap_err();
    assert_eq!((failure.seed(), failure.recording()), (seed, Some(first.recording())));
    assert!(failure.to_string().contains("the first run"), "{failure}");
    // By its own picks once, and no more.
    assert_eq!(runs, 2);
}

// Without a preemption the first thread may fail too, but in another way: it reads 0 twice.
#[test]
fn another_failure_is_not_taken_for_the_same() {
    let failures = shrunk(60, |schedule| {
        let run = Heap::builder().object("x", 0).schedule(schedule).run(|threads| {
            threads.spawn(|session| {
                let x = session.object("x")?;
                let found = session.load(x)?;
                assert_eq!(session.load(x)?, found, "x moves");
                assert_eq!(found, 1, "x is not written");
                Ok(())
            });
            threads.spawn(|session| session.store(session.object("x")?, 1));
        });
        run.map(|_| ())
    });
    let (moves, others): (Vec<_>, Vec<_>) = failures.into_iter().partition(|failure| failure.to_string().contains("x moves"));
    assert!(!moves.is_empty() && !others.is_empty());
    assert_eq!(preemptions(&moves), vec![1; moves.len()]);
    assert_eq!(preemptions(&others), vec![0; others.len()]);
}

// Each run would wait as long again.
#[test]
fn a_failure_by_patience_is_not_shrunk() {
    let mut runs = 0;
    let failure = explore(0..5, |schedule| {
        runs += 1;
        add(Heap::builder().schedule(schedule))?;
        Err(Error::Patience { thread: 0 })
    });
    assert_eq!((failure.unwrap_err().seed(), runs), (0, 1));
}
