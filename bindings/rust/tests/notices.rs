//! A notice is a step of its own: it may come late.
use octet::{Cause, Error, Heap, Run, Schedule, Session, explore};

// One thread adds and notifies, twice. The other one takes, twice, and asks only once before it waits. So a notice that comes late
// wakes it, though what it was of is gone.
fn add(session: &mut Session) -> Result<(), Error> {
    let count = session.object("n")?;
    for _ in 0..2 {
        session.locked("m", |session| session.fetch_add(count, 1).map(|_| ()))?;
        session.notify_one("some")?;
    }
    Ok(())
}

fn take(session: &mut Session) -> Result<(), Error> {
    let count = session.object("n")?;
    for _ in 0..2 {
        session.locked("m", |session| {
            if session.load(count)? == 0 {
                session.wait("some")?;
            }
            let found = session.fetch_sub(count, 1)?;
            assert!(found > 0, "there is none");
            Ok::<(), Error>(())
        })?;
    }
    Ok(())
}

fn run(schedule: Schedule) -> Result<Run<()>, Error> {
    Heap::builder().object("n", 0).lock("m").condition("some").schedule(schedule).run(|threads| {
        threads.spawn(add);
        threads.spawn(take);
    })
}

#[test]
fn a_notice_that_comes_late_is_found() {
    let failure = explore(0..2000, |schedule| run(schedule).map(|_| ())).unwrap_err();
    assert!(matches!(failure.cause(), Cause::Panic(message) if message == "there is none"), "{failure}");
    // The first thread is stopped before its first notice, until the other one waits, and after it, until that one has found none.
    assert_eq!(failure.preemptions(), 2);
    assert_eq!((failure.thread(), failure.place().map(octet::Place::file)), (Some(1), Some(file!())));
    // The notice is in the recording, and wakes a thread after its object is 0.
    let script = failure.recording().unwrap().script();
    assert!(script.contains("object some 0\n") && script.contains(" some "), "{script}");
}

#[test]
fn right_threads_meet_by_every_schedule() {
    let passed = explore(0..300, |schedule| {
        let heap = Heap::builder().object("n", 0).lock("m").condition("some").schedule(schedule);
        let run = heap.run(|threads| {
            threads.spawn(add);
            threads.spawn(|session| {
                let count = session.object("n")?;
                for _ in 0..2 {
                    session.locked("m", |session| {
                        while session.load(count)? == 0 {
                            session.wait("some")?;
                        }
                        session.fetch_sub(count, 1).map(|_| ())
                    })?;
                }
                Ok(())
            });
        })?;
        // Nobody waits, and the lock is free.
        assert_eq!(["n", "m", "some"].map(|name| run.value(name)), [Some(0); 3]);
        Ok(())
    });
    assert_eq!(passed.unwrap(), 300);
}

// What a thread of the script does, without the values that it sets.
fn accesses_of(script: &str, thread: usize) -> Vec<&str> {
    let lines = script.split("thread\n").nth(thread + 1).unwrap_or_default().lines();
    lines.filter(|line| !line.starts_with("set ")).collect()
}

#[test]
fn taking_and_freeing_a_lock_look_different() {
    let run =
        Heap::builder().lock("m").run(|threads| threads.spawn(|session| session.locked("m", |_| Ok::<(), Error>(())))).unwrap();
    let accesses = accesses_of(run.script(), 0);
    assert_eq!(accesses.len(), 2, "{accesses:?}");
    assert!(accesses[0].starts_with("bump m ") && accesses[1].starts_with("write m "), "{accesses:?}");
}

#[test]
fn a_notice_that_wakes_nobody_is_seen() {
    let run = Heap::builder().condition("some").run(|threads| threads.spawn(|session| session.notify_one("some"))).unwrap();
    assert_eq!(accesses_of(run.script(), 0), ["read r1 some"]);
    assert_eq!(run.place(0, 0).map(octet::Place::file), Some(file!()));
}
