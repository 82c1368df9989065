//! Locks, conditions, barriers and channels: freely, by schedules, and run again.
use octet::{Builder, Cause, Error, Heap, Run, Schedule, Session, explore};
use std::time::Duration;

fn add(session: &mut Session, amount: u64) -> Result<(), Error> {
    for _ in 0..3 {
        session.locked("account", |session| {
            let balance = session.object("balance")?;
            let found = session.load(balance)?;
            session.store(balance, found + amount)
        })?;
    }
    Ok(())
}

fn account(heap: Builder) -> Result<Run<()>, Error> {
    heap.object("balance", 0).lock("account").run(|threads| {
        for amount in [30, 50, 70] {
            threads.spawn(move |session| add(session, amount));
        }
    })
}

// Runs it freely and again, and by schedules and again.
fn repeats<T: PartialEq + std::fmt::Debug>(run: impl Fn(Builder) -> Result<Run<T>, Error>, is_right: impl Fn(&Run<T>) -> bool) {
    let mut runs: Vec<_> = (0..5).map(|_| run(Heap::builder()).unwrap()).collect();
    runs.extend((0..60).map(|seed| run(Heap::builder().schedule(Schedule::new(seed))).unwrap()));
    for (number, first) in runs.iter().enumerate() {
        assert!(is_right(first), "run {number}");
        let mut places = (0..).map_while(|access| first.place(0, access));
        assert!(places.all(|place| place.file().ends_with("waiting.rs")), "run {number}");
        let second = run(Heap::builder().rerun(first)).unwrap();
        assert_eq!(second.recording(), first.recording(), "run {number}");
        assert_eq!(second.values(), first.values(), "run {number}");
    }
    assert!(runs[5..].windows(2).any(|pair| pair[0].recording() != pair[1].recording()));
}

#[test]
fn a_lock_loses_no_payment() {
    repeats(account, |run| run.value("balance") == Some(450));
}

#[test]
fn a_barrier_lets_none_pass_before_all_have_come() {
    let run = |heap: Builder| {
        heap.object("came", 0).barrier("start", 3).run(|threads| {
            for _ in 0..3 {
                threads.spawn(|session| {
                    let came = session.object("came")?;
                    let mut seen = Vec::new();
                    for _ in 0..2 {
                        session.fetch_add(came, 1)?;
                        session.arrive("start")?;
                        seen.push(session.load(came)?);
                        session.arrive("start")?;
                    }
                    Ok(seen)
                });
            }
        })
    };
    repeats(run, |run| run.values().iter().all(|seen| seen == &[3, 6]));
}

#[test]
fn a_channel_gives_each_value_once_and_in_order() {
    let run = |heap: Builder| {
        heap.channel("numbers", 2).object("senders", 2).run(|threads| {
            for first in [0, 100] {
                threads.spawn(move |session| {
                    for number in 1..=4 {
                        assert!(session.send("numbers", first + number)?);
                    }
                    if session.fetch_sub(session.object("senders")?, 1)? == 1 {
                        session.close("numbers")?;
                        assert!(!session.send("numbers", 7)?);
                    }
                    Ok(Vec::new())
                });
            }
            for _ in 0..2 {
                threads.spawn(|session| {
                    let mut all = Vec::new();
                    while let Some(number) = session.receive("numbers")? {
                        all.push(number);
                    }
                    Ok(all)
                });
            }
        })
    };
    repeats(run, |run: &Run<Vec<u64>>| {
        let ordered = |all: &Vec<u64>| {
            let of = |low, high| all.iter().filter(move |number| (low..high).contains(*number));
            of(0, 100).is_sorted() && of(100, 200).is_sorted()
        };
        let mut all = run.values().concat();
        all.sort_unstable();
        all == [1, 2, 3, 4, 101, 102, 103, 104] && run.values().iter().all(ordered)
    });
}

#[test]
fn one_notice_wakes_the_thread_that_came_first_and_no_other() {
    let run = |heap: Builder| {
        heap.lock("door").condition("opened").object("came", 0).object("left", 0).run(|threads| {
            for _ in 0..2 {
                threads.spawn(|session| {
                    session.locked("door", |session| {
                        let before = session.fetch_add(session.object("came")?, 1)?;
                        session.wait("opened")?;
                        session.fetch_add(session.object("left")?, before + 1)
                    })
                });
            }
            threads.spawn(|session| {
                let (came, left) = (session.object("came")?, session.object("left")?);
                let pause = || std::thread::sleep(Duration::from_millis(1));
                while session.load(came)? < 2 {
                    session.blocked(pause)?;
                }
                session.locked("door", |session| session.notify_one("opened"))?;
                while session.load(left)? == 0 {
                    session.blocked(pause)?;
                }
                let most = (0..20).try_fold(0, |most, _| session.load(left).map(|found| found.max(most)))?;
                session.locked("door", |session| session.notify_all("opened"))?;
                Ok(most)
            });
        })
    };
    repeats(run, |run| run.values()[2] == 1 && run.value("left") == Some(3));
}

#[test]
fn a_deadlock_tells_who_waits_for_whom() {
    fn both(session: &mut Session, first: &str, second: &str) -> Result<(), Error> {
        session.locked(first, |session| session.locked(second, |_| Ok(())))
    }
    let both_line = line!() - 2;
    let run = |heap: Builder| {
        heap.lock("a").lock("b").run(|threads| {
            threads.spawn(|session| both(session, "a", "b"));
            threads.spawn(|session| both(session, "b", "a"));
        })
    };
    let failure = explore(0..100, |schedule| run(Heap::builder().schedule(schedule)).map(|_| ())).unwrap_err();
    let Cause::Error(Error::Deadlock { waits }) = failure.cause() else { panic!("{failure}") };
    let told: Vec<_> = waits.iter().map(|wait| (wait.thread, wait.name.as_str(), wait.holder)).collect();
    assert_eq!(told, [(0, "b", Some(1)), (1, "a", Some(0))]);
    // Each waits on the line on which the other one took what it holds.
    let places: Vec<_> = waits.iter().map(|wait| (wait.place.clone().unwrap(), wait.held_at.clone().unwrap())).collect();
    assert!(places.iter().all(|(place, held_at)| place == held_at), "{places:?}");
    let here = &places[0].0;
    assert_eq!((here.file(), here.line()), (file!(), both_line));
    let message = format!(
        "deadlock: thread 0 waits for b at {here}, which thread 1 has taken at {here}; \
         thread 1 waits for a at {here}, which thread 0 has taken at {here}"
    );
    assert!(failure.to_string().ends_with(&message), "{failure}");
    // Where they waited, nothing is recorded.
    let again = run(Heap::builder().rerun(failure.recording().unwrap())).unwrap_err();
    assert!(matches!(&again, Error::Diverged { accesses: 1, place: Some(_), .. }), "{again}");
}

#[test]
fn a_condition_that_nobody_notifies_is_a_deadlock() {
    let wait = |heap: Builder| {
        heap.lock("door").condition("opened").run(|threads| {
            threads.spawn(|session| session.locked("door", |session| session.wait("opened")));
        })
    };
    let by_turns = wait(Heap::builder().schedule(Schedule::new(0))).unwrap_err();
    assert!(matches!(&by_turns, Error::Deadlock { waits } if waits[0].name == "opened"), "{by_turns}");
    let freely = wait(Heap::builder().patience(Duration::from_millis(50)));
    assert!(matches!(freely, Err(Error::Patience { thread: 0 })), "{freely:?}");
}

#[test]
fn locks_that_are_misused() {
    let ended = |work: fn(&mut Session) -> Result<(), Error>| {
        let heap = Heap::builder().lock("a").condition("c").patience(Duration::from_millis(50));
        heap.run(|threads| threads.spawn(work)).unwrap_err()
    };
    let twice = ended(|session| session.locked("a", |session| session.locked("a", |_| Ok(()))));
    assert!(matches!(&twice, Error::Held { name } if name == "a"), "{twice}");
    // The lock is held on: else the wait would find none.
    let refused = ended(|session| {
        session.locked("a", |session| {
            assert!(session.locked("a", |_| Ok::<(), Error>(())).is_err());
            session.wait("c")
        })
    });
    assert!(matches!(&refused, Error::Patience { .. }), "{refused}");
    let outside = ended(|session| session.wait("c"));
    assert!(matches!(&outside, Error::NotHeld { name } if name == "c"), "{outside}");
    let unknown = ended(|session| session.locked("b", |_| Ok(())));
    assert!(matches!(&unknown, Error::NoName { name } if name == "b"), "{unknown}");
}

#[test]
fn an_error_in_a_lock_frees_it() {
    let run = Heap::builder().lock("a").object("x", 0).run(|threads| {
        for _ in 0..2 {
            threads.spawn(|session| {
                let failed = session.locked("a", |session| session.object("y").map(|_| ()));
                assert!(failed.is_err());
                session.locked("a", |session| session.fetch_add(session.object("x")?, 1).map(|_| ()))
            });
        }
    });
    assert_eq!(run.unwrap().value("x"), Some(2));
}
