//! Runs, recorded and run again.
use octet::{Builder, Error, Heap, Recording, Run, Schedule, Session};
use std::error::Error as _;
use std::path::PathBuf;
use std::sync::atomic::{AtomicU64, Ordering::SeqCst};
use std::sync::{Mutex, mpsc};
use std::thread;
use std::time::Duration;

fn stem(name: &str) -> PathBuf {
    std::env::temp_dir().join(format!("octet-{name}-{}", std::process::id()))
}

fn bank() -> Builder {
    Heap::builder().object("balance", 100).object("payments", 0)
}

fn pay(session: &mut Session, amount: u64, times: usize) -> Result<(), Error> {
    let (balance, payments) = (session.object("balance")?, session.object("payments")?);
    for _ in 0..times {
        session.region()?;
        let found = session.load(balance)?;
        session.store(balance, found + amount)?;
        session.fetch_add(payments, 1)?;
        session.safe_point()?;
    }
    Ok(())
}

fn run(bank: Builder, second: u64, times: usize) -> Result<Run<()>, Error> {
    bank.run(|threads| {
        threads.spawn(move |session| pay(session, 30, times));
        threads.spawn(move |session| pay(session, second, times));
    })
}

#[test]
fn a_run_is_repeated() {
    for _ in 0..10 {
        let first = run(bank(), 50, 200).unwrap();
        assert_eq!(first.value("payments"), Some(400));
        assert_eq!(first.value("no such"), None);
        let second = run(bank().rerun(&first), 50, 200).unwrap();
        assert_eq!(second.recording(), first.recording());
        assert_eq!(second.value("balance"), first.value("balance"));
    }
}

#[test]
fn another_program_diverges() {
    let first = run(bank(), 50, 20).unwrap();
    let other = run(bank().rerun(&first), 51, 20).unwrap_err();
    let Error::Diverged { thread: 1, accesses: 1, place: Some(place) } = &other else { panic!("{other}") };
    assert!(place.file().ends_with("runs.rs"), "{place}");
    let longer = run(bank().rerun(&first), 50, 21).unwrap_err();
    assert!(matches!(longer, Error::Diverged { accesses: 60, .. }), "{longer}");
    let shorter = bank().rerun(&first).run(|threads| {
        threads.spawn(|session| pay(session, 30, 20));
        threads.spawn(|_| Ok(()));
    });
    assert!(matches!(shorter, Err(Error::Diverged { thread: 1, accesses: 0, place: None })), "{shorter:?}");
}

// The second thread reads what the first one wrote before.
#[test]
fn who_waits_for_one_that_has_left_says_so() {
    let told = &Mutex::new(None);
    let run = |heap: Builder, amount: u64| {
        let (written, is_written) = mpsc::channel();
        heap.run(|threads| {
            threads.spawn(move |session| {
                session.store(session.object("balance")?, amount)?;
                written.send(()).unwrap();
                Ok(())
            });
            threads.spawn(move |session| {
                session.blocked(|| is_written.recv().is_ok())?;
                let read = session.load(session.object("balance")?);
                *told.lock().unwrap() = read.as_ref().err().map(ToString::to_string);
                read.map(|_| ())
            });
        })
    };
    let first = run(bank(), 7).unwrap();
    assert_eq!(told.lock().unwrap().take(), None);
    let other = run(bank().rerun(&first), 8).unwrap_err();
    assert!(matches!(other, Error::Diverged { thread: 0, accesses: 0, .. }), "{other}");
    assert_eq!(told.lock().unwrap().as_deref(), Some("thread 1 would wait for one that has left its recording"));
}

#[test]
fn another_heap_is_refused() {
    let first = run(bank(), 50, 1).unwrap();
    let other = Heap::builder().object("balance", 101).object("payments", 0);
    assert!(matches!(run(other.rerun(&first), 50, 1), Err(Error::OtherRecording)));
    let alone = bank().rerun(&first).run(|threads| threads.spawn(|_| Ok(())));
    assert!(matches!(alone, Err(Error::OtherRecording)));
}

#[test]
fn files_are_read_and_judged() {
    let stem = stem("files");
    let first = run(bank(), 50, 1).unwrap();
    first.save(&stem).unwrap();
    let loaded = Recording::load(&stem).unwrap();
    assert_eq!(loaded, *first.recording());
    assert_eq!((loaded.place(1, 2), loaded.value("balance")), (first.place(1, 2), None));
    assert!(run(bank().rerun(&loaded), 50, 1).is_ok());
    let script = first.script().replacen("fuel 131072", "fuel 131071", 1);
    std::fs::write(stem.with_extension("octet"), script).unwrap();
    let changed = Recording::load(&stem).unwrap();
    assert!(matches!(run(bank().rerun(&changed), 50, 1), Err(Error::NoRecording)));
    let missing = Recording::load(stem.join("missing")).unwrap_err();
    assert!(matches!(&missing, Error::File { path, .. } if path.ends_with("missing.octet")), "{missing}");
    assert!(missing.source().is_some());
}

#[test]
fn what_octet_would_not_read_is_not_saved() {
    let stores = |count: u64| {
        Heap::builder().object("x", 0).run(|threads| {
            threads.spawn(move |session| {
                let x = session.object("x")?;
                (0..count).try_for_each(|number| session.store(x, u64::MAX - number))
            });
        })
    };
    let stem = stem("long");
    assert!(matches!(stores(40_000).unwrap().save(&stem), Err(Error::TooLong)));
    assert!(Recording::load(&stem).is_err());
    stores(20_000).unwrap().save(&stem).unwrap();
}

#[test]
fn each_access_has_its_place() {
    let first = run(bank(), 50, 2).unwrap();
    let lines = |thread| (0..6).map(|access| first.place(thread, access).unwrap().line()).collect::<Vec<_>>();
    assert_eq!(lines(0), lines(1));
    assert_eq!(lines(0)[1], lines(0)[0] + 1);
    assert_eq!(lines(0)[..3], lines(0)[3..]);
    assert_eq!(first.place(0, 6), None);
}

#[test]
fn a_seed_gives_the_same_run_again() {
    let runs: Vec<_> = (0..40).map(|seed| run(bank().schedule(Schedule::new(seed)), 50, 3).unwrap()).collect();
    for (seed, first) in runs.iter().enumerate() {
        let second = run(bank().schedule(Schedule::new(seed as u64)), 50, 3).unwrap();
        assert_eq!(second.recording(), first.recording());
    }
    let different = runs.windows(2).filter(|pair| pair[0].recording() != pair[1].recording()).count();
    assert!(different > 25, "{different}");
}

#[test]
fn sessions_are_started_and_stopped_by_hand() {
    let (heap, mut sessions) = bank().threads(2).build().unwrap();
    let balance = heap.object("balance").unwrap();
    assert!(matches!(sessions[0].load(balance), Err(Error::Resting)));
    assert!(matches!(heap.object("no such"), Err(Error::NoName { name }) if name == "no such"));
    thread::scope(|scope| {
        for session in &mut sessions {
            scope.spawn(move || {
                session.start().unwrap();
                assert!(matches!(session.start(), Err(Error::Running)));
                for _ in 0..100 {
                    session.fetch_add(balance, 10).unwrap();
                    session.blocked(thread::yield_now).unwrap();
                }
                session.stop().unwrap();
            });
        }
    });
    let (other, theirs) = bank().build().unwrap();
    assert!(matches!(sessions[0].load(other.object("balance").unwrap()), Err(Error::OtherHeap)));
    sessions.reverse();
    assert_eq!(heap.finish(sessions).unwrap().value("balance"), Some(2100));
    let (heap, mut sessions) = bank().threads(2).build().unwrap();
    assert!(matches!(heap.finish(theirs), Err(Error::OtherSessions)));
    sessions[1].start().unwrap();
    drop((other, sessions));
}

#[test]
fn limits_are_told() {
    let refused = |bank: Builder| run(bank, 50, 2).unwrap_err();
    assert!(matches!(refused(bank().accesses(100_000)), Error::BadSize { .. }));
    assert!(matches!(refused(bank().accesses(0)), Error::BadSize { .. }));
    assert!(matches!(refused(bank().object("balance", 1)), Error::NamedTwice { .. }));
    for name in ["two words", "", "1st", "line\nthread", &"n".repeat(33)] {
        assert!(matches!(refused(bank().object(name, 1)), Error::BadName { .. }), "{name}");
    }
    let many = (0..1023).fold(bank(), |bank, number| bank.object(&format!("x{number}"), 0));
    assert!(matches!(refused(many), Error::BadSize { .. }));
    assert!(matches!(refused(bank().accesses(4)), Error::Spent { .. }));
    assert!(run(bank().accesses(6), 50, 2).is_ok());
    assert!(matches!(bank().run::<()>(|_| ()), Err(Error::BadSize { .. })));
}

#[test]
fn threads_give_back_values_and_fail_with_errors_of_their_own() {
    #[derive(Debug)]
    enum Fault {
        Poor(u64),
        Heap(Error),
    }
    impl From<Error> for Fault {
        fn from(error: Error) -> Fault {
            Fault::Heap(error)
        }
    }
    let take = |coins: u64, least: u64| {
        Heap::builder().object("purse", coins).try_run(|threads| {
            for _ in 0..2 {
                threads.spawn(move |session| match session.load(session.object("purse")?)? {
                    found if found < least => Err(Fault::Poor(found)),
                    found => Ok(found),
                });
            }
        })
    };
    assert_eq!(take(3, 2).unwrap().into_values(), [3, 3]);
    assert!(matches!(take(1, 2), Err(Fault::Poor(1))));
    let other = Heap::builder().try_run(|threads| threads.spawn(|session| Ok(session.object("purse").map(|_| ())?)));
    assert!(matches!(other, Err(Fault::Heap(Error::NoName { .. }))));
}

#[test]
#[should_panic(expected = "a payer fails")]
fn a_panic_is_handed_on() {
    let _ = bank().run(|threads| {
        threads.spawn(|_| panic!("a payer fails"));
        threads.spawn(|session| pay(session, 50, 100));
    });
}

#[test]
fn a_run_that_failed_is_kept_and_fails_again() {
    fn audit(session: &mut Session) -> Result<(), Error> {
        let balance = session.object("balance")?;
        let before = session.load(balance)?;
        assert_eq!(session.load(balance)?, before, "the balance moves");
        Ok(())
    }
    let run = |bank: Builder| {
        std::panic::catch_unwind(|| {
            bank.run(|threads| {
                threads.spawn(|session| pay(session, 30, 1));
                threads.spawn(audit);
            })
        })
    };
    let stem = stem("failing");
    let fails = |seed: &u64| run(bank().schedule(Schedule::new(*seed)).keep_failing(&stem)).is_err();
    assert!((0..1000).find(fails).is_some());
    let recording = Recording::load(&stem).unwrap();
    for _ in 0..5 {
        assert!(run(bank().rerun(&recording)).is_err());
    }
}

#[test]
fn a_thread_that_waits_elsewhere_stops_no_other_one() {
    let (paid, told) = mpsc::channel();
    let run = bank().schedule(Schedule::new(1)).run(|threads| {
        threads.spawn(move |session| {
            session.blocked(|| told.recv().unwrap())?;
            pay(session, 30, 1)
        });
        threads.spawn(move |session| {
            pay(session, 50, 1)?;
            paid.send(()).unwrap();
            Ok(())
        });
    });
    assert_eq!(run.unwrap().value("balance"), Some(180));
}

#[test]
fn a_thread_that_never_answers_ends_the_patience_of_the_others() {
    let (heap, mut sessions) = bank().threads(2).patience(Duration::from_millis(50)).build().unwrap();
    let balance = heap.object("balance").unwrap();
    sessions[0].start().unwrap();
    sessions[0].store(balance, 1).unwrap();
    sessions[1].start().unwrap();
    assert!(matches!(sessions[1].load(balance), Err(Error::Patience { thread: 1 })));
    assert!(matches!(sessions[1].load(balance), Err(Error::Patience { thread: 1 })));
}

// What each thread has seen.
fn race(heap: Builder) -> Run<Vec<u64>> {
    let work = |session: &mut Session| {
        let objects = [session.object("x")?, session.object("y")?, session.object("z")?];
        let me = session.number() as u64;
        let mut seen = Vec::new();
        for round in 0..200 {
            if round % 8 < 4 {
                seen.push(session.load(objects[2])?);
            }
            let object = objects[((round * 7 + me * 3) % 3) as usize];
            let value = session.load(object)?;
            seen.push(value);
            session.region()?;
            session.store(object, value.wrapping_mul(31).wrapping_add(me))?;
            seen.push(match value % 6 {
                0 => session.fetch_add(objects[0], value)?,
                1 => session.fetch_xor(objects[1], value)?,
                2 => session.fetch_max(objects[2], value)?,
                3 => session.swap(objects[1], value)?,
                4 => session.fetch_sub(objects[2], round)?,
                _ => session.compare_exchange(objects[0], value, round)?.unwrap_or_else(|found| found),
            });
            if round % 64 == 0 {
                session.blocked(thread::yield_now)?;
                session.locked("lock", |session| session.store(objects[1], round))?;
            }
        }
        Ok(seen)
    };
    heap.run(|threads| (0..4).for_each(|_| threads.spawn(work))).unwrap()
}

#[test]
fn threads_that_race_see_the_same_again() {
    let heap = || Heap::builder().object("x", 1).object("y", 2).object("z", 3).lock("lock");
    let runs: Vec<_> = (0..10).map(|_| race(heap())).chain([race(heap().schedule(Schedule::new(7)))]).collect();
    for first in &runs {
        let second = race(heap().rerun(first));
        assert!(second.values() == first.values(), "other values");
        assert!(second.recording() == first.recording(), "another recording");
    }
    assert!(runs.windows(2).any(|pair| pair[0].values() != pair[1].values()));
}

#[test]
fn accesses_answer_as_those_of_an_atomic_word() {
    let run = Heap::builder().object("x", 12).run(|threads| {
        threads.spawn(|session| {
            let (x, word, mut number) = (session.object("x")?, AtomicU64::new(12), 1_u64);
            for round in 0..1_400 {
                number = number.wrapping_mul(0x5851_f42d_4c95_7f2d).wrapping_add(0x1405_7b7e_f767_814f);
                let current = if number >> 63 == 0 { number } else { word.load(SeqCst) };
                let odd = |value: u64| (value % 2 == 1).then_some(value / 2);
                let answers = match round % 14 {
                    0 => (Ok(session.load(x)?), Ok(word.load(SeqCst))),
                    1 => {
                        word.store(number, SeqCst);
                        session.store(x, number)?;
                        (Ok(session.load(x)?), Ok(number))
                    }
                    2 => (Ok(session.swap(x, number)?), Ok(word.swap(number, SeqCst))),
                    3 => (session.compare_exchange(x, current, 5)?, word.compare_exchange(current, 5, SeqCst, SeqCst)),
                    4 => (session.compare_exchange_weak(x, current, 6)?, word.compare_exchange(current, 6, SeqCst, SeqCst)),
                    5 => (Ok(session.fetch_add(x, number)?), Ok(word.fetch_add(number, SeqCst))),
                    6 => (Ok(session.fetch_sub(x, number)?), Ok(word.fetch_sub(number, SeqCst))),
                    7 => (Ok(session.fetch_and(x, number)?), Ok(word.fetch_and(number, SeqCst))),
                    8 => (Ok(session.fetch_nand(x, number)?), Ok(word.fetch_nand(number, SeqCst))),
                    9 => (Ok(session.fetch_or(x, number)?), Ok(word.fetch_or(number, SeqCst))),
                    10 => (Ok(session.fetch_xor(x, number)?), Ok(word.fetch_xor(number, SeqCst))),
                    11 => (Ok(session.fetch_max(x, number)?), Ok(word.fetch_max(number, SeqCst))),
                    12 => (Ok(session.fetch_min(x, number)?), Ok(word.fetch_min(number, SeqCst))),
                    _ => (session.fetch_update(x, odd)?, word.fetch_update(SeqCst, SeqCst, odd)),
                };
                assert_eq!(answers.0, answers.1, "round {round}");
            }
            Ok(word.into_inner())
        });
    });
    let run = run.unwrap();
    assert_eq!(run.value("x"), Some(run.values()[0]));
}

#[test]
fn updates_of_all_threads_are_made_and_repeated() {
    let run = |heap: Builder| {
        heap.object("x", 0).run(|threads| {
            for _ in 0..3 {
                threads.spawn(|session| {
                    let x = session.object("x")?;
                    (0..10).try_for_each(|_| session.fetch_update(x, |value| Some(value + 2)).map(|_| ()))
                });
            }
        })
    };
    for seed in 0..10 {
        let first = run(Heap::builder().schedule(Schedule::new(seed))).unwrap();
        assert_eq!(first.value("x"), Some(60));
        assert!(first.place(0, 1).unwrap().file().ends_with("runs.rs"));
        assert_eq!(run(Heap::builder().rerun(&first)).unwrap().recording(), first.recording());
    }
}
