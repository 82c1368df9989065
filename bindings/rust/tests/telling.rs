//! What is told of a run that went wrong: which thread, where, and what to do.
use octet::{Absence, Builder, Cause, Error, Failure, Heap, Recording, Schedule, Session, explore};
use std::path::PathBuf;
use std::process::Command;
use std::sync::mpsc;
use std::thread;
use std::time::{Duration, Instant};

fn stem(name: &str) -> PathBuf {
    std::env::temp_dir().join(format!("octet-{name}-{}", std::process::id()))
}

// Two threads that take turns by a word: each waits until it says so. The second one never ends its turn, if it forgets to.
fn take_turns(heap: Builder, forgets: bool) -> Result<octet::Run<()>, Error> {
    heap.object("turn", 0).run(|threads| {
        for me in 0..2 {
            threads.spawn(move |session| {
                let turn = session.object("turn")?;
                for _ in 0..3 {
                    while session.load(turn)? != me {}
                    if me == 0 || !forgets {
                        session.store(turn, 1 - me)?;
                    }
                }
                Ok(())
            });
        }
    })
}

#[test]
fn threads_that_wait_in_a_loop_are_told_and_saved() {
    let started = Instant::now();
    let failure = explore(0..4, |schedule| take_turns(Heap::builder().schedule(schedule), true).map(|_| ())).unwrap_err();
    let Cause::Error(Error::Spins { thread: 0, place }) = failure.cause() else { panic!("{failure}") };
    assert_eq!(place.file(), file!());
    assert!(failure.to_string().contains(&format!("thread 0 spins at {place}")), "{failure}");
    let stem = stem("spins");
    failure.save(&stem).unwrap();
    assert_eq!(Some(&Recording::load(&stem).unwrap()), failure.recording());
    assert!(started.elapsed() < Duration::from_secs(60));
}

// The first thread waits in a loop until the second one has added; the second one adds by a read and a write, as a third one does.
fn add_beside_a_loop(schedule: Schedule) -> Result<(), Error> {
    let run = Heap::builder().object("x", 0).object("done", 0).schedule(schedule).run(|threads| {
        threads.spawn(|session| {
            let done = session.object("done")?;
            while session.load(done)? < 2 {}
            Ok(())
        });
        for _ in 0..2 {
            threads.spawn(|session| {
                let (x, done) = (session.object("x")?, session.object("done")?);
                let found = session.load(x)?;
                session.store(x, found + 1)?;
                session.fetch_add(done, 1).map(|_| ())
            });
        }
    })?;
    assert_eq!(run.value("x"), Some(2), "an addition is lost");
    Ok(())
}

#[test]
fn a_failure_beside_a_loop_is_shrunk_soon_and_always_to_the_same() {
    let shrunk = || {
        let timed = |seed| {
            let started = Instant::now();
            let failure = explore([seed], add_beside_a_loop).err()?;
            Some((failure.schedule().to_string(), started.elapsed()))
        };
        (0..15).filter_map(timed).unzip::<_, _, Vec<_>, Vec<_>>()
    };
    let ((first, times), (second, other_times)) = (shrunk(), shrunk());
    assert!(first.len() > 2, "{first:?}");
    assert_eq!(second, first);
    // A busy machine may hold up one of both.
    let mut shorter = times.iter().zip(&other_times).map(|(one, other)| one.min(other));
    assert!(shorter.all(|time| *time < Duration::from_secs(3)), "{times:?} {other_times:?}");
    // None of them lets the loop go round for long.
    let longest = |text: &String| text.split(' ').filter_map(|word| word.split_once('*')?.1.parse::<usize>().ok()).max();
    assert!(first.iter().filter_map(longest).all(|most| most <= 64), "{first:?}");
}

// The first failure of a few seeds. The first thread has much to do, and the second one sleeps.
fn sleeps(how: fn(&mut Session) -> Result<(), Error>) -> Error {
    let run = |seed| {
        let heap = Heap::builder().object("x", 0).lock("m").schedule(Schedule::new(seed));
        let run = heap.patience(Duration::from_millis(50)).run(|threads| {
            threads.spawn(|session| {
                (0..20).try_for_each(|_| session.locked("m", |session| session.store(session.object("x")?, 1)))
            });
            threads.spawn(how);
        });
        run.err()
    };
    (0..20).find_map(run).expect("some seed lets the first thread wait")
}

#[test]
fn who_does_not_come_back_is_named() {
    let picked = sleeps(|session| {
        session.store(session.object("x")?, 2)?;
        thread::sleep(Duration::from_millis(300));
        session.store(session.object("x")?, 3)
    });
    let Error::NotBack { thread: 1, place: Some(place), why: Absence::Picked } = &picked else { panic!("{picked}") };
    let text = format!("thread 1 was picked at {place} and has not come back; does it wait elsewhere? use blocked");
    assert_eq!((place.file(), picked.to_string()), (file!(), text));
    let blocked =
        sleeps(|session| session.locked("m", |session| session.blocked(|| thread::sleep(Duration::from_millis(300)))));
    assert!(matches!(blocked, Error::NotBack { thread: 1, why: Absence::Blocked, .. }), "{blocked}");
}

// The first thread has the object and sleeps; the second one gives up on it. Then a third one wants what the second one has.
fn give_up(heap: Builder) -> Result<octet::Run<u64>, Error> {
    let (ready, is_ready) = mpsc::channel();
    let ((owns, is_owned), (gave_up, is_given_up)) = (mpsc::channel(), mpsc::channel());
    heap.object("x", 0).object("y", 0).patience(Duration::from_millis(400)).run(|threads| {
        threads.spawn(move |session| {
            session.blocked(|| is_ready.recv().unwrap())?;
            session.store(session.object("x")?, 1)?;
            owns.send(()).unwrap();
            // This belongs into `blocked`.
            thread::sleep(Duration::from_millis(1_600));
            session.load(session.object("x")?)
        });
        threads.spawn(move |session| {
            session.store(session.object("y")?, 7)?;
            ready.send(()).unwrap();
            session.blocked(|| is_owned.recv().unwrap())?;
            let told = session.fetch_add(session.object("x")?, 1);
            gave_up.send(()).unwrap();
            told
        });
        threads.spawn(move |session| {
            session.blocked(|| is_given_up.recv().unwrap())?;
            session.load(session.object("y")?)
        });
    })
}

#[test]
fn a_thread_that_gives_up_keeps_no_other_one_waiting_and_its_run_is_kept() {
    let stem = stem("given-up");
    let error = give_up(Heap::builder().keep_failing(&stem)).unwrap_err();
    assert!(matches!(error, Error::Patience { thread: 1 }), "{error}");
    // Its access is made after all: by the thread that gave up, or once all are stopped.
    let script = Recording::load(&stem).unwrap().script().to_string();
    let threads: Vec<_> = script.split("thread\n").skip(1).collect();
    assert!(threads[1].contains("bump x") && threads[2].contains("read r1 y"), "{script}");
}

// The test below runs itself in a process of its own.
#[test]
fn a_run_that_is_not_kept_says_why() {
    const INSIDE: &str = "OCTET_TEST_NOT_KEPT";
    if std::env::var_os(INSIDE).is_some() {
        let heap = Heap::builder().object("x", 0).keep_failing("/none/such");
        heap.run(|threads| threads.spawn(|session| session.object("y").map(|_| ()))).unwrap_err();
        return;
    }
    let mut inside = Command::new(std::env::current_exe().unwrap());
    inside.args(["--exact", "a_run_that_is_not_kept_says_why", "--nocapture"]).env(INSIDE, "");
    let told = String::from_utf8(inside.output().unwrap().stderr).unwrap();
    assert!(told.contains("octet: the run that failed is not kept: ") && told.contains("No such file"), "{told}");
}

#[test]
fn a_panic_is_told_with_its_thread_and_line() {
    let line = line!() + 4;
    let failure = explore(0..9, |schedule| {
        let heap = Heap::builder().object("x", 0).schedule(schedule);
        let check = |session: &mut Session| {
            assert_eq!(session.load(session.object("x")?)?, 1, "x is wrong");
            Ok(())
        };
        heap.run(|threads| {
            threads.spawn(|_| Ok(()));
            threads.spawn(check);
        })
        .map(|_| ())
    });
    let failure = failure.unwrap_err();
    assert_eq!((failure.thread(), failure.place().map(|place| (place.file(), place.line()))), (Some(1), Some((file!(), line))));
    assert!(failure.to_string().starts_with(&format!("seed 0: thread 1 at {}:{line}: assertion", file!())), "{failure}");
    // What a program prints that ends with it is short.
    assert!(format!("{failure:?}").len() < 400, "{failure:?}");
    assert!(format!("{:?}", failure.recording()).len() < 100);
}

#[test]
fn a_failure_prints_a_schedule_that_fails_again() {
    let failure: Box<Failure> = explore(0..100, add_beside_a_loop).unwrap_err();
    let again = Schedule::parse(&failure.schedule().to_string()).unwrap();
    assert!(std::panic::catch_unwind(|| add_beside_a_loop(again)).is_err());
}

#[test]
fn a_schedule_that_is_not_handed_on_is_an_error() {
    let failure = explore(0..300, |_| take_turns(Heap::builder(), false).map(|_| ())).unwrap_err();
    assert!(matches!(failure.cause(), Cause::Unscheduled) && failure.to_string().contains("Builder::schedule"), "{failure}");
    assert_eq!(explore(0..3, |schedule| take_turns(Heap::builder().schedule(schedule), false).map(|_| ())).unwrap(), 3);
}

#[test]
fn a_size_names_its_number_and_its_limit() {
    let many = (0..1_025).fold(Heap::builder(), |heap, number| heap.object(&format!("x{number}"), 0));
    let refused = many.run(|threads| threads.spawn(|_| Ok(()))).unwrap_err();
    assert_eq!(refused.to_string(), "1025 objects: there may be 0 to 1024");
    let none = Heap::builder().run::<()>(|_| ()).unwrap_err();
    assert_eq!(none.to_string(), "0 threads: there may be 1 to 16");
}

#[test]
fn files_that_are_something_else_are_told() {
    let (stem, marks) = (stem("other"), stem("other-marks"));
    let run = Heap::builder().run(|threads| threads.spawn(|_| Ok(()))).unwrap();
    run.save(&stem).unwrap();
    let log = stem.with_extension("log");
    let refused = Heap::builder().object("x", 0).rerun(&log).run(|threads| threads.spawn(|_| Ok(()))).unwrap_err();
    assert!(refused.to_string().ends_with("this is a log; load it by Recording::load"), "{refused}");
    let over = Heap::builder().object("x", 0).record(&log).run(|threads| threads.spawn(|_| Ok(()))).unwrap_err();
    assert!(matches!(over, Error::OtherFile { .. }), "{over}");
    assert_eq!(std::fs::read(&log).unwrap(), run.log());
    let heap = Heap::builder().object("x", 0);
    for _ in 0..2 {
        heap.clone().record(&marks).run(|threads| threads.spawn(|_| Ok(()))).unwrap();
    }
    std::fs::remove_file(&marks).unwrap();
    let missing = heap.clone().rerun(&marks).run(|threads| threads.spawn(|_| Ok(()))).unwrap_err();
    assert!(missing.to_string().contains("No such file"), "{missing}");
}

#[test]
fn what_a_program_prints_that_ends_with_a_failure_is_short() {
    let failure = explore(0..4, |schedule| take_turns(Heap::builder().schedule(schedule), true).map(|_| ())).unwrap_err();
    let recording = failure.recording().expect("its run is kept");
    assert!(recording.script().len() > 1_000, "there would be more to print");
    let (printed, its) = (format!("{failure:?}"), format!("{recording:?}"));
    assert!(printed.len() < 300 && its.len() < 100, "{printed}\n{its}");
}

#[test]
fn threads_have_names() {
    let run = Heap::builder().object("x", 0).run(|threads| {
        for _ in 0..2 {
            threads.spawn(|_| Ok::<_, Error>(thread::current().name().map(str::to_string)));
        }
    });
    let names = run.unwrap().into_values();
    assert_eq!(names, [Some("octet 0".to_string()), Some("octet 1".to_string())]);
}
