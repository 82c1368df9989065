//! Runs of any length, recorded by their marks alone and run again.
// The numbers are small.
#![allow(clippy::cast_possible_truncation)]

use octet::{Builder, Error, Heap, LongRun, Session, Threads, explore, last};
use std::fs;
use std::path::{Path, PathBuf};
use std::sync::atomic::{AtomicBool, AtomicU64, Ordering};
use std::thread;
use std::time::Duration;

/// A file that is gone with it.
struct Kept(PathBuf);

impl Kept {
    fn new(name: &str) -> Kept {
        Kept(std::env::temp_dir().join(format!("octet-{name}-{}.octm", std::process::id())))
    }
}

impl AsRef<Path> for Kept {
    fn as_ref(&self) -> &Path {
        &self.0
    }
}

impl Drop for Kept {
    fn drop(&mut self) {
        let _ = fs::remove_file(&self.0);
        let _ = fs::remove_file(self.0.with_extension("octm.checks"));
    }
}

const THREADS: u64 = 3;
const ROUNDS: u64 = 40_000;

fn heap() -> Builder {
    (0..THREADS).fold(Heap::builder().object("shared", 1), |heap, thread| heap.object(&format!("own{thread}"), thread))
}

// What the thread was told decides what it does next. Its accesses are counted.
fn walk_counted(session: &mut Session, every: u64, made: &AtomicU64) -> Result<u64, Error> {
    let (shared, own) = (session.object("shared")?, session.object(&format!("own{}", session.number()))?);
    let mut told = session.number() as u64;
    for round in 0..ROUNDS {
        let object = if (told.wrapping_add(round)) % every == 0 { shared } else { own };
        told = told.wrapping_mul(31).wrapping_add(session.fetch_add(object, told | 1)?);
        made.fetch_add(1, Ordering::Relaxed);
    }
    Ok(told)
}

fn walk(session: &mut Session, every: u64) -> Result<u64, Error> {
    walk_counted(session, every, &AtomicU64::new(0))
}

fn walks(every: u64) -> impl FnOnce(&mut Threads<'_, u64, Error>) {
    move |threads| (0..THREADS).for_each(|_| threads.spawn(move |session| walk(session, every)))
}

fn last_values<T>(run: &LongRun<T>) -> Vec<Option<u64>> {
    ["shared", "own0", "own1", "own2", "no such"].map(|name| run.value(name)).to_vec()
}

#[test]
fn a_run_of_any_length_is_repeated() {
    let file = Kept::new("long");
    for every in [1, 10, 1_000] {
        for _ in 0..3 {
            let first = heap().record(file.as_ref()).run(walks(every)).unwrap();
            let second = heap().rerun(file.as_ref()).run(walks(every)).unwrap();
            assert!(first.is_whole() && second.is_whole());
            assert_eq!(second.values(), first.values());
            assert_eq!(last_values(&second), last_values(&first));
        }
    }
}

// The first thread has the object, and then makes accesses of another one until the second thread has it.
fn work_on<'a>(taken: &'a AtomicBool, given: &'a AtomicBool, threads: &mut Threads<'a, (), Error>) {
    threads.spawn(|session| {
        let (shared, own) = (session.object("shared")?, session.object("own0")?);
        session.store(shared, 2)?;
        taken.store(true, Ordering::Release);
        while !given.load(Ordering::Acquire) {
            (0..1_000).try_for_each(|_| session.fetch_add(own, 1).map(|_| ()))?;
            // A script has no room for many more.
            thread::sleep(Duration::from_millis(1));
        }
        Ok(())
    });
    threads.spawn(|session| {
        session.blocked(|| {
            while !taken.load(Ordering::Acquire) {
                thread::yield_now();
            }
        })?;
        assert_eq!(session.load(session.object("shared")?)?, 2);
        given.store(true, Ordering::Release);
        Ok(())
    });
}

#[test]
fn a_thread_that_is_at_work_on_its_own_answers_the_others() {
    let file = Kept::new("answers");
    let (taken, given) = (AtomicBool::new(false), AtomicBool::new(false));
    heap().run(|threads| work_on(&taken, &given, threads)).unwrap();
    let (taken, given) = (AtomicBool::new(false), AtomicBool::new(false));
    heap().record(file.as_ref()).run(|threads| work_on(&taken, &given, threads)).unwrap();
}

// A window knows the names of its objects, and where each access stands.
#[test]
fn a_window_has_names_and_lines() {
    let file = Kept::new("lines");
    let threads = |threads: &mut Threads<'_, (), Error>| {
        for _ in 0..2 {
            threads.spawn(|session| {
                let (first, second) = (session.object("first")?, session.object("second")?);
                for _ in 0..200 {
                    session.fetch_add(first, 1)?;
                    session.fetch_add(second, 1)?;
                }
                Ok(())
            });
        }
    };
    let line = line!() - 7;
    let heap = Heap::builder().object("first", 0).object("unused", 0).object("second", 0);
    heap.clone().record(file.as_ref()).run(threads).unwrap();
    let window = heap.rerun(file.as_ref()).window(50).run(threads).unwrap();
    let (script, stem) = (window.script(), file.as_ref().with_extension("last"));
    window.save(&stem).unwrap();
    let loaded = octet::Recording::load(&stem).unwrap();
    let mut lines = 0;
    for (thread, text) in script.split("thread\n").skip(1).enumerate() {
        let names = text.lines().filter_map(|line| line.strip_prefix("bump ")?.split(' ').next());
        for (access, name) in names.enumerate() {
            let place = loaded.place(thread, access).expect("each access has a line");
            assert_eq!((place.file(), place.line()), (file!(), line + u32::from(name == "second")), "{script}");
            lines += 1;
        }
        assert_eq!(loaded.place(thread, text.matches("bump ").count()), None);
    }
    assert!((50..=100).contains(&lines), "{lines}");
}

// How many accesses each thread of a script makes.
fn accesses_of(script: &str) -> Vec<usize> {
    let updates = |thread: &str| thread.lines().filter(|line| line.starts_with("update ") || line.starts_with("bump ")).count();
    script.split("thread\n").skip(1).map(updates).collect()
}

#[test]
fn the_last_accesses_are_a_recording() {
    let (file, cut) = (Kept::new("last"), Kept::new("last-cut"));
    for every in [1, 10, 1_000] {
        heap().record(file.as_ref()).run(walks(every)).unwrap();
        let walks = |threads: &mut Threads<'_, u64, Error>| walks(every)(threads);
        let window = heap().rerun(file.as_ref()).window(last(100)).run(walks).unwrap();
        let made = accesses_of(window.script());
        assert!(made.len() == THREADS as usize && made.iter().all(|&many| many <= 100), "{made:?}");
        // One of the threads at least has all that were wanted.
        assert!(made.contains(&100), "{made:?}");
        assert_eq!(heap().rerun(file.as_ref()).window(last(100)).run(walks).unwrap(), window);
        let content = fs::read(file.as_ref()).unwrap();
        fs::write(cut.as_ref(), &content[..content.len() / 2]).unwrap();
        assert!(heap().rerun(cut.as_ref()).window(last(10)).run(walks).unwrap().script().starts_with("fuel "));
    }
    let none = heap().rerun(file.as_ref()).window(last(0)).run(|threads| walks(1)(threads));
    assert!(matches!(none, Err(Error::BadSize { .. })), "{none:?}");
    let many = heap().rerun(file.as_ref()).window(last(60_000)).run(|threads| walks(1_000)(threads));
    assert!(matches!(many, Err(Error::TooLong)), "{many:?}");
}

#[test]
fn a_file_that_is_cut_is_followed_as_far_as_it_goes() {
    let (file, cut) = (Kept::new("whole"), Kept::new("cut"));
    let first = heap().record(file.as_ref()).run(walks(10)).unwrap();
    let content = fs::read(file.as_ref()).unwrap();
    let mut before = [0; THREADS as usize];
    for part in [0, 1, 2, 5, 9, 10] {
        fs::write(cut.as_ref(), &content[..content.len() * part / 10]).unwrap();
        let made = [const { AtomicU64::new(0) }; THREADS as usize];
        let second = heap().rerun(cut.as_ref()).run(|threads| {
            for made in &made {
                threads.spawn(|session| walk_counted(session, 10, made));
            }
        });
        let second = second.unwrap();
        assert_eq!(second.is_whole(), part == 10);
        for (second, first) in second.values().iter().zip(first.values()) {
            assert!(second.is_none() || second == first);
        }
        // Nothing of the file, nothing is made. Of more of it no thread makes less.
        let made = made.map(AtomicU64::into_inner);
        assert!(part > 0 || made == [0; THREADS as usize]);
        assert!(before.iter().zip(&made).all(|(before, made)| before <= made), "{before:?} {made:?}");
        before = made;
    }
    assert_eq!(before, [ROUNDS; THREADS as usize]);
}

#[test]
fn threads_of_the_program_are_told_where_their_recording_ends() {
    let file = Kept::new("built");
    heap().record(file.as_ref()).run(walks(10)).unwrap();
    let content = fs::read(file.as_ref()).unwrap();
    fs::write(file.as_ref(), &content[..content.len() / 2]).unwrap();
    let (heap, mut sessions) = heap().threads(THREADS as usize).rerun(file.as_ref()).build().unwrap();
    let ended: Vec<_> = thread::scope(|scope| {
        let walking = sessions.iter_mut().map(|session| scope.spawn(|| session.running(|session| walk(session, 10))));
        let walking: Vec<_> = walking.collect();
        walking.into_iter().map(|thread| thread.join().unwrap()).collect()
    });
    assert!(ended.iter().all(|end| matches!(end, Ok(_) | Err(Error::RecordingEnds { .. }))), "{ended:?}");
    // They may be given back in any order.
    sessions.reverse();
    let run = heap.finish(sessions).unwrap();
    let are_whole: Vec<_> = run.values().iter().map(Option::is_some).collect();
    assert_eq!(are_whole, ended.iter().map(Result::is_ok).collect::<Vec<_>>());
    assert!(!run.is_whole() && run.value("shared").is_some());
}

#[test]
fn what_is_no_file_of_this_run_is_refused() {
    let file = Kept::new("refused");
    let absent = heap().rerun(file.as_ref()).run(walks(10)).unwrap_err();
    assert!(matches!(&absent, Error::File { path, .. } if path == file.as_ref()), "{absent}");
    heap().record(file.as_ref()).run(walks(10)).unwrap();
    let other_object = Heap::builder().object("other", 0).rerun(file.as_ref()).run(walks(10)).unwrap_err();
    assert!(matches!(other_object, Error::OtherRecording), "{other_object}");
    let fewer_threads = heap().rerun(file.as_ref()).run(|threads| threads.spawn(|session| walk(session, 10))).unwrap_err();
    assert!(matches!(fewer_threads, Error::OtherRecording), "{fewer_threads}");
    let mut content = fs::read(file.as_ref()).unwrap();
    let place = content.len() / 2;
    content[place] ^= 1;
    fs::write(file.as_ref(), &content).unwrap();
    let damaged = heap().rerun(file.as_ref()).run(walks(10)).unwrap_err();
    assert!(matches!(&damaged, Error::BadMarks { place: found, .. } if (1..=place as u64).contains(found)), "{damaged}");
}

#[test]
fn another_program_diverges() {
    let file = Kept::new("another");
    heap().record(file.as_ref()).run(walks(10)).unwrap();
    let other = heap().rerun(file.as_ref()).run(walks(11)).unwrap_err();
    assert!(matches!(other, Error::Diverged { .. }), "{other}");
}

// One access of the second thread is another one. All others follow from what they were told.
fn with_one_change(heap: octet::LongBuilder, every: u64, changed: Option<u64>) -> Result<LongRun<u64>, Error> {
    heap.run(|threads| {
        for thread in 0..THREADS {
            threads.spawn(move |session| {
                let (shared, own) = (session.object("shared")?, session.object(&format!("own{thread}"))?);
                let mut told = thread;
                for round in 0..ROUNDS {
                    let object = if round % every == 0 { shared } else { own };
                    let added = if thread == 1 && changed == Some(round) { 77 } else { told | 1 };
                    told = told.wrapping_mul(31).wrapping_add(session.fetch_add(object, added)?);
                }
                Ok(told)
            });
        }
    })
}

#[test]
fn the_thread_that_has_left_first_is_told() {
    let file = Kept::new("first");
    for every in [1, 3, 50, 1_000] {
        let first = with_one_change(heap().record(file.as_ref()), every, None).unwrap();
        let same = with_one_change(heap().rerun(file.as_ref()), every, None).unwrap();
        assert_eq!(same.values(), first.values());
        let other = with_one_change(heap().rerun(file.as_ref()), every, Some(100)).unwrap_err();
        let Error::Diverged { thread: 1, accesses, place: Some(place) } = &other else { panic!("every {every}: {other}") };
        assert!((101..=165).contains(accesses) && place.file() == file!(), "every {every}: {other}");
    }
    // Without the checks it is told by marks alone.
    fs::remove_file(file.as_ref().with_extension("octm.checks")).unwrap();
    let other = with_one_change(heap().rerun(file.as_ref()), 1_000, Some(100)).unwrap_err();
    assert!(matches!(other, Error::Diverged { .. }), "{other}");
}

fn deposit(session: &mut Session) -> Result<(), Error> {
    for _ in 0..1_000 {
        session.locked("account", |session| {
            let balance = session.object("balance")?;
            let found = session.load(balance)?;
            session.store(balance, found + 1)
        })?;
    }
    Ok(())
}

#[test]
fn locks_are_recorded_too() {
    let file = Kept::new("locks");
    let bank = Heap::builder().object("balance", 0).lock("account");
    let threads = |threads: &mut Threads<'_, (), Error>| (0..4).for_each(|_| threads.spawn(deposit));
    for heap in [bank.clone().record(file.as_ref()), bank.rerun(file.as_ref())] {
        assert_eq!(heap.run(threads).unwrap().value("balance"), Some(4_000));
    }
}

// What each thread received, or sent.
fn hand_over(threads: &mut Threads<'_, Vec<u64>, Error>) {
    for first in [0, 10_000] {
        threads.spawn(move |session| {
            session.arrive("start")?;
            (first..first + 500).try_for_each(|number| session.send("numbers", number).map(|_| ()))?;
            if session.arrive("end")? {
                session.close("numbers")?;
            }
            Ok(Vec::new())
        });
    }
    for _ in 0..2 {
        threads.spawn(|session| {
            let mut all = Vec::new();
            session.arrive("start")?;
            while let Some(number) = session.receive("numbers")? {
                all.push(number);
            }
            Ok(all)
        });
    }
}

#[test]
fn barriers_and_channels_are_recorded_too() {
    let file = Kept::new("meeting");
    let heap = Heap::builder().barrier("start", 4).barrier("end", 2).channel("numbers", 3);
    let first = heap.clone().record(file.as_ref()).run(hand_over).unwrap();
    let mut all = first.values().iter().flatten().flatten().copied().collect::<Vec<_>>();
    all.sort_unstable();
    assert!(all.into_iter().eq((0..500).chain(10_000..10_500)));
    for _ in 0..3 {
        assert_eq!(heap.clone().rerun(file.as_ref()).run(hand_over).unwrap().values(), first.values());
    }
}

#[test]
fn the_file_of_an_exploration_is_of_the_failure_that_is_told() {
    let file = Kept::new("explored");
    let add = |threads: &mut Threads<'_, (), Error>| {
        for _ in 0..2 {
            threads.spawn(|session| {
                let x = session.object("x")?;
                let found = session.load(x)?;
                session.store(x, found + 1)
            });
        }
    };
    let heap = Heap::builder().object("x", 0);
    let failures = (0..20).filter_map(|seed| {
        let program = |schedule| {
            let run = heap.clone().schedule(schedule).record(file.as_ref()).run(add)?;
            assert_eq!(run.value("x"), Some(2));
            Ok(())
        };
        explore([seed], program).err().inspect(|failure| {
            assert_eq!((failure.preemptions(), failure.recording()), (1, None));
            assert_eq!(heap.clone().rerun(file.as_ref()).run(add).unwrap().value("x"), Some(1));
        })
    });
    assert!(failures.count() > 3);
}

#[test]
fn a_thread_that_panics_ends_its_recording_there() {
    let file = Kept::new("panics");
    let counting = |stops_at: u64| {
        move |threads: &mut Threads<'_, (), Error>| {
            threads.spawn(move |session| {
                let x = session.object("x")?;
                for made in 0..1_000 {
                    assert_ne!(made, stops_at);
                    session.fetch_add(x, 1)?;
                }
                Ok(())
            });
        }
    };
    let heap = Heap::builder().object("x", 0);
    let recorded = std::panic::catch_unwind(|| heap.clone().record(file.as_ref()).run(counting(700)));
    assert!(recorded.is_err());
    // Its end is recorded as well: one that goes on has left its recording.
    let on = heap.rerun(file.as_ref()).run(counting(1_000)).unwrap_err();
    assert!(matches!(on, Error::Diverged { thread: 0, accesses: 700, .. }), "{on}");
}
