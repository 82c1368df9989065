//! A program that is killed while it is recorded leaves what its threads have handed on, and is run again as far as that goes.
use crate::{scratch, small};
use octet::sync::atomic::{AtomicU64, Ordering::SeqCst};
use octet::{Error, thread, time};
use std::collections::HashMap;
use std::io::{BufRead, BufReader};
use std::process::{Command, Stdio};
use std::sync::Mutex;

const FILE: &str = "OCTET_TEST_KILLED";

type Seen = ((u64, u64), (u64, u128));

/// What the threads have seen: who in which round, and what.
static SEEN: Mutex<Vec<Seen>> = Mutex::new(Vec::new());

// It never ends. What it sees depends on who comes first, on the clock, and on numbers of objects that come and go.
fn endless(tell: impl Fn(Seen) + Copy + Send + Sync + 'static) {
    let (total, begun) = (AtomicU64::new(0), time::Instant::now());
    thread::scope(|scope| {
        for number in 1..3 {
            let total = &total;
            scope.spawn(move || {
                for round in 0.. {
                    let fresh = AtomicU64::new(round);
                    // What a thread has handed on is whole blocks, of up to 65,536 accesses.
                    for more in 0..100 {
                        fresh.fetch_add(more, SeqCst);
                    }
                    let before = total.fetch_add(fresh.load(SeqCst) * number, SeqCst);
                    tell(((number, round), (before, begun.elapsed().as_micros())));
                }
            });
        }
    });
}

// The lines of a process that records it, which is killed after so many.
fn recorded_and_killed(file: &std::path::Path, most: usize) -> HashMap<(u64, u64), (u64, u128)> {
    let mut command = Command::new(std::env::current_exe().unwrap());
    command.args(["--exact", "killed::it_is_run_again_as_far_as_its_files_go", "--nocapture"]);
    let mut child = command.env(FILE, file).stdout(Stdio::piped()).spawn().unwrap();
    let mut seen = HashMap::new();
    for line in BufReader::new(child.stdout.take().unwrap()).lines() {
        let words: Vec<u128> = line.unwrap().split(' ').filter_map(|word| word.parse().ok()).collect();
        if let [number, round, before, at] = words[..] {
            let word = |word| u64::try_from(word).unwrap();
            seen.insert((word(number), word(round)), (word(before), at));
        }
        if seen.len() == most {
            child.kill().unwrap();
        }
    }
    child.wait().unwrap();
    seen
}

#[test]
fn it_is_run_again_as_far_as_its_files_go() {
    if let Some(file) = std::env::var_os(FILE) {
        let tell = |((number, round), (before, at)): Seen| println!("{number} {round} {before} {at}");
        small().record(file, move || endless(tell)).unwrap();
        return;
    }
    let file = scratch("killed");
    let first = recorded_and_killed(&file, 8_000);
    let again = small().rerun(&file, || endless(|seen| SEEN.lock().unwrap().push(seen)));
    assert!(matches!(again, Err(Error::RecordingEnds { .. })), "{again:?}");
    let seen = SEEN.lock().unwrap();
    // What a thread saw last it may not have told any more.
    let told: Vec<_> = seen.iter().filter_map(|(at, seen)| Some((at, first.get(at)?, seen))).collect();
    assert!(told.iter().all(|(_, first, again)| first == again), "{told:?}");
    println!("{} of {} rounds again", told.len(), first.len());
    assert!(told.len() > 1_000, "{} of {} rounds again", told.len(), first.len());
}
