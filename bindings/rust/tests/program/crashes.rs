//! A crash of explored code tells its seed.
use octet::sync::Arc;
use octet::sync::atomic::{AtomicU64, Ordering::SeqCst};
use octet::{program, thread};
use std::os::unix::process::ExitStatusExt;
use std::process::{Command, Output};

const WHAT: &str = "OCTET_TEST_CRASH";

// By some schedules the second thread comes between, and then the process ends like this.
fn crashes(what: &str) {
    let x = Arc::new(AtomicU64::new(0));
    let other = Arc::clone(&x);
    let thread = thread::spawn(move || other.store(1, SeqCst));
    let (first, second) = (x.load(SeqCst), x.load(SeqCst));
    if first != second {
        match what {
            // SAFETY: none; it is to crash.
            "SIGSEGV" => unsafe { std::ptr::without_provenance_mut::<u64>(8).write_volatile(1) },
            "SIGABRT" => std::process::abort(),
            _ => std::process::exit(3),
        }
    }
    thread.join().unwrap();
}

// The test below runs itself in processes of its own.
fn in_process(what: &str) -> Output {
    let here = std::env::current_exe().unwrap();
    let mut command = Command::new(here);
    command.args(["--exact", "crashes::the_seed_of_a_crash_is_told", "--nocapture"]).env(WHAT, what);
    command.output().unwrap()
}

fn seed_in(told: &str, what: &str) -> u64 {
    let line = told.lines().find(|line| line.starts_with("octet: ")).unwrap_or_else(|| panic!("no seed in {told}"));
    let begin = format!("octet: {what} in thread 0 by the schedule of seed ");
    let rest = line.strip_prefix(&begin).unwrap_or_else(|| panic!("{line}"));
    let (seed, place) = rest.split_once(", after tests/program/crashes.rs:").unwrap_or_else(|| panic!("{line}"));
    assert!(place.ends_with(&format!(": explore([{seed}], ..) comes there again")), "{line}");
    seed.parse().unwrap()
}

#[test]
fn the_seed_of_a_crash_is_told() {
    if let Ok(what) = std::env::var(WHAT) {
        let (what, seeds) = what.split_once(' ').map_or((what.as_str(), None), |(what, seed)| (what, seed.parse().ok()));
        let seeds: Vec<u64> = seeds.map_or((0..1000).collect(), |seed| vec![seed]);
        let what = what.to_string();
        let _ = program::explore(seeds, move || crashes(&what));
        return;
    }
    for (what, told) in [("SIGSEGV", "SIGSEGV"), ("SIGABRT", "SIGABRT"), ("exit", "the process exits")] {
        let first = in_process(what);
        let signals = [("SIGSEGV", 11), ("SIGABRT", 6)];
        let signal = signals.iter().find(|(its, _)| *its == what).map(|(_, signal)| *signal);
        assert_eq!((first.status.signal(), first.status.code()), (signal, signal.is_none().then_some(3)), "{what}");
        let seed = seed_in(&String::from_utf8_lossy(&first.stderr), told);
        let again = in_process(&format!("{what} {seed}"));
        assert_eq!(seed_in(&String::from_utf8_lossy(&again.stderr), told), seed);
    }
}
