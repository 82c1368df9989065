//! Runs of threads that race as the machine has it: `stress RUNS FOLDER OCTET`. Each is recorded, verified and replayed by the
//! program `octet`, and run again. Says how many were wrong.
// The numbers are small.
#![allow(clippy::cast_possible_truncation)]

use octet::{Builder, Error, Heap, Run, Session};
use std::fmt::Write;
use std::path::Path;
use std::process::Command;
use std::{env, error};

const OBJECTS: [&str; 3] = ["x", "y", "z"];
const ROUNDS: u64 = 24;

fn heap() -> Builder {
    OBJECTS.iter().fold(Heap::builder(), |heap, name| heap.object(name, 1)).lock("lock").accesses(4 * ROUNDS as u32)
}

// What the thread has read, as `octet replay` says it: an update reads nothing there.
fn work(session: &mut Session, seed: u64) -> Result<Vec<u64>, Error> {
    let mut state = seed * 16 + session.number() as u64;
    let mut read = Vec::new();
    for round in 0..ROUNDS {
        state = state.wrapping_mul(0x5851_f42d_4c95_7f2d).wrapping_add(0x1405_7b7e_f767_814f);
        let object = session.object(OBJECTS[(state >> 60) as usize % 3])?;
        match (state >> 40) % 8 {
            0..=2 => {
                read.push(session.load(object)?);
                state ^= read[read.len() - 1];
            }
            3 | 4 => session.store(object, state)?,
            5 => state ^= session.fetch_add(object, round)?,
            6 => state ^= session.compare_exchange(object, 1, state)?.unwrap_or_else(|found| found),
            _ => session.locked("lock", |session| session.store(object, round))?,
        }
        if state % 5 == 0 {
            session.region()?;
        }
        if state % 7 == 0 {
            session.safe_point()?;
        }
    }
    Ok(read)
}

fn run(heap: Builder, seed: u64) -> Result<Run<Vec<u64>>, Error> {
    heap.run(|threads| {
        for _ in 0..2 + seed % 3 {
            threads.spawn(move |session| work(session, seed));
        }
    })
}

fn said(octet: &Path, command: &str, stem: &Path) -> Result<String, Box<dyn error::Error>> {
    let [script, log] = ["octet", "log"].map(|ending| stem.with_extension(ending));
    let done = Command::new(octet).arg(command).args([script, log]).output()?;
    Ok(String::from_utf8(done.stdout)?)
}

// What `octet replay` owes.
fn outcome_of(run: &Run<Vec<u64>>) -> Result<String, Box<dyn error::Error>> {
    let mut text = String::new();
    for (thread, read) in run.values().iter().enumerate() {
        write!(text, "thread {thread} done")?;
        read.iter().try_for_each(|value| write!(text, " {value}"))?;
        text.push('\n');
    }
    for name in OBJECTS.iter().chain(&["lock"]) {
        writeln!(text, "object {name} {}", run.value(name).ok_or("an object has no value")?)?;
    }
    Ok(text)
}

fn is_right(seed: u64, stem: &Path, octet: &Path) -> Result<bool, Box<dyn error::Error>> {
    let first = run(heap(), seed)?;
    first.save(stem)?;
    let replayed = said(octet, "replay", stem)? == outcome_of(&first)?;
    let ordered = said(octet, "verify", stem)? == "ordered\n";
    let second = run(heap().rerun(&first), seed)?;
    Ok(replayed && ordered && second.recording() == first.recording() && second.values() == first.values())
}

fn main() -> Result<(), Box<dyn error::Error>> {
    let words: Vec<String> = env::args().skip(1).collect();
    let [runs, folder, octet] = words.as_slice() else { return Err("stress RUNS FOLDER OCTET".into()) };
    let runs: u64 = runs.parse()?;
    let mut wrong = 0;
    for seed in 0..runs {
        if !is_right(seed, &Path::new(folder).join("race"), Path::new(octet))? {
            println!("run {seed} is wrong");
            wrong += 1;
        }
    }
    println!("{runs} runs, {wrong} wrong");
    if wrong == 0 { Ok(()) } else { Err("a run is wrong".into()) }
}
