//! Four threads pay from account to account, half a million times each, mostly between accounts of their own. The run is recorded by its
//! marks alone, and run again by them, and its last accesses become a script that `octet` reads. Then the file is cut, as if the
//! program had been killed, and followed as far as it goes.
// The numbers are small.
#![allow(clippy::cast_possible_truncation)]

use octet::{Builder, Error, Heap, LongRun, Session, Threads, last};
use std::{env, error, fs};

const THREADS: u64 = 4;
// So many accounts each owner has.
const OWN: u64 = 4;
const PAYMENTS: u64 = 500_000;

fn name(account: u64) -> String {
    format!("account{account}")
}

// Each payment follows from what the thread was told.
fn pay_on(session: &mut Session) -> Result<u64, Error> {
    let accounts = (0..THREADS * OWN).map(|account| session.object(&name(account))).collect::<Result<Vec<_>, _>>()?;
    let mine = session.number() as u64;
    let mut told = mine;
    for payment in 0..PAYMENTS {
        let number = told.wrapping_add(payment).wrapping_mul(0x9E37_79B9_7F4A_7C15) >> 32;
        // One payment in a thousand goes to another owner.
        let owner = if number % 1_000 == 0 { number / 1_000 % THREADS } else { mine };
        let (from, to) = (mine * OWN + number % OWN, owner * OWN + (number + 1) % OWN);
        told = told.wrapping_mul(31).wrapping_add(session.fetch_sub(accounts[from as usize], 1)?);
        session.fetch_add(accounts[to as usize], 1)?;
    }
    Ok(told)
}

fn threads(threads: &mut Threads<'_, u64, Error>) {
    (0..THREADS).for_each(|_| threads.spawn(pay_on));
}

fn bank() -> Builder {
    (0..THREADS * OWN).fold(Heap::builder(), |heap, account| heap.object(&name(account), 1_000_000))
}

fn total(run: &LongRun<u64>) -> u64 {
    (0..THREADS * OWN).filter_map(|account| run.value(&name(account))).sum()
}

fn main() -> Result<(), Box<dyn error::Error>> {
    let file = env::args().nth(1).unwrap_or("bank.octm".to_string());
    let stem = format!("{file}.last");
    let first = bank().record(&file).run(threads)?;
    let second = bank().rerun(&file).run(threads)?;
    assert_eq!(second.values(), first.values());
    bank().rerun(&file).window(last(1_000)).run(threads)?.save(&stem)?;
    println!("recorded, and run again: total {}, {} KiB of marks", total(&second), fs::metadata(&file)?.len() / 1024);
    println!("the last accesses of each thread: {stem}.octet and {stem}.log");
    let marks = fs::read(&file)?;
    fs::write(&file, &marks[..marks.len() / 2])?;
    let cut = bank().rerun(&file).run(threads)?;
    println!("cut in half: {} of {THREADS} threads have come to their end", cut.values().iter().flatten().count());
    Ok(())
}

#[test]
fn a_long_run_is_repeated() {
    let file = env::temp_dir().join(format!("octet-bank-{}.octm", std::process::id()));
    let first = bank().record(&file).run(threads).unwrap();
    let second = bank().rerun(&file).run(threads).unwrap();
    assert_eq!(second.values(), first.values());
    assert_eq!((total(&first), total(&second)), (16_000_000, 16_000_000));
    let window = bank().rerun(&file).window(last(1_000)).run(threads).unwrap();
    assert_eq!(window.script().lines().filter(|line| *line == "thread").count(), 4);
    fs::remove_file(&file).unwrap();
}
