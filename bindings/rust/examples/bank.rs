//! Two threads pay into one account, each by a read and a write. Where the other one pays in between, a payment is lost.
//! Schedules are tried until one loses a payment. Its run is saved as `bank.octet` and `bank.log`, or under the stem that is
//! named, and the same program is run again by it.
use octet::{Builder, Error, Heap, Recording, Run, Session, explore};
use std::{env, error, panic};

fn pay(session: &mut Session, amount: u64) -> Result<(), Error> {
    let balance = session.object("balance")?;
    session.region()?;
    let found = session.load(balance)?;
    session.store(balance, found + amount)
}

fn run(bank: Builder) -> Result<Run<()>, Error> {
    bank.run(|threads| {
        threads.spawn(|session| pay(session, 30));
        threads.spawn(|session| pay(session, 50));
    })
}

fn bank() -> Builder {
    Heap::builder().object("balance", 100)
}

fn main() -> Result<(), Box<dyn error::Error>> {
    let stem = env::args().nth(1).unwrap_or("bank".to_string());
    // A failure is told below.
    panic::set_hook(Box::new(|_| ()));
    let found = explore(0..1000, |schedule| {
        assert_eq!(run(bank().schedule(schedule))?.value("balance"), Some(180));
        Ok(())
    });
    let failure = found.err().ok_or("no schedule loses a payment")?;
    let lost = failure.recording().and_then(|run| run.value("balance")).ok_or("no run is kept")?;
    println!("seed {}: balance {lost} of 180", failure.seed());
    failure.save(&stem)?;
    let again = run(bank().rerun(&Recording::load(&stem)?))?;
    println!("again: balance {} of 180", again.value("balance").ok_or("no balance")?);
    Ok(())
}

#[test]
fn a_payment_is_lost_and_lost_again() {
    let found = explore(0..1000, |schedule| {
        assert_eq!(run(bank().schedule(schedule))?.value("balance"), Some(180));
        Ok(())
    });
    let failure = found.unwrap_err();
    assert_eq!(failure.preemptions(), 1);
    let lost = failure.recording().unwrap();
    assert!(matches!(lost.value("balance"), Some(130 | 150)));
    for _ in 0..5 {
        assert_eq!(run(bank().rerun(lost)).unwrap().value("balance"), lost.value("balance"));
    }
}
