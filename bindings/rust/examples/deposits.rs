//! Two threads pay into one account, over an atomic of the standard library, but for the names of its `use` lines. Schedules are
//! tried until a payment is lost. The run is saved as `deposits.octet` and `deposits.log`, or under the stem that is named, and
//! the same program is run again by it.
use octet::sync::Arc;
use octet::sync::atomic::{AtomicU64, Ordering::SeqCst};
use octet::{program, thread};
use std::panic::{self, catch_unwind};
use std::{env, error};

fn deposits() {
    let balance = Arc::new(AtomicU64::new(100));
    let payers = [30, 50].map(|amount| {
        let balance = Arc::clone(&balance);
        thread::spawn(move || {
            let found = balance.load(SeqCst);
            balance.store(found + amount, SeqCst);
        })
    });
    payers.into_iter().for_each(|payer| payer.join().unwrap());
    assert_eq!(balance.load(SeqCst), 180);
}

fn main() -> Result<(), Box<dyn error::Error>> {
    let stem = env::args().nth(1).unwrap_or("deposits".to_string());
    // A failure is told below.
    panic::set_hook(Box::new(|_| ()));
    let found = program::explore(0..1000, deposits).err().ok_or("no schedule loses a payment")?;
    println!("{found}");
    found.save(&stem)?;
    let again = catch_unwind(|| program::replay(&stem, deposits));
    println!("again: {}", if again.is_err() { "lost" } else { "not lost" });
    Ok(())
}

#[test]
fn a_payment_is_lost_and_lost_again() {
    let found = program::explore(0..1000, deposits).unwrap_err();
    assert_eq!(found.preemptions(), 1);
}
