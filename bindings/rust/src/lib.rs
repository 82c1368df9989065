//! Threads of a Rust program make their accesses on Octet's proved heap: objects of 64 bits that they share. Each run becomes a
//! recording, which `octet` reads, and the same program can be run again by it.
//!
//! ```
//! use octet::{Builder, Error, Heap, Run, Session, explore};
//!
//! fn pay(session: &mut Session, amount: u64) -> Result<(), Error> {
//!     let balance = session.object("balance")?;
//!     session.region()?;
//!     let found = session.load(balance)?;
//!     session.store(balance, found + amount)
//! }
//!
//! fn run(bank: Builder) -> Result<Run<()>, Error> {
//!     bank.run(|threads| {
//!         threads.spawn(|session| pay(session, 30));
//!         threads.spawn(|session| pay(session, 50));
//!     })
//! }
//!
//! # std::env::set_current_dir(std::env::temp_dir()).expect("there is such a folder");
//! let bank = Heap::builder().object("balance", 100);
//! let failure = explore(0..1000, |schedule| {
//!     assert_eq!(run(bank.clone().schedule(schedule))?.value("balance"), Some(180));
//!     Ok(())
//! })
//! .expect_err("some schedule loses a payment");
//! failure.save("bank")?; // for `octet regions bank.octet bank.log`, and the other commands
//! let lost = failure.recording().expect("its run has ended");
//! let again = run(bank.rerun(lost))?;
//! assert_eq!(again.value("balance"), lost.value("balance"));
//! # Ok::<(), Error>(())
//! ```
//!
//! A run is repeated as far as its accesses decide what its threads do. Clocks, files and other locks are not recorded.
//!
//! All accesses of a [`Session`] are sequentially consistent. So a mistake that only a weaker order of memory shows, as a missing
//! `Acquire` or `Release`, is not found there. `loom` and `ThreadSanitizer` look for those, and [`program`] finds the data races that
//! they leave.
#![deny(missing_debug_implementations, missing_docs, unsafe_code)]

mod bells;
#[allow(unsafe_code)]
pub mod cell;
mod checks;
mod error;
mod explore;
mod given_up;
mod heap;
pub mod hint;
mod long;
mod marks_file;
mod place;
#[allow(unsafe_code)]
pub mod program;
mod quiet;
#[allow(unsafe_code)]
mod raw;
mod recording;
mod rerun;
mod run;
mod schedule;
mod session;
mod sha256;
mod shared;
mod shrink;
#[allow(unsafe_code)]
pub mod sync;
#[allow(unsafe_code)]
pub mod thread;
pub mod time;
mod turns;
mod waits;
mod window;

pub use error::{Absence, Error, Wait};
pub use explore::{Cause, Failure, Tried, explore, explore_all, try_explore, try_explore_all};
pub use heap::{Builder, Heap, Threads};
pub use long::{LongBuilder, LongHeap, LongRun};
pub use place::Place;
pub use program::{Found, Program, Race, Touch, model};
pub use recording::Recording;
pub use rerun::Rerun;
pub use run::Run;
pub use schedule::Schedule;
pub use session::{Object, Session};
pub use std::thread_local;
pub use window::{Last, Window, last};
