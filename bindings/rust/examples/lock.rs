//! A lock made of a flag: by a read and a write, which two threads may both make, and by `compare_exchange`, which one alone
//! can. Each thread counts while it holds the lock. Says the seed that lets both in.
use octet::{Builder, Error, Failure, Heap, Run, Session, explore};

const LOOKS: usize = 200;

#[derive(Clone, Copy)]
enum Take {
    ReadAndWrite,
    CompareExchange,
}

fn counter() -> Builder {
    Heap::builder().object("flag", 0).object("count", 0)
}

fn take(session: &mut Session, how: Take) -> Result<bool, Error> {
    let flag = session.object("flag")?;
    match how {
        Take::ReadAndWrite => {
            if session.load(flag)? != 0 {
                return Ok(false);
            }
            session.store(flag, 1)?;
            Ok(true)
        }
        Take::CompareExchange => Ok(session.compare_exchange(flag, 0, 1)?.is_ok()),
    }
}

fn count(session: &mut Session, how: Take) -> Result<u64, Error> {
    let (flag, count) = (session.object("flag")?, session.object("count")?);
    for _ in 0..LOOKS {
        if take(session, how)? {
            let found = session.load(count)?;
            session.store(count, found + 1)?;
            session.store(flag, 0)?;
            return Ok(1);
        }
    }
    Ok(0)
}

fn run(counter: Builder, how: Take) -> Result<Run<u64>, Error> {
    counter.run(|threads| {
        for _ in 0..2 {
            threads.spawn(move |session| count(session, how));
        }
    })
}

fn explored(how: Take) -> Result<u64, Box<Failure>> {
    explore(0..200, |schedule| {
        let run = run(counter().schedule(schedule), how)?;
        assert_eq!(run.value("count"), Some(run.values().iter().sum()), "two threads hold the lock");
        Ok(())
    })
}

fn main() -> Result<(), Box<dyn std::error::Error>> {
    let failure = explored(Take::ReadAndWrite).err().ok_or("no schedule fails")?;
    println!("{failure}");
    println!("{} schedules pass with compare_exchange", explored(Take::CompareExchange)?);
    Ok(())
}

#[test]
fn a_flag_that_is_read_and_then_written_is_no_lock() {
    let failure = explored(Take::ReadAndWrite).unwrap_err();
    // The first thread is stopped between its two accesses to the flag, and the second one between those to the count.
    assert_eq!(failure.preemptions(), 2);
    let wrong = failure.recording().unwrap();
    let again = run(counter().rerun(wrong), Take::ReadAndWrite).unwrap();
    assert_eq!((again.values(), again.value("count")), (&[1, 1][..], Some(1)));
    assert_eq!(explored(Take::CompareExchange).unwrap(), 200);
}
