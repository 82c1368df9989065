//! A queue of two cells, between one thread that sends and one that receives. The wrong one publishes its index before the
//! value: the receiver then reads a cell that is not written yet. Says the seed that shows it.
use octet::{Builder, Error, Failure, Heap, Run, Session, explore};

const CELLS: u64 = 2;
const VALUES: u64 = 3;
const LOOKS: usize = 200;

/// What the sender publishes first.
#[derive(Clone, Copy)]
enum First {
    Index,
    Value,
}

fn queue() -> Builder {
    Heap::builder().object("cell0", 0).object("cell1", 0).object("sent", 0).object("received", 0)
}

fn cell(session: &Session, number: u64) -> Result<octet::Object, Error> {
    session.object(["cell0", "cell1"][(number % CELLS) as usize])
}

fn send(session: &mut Session, first: First) -> Result<(), Error> {
    let (sent, received) = (session.object("sent")?, session.object("received")?);
    let mut number = 0;
    for _ in 0..LOOKS {
        if number == VALUES {
            break;
        }
        if number - session.load(received)? == CELLS {
            continue;
        }
        let (place, value) = (cell(session, number)?, number + 10);
        match first {
            First::Index => {
                session.store(sent, number + 1)?;
                session.store(place, value)?;
            }
            First::Value => {
                session.store(place, value)?;
                session.store(sent, number + 1)?;
            }
        }
        number += 1;
    }
    Ok(())
}

fn receive(session: &mut Session) -> Result<(), Error> {
    let (sent, received) = (session.object("sent")?, session.object("received")?);
    let mut number = 0;
    for _ in 0..LOOKS {
        if number == VALUES {
            break;
        }
        if session.load(sent)? > number {
            let value = session.load(cell(session, number)?)?;
            assert_eq!(value, number + 10, "a value is received before it is sent");
            number += 1;
            session.store(received, number)?;
        }
    }
    Ok(())
}

fn run(queue: Builder, first: First) -> Result<Run<()>, Error> {
    queue.run(|threads| {
        threads.spawn(move |session| send(session, first));
        threads.spawn(receive);
    })
}

fn explored(first: First) -> Result<u64, Box<Failure>> {
    explore(0..200, |schedule| run(queue().schedule(schedule), first).map(|_| ()))
}

fn main() -> Result<(), Box<dyn std::error::Error>> {
    let failure = explored(First::Index).err().ok_or("no schedule fails")?;
    println!("{failure}");
    println!("{} schedules pass where the value is written first", explored(First::Value)?);
    Ok(())
}

#[test]
fn an_index_that_is_published_too_early_is_found() {
    let failure = explored(First::Index).unwrap_err();
    assert_eq!(failure.preemptions(), 1);
    let recording = failure.recording().unwrap();
    let again = std::panic::catch_unwind(|| run(queue().rerun(recording), First::Index));
    assert!(again.is_err());
    assert_eq!(explored(First::Value).unwrap(), 200);
}
