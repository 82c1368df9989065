//! Treiber's stack. A thread that pops reads the top and the node below it, and then exchanges the top for that node, if the top
//! is still the same. In between another thread may pop both nodes and push the first one again: the exchange succeeds (A, B, A),
//! and brings a node back that is in use. A count beside the top, one more at each push, makes the tops differ. Says the seed
//! that shows it.
use octet::{Builder, Error, Failure, Heap, Run, Session, explore};

const BELOW: [&str; 3] = ["none", "below1", "below2"];
const USED: [&str; 3] = ["none", "used1", "used2"];
const LOOKS: usize = 100;

/// How the top is told from one that looks the same.
#[derive(Clone, Copy)]
enum Top {
    Node,
    NodeAndCount,
}

const COUNT: u64 = 1 << 32;

// Node 1 stands over node 2.
fn stack() -> Builder {
    Heap::builder().object("top", 1).object("below1", 2).object("below2", 0).object("used1", 0).object("used2", 0)
}

// Takes the uppermost node, which is then in this thread's use alone.
fn pop(session: &mut Session) -> Result<Option<usize>, Error> {
    let top = session.object("top")?;
    for _ in 0..LOOKS {
        let found = session.load(top)?;
        let node = (found % COUNT) as usize;
        if node == 0 {
            return Ok(None);
        }
        let below = session.load(session.object(BELOW[node])?)?;
        if session.compare_exchange(top, found, found - node as u64 + below)?.is_ok() {
            let users = session.fetch_add(session.object(USED[node])?, 1)?;
            assert_eq!(users, 0, "node {node} is in use twice");
            return Ok(Some(node));
        }
    }
    Ok(None)
}

fn push(session: &mut Session, node: usize, how: Top) -> Result<(), Error> {
    let top = session.object("top")?;
    session.fetch_sub(session.object(USED[node])?, 1)?;
    for _ in 0..LOOKS {
        let found = session.load(top)?;
        session.store(session.object(BELOW[node])?, found % COUNT)?;
        let count = match how {
            Top::Node => found / COUNT,
            Top::NodeAndCount => found / COUNT + 1,
        };
        if session.compare_exchange(top, found, count * COUNT + node as u64)?.is_ok() {
            break;
        }
    }
    Ok(())
}

fn run(stack: Builder, how: Top) -> Result<Run<()>, Error> {
    stack.run(|threads| {
        threads.spawn(|session| {
            pop(session)?;
            pop(session).map(|_| ())
        });
        threads.spawn(move |session| {
            let first = pop(session)?;
            pop(session)?;
            first.map_or(Ok(()), |node| push(session, node, how))
        });
    })
}

fn explored(how: Top) -> Result<u64, Box<Failure>> {
    explore(0..2000, |schedule| run(stack().schedule(schedule), how).map(|_| ()))
}

fn main() -> Result<(), Box<dyn std::error::Error>> {
    let failure = explored(Top::Node).err().ok_or("no schedule fails")?;
    println!("{failure}");
    println!("{} schedules pass with a count", explored(Top::NodeAndCount)?);
    Ok(())
}

#[test]
fn a_top_that_was_there_before_is_taken_for_the_same() {
    let failure = explored(Top::Node).unwrap_err();
    assert_eq!(failure.preemptions(), 1);
    let recording = failure.recording().unwrap();
    let again = std::panic::catch_unwind(|| run(stack().rerun(recording), Top::Node));
    assert!(again.is_err());
    assert_eq!(explored(Top::NodeAndCount).unwrap(), 2000);
}
