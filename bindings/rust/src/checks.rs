//! Checks of what threads do, beside a marks file. A second run that leaves its recording is told by them which thread has left it,
//! and after which access: marks alone tell that of whole blocks.
//!
//! A thread makes a check after 64 accesses, and where it has to wait before. The file has a magic word, and then frames: a thread, how
//! many checks of it follow, and of each the accesses since the one before and 16 bits of a digest. What is not written of it is
//! not checked.
use crate::Place;
use crate::raw::Access;
use std::fs::{self, File};
use std::io::{BufReader, Read, Write};
use std::panic::Location;
use std::path::{Path, PathBuf};
use std::sync::atomic::{AtomicU64, Ordering};
use std::sync::{Arc, Mutex, MutexGuard, PoisonError};

const MAGIC: &[u8; 5] = b"OCTK\x01";
/// How many accesses there are between two checks at most.
const EVERY: u32 = 64;
/// How many bytes a check has, and how many checks are in a frame at most.
const CHECK: usize = 3;
const CHECK_LENGTH: i64 = 3;
const FRAME: usize = 4_096;
/// Odd factors, which spread what goes into a digest over its bits.
const STEP: u64 = 0x517c_c1b7_2722_0a95;
const SPREAD: u64 = 0x9e37_79b9_7f4a_7c15;

fn path_of(marks: &Path) -> PathBuf {
    let mut name = marks.as_os_str().to_owned();
    name.push(".checks");
    name.into()
}

/// A thread that has left its recording: after how many accesses this was found, and where. The accesses of which one was another
/// than in the recording began at a moment of a clock that all threads share.
#[derive(Clone, Debug)]
pub(crate) struct Found {
    pub(crate) thread: usize,
    pub(crate) accesses: u64,
    pub(crate) place: Place,
    began: u64,
}

/// What the checks of all threads of a run share.
#[derive(Debug)]
pub(crate) struct Ledger {
    path: PathBuf,
    is_recorded: bool,
    file: Mutex<Option<File>>,
    clock: AtomicU64,
    found: Mutex<Vec<Found>>,
}

fn locked<T>(mutex: &Mutex<T>) -> MutexGuard<'_, T> {
    mutex.lock().unwrap_or_else(PoisonError::into_inner)
}

impl Ledger {
    /// Beside this marks file. Checks of a run that was recorded in it before are gone.
    pub(crate) fn recorded(marks: &Path) -> Arc<Ledger> {
        let ledger = Ledger::new(marks, true);
        if opened(&ledger.path).is_some() {
            // What stays would be checks of another run: they would be compared in vain.
            let _ = fs::remove_file(&ledger.path);
        }
        Arc::new(ledger)
    }

    /// Beside this marks file, by which threads run again.
    pub(crate) fn compared(marks: &Path) -> Arc<Ledger> {
        Arc::new(Ledger::new(marks, false))
    }

    fn new(marks: &Path, is_recorded: bool) -> Ledger {
        let (file, clock, found) = (Mutex::new(None), AtomicU64::new(0), Mutex::new(Vec::new()));
        Ledger { path: path_of(marks), is_recorded, file, clock, found }
    }

    // Adds a frame to the file. Where it cannot be written, there is no check of it.
    fn write(&self, frame: &[u8]) {
        let mut file = locked(&self.file);
        if file.is_none() {
            *file = File::create(&self.path).ok().filter(|mut new| new.write_all(MAGIC).is_ok());
        }
        let _ = file.as_mut().map(|file| file.write_all(frame));
    }

    fn tick(&self) -> u64 {
        self.clock.fetch_add(1, Ordering::SeqCst)
    }

    // The thread that has left its recording first. One that follows another's change has had to wait for it, and begins after it.
    fn first(&self) -> Option<Found> {
        locked(&self.found).iter().min_by_key(|found| found.began).cloned()
    }
}

// A file of checks, after its magic word.
fn opened(path: &Path) -> Option<BufReader<File>> {
    let mut reader = BufReader::new(File::open(path).ok()?);
    let mut magic = [0; MAGIC.len()];
    reader.read_exact(&mut magic).ok()?;
    (&magic == MAGIC).then_some(reader)
}

/// The checks of one thread.
#[derive(Debug)]
pub(crate) struct Checks {
    digest: u64,
    // How many accesses are left until the next check, of so many.
    left: u32,
    length: u32,
    // How many were made until the last one, and when the first access after it was made.
    made: u64,
    began: u64,
    thread: usize,
    ledger: Arc<Ledger>,
    work: Work,
}

#[derive(Debug)]
enum Work {
    /// Checks that are to be written.
    Record(Vec<u8>),
    /// The file, how many checks of this thread come next there, and the one that is due.
    Compare { file: BufReader<File>, rest: u16, wanted: u16 },
    /// There are no more.
    Done,
}

// What an access puts into the digest.
#[inline(always)]
fn word_of(object: u16, access: Access, told: u64) -> u64 {
    let (kind, operand) = match access {
        Access::Read => (0, 0),
        Access::Write { value } => (1, value),
        Access::Update { change, operand, expected } => (2 + change as u64, operand ^ expected.rotate_left(32)),
    };
    told.wrapping_mul(SPREAD) ^ operand.rotate_left(24) ^ kind << 16 ^ u64::from(object)
}

impl Checks {
    pub(crate) fn new(ledger: &Arc<Ledger>, thread: usize) -> Checks {
        let work = match (ledger.is_recorded, opened(&ledger.path)) {
            (true, _) => Work::Record(Vec::new()),
            (false, Some(file)) => Work::Compare { file, rest: 0, wanted: 0 },
            (false, None) => Work::Done,
        };
        let ledger = Arc::clone(ledger);
        let mut checks = Checks { digest: 0, left: EVERY, length: EVERY, made: 0, began: 0, thread, ledger, work };
        checks.await_next();
        checks
    }

    /// One more access was made.
    #[inline(always)]
    pub(crate) fn note(&mut self, caller: &'static Location<'static>, object: u16, access: Access, told: u64) {
        if self.left == self.length {
            self.begin();
        }
        self.digest = (self.digest.rotate_left(5) ^ word_of(object, access, told)).wrapping_mul(STEP);
        self.left -= 1;
        if self.left == 0 {
            self.check(caller);
        }
    }

    // The first access after a check was made.
    fn begin(&mut self) {
        if matches!(self.work, Work::Compare { .. }) {
            self.began = self.ledger.tick();
        }
    }

    /// The thread has to wait. What it has made may be seen by the others meanwhile.
    #[cold]
    pub(crate) fn before_wait(&mut self, caller: &'static Location<'static>) {
        let made = self.length - self.left;
        if made > 0 && matches!(self.work, Work::Record(_)) {
            self.length = made;
            self.check(caller);
        }
    }

    /// The thread that has left its recording first, as far as is found.
    pub(crate) fn first_left(&self) -> Option<Found> {
        self.ledger.first()
    }

    fn bits(&self) -> u16 {
        let [.., high, low] = (self.digest >> 48).to_be_bytes();
        u16::from_be_bytes([high, low])
    }

    #[cold]
    fn check(&mut self, caller: &'static Location<'static>) {
        self.made += u64::from(self.length);
        let bits = self.bits();
        match &mut self.work {
            Work::Record(checks) => {
                checks.push(u8::try_from(self.length).unwrap_or(u8::MAX));
                checks.extend(bits.to_be_bytes());
                if checks.len() == CHECK * FRAME {
                    self.flush();
                }
            }
            Work::Compare { wanted, .. } => {
                if *wanted != bits {
                    let (thread, accesses, place, began) = (self.thread, self.made, Place::from(caller), self.began);
                    locked(&self.ledger.found).push(Found { thread, accesses, place, began });
                    self.work = Work::Done;
                }
            }
            Work::Done => {}
        }
        self.await_next();
    }

    // How many accesses there are until the next check.
    fn await_next(&mut self) {
        self.length = match &mut self.work {
            Work::Record(_) => EVERY,
            Work::Compare { file, rest, wanted } => {
                if let Some((length, bits)) = next_check(file, rest, self.thread) {
                    *wanted = bits;
                    length
                } else {
                    self.work = Work::Done;
                    u32::MAX
                }
            }
            Work::Done => u32::MAX,
        };
        self.left = self.length;
    }

    fn flush(&mut self) {
        let Work::Record(checks) = &mut self.work else {
            return;
        };
        let Ok(count) = u16::try_from(checks.len() / CHECK) else {
            return;
        };
        let mut frame = vec![u8::try_from(self.thread).unwrap_or(u8::MAX)];
        frame.extend(count.to_be_bytes());
        frame.append(checks);
        self.ledger.write(&frame);
    }
}

impl Drop for Checks {
    fn drop(&mut self) {
        let Work::Record(checks) = &self.work else {
            return;
        };
        // A short run is told by its marks alone.
        if !checks.is_empty() && self.made >= u64::from(EVERY) {
            self.flush();
        }
    }
}

// The next check of the thread: after how many accesses, and its bits.
fn next_check(file: &mut BufReader<File>, rest: &mut u16, thread: usize) -> Option<(u32, u16)> {
    while *rest == 0 {
        let mut head = [0; 3];
        file.read_exact(&mut head).ok()?;
        let count = u16::from_be_bytes([head[1], head[2]]);
        if usize::from(head[0]) == thread {
            *rest = count;
        } else {
            file.seek_relative(i64::from(count) * CHECK_LENGTH).ok()?;
        }
    }
    *rest -= 1;
    let mut check = [0; CHECK];
    file.read_exact(&mut check).ok()?;
    (check[0] > 0).then_some((check[0].into(), u16::from_be_bytes([check[1], check[2]])))
}
