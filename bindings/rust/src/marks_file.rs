//! A marks file that is written, or read, while threads run.
use crate::Error;
use crate::error::checked;
use crate::program::NotesFile;
use crate::raw::{self, Handle};
use std::fs::File;
use std::io::{Read, Write};
use std::os::unix::fs::FileExt;
use std::path::{Path, PathBuf};
use std::thread;
use std::time::Duration;

/// How long one rests where there is nothing to do.
const REST: Duration = Duration::from_micros(200);

/// How many bytes are read at once.
const PIECE: usize = 32_768;

/// What a marks file begins with, and what a log does.
const MARKS: [u8; 4] = *b"OCTM";
const LOG: [u8; 4] = *b"OCTL";

// What a regular file begins with, unless it is empty. A short one is filled up with zeros.
fn magic_of(path: &Path) -> Option<[u8; 4]> {
    let mut begins = Vec::new();
    File::open(path).ok().filter(|file| file.metadata().is_ok_and(|it| it.is_file()))?.take(4).read_to_end(&mut begins).ok()?;
    let length = begins.len();
    begins.resize(4, 0);
    if length == 0 { None } else { begins.try_into().ok() }
}

fn named(path: &Path) -> impl Fn(std::io::Error) -> Error + '_ {
    |source| Error::File { path: path.to_path_buf(), source }
}

// Makes rounds until one has nothing to do, though the threads have ended before it.
fn rounds_until(are_done: impl Fn() -> bool, mut round: impl FnMut() -> bool) {
    loop {
        let are_done = are_done();
        if !round() {
            if are_done {
                return;
            }
            thread::sleep(REST);
        }
    }
}

/// What threads hand on goes into a file.
pub(crate) struct Writing {
    path: PathBuf,
    file: File,
    streams: Vec<Handle>,
    // Room for one block, and what is written next.
    block: Vec<u8>,
    bytes: Vec<u8>,
    // Beside it, and never behind it.
    notes: Option<NotesFile>,
    fault: Option<Error>,
}

impl Writing {
    /// A file that begins with this.
    pub(crate) fn begin(path: &Path, head: &[u8], streams: Vec<Handle>) -> Result<Writing, Error> {
        // A file of another kind was named by mistake.
        if !matches!(magic_of(path), None | Some(MARKS)) {
            return Err(Error::OtherFile { path: path.to_path_buf() });
        }
        let mut file = File::create(path).map_err(named(path))?;
        file.write_all(head).map_err(named(path))?;
        let (block, bytes) = (vec![0; PIECE], Vec::new());
        Ok(Writing { path: path.to_path_buf(), file, streams, block, bytes, notes: None, fault: None })
    }

    /// With a file of notes.
    pub(crate) fn with_notes(self, notes: NotesFile) -> Writing {
        Writing { notes: Some(notes), ..self }
    }

    // Takes all whole blocks of a stream.
    fn take(&mut self, at: usize) -> Result<(), Error> {
        loop {
            let mut length = 0;
            match self.streams[at].take(&mut self.block, &mut length) {
                raw::READY => self.bytes.extend_from_slice(&self.block[..length]),
                raw::NO_ROOM => self.block.resize(length, 0),
                raw::PENDING | raw::OVER => return Ok(()),
                status => return checked(status, at),
            }
        }
    }

    // Whether anything was taken. After a fault it is taken and not written, so that no thread waits for room.
    fn round(&mut self) -> bool {
        self.bytes.clear();
        for at in 0..self.streams.len() {
            if let Err(fault) = self.take(at) {
                self.fault.get_or_insert(fault);
            }
        }
        if self.fault.is_none() {
            self.fault = self.write().err();
        }
        !self.bytes.is_empty()
    }

    // What a thread notes comes before the access that it makes by that, and so does its place in the files.
    fn write(&mut self) -> Result<(), Error> {
        self.notes.as_mut().map_or(Ok(()), NotesFile::round)?;
        self.file.write_all(&self.bytes).map_err(named(&self.path))
    }

    /// Writes what the threads hand on until they have ended. Answers the first fault.
    pub(crate) fn write_until(mut self, are_done: impl Fn() -> bool) -> Result<(), Error> {
        rounds_until(are_done, || self.round());
        let ended = self.notes.as_mut().map_or(Ok(()), NotesFile::end);
        self.fault.map_or(ended, Err)
    }
}

/// One thread's way through a file.
struct Way {
    stream: Handle,
    // What comes next of the file, and where it stops.
    bytes: Vec<u8>,
    upto: u64,
    // Whether the thread is told no more but that its recording ends.
    is_ending: bool,
    is_over: bool,
}

/// Threads are fed what a file has of them.
pub(crate) struct Feeding {
    path: PathBuf,
    file: File,
    ways: Vec<Way>,
    fault: Option<Error>,
}

impl Feeding {
    /// By this file.
    pub(crate) fn open(path: &Path, streams: Vec<Handle>) -> Result<Feeding, Error> {
        let file = File::open(path).map_err(named(path))?;
        let way = |stream| Way { stream, bytes: Vec::new(), upto: 0, is_ending: false, is_over: false };
        Ok(Feeding { path: path.to_path_buf(), file, ways: streams.into_iter().map(way).collect(), fault: None })
    }

    // Feeds a thread some more. Whether it took anything.
    fn step(&mut self, at: usize) -> Result<bool, Error> {
        let way = &mut self.ways[at];
        let mut place = 0;
        if way.is_over {
            return Ok(false);
        }
        if way.is_ending {
            let status = way.stream.feed_end(&mut place);
            // After a refusal, which is told once, the thread is still to be told that its recording ends.
            way.is_over = status == raw::READY;
            return fed(status, &self.path, place).map(|()| way.is_over);
        }
        if way.bytes.is_empty() {
            way.bytes.resize(PIECE, 0);
            let count = self.file.read_at(&mut way.bytes, way.upto).map_err(named(&self.path));
            way.bytes.truncate(*count.as_ref().unwrap_or(&0));
            way.upto += count? as u64;
            way.is_ending = way.bytes.is_empty();
            return Ok(true);
        }
        let status = way.stream.feed(&way.bytes, &mut place);
        fed(status, &self.path, place)?;
        way.bytes.drain(..usize::try_from(place).unwrap_or(usize::MAX));
        Ok(place > 0)
    }

    // Whether any thread took anything. After a fault they are told that their recordings end.
    fn round(&mut self) -> bool {
        let mut some = false;
        for at in 0..self.ways.len() {
            match self.step(at) {
                Ok(took) => some |= took,
                Err(fault) => {
                    self.fault.get_or_insert(fault);
                    some |= self.ways.iter().any(|way| !way.is_ending);
                    self.ways.iter_mut().for_each(|way| way.is_ending = true);
                }
            }
        }
        some
    }

    /// Feeds the threads until they have ended. Answers the first fault.
    pub(crate) fn feed_until(mut self, are_done: impl Fn() -> bool) -> Result<(), Error> {
        rounds_until(are_done, || self.round());
        self.fault.map_or(Ok(()), Err)
    }
}

fn fed(status: i32, path: &Path, place: u64) -> Result<(), Error> {
    match status {
        raw::BAD_MARKS if magic_of(path) == Some(LOG) => Err(Error::IsLog { path: path.to_path_buf() }),
        raw::BAD_MARKS => Err(Error::BadMarks { path: path.to_path_buf(), place }),
        status => checked(status, 0),
    }
}

// The pieces of a file, one after another.
fn pieces(path: &Path, mut each: impl FnMut(&[u8]) -> Result<(), Error>) -> Result<(), Error> {
    let mut file = File::open(path).map_err(named(path))?;
    let mut piece = vec![0; PIECE];
    loop {
        match file.read(&mut piece).map_err(named(path))? {
            0 => return Ok(()),
            count => each(&piece[..count])?,
        }
    }
}

/// Feeds a search the whole file, so that it finds the last accesses.
pub(crate) fn feed_all(search: &mut Handle, path: &Path) -> Result<(), Error> {
    let mut place = 0;
    pieces(path, |piece| fed(search.feed(piece, &mut place), path, place))?;
    fed(search.feed_end(&mut place), path, place)
}
