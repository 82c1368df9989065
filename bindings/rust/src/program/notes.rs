//! The file of notes beside a run's own files: what its threads got from elsewhere than from their accesses.
//!
//! It begins with `OCTN`, a byte of version and a byte that says whether exchanges fail for nothing. Then come frames, as threads
//! hand on what they note: a seat, how many notes, and the notes, as little-endian numbers of four bytes. The last frame is that of
//! no seat. A file without it is that of a program that was killed: it is read as far as it goes.
use super::held;
use super::world::Whims;
use crate::Error;
use crate::turns::SEATS;
use std::fs::{self, File};
use std::io::Write;
use std::path::{Path, PathBuf};
use std::sync::{Arc, Mutex};

const BEGIN: &[u8] = b"OCTN\x02";
/// The seat of the last frame.
const NO_SEAT: u32 = u32::MAX;

/// What a second run takes beside the marks.
#[derive(Clone, Debug, PartialEq, Eq)]
pub(crate) struct Notes {
    pub(crate) whims: Whims,
    pub(crate) threads: Vec<Vec<u32>>,
    /// Whether they were written to their end.
    pub(crate) are_whole: bool,
}

pub(crate) fn with_ending(path: &Path, ending: &str) -> PathBuf {
    let mut name = path.as_os_str().to_owned();
    name.push(ending);
    name.into()
}

fn named(path: &Path) -> impl Fn(std::io::Error) -> Error + '_ {
    |source| Error::File { path: path.to_path_buf(), source }
}

fn head(whims: Whims) -> Vec<u8> {
    let mut bytes = BEGIN.to_vec();
    bytes.push(u8::from(whims != Whims::None));
    bytes
}

fn put(bytes: &mut Vec<u8>, seat: u32, notes: &[u32]) {
    let count = u32::try_from(notes.len()).unwrap_or(u32::MAX);
    bytes.extend([seat, count].iter().chain(notes).flat_map(|word| word.to_le_bytes()));
}

fn seats() -> std::ops::Range<u32> {
    0..u32::try_from(SEATS).unwrap_or(NO_SEAT)
}

fn bytes_of(notes: &Notes) -> Vec<u8> {
    let mut bytes = head(notes.whims);
    seats().zip(&notes.threads).for_each(|(seat, notes)| put(&mut bytes, seat, notes));
    put(&mut bytes, NO_SEAT, &[]);
    bytes
}

// The notes, or at which byte they are none.
fn parsed(bytes: &[u8]) -> Result<Notes, usize> {
    let rest = bytes.strip_prefix(BEGIN).ok_or(0_usize)?;
    let (whims, rest) = match rest.split_first() {
        Some((0, rest)) => (Whims::None, rest),
        Some((1, rest)) => (Whims::Noted, rest),
        _ => return Err(BEGIN.len()),
    };
    let mut notes = Notes { whims, threads: vec![Vec::new(); SEATS], are_whole: false };
    let mut words = rest.chunks_exact(4).map(|word| u32::from_le_bytes([word[0], word[1], word[2], word[3]]));
    while let (Some(seat), Some(count)) = (words.next(), words.next()) {
        let place = bytes.len() - rest.len() % 4 - 4 * (words.len() + 2);
        if seat == NO_SEAT {
            notes.are_whole = count == 0 && rest.len() % 4 == 0 && words.len() == 0;
            return if notes.are_whole { Ok(notes) } else { Err(place) };
        }
        let its = notes.threads.get_mut(seat as usize).ok_or(place)?;
        its.extend(words.by_ref().take(count as usize));
    }
    Ok(notes)
}

impl Notes {
    pub(crate) fn none() -> Notes {
        Notes { whims: Whims::None, threads: Vec::new(), are_whole: true }
    }

    pub(crate) fn write(&self, path: PathBuf) -> Result<(), Error> {
        fs::write(&path, bytes_of(self)).map_err(|source| Error::File { path, source })
    }

    pub(crate) fn read(path: PathBuf) -> Result<Notes, Error> {
        match fs::read(&path) {
            Err(source) => Err(Error::File { path, source }),
            Ok(bytes) => parsed(&bytes).map_err(|place| Error::BadMarks { path, place: place as u64 }),
        }
    }
}

/// What the threads of a run hand on, by their seats.
#[derive(Default)]
pub(crate) struct Handed([Mutex<Vec<u32>>; SEATS]);

impl Handed {
    pub(crate) fn push(&self, seat: usize, note: u32) {
        held(&self.0[seat]).push(note);
    }

    /// What it has handed on since it was asked last.
    pub(crate) fn take(&self, seat: usize) -> Vec<u32> {
        std::mem::take(&mut *held(&self.0[seat]))
    }
}

/// A file of notes that is written while the threads run.
pub(crate) struct NotesFile {
    path: PathBuf,
    file: File,
    handed: Arc<Handed>,
}

impl NotesFile {
    /// Beside this file of a recorded run.
    pub(crate) fn begin(beside: &Path, handed: Arc<Handed>) -> Result<NotesFile, Error> {
        let path = with_ending(beside, ".notes");
        let mut file = File::create(&path).map_err(named(&path))?;
        file.write_all(&head(Whims::None)).map_err(named(&path))?;
        Ok(NotesFile { path, file, handed })
    }

    /// Writes what was handed on since.
    pub(crate) fn round(&mut self) -> Result<(), Error> {
        let mut bytes = Vec::new();
        for (at, seat) in seats().enumerate() {
            let notes = self.handed.take(at);
            if !notes.is_empty() {
                put(&mut bytes, seat, &notes);
            }
        }
        self.file.write_all(&bytes).map_err(named(&self.path))
    }

    /// The threads have ended.
    pub(crate) fn end(&mut self) -> Result<(), Error> {
        self.round()?;
        let mut bytes = Vec::new();
        put(&mut bytes, NO_SEAT, &[]);
        self.file.write_all(&bytes).map_err(named(&self.path))
    }
}

#[cfg(test)]
mod tests {
    use super::{Notes, SEATS, Whims, bytes_of, parsed};

    fn notes(threads: &[&[u32]], are_whole: bool) -> Notes {
        let mut threads: Vec<_> = threads.iter().map(|notes| notes.to_vec()).collect();
        threads.resize(SEATS, Vec::new());
        Notes { whims: Whims::Noted, threads, are_whole }
    }

    #[test]
    fn what_is_written_is_read_as_far_as_it_goes_and_what_is_none_is_refused_where_it_is() {
        let whole = notes(&[&[7, 1 << 31], &[], &[3]], true);
        let bytes = bytes_of(&Notes { threads: whole.threads[..3].to_vec(), ..whole.clone() });
        // Six bytes of head, four frames of two words, three notes.
        assert_eq!(bytes.len(), 6 + 4 * 8 + 3 * 4);
        assert_eq!(parsed(&bytes), Ok(whole));
        // Of one that was killed the last frame is not there, or only a part of it, or a part of a note.
        for cut in 1..=8 {
            assert_eq!(parsed(&bytes[..bytes.len() - cut]), Ok(notes(&[&[7, 1 << 31], &[], &[3]], false)));
        }
        assert_eq!(parsed(&bytes[..bytes.len() - 9]), Ok(notes(&[&[7, 1 << 31]], false)));
        assert_eq!(parsed(b"OCTM\x01\x00"), Err(0));
        assert_eq!(parsed(b"OCTN\x02\x02"), Err(5));
        // There is no seat 16, and nothing after the last frame.
        assert_eq!(parsed(b"OCTN\x02\x00\x10\x00\x00\x00\x01\x00\x00\x00"), Err(6));
        assert_eq!(parsed(&[&bytes[..], &[0; 4]].concat()), Err(6 + 3 * 8 + 3 * 4));
    }
}
