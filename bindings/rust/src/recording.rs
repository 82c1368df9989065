//! What is kept of a run.
use crate::error::checked;
use crate::raw::Handle;
use crate::session::Noted;
use crate::{Error, Place, sha256};
use std::ops::Range;
use std::path::{Path, PathBuf};
use std::{fmt, fs};

/// A run: a script whose threads make the accesses of the run, the log that orders them, and what they left. `octet` reads both
/// files, and `Builder::rerun` runs the program again by them.
///
/// Two recordings are equal where their scripts and logs are.
///
/// ```
/// use octet::{Error, Heap, Recording};
///
/// # let stem = std::env::temp_dir().join(format!("octet-recording-{}", std::process::id()));
/// let heap = Heap::builder().object("x", 5);
/// let add = |heap: octet::Builder| -> Result<octet::Run<()>, Error> {
///     heap.run(|threads| {
///         threads.spawn(|session| session.fetch_add(session.object("x")?, 2).map(|_| ()));
///     })
/// };
/// let run = add(heap.clone())?;
/// run.save(&stem)?; // for `octet verify`, `octet trace` and the other commands
/// let loaded = Recording::load(&stem)?;
/// assert_eq!(&loaded, run.recording());
/// assert_eq!(add(heap.rerun(&loaded))?.value("x"), Some(7));
/// # Ok::<(), Error>(())
/// ```
#[derive(Clone)]
pub struct Recording {
    script: String,
    log: Vec<u8>,
    // None where it was loaded.
    values: Option<Vec<u64>>,
    // Of each thread, for each of its accesses.
    places: Vec<Vec<Place>>,
}

impl PartialEq for Recording {
    fn eq(&self, other: &Recording) -> bool {
        self.script == other.script && self.log == other.log
    }
}

impl Eq for Recording {}

// Short, since it stands in errors that are printed.
impl fmt::Debug for Recording {
    fn fmt(&self, out: &mut fmt::Formatter<'_>) -> fmt::Result {
        let (script, log) = (self.script.len(), self.log.len());
        out.debug_struct("Recording")
            .field("threads", &self.threads())
            .field("script", &format_args!("{script} bytes"))
            .field("log", &format_args!("{log} bytes"))
            .finish_non_exhaustive()
    }
}

/// The longest script, and the longest log, that `octet` reads.
const MAX_SCRIPT: usize = 1 << 20;
const MAX_LOG: usize = 1 << 26;

/// Where a log of version 2 has the digest of its script.
const DIGEST_IN_LOG: Range<usize> = 6..38;

fn with_ending(stem: &Path, ending: &str) -> PathBuf {
    let mut name = stem.as_os_str().to_owned();
    name.push(ending);
    name.into()
}

fn write(path: PathBuf, content: &[u8]) -> Result<(), Error> {
    fs::write(&path, content).map_err(|source| Error::File { path, source })
}

fn read(path: PathBuf) -> Result<Vec<u8>, Error> {
    fs::read(&path).map_err(|source| Error::File { path, source })
}

// The text of `STEM.places`: for each thread the line `thread`, and then a line for each of its accesses.
fn text_of(places: &[Vec<Place>]) -> String {
    let with_place = |text: String, place: &Place| text + &place.to_string() + "\n";
    places.iter().fold(String::new(), |text, thread| thread.iter().fold(text + "thread\n", with_place))
}

// How many accesses each thread of a script has.
fn accesses_of(script: &str) -> Vec<usize> {
    let mut counts = Vec::new();
    for line in script.lines() {
        match (line.split(' ').next(), counts.last_mut()) {
            (Some("thread"), _) => counts.push(0),
            (Some("read" | "write" | "bump"), Some(count)) => *count += 1,
            _ => {}
        }
    }
    counts
}

fn places_of(text: &str) -> Vec<Vec<Place>> {
    let mut places: Vec<Vec<Place>> = Vec::new();
    for line in text.lines() {
        match (line, places.last_mut()) {
            ("thread", _) => places.push(Vec::new()),
            (line, Some(thread)) => thread.extend(Place::parse(line)),
            (_, None) => {}
        }
    }
    places
}

impl Recording {
    /// The text of the script.
    ///
    /// ```
    /// let run = octet::Heap::builder().object("x", 5).run(|threads| {
    ///     threads.spawn(|session| session.store(session.object("x")?, 7));
    /// })?;
    /// assert!(run.script().contains("object x 5\nthread\nset r0 7\nwrite x r0\n"), "{}", run.script());
    /// # Ok::<(), octet::Error>(())
    /// ```
    #[must_use]
    pub fn script(&self) -> &str {
        &self.script
    }

    /// The bytes of the log, with the digest of the script's text.
    ///
    /// ```
    /// let run = octet::Heap::builder().object("x", 5).run(|threads| {
    ///     threads.spawn(|session| session.store(session.object("x")?, 7));
    /// })?;
    /// assert!(run.log().starts_with(b"OCTL"));
    /// # Ok::<(), octet::Error>(())
    /// ```
    #[must_use]
    pub fn log(&self) -> &[u8] {
        &self.log
    }

    /// The object's value at the end. A recording that was loaded has none before it is run again.
    ///
    /// ```
    /// let run = octet::Heap::builder().object("x", 5).run(|threads| {
    ///     threads.spawn(|session| session.store(session.object("x")?, 7));
    /// })?;
    /// assert_eq!((run.value("x"), run.value("y")), (Some(7), None));
    /// # Ok::<(), octet::Error>(())
    /// ```
    #[must_use]
    pub fn value(&self, name: &str) -> Option<u64> {
        let at = self.objects().position(|(object, _)| object == name)?;
        self.values.as_ref()?.get(at).copied()
    }

    /// Where in the program this access of the thread stands. Both count from 0.
    ///
    /// ```
    /// let run = octet::Heap::builder().object("x", 5).run(|threads| {
    ///     threads.spawn(|session| session.store(session.object("x")?, 7));
    /// })?;
    /// let place = run.place(0, 0).expect("thread 0 has made an access");
    /// assert_eq!(place.file(), file!());
    /// assert_eq!(run.place(0, 1), None);
    /// # Ok::<(), octet::Error>(())
    /// ```
    #[must_use]
    pub fn place(&self, thread: usize, access: usize) -> Option<&Place> {
        self.places.get(thread)?.get(access)
    }

    /// Writes `STEM.octet`, `STEM.log`, and `STEM.places` with a line of source for each access, over what is there.
    ///
    /// ```
    /// # let stem = std::env::temp_dir().join(format!("octet-save-{}", std::process::id()));
    /// let run = octet::Heap::builder().object("x", 5).run(|threads| {
    ///     threads.spawn(|session| session.store(session.object("x")?, 7));
    /// })?;
    /// run.save(&stem)?;
    /// # for ending in [".octet", ".log", ".places"] {
    /// #     let mut name = stem.clone().into_os_string();
    /// #     name.push(ending);
    /// #     assert!(std::path::Path::new(&name).exists());
    /// # }
    /// # Ok::<(), octet::Error>(())
    /// ```
    ///
    /// # Errors
    /// `TooLong` where `octet` does not read such long files, and `File`.
    pub fn save(&self, stem: impl AsRef<Path>) -> Result<(), Error> {
        if self.script.len() > MAX_SCRIPT || self.log.len() > MAX_LOG {
            return Err(Error::TooLong);
        }
        let stem = stem.as_ref();
        write(with_ending(stem, ".octet"), self.script.as_bytes())?;
        write(with_ending(stem, ".log"), &self.log)?;
        write(with_ending(stem, ".places"), text_of(&self.places).as_bytes())
    }

    /// Reads `STEM.octet` and `STEM.log`, and `STEM.places` if it is there. Whether they are a recording is judged when they
    /// are run again.
    ///
    /// ```
    /// # let stem = std::env::temp_dir().join(format!("octet-load-{}", std::process::id()));
    /// let run = octet::Heap::builder().object("x", 5).run(|threads| {
    ///     threads.spawn(|session| session.store(session.object("x")?, 7));
    /// })?;
    /// run.save(&stem)?;
    /// assert_eq!(&octet::Recording::load(&stem)?, run.recording());
    /// # Ok::<(), octet::Error>(())
    /// ```
    ///
    /// # Errors
    /// `File`, and `NoRecording` where the script is no text.
    pub fn load(stem: impl AsRef<Path>) -> Result<Recording, Error> {
        let stem = stem.as_ref();
        let script = String::from_utf8(read(with_ending(stem, ".octet"))?).map_err(|_| Error::NoRecording)?;
        let places = fs::read_to_string(with_ending(stem, ".places")).unwrap_or_default();
        Ok(Recording { script, log: read(with_ending(stem, ".log"))?, values: None, places: places_of(&places) })
    }

    // The objects' names and the values that they start with.
    pub(crate) fn objects(&self) -> impl Iterator<Item = (&str, u64)> {
        self.script.lines().filter_map(|line| {
            let (name, start) = line.strip_prefix("object ")?.split_once(' ')?;
            Some((name, start.parse().ok()?))
        })
    }

    pub(crate) fn threads(&self) -> usize {
        self.script.lines().filter(|line| *line == "thread").count()
    }

    /// The same run, where object `oN` has the name N of these. The log then names the script that has them.
    pub(crate) fn with_names(self, names: &[&str]) -> Recording {
        let name_of = |word: &str| -> Option<&str> { names.get(word.strip_prefix('o')?.parse::<usize>().ok()?).copied() };
        let renamed = |line: &str| -> String {
            let words: Vec<&str> = line.split(' ').map(|word| name_of(word).unwrap_or(word)).collect();
            words.join(" ") + "\n"
        };
        let script: String = self.script.lines().map(renamed).collect();
        let mut log = self.log;
        if let Some(digest) = log.get_mut(DIGEST_IN_LOG) {
            digest.copy_from_slice(&sha256::digest(script.as_bytes()));
        }
        Recording { script, log, ..self }
    }

    pub(crate) fn of(mut record: Handle, places: Vec<Vec<Place>>) -> Result<Recording, Error> {
        let (script, status) = record.script();
        checked(status, 0)?;
        let (log, status) = record.log();
        checked(status, 0)?;
        let (values, status) = record.values();
        checked(status, 0)?;
        let script = String::from_utf8(script).map_err(|_| Error::NoRecording)?;
        Ok(Recording { script, log, values: Some(values), places })
    }

    /// Of threads that have made more accesses than the script has: these are the last ones.
    pub(crate) fn of_last(record: Handle, noted: Vec<Noted>) -> Result<Recording, Error> {
        let recording = Recording::of(record, Vec::new())?;
        let places = accesses_of(&recording.script).into_iter().zip(noted).map(|(many, noted)| noted.last(many)).collect();
        Ok(Recording { places, ..recording })
    }
}
