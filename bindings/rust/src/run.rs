//! What a run that has ended has.
use crate::{Error, Place, Recording};
use std::path::Path;

/// A run that has ended: its recording, and what its threads gave back.
///
/// ```
/// let run = octet::Heap::builder().object("x", 5).run(|threads| {
///     threads.spawn(|session| session.fetch_add(session.object("x")?, 2));
/// })?;
/// assert_eq!((run.values(), run.value("x")), (&[5][..], Some(7)));
/// # Ok::<(), octet::Error>(())
/// ```
#[derive(Clone, Debug)]
pub struct Run<T> {
    pub(crate) recording: Recording,
    pub(crate) values: Vec<T>,
}

impl<T> Run<T> {
    /// What the threads gave back, in the order in which they were named.
    ///
    /// ```
    /// let run = octet::Heap::builder().run(|threads| {
    ///     threads.spawn(|session| Ok(session.number()));
    ///     threads.spawn(|session| Ok(session.number()));
    /// })?;
    /// assert_eq!(run.values(), [0, 1]);
    /// # Ok::<(), octet::Error>(())
    /// ```
    #[must_use]
    pub fn values(&self) -> &[T] {
        &self.values
    }

    /// The same, by value.
    ///
    /// ```
    /// let run = octet::Heap::builder().run(|threads| threads.spawn(|_| Ok("done".to_string())))?;
    /// let done: Vec<String> = run.into_values();
    /// assert_eq!(done, ["done"]);
    /// # Ok::<(), octet::Error>(())
    /// ```
    #[must_use]
    pub fn into_values(self) -> Vec<T> {
        self.values
    }

    /// Its recording.
    ///
    /// ```
    /// let run = octet::Heap::builder().object("x", 0).run(|threads| threads.spawn(|_| Ok(())))?;
    /// assert_eq!(run.recording().value("x"), Some(0));
    /// # Ok::<(), octet::Error>(())
    /// ```
    #[must_use]
    pub fn recording(&self) -> &Recording {
        &self.recording
    }

    /// The object's value at the end.
    ///
    /// ```
    /// let run = octet::Heap::builder().object("x", 5).run(|threads| threads.spawn(|_| Ok(())))?;
    /// assert_eq!((run.value("x"), run.value("y")), (Some(5), None));
    /// # Ok::<(), octet::Error>(())
    /// ```
    #[must_use]
    pub fn value(&self, name: &str) -> Option<u64> {
        self.recording.value(name)
    }

    /// The same as `Recording::script`.
    ///
    /// ```
    /// let run = octet::Heap::builder().object("x", 5).run(|threads| threads.spawn(|_| Ok(())))?;
    /// assert_eq!(run.script(), run.recording().script());
    /// # Ok::<(), octet::Error>(())
    /// ```
    #[must_use]
    pub fn script(&self) -> &str {
        self.recording.script()
    }

    /// The same as `Recording::log`.
    ///
    /// ```
    /// let run = octet::Heap::builder().object("x", 5).run(|threads| threads.spawn(|_| Ok(())))?;
    /// assert_eq!(run.log(), run.recording().log());
    /// # Ok::<(), octet::Error>(())
    /// ```
    #[must_use]
    pub fn log(&self) -> &[u8] {
        self.recording.log()
    }

    /// The same as `Recording::place`.
    ///
    /// ```
    /// let run = octet::Heap::builder().object("x", 5).run(|threads| threads.spawn(|_| Ok(())))?;
    /// assert_eq!(run.place(0, 0), None);
    /// # Ok::<(), octet::Error>(())
    /// ```
    #[must_use]
    pub fn place(&self, thread: usize, access: usize) -> Option<&Place> {
        self.recording.place(thread, access)
    }

    /// The same as `Recording::save`.
    ///
    /// ```
    /// # let stem = std::env::temp_dir().join(format!("octet-run-save-{}", std::process::id()));
    /// let run = octet::Heap::builder().object("x", 5).run(|threads| threads.spawn(|_| Ok(())))?;
    /// run.save(&stem)?;
    /// assert_eq!(&octet::Recording::load(&stem)?, run.recording());
    /// # Ok::<(), octet::Error>(())
    /// ```
    ///
    /// # Errors
    /// Those of `Recording::save`.
    pub fn save(&self, stem: impl AsRef<Path>) -> Result<(), Error> {
        self.recording.save(stem)
    }
}

impl<T> AsRef<Recording> for Run<T> {
    fn as_ref(&self) -> &Recording {
        &self.recording
    }
}
