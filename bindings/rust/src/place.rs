//! Where in the program an access was asked for.
use std::borrow::Cow;
use std::fmt;
use std::panic::Location;

/// A line of the program's source.
///
/// ```
/// use octet::Heap;
///
/// let run = Heap::builder().object("x", 0).run(|threads| {
///     threads.spawn(|session| session.store(session.object("x")?, 1));
/// })?;
/// let place = run.place(0, 0).expect("thread 0 has made an access");
/// assert!(place.file().ends_with(".rs"));
/// assert_eq!(place.to_string(), format!("{}:{}", place.file(), place.line()));
/// # Ok::<(), octet::Error>(())
/// ```
#[derive(Clone, Debug, PartialEq, Eq, Hash)]
pub struct Place {
    file: Cow<'static, str>,
    line: u32,
}

impl Place {
    /// The file, as the compiler was given it.
    ///
    /// ```
    /// let run = octet::Heap::builder().object("x", 0).run(|threads| {
    ///     threads.spawn(|session| session.store(session.object("x")?, 1));
    /// })?;
    /// let place = run.place(0, 0).expect("thread 0 has made an access");
    /// assert_eq!(place.file(), file!());
    /// # Ok::<(), octet::Error>(())
    /// ```
    #[must_use]
    pub fn file(&self) -> &str {
        &self.file
    }

    /// The line, counted from 1.
    ///
    /// ```
    /// let before = line!();
    /// let run = octet::Heap::builder().object("x", 0).run(|threads| {
    ///     threads.spawn(|session| session.store(session.object("x")?, 1));
    /// })?;
    /// let place = run.place(0, 0).expect("thread 0 has made an access");
    /// assert_eq!(place.line(), before + 2);
    /// # Ok::<(), octet::Error>(())
    /// ```
    #[must_use]
    pub fn line(&self) -> u32 {
        self.line
    }

    pub(crate) fn new(file: &str, line: u32) -> Place {
        Place { file: file.to_string().into(), line }
    }

    // Of a line `FILE:LINE`.
    pub(crate) fn parse(text: &str) -> Option<Place> {
        let (file, line) = text.rsplit_once(':')?;
        Some(Place::new(file, line.parse().ok()?))
    }
}

impl From<&'static Location<'static>> for Place {
    fn from(location: &'static Location<'static>) -> Place {
        Place { file: location.file().into(), line: location.line() }
    }
}

impl fmt::Display for Place {
    fn fmt(&self, out: &mut fmt::Formatter<'_>) -> fmt::Result {
        write!(out, "{}:{}", self.file, self.line)
    }
}
