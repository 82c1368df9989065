//! What the threads of a run are run again by.
use crate::long::{LongBuilder, Way};
use crate::{Builder, Recording, Run};
use std::path::Path;

/// What the threads of a run are run again by: a recording, the run that it is of, or the path of a file that `Builder::record`
/// has written. A file is of a run of any length, and so is what it gives.
///
/// ```
/// use octet::{Builder, Error, Heap, Recording, Rerun, Run};
///
/// // Makes the run again by what was kept of it, a recording in memory or one that was loaded.
/// fn again(heap: Builder, kept: impl Rerun<Builder = Builder>) -> Result<Run<u64>, Error> {
///     heap.rerun(kept).run(|threads| threads.spawn(|session| session.fetch_add(session.object("x")?, 1)))
/// }
///
/// let heap = Heap::builder().object("x", 5);
/// let first = heap.clone().run(|threads| threads.spawn(|session| session.fetch_add(session.object("x")?, 1)))?;
/// let recording: &Recording = first.recording();
/// assert_eq!(again(heap.clone(), recording)?.values(), [5]);
/// assert_eq!(again(heap, &first)?.values(), [5]);
/// # Ok::<(), Error>(())
/// ```
pub trait Rerun {
    /// What runs them.
    type Builder;

    /// The same as `Builder::rerun`.
    ///
    /// ```
    /// use octet::{Heap, Rerun};
    ///
    /// let heap = Heap::builder().object("x", 0);
    /// let first = heap.clone().run(|threads| threads.spawn(|session| session.store(session.object("x")?, 1)))?;
    /// let second = Rerun::rerun(&first, heap).run(|threads| threads.spawn(|session| session.store(session.object("x")?, 1)))?;
    /// assert_eq!(second.recording(), first.recording());
    /// # Ok::<(), octet::Error>(())
    /// ```
    fn rerun(self, heap: Builder) -> Self::Builder;
}

impl Rerun for &Recording {
    type Builder = Builder;

    fn rerun(self, heap: Builder) -> Builder {
        heap.repeating(self)
    }
}

impl<T> Rerun for &Run<T> {
    type Builder = Builder;

    fn rerun(self, heap: Builder) -> Builder {
        heap.repeating(self.recording())
    }
}

impl<P: AsRef<Path>> Rerun for P {
    type Builder = LongBuilder;

    fn rerun(self, heap: Builder) -> LongBuilder {
        LongBuilder::new(heap, Way::Rerun, self.as_ref().to_path_buf())
    }
}
