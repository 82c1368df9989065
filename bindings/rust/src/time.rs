//! As `std::time`, with an `Instant` that a second run is told again. By a schedule time passes only where a thread sleeps or a
//! wait times out, and by a microsecond each time that it is asked. A `SystemTime` is that of `std`, and is not recorded.
use crate::program::ctx::with;
use crate::program::world::Way;
use std::ops::{Add, AddAssign, Sub, SubAssign};
use std::sync::OnceLock;
use std::time as real;
pub use std::time::{Duration, SystemTime, SystemTimeError, UNIX_EPOCH};

/// As [`std::time::Instant`].
///
/// ```
/// use octet::time::{Duration, Instant};
///
/// let before = Instant::now();
/// octet::thread::sleep(Duration::from_millis(2));
/// assert!(before.elapsed() >= Duration::from_millis(2));
/// ```
#[derive(Clone, Copy, Debug, PartialEq, Eq, PartialOrd, Ord, Hash)]
pub struct Instant(real::Instant);

// What the instants of runs are counted from.
fn origin() -> real::Instant {
    static ORIGIN: OnceLock<real::Instant> = OnceLock::new();
    *ORIGIN.get_or_init(real::Instant::now)
}

impl Instant {
    /// As that of `std`.
    #[must_use]
    pub fn now() -> Instant {
        let micros = with(|ctx| {
            let ctx = ctx?;
            let passed = if ctx.way == Way::Turns {
                let mut memory = ctx.memory();
                memory.passed += Duration::from_micros(1);
                memory.passed
            } else {
                origin().elapsed()
            };
            Some(ctx.note_wide(u64::try_from(passed.as_micros()).unwrap_or(u64::MAX)))
        });
        // What notes say may be more than an instant can be.
        let told = |micros| origin().checked_add(Duration::from_micros(micros));
        Instant(micros.and_then(told).unwrap_or_else(real::Instant::now))
    }

    /// As that of `std`.
    #[must_use]
    pub fn elapsed(&self) -> Duration {
        Instant::now().duration_since(*self)
    }

    /// As that of `std`.
    #[must_use]
    pub fn duration_since(&self, earlier: Instant) -> Duration {
        self.0.saturating_duration_since(earlier.0)
    }

    /// As that of `std`.
    #[must_use]
    pub fn saturating_duration_since(&self, earlier: Instant) -> Duration {
        self.0.saturating_duration_since(earlier.0)
    }

    /// As that of `std`.
    #[must_use]
    pub fn checked_duration_since(&self, earlier: Instant) -> Option<Duration> {
        self.0.checked_duration_since(earlier.0)
    }

    /// As that of `std`.
    #[must_use]
    pub fn checked_add(&self, more: Duration) -> Option<Instant> {
        self.0.checked_add(more).map(Instant)
    }

    /// As that of `std`.
    #[must_use]
    pub fn checked_sub(&self, less: Duration) -> Option<Instant> {
        self.0.checked_sub(less).map(Instant)
    }
}

impl Add<Duration> for Instant {
    type Output = Instant;

    fn add(self, more: Duration) -> Instant {
        Instant(self.0 + more)
    }
}

impl AddAssign<Duration> for Instant {
    fn add_assign(&mut self, more: Duration) {
        self.0 += more;
    }
}

impl Sub<Duration> for Instant {
    type Output = Instant;

    fn sub(self, less: Duration) -> Instant {
        Instant(self.0.checked_sub(less).expect("overflow when subtracting duration from instant"))
    }
}

impl SubAssign<Duration> for Instant {
    fn sub_assign(&mut self, less: Duration) {
        self.0 -= less;
    }
}

impl Sub for Instant {
    type Output = Duration;

    fn sub(self, other: Instant) -> Duration {
        self.duration_since(other)
    }
}
