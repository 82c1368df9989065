//! A crash of explored code tells which seed it was: a signal by which the process dies, and a call that ends the process.
//!
//! The seed is enough to come there again, since a run follows from it.
use super::ctx::Ctx;
use std::io::Write;

/// A line without any allocation, as a handler of signals needs it. What does not fit is left out.
struct Line {
    bytes: [u8; 512],
    length: usize,
}

impl Write for Line {
    fn write(&mut self, more: &[u8]) -> std::io::Result<usize> {
        let room = &mut self.bytes[self.length..];
        let count = more.len().min(room.len());
        room[..count].copy_from_slice(&more[..count]);
        self.length += count;
        Ok(more.len())
    }

    fn flush(&mut self) -> std::io::Result<()> {
        Ok(())
    }
}

// What is told of a thread of a run by a schedule.
fn told(ctx: &Ctx, what: &str) -> Option<Line> {
    let seed = ctx.world.seed?;
    let mut line = Line { bytes: [0; 512], length: 0 };
    let _ = write!(line, "octet: {what} in thread {} by the schedule of seed {seed}", ctx.seat);
    if let Some(place) = ctx.place.get() {
        let _ = write!(line, ", after {}:{}", place.file(), place.line());
    }
    let _ = writeln!(line, ": explore([{seed}], ..) comes there again");
    Some(line)
}

/// The process exits in the midst of this thread's work.
pub(crate) fn tell_exit(ctx: &Ctx) {
    if let Some(line) = told(ctx, "the process exits") {
        let _ = std::io::stderr().write_all(&line.bytes[..line.length]);
    }
}

#[cfg(all(target_os = "linux", target_env = "gnu", any(target_arch = "x86_64", target_arch = "aarch64")))]
mod system {
    use std::ffi::c_int;
    use std::ptr::{null, null_mut};
    use std::sync::Once;
    use std::sync::atomic::{AtomicPtr, Ordering};

    // `struct sigaction` of glibc on 64-bit machines.
    #[repr(C)]
    struct Action {
        handler: usize,
        mask: [u64; 16],
        flags: c_int,
        restorer: usize,
    }

    unsafe extern "C" {
        fn sigaction(signal: c_int, action: *const Action, old: *mut Action) -> c_int;
        fn write(file: c_int, bytes: *const u8, length: usize) -> isize;
    }

    const ON_STACK: c_int = 0x0800_0000;
    /// SIGILL, SIGABRT, SIGBUS, SIGFPE, SIGSEGV.
    const SIGNALS: [(c_int, &str); 5] = [(4, "SIGILL"), (6, "SIGABRT"), (7, "SIGBUS"), (8, "SIGFPE"), (11, "SIGSEGV")];
    /// What was there before, for each of them.
    static BEFORE: [AtomicPtr<Action>; 5] = [const { AtomicPtr::new(null_mut()) }; 5];

    extern "C" fn on_signal(signal: c_int) {
        let Some(at) = SIGNALS.iter().position(|(its, _)| *its == signal) else {
            return;
        };
        if let Some(line) = crate::program::ctx::with(|ctx| super::told(ctx?, SIGNALS[at].1)) {
            // SAFETY: the bytes are borrowed for the call, with their length.
            unsafe { write(2, line.bytes.as_ptr(), line.length) };
        }
        // What was there before comes next, as the signal is raised again where this returns.
        // SAFETY: it was made by `sigaction`, and is never freed.
        unsafe { sigaction(signal, BEFORE[at].load(Ordering::Acquire), null_mut()) };
    }

    fn set(at: usize, signal: c_int) {
        let empty = || Action { handler: 0, mask: [0; 16], flags: 0, restorer: 0 };
        let before = Box::into_raw(Box::new(empty()));
        // SAFETY: the action is written by the call, with the layout of this system.
        if unsafe { sigaction(signal, null(), before) } != 0 {
            return;
        }
        BEFORE[at].store(before, Ordering::Release);
        let action = Action { handler: on_signal as extern "C" fn(c_int) as usize, flags: ON_STACK, ..empty() };
        // SAFETY: the handler takes a signal's number, allocates nothing, and calls what may be called in one.
        unsafe { sigaction(signal, &raw const action, null_mut()) };
    }

    pub(super) fn watch() {
        static ONCE: Once = Once::new();
        ONCE.call_once(|| {
            SIGNALS.iter().enumerate().for_each(|(at, (signal, _))| set(at, *signal));
        });
    }
}

/// From now on crashes of threads that are explored tell their seed, where this system lets them.
pub(crate) fn watch() {
    #[cfg(all(target_os = "linux", target_env = "gnu", any(target_arch = "x86_64", target_arch = "aarch64")))]
    system::watch();
}
