//! The calls of `include/octet.h`. All `unsafe` code of sessions stands here; that of the look-alikes of `std` stands beside it.
use std::ffi::c_void;
use std::ptr::null_mut;

// `octet_status`.
pub(crate) const READY: i32 = 0;
pub(crate) const PENDING: i32 = 1;
pub(crate) const OVER: i32 = 2;
pub(crate) const NO_SESSION: i32 = -1;
pub(crate) const RESTING: i32 = -2;
pub(crate) const RUNNING: i32 = -3;
pub(crate) const BEGUN: i32 = -4;
pub(crate) const SPENT: i32 = -7;
pub(crate) const NO_MEMORY: i32 = -9;
pub(crate) const BAD_TEXT: i32 = -10;
pub(crate) const OTHER_SESSIONS: i32 = -11;
pub(crate) const STILL_RUNNING: i32 = -12;
pub(crate) const TOO_LONG: i32 = -13;
pub(crate) const DIVERGED: i32 = -15;
pub(crate) const HALTED: i32 = -16;
pub(crate) const MISFIT: i32 = -17;
pub(crate) const UNORDERED: i32 = -18;
pub(crate) const NOT_WHOLE: i32 = -19;
pub(crate) const BAD_LOG: i32 = -20;
pub(crate) const NO_ROOM: i32 = -24;
pub(crate) const BAD_MARKS: i32 = -25;
pub(crate) const OTHER_RUN: i32 = -26;
pub(crate) const TWO_RUNS: i32 = -29;
pub(crate) const OUT_OF_ORDER: i32 = -32;

/// What a session is asked for.
#[derive(Clone, Copy, Debug)]
pub(crate) enum Access {
    Read,
    Write { value: u64 },
    Update { change: Change, operand: u64, expected: u64 },
}

impl Access {
    /// Whether it is more than a read, where this was found: an exchange may not be.
    pub(crate) fn changes(self, found: u64) -> bool {
        !matches!(self, Access::Update { change: Change::CompareExchange, expected, .. } if expected != found)
    }
}

/// `octet_change`.
#[derive(Clone, Copy, Debug)]
#[repr(u8)]
pub(crate) enum Change {
    Add = 0,
    Sub = 1,
    Swap = 2,
    CompareExchange = 3,
    And = 4,
    Or = 5,
    Xor = 6,
    Max = 7,
    Min = 8,
}

/// `octet_way`.
#[derive(Clone, Copy, Debug)]
#[repr(u8)]
pub(crate) enum Way {
    Uniform = 0,
    Bursts = 1,
    Priorities = 2,
}

/// A session, a stream, a record, a schedule, or nothing. It is freed when it is dropped.
#[repr(C)]
pub(crate) struct Handle {
    at: *mut c_void,
}

unsafe extern "C" {
    fn octet_open(text: *const u8, length: usize, sessions: *mut Handle, count: usize) -> i32;
    fn octet_follow(
        script: *const u8,
        length: usize,
        log: *const u8,
        log_length: usize,
        sessions: *mut Handle,
        count: usize,
    ) -> i32;
    fn octet_start(session: *mut Handle) -> i32;
    fn octet_stop(session: *mut Handle) -> i32;
    fn octet_end(session: *mut Handle, out: *mut u64) -> i32;
    fn octet_safe_point(session: *mut Handle) -> i32;
    fn octet_region(session: *mut Handle) -> i32;
    fn octet_access(session: *mut Handle, mode: u8, object: u16, value: u64, out: *mut u64) -> i32;
    fn octet_update(session: *mut Handle, change: u8, object: u16, operand: u64, expected: u64, out: *mut u64) -> i32;
    fn octet_poll(session: *mut Handle, out: *mut u64) -> i32;
    fn octet_close(sessions: *mut Handle, count: usize, record: *mut Handle) -> i32;
    fn octet_script(record: *mut Handle, out: *mut u8, room: usize, length: *mut usize) -> i32;
    fn octet_log(record: *mut Handle, out: *mut u8, room: usize, length: *mut usize) -> i32;
    fn octet_values(record: *mut Handle, out: *mut u64, room: usize, length: *mut usize) -> i32;
    fn octet_free(handle: *mut Handle);
    fn octet_open_long(
        starts: *const u64,
        objects: usize,
        sessions: *mut Handle,
        count: usize,
        streams: *mut Handle,
        stream_count: usize,
    ) -> i32;
    #[expect(dead_code, reason = "a heap of Rust has its objects without a text")]
    fn octet_starts(text: *const u8, text_length: usize, out: *mut u64, room: usize, length: *mut usize) -> i32;
    fn octet_head(
        starts: *const u64,
        objects: usize,
        threads: u8,
        declared: *const u8,
        declared_length: usize,
        out: *mut u8,
        room: usize,
        length: *mut usize,
    ) -> i32;
    fn octet_take(stream: *mut Handle, out: *mut u8, room: usize, length: *mut usize) -> i32;
    fn octet_follow_long(
        starts: *const u64,
        objects: usize,
        declared: *const u8,
        declared_length: usize,
        last: u16,
        sessions: *mut Handle,
        count: usize,
        streams: *mut Handle,
        stream_count: usize,
    ) -> i32;
    fn octet_feed(stream: *mut Handle, bytes: *const u8, length: usize, taken: *mut u64) -> i32;
    fn octet_feed_end(stream: *mut Handle, at: *mut u64) -> i32;
    fn octet_search(record: *mut Handle, search: *mut Handle) -> i32;
    fn octet_window(search: *mut Handle, window: *mut Handle) -> i32;
    fn octet_schedule(turns: *mut Handle, way: u8, seed: u64, most: u32) -> i32;
    fn octet_pick(turns: *mut Handle, ready: *const u8, threads: usize, thread: *mut u8) -> i32;
}

// SAFETY: the library proves that what is behind a handle may be used by another thread, and each call below takes the
// handle by `&mut`, so one call at a time has it.
unsafe impl Send for Handle {}

impl Drop for Handle {
    fn drop(&mut self) {
        // SAFETY: the handle is borrowed for the call.
        unsafe { octet_free(self) };
    }
}

fn empty(count: usize) -> Vec<Handle> {
    (0..count).map(|_| Handle::empty()).collect()
}

/// `octet_open`: a session for each thread, and the status.
pub(crate) fn open(text: &[u8], threads: usize) -> (Vec<Handle>, i32) {
    let mut sessions = empty(threads);
    // SAFETY: text and handles are borrowed for the call, with their lengths.
    let status = unsafe { octet_open(text.as_ptr(), text.len(), sessions.as_mut_ptr(), threads) };
    (sessions, status)
}

/// `octet_follow`.
pub(crate) fn follow(script: &[u8], log: &[u8], threads: usize) -> (Vec<Handle>, i32) {
    let mut sessions = empty(threads);
    // SAFETY: both texts and the handles are borrowed for the call, with their lengths.
    let status =
        unsafe { octet_follow(script.as_ptr(), script.len(), log.as_ptr(), log.len(), sessions.as_mut_ptr(), threads) };
    (sessions, status)
}

/// `octet_open_long`: a session and a stream for each thread, and the status.
pub(crate) fn open_long(starts: &[u64], threads: usize) -> (Vec<Handle>, Vec<Handle>, i32) {
    let (mut sessions, mut streams) = (empty(threads), empty(threads));
    // SAFETY: the values and the handles are borrowed for the call, with their lengths.
    let status = unsafe {
        octet_open_long(starts.as_ptr(), starts.len(), sessions.as_mut_ptr(), threads, streams.as_mut_ptr(), threads)
    };
    (sessions, streams, status)
}

/// `octet_head`: its bytes, and the status.
pub(crate) fn head(starts: &[u64], threads: usize, declared: &[u8]) -> (Vec<u8>, i32) {
    // Too many for a byte are too many for the library.
    let threads = u8::try_from(threads).unwrap_or(u8::MAX);
    // SAFETY: `copied` gives the call a buffer and its length; the rest is borrowed for the call, with its lengths.
    copied(|out, room, length| unsafe {
        octet_head(starts.as_ptr(), starts.len(), threads, declared.as_ptr(), declared.len(), out, room, length)
    })
}

/// `octet_follow_long`.
pub(crate) fn follow_long(starts: &[u64], declared: &[u8], last: u16, threads: usize) -> (Vec<Handle>, Vec<Handle>, i32) {
    let (mut sessions, mut streams) = (empty(threads), empty(threads));
    let (words, length) = (declared.as_ptr(), declared.len());
    // SAFETY: values, bytes and handles are borrowed for the call, with their lengths.
    let status = unsafe {
        octet_follow_long(
            starts.as_ptr(),
            starts.len(),
            words,
            length,
            last,
            sessions.as_mut_ptr(),
            threads,
            streams.as_mut_ptr(),
            threads,
        )
    };
    (sessions, streams, status)
}

/// `octet_schedule`: the schedule, and the status.
pub(crate) fn schedule(way: Way, seed: u64, most: u32) -> (Handle, i32) {
    let mut turns = Handle::empty();
    // SAFETY: the handle is this function's own.
    let status = unsafe { octet_schedule(&raw mut turns, way as u8, seed, most) };
    (turns, status)
}

/// `octet_close`: the record, and the status.
pub(crate) fn close(mut sessions: Vec<Handle>) -> (Handle, i32) {
    let mut record = Handle::empty();
    // SAFETY: the handles are this function's own, and so is the record.
    let status = unsafe { octet_close(sessions.as_mut_ptr(), sessions.len(), &raw mut record) };
    (record, status)
}

impl Handle {
    pub(crate) fn empty() -> Handle {
        Handle { at: null_mut() }
    }

    pub(crate) fn start(&mut self) -> i32 {
        // SAFETY: the handle is borrowed for the call.
        unsafe { octet_start(self) }
    }

    pub(crate) fn stop(&mut self) -> i32 {
        // SAFETY: as in `start`.
        unsafe { octet_stop(self) }
    }

    pub(crate) fn end(&mut self, out: &mut u64) -> i32 {
        // SAFETY: handle and `out` are borrowed for the call, and so in `access` and `poll`.
        unsafe { octet_end(self, out) }
    }

    pub(crate) fn safe_point(&mut self) -> i32 {
        // SAFETY: as in `start`.
        unsafe { octet_safe_point(self) }
    }

    pub(crate) fn region(&mut self) -> i32 {
        // SAFETY: as in `start`.
        unsafe { octet_region(self) }
    }

    #[inline]
    pub(crate) fn access(&mut self, object: u16, access: Access, out: &mut u64) -> i32 {
        match access {
            // SAFETY: as in `end`.
            Access::Read => unsafe { octet_access(self, 0, object, 0, out) },
            // SAFETY: as in `end`.
            Access::Write { value } => unsafe { octet_access(self, 1, object, value, out) },
            Access::Update { change, operand, expected } => {
                // SAFETY: as in `end`.
                unsafe { octet_update(self, change as u8, object, operand, expected, out) }
            }
        }
    }

    pub(crate) fn poll(&mut self, out: &mut u64) -> i32 {
        // SAFETY: as in `end`.
        unsafe { octet_poll(self, out) }
    }

    pub(crate) fn take(&mut self, out: &mut [u8], length: &mut usize) -> i32 {
        // SAFETY: handle, buffer and `length` are borrowed for the call.
        unsafe { octet_take(self, out.as_mut_ptr(), out.len(), length) }
    }

    pub(crate) fn feed(&mut self, bytes: &[u8], taken: &mut u64) -> i32 {
        // SAFETY: as in `take`.
        unsafe { octet_feed(self, bytes.as_ptr(), bytes.len(), taken) }
    }

    pub(crate) fn feed_end(&mut self, at: &mut u64) -> i32 {
        // SAFETY: as in `end`.
        unsafe { octet_feed_end(self, at) }
    }

    /// `octet_search` by this record: the search, and the status.
    pub(crate) fn search(&mut self) -> (Handle, i32) {
        let mut search = Handle::empty();
        // SAFETY: the record is borrowed for the call, and the other handle is this function's own.
        let status = unsafe { octet_search(self, &raw mut search) };
        (search, status)
    }

    /// `octet_window` by this search: the window, and the status.
    pub(crate) fn window(&mut self) -> (Handle, i32) {
        let mut window = Handle::empty();
        // SAFETY: as in `search`.
        let status = unsafe { octet_window(self, &raw mut window) };
        (window, status)
    }

    /// `octet_pick`: a thread that is ready, if one is.
    pub(crate) fn pick(&mut self, ready: &[bool]) -> Option<usize> {
        let marks: Vec<u8> = ready.iter().map(|&is_ready| is_ready.into()).collect();
        let mut thread = 0;
        // SAFETY: handle, marks and `thread` are borrowed for the call, the marks with their number.
        let status = unsafe { octet_pick(self, marks.as_ptr(), marks.len(), &raw mut thread) };
        (status == READY).then_some(thread.into())
    }

    pub(crate) fn script(&mut self) -> (Vec<u8>, i32) {
        // SAFETY: `copied` gives the call a buffer and its length.
        copied(|out, room, length| unsafe { octet_script(self, out, room, length) })
    }

    pub(crate) fn log(&mut self) -> (Vec<u8>, i32) {
        // SAFETY: as in `script`.
        copied(|out, room, length| unsafe { octet_log(self, out, room, length) })
    }

    pub(crate) fn values(&mut self) -> (Vec<u64>, i32) {
        // SAFETY: as in `script`.
        copied(|out, room, length| unsafe { octet_values(self, out, room, length) })
    }
}

// Asks a call how much there is, and then for all of it.
fn copied<T: Default + Clone>(mut call: impl FnMut(*mut T, usize, &mut usize) -> i32) -> (Vec<T>, i32) {
    let mut length = 0;
    let status = call([].as_mut_ptr(), 0, &mut length);
    if status != READY {
        return (Vec::new(), status);
    }
    let mut all = vec![T::default(); length];
    let status = call(all.as_mut_ptr(), all.len(), &mut length);
    (all, status)
}
