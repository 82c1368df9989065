//! How a thread of a run is started.
use super::{Builder, JoinHandle, Park, Thread};
use crate::program::ctx::{Ctx, enter, with, work_is_done};
use crate::program::slot::Object;
use crate::program::world::{Done, Way, World};
use std::io;
use std::num::NonZero;
use std::panic::{self, AssertUnwindSafe};
use std::sync::atomic::AtomicU64;
use std::sync::{Arc, OnceLock};

/// How many threads the system runs at once, as it was first asked.
pub(crate) fn know_parallelism() -> NonZero<usize> {
    static KNOWN: OnceLock<NonZero<usize>> = OnceLock::new();
    *KNOWN.get_or_init(|| std::thread::available_parallelism().unwrap_or(NonZero::<usize>::MIN))
}

/// A seat for a thread that this one starts; none outside of runs.
pub(super) fn seat_by() -> io::Result<Option<(Arc<World>, usize)>> {
    with(|ctx| {
        let Some(ctx) = ctx else {
            return Ok(None);
        };
        let world = Arc::clone(&ctx.world);
        let taken = if ctx.way == Way::Again {
            let noted = ctx.note(|| 0);
            if noted == NO_SEAT { None } else { ctx.stopped(|| world.take_seat(Some(noted))) }
        } else {
            let taken = world.take_seat(None);
            ctx.note(|| taken.and_then(|seat| u32::try_from(seat).ok()).unwrap_or(NO_SEAT));
            taken
        };
        let all_taken = || io::Error::other("all threads of the run are alive: Program::threads allows up to 16");
        let seat = taken.ok_or_else(all_taken)?;
        if ctx.finds_races {
            ctx.memory().start(ctx.seat, seat);
        }
        if ctx.way == Way::Turns {
            world.turns().seat(seat, false);
            // The new thread may come before what this one does next.
            ctx.has_turn.set(false);
        }
        Ok(Some((world, seat)))
    })
}

/// In a note: all seats were taken.
const NO_SEAT: u32 = u32::MAX;

/// What is known of a thread that is to be started in this seat, and what its operating-system thread does.
pub(super) struct Start {
    world: Arc<World>,
    seat: usize,
    has_name: bool,
    done: Arc<Done>,
    park: Arc<Park>,
}

impl Start {
    pub(super) fn new(world: &Arc<World>, seat: usize, has_name: bool) -> Start {
        let park = Arc::new(Park { token: Object::new(AtomicU64::new(0)) });
        Start { world: Arc::clone(world), seat, has_name, done: Arc::default(), park }
    }

    /// How those who wait for it know it.
    pub(super) fn told(&self) -> (Arc<Done>, Arc<Park>, bool) {
        (Arc::clone(&self.done), Arc::clone(&self.park), self.has_name)
    }

    /// The system names it so, where the program does not.
    pub(super) fn name(&self) -> String {
        format!("octet-{}", self.seat)
    }

    pub(super) fn run<T>(self, work: impl FnOnce() -> T) -> T {
        let Start { world, seat, has_name, done, park } = self;
        crate::quiet::set(world.is_quiet);
        let thread = Thread { std: std::thread::current(), park: Some(park), has_name };
        enter(&world, seat, world.part_of(seat), &done, thread);
        let done_with = panic::catch_unwind(AssertUnwindSafe(work));
        work_is_done();
        match done_with {
            Ok(value) => value,
            Err(payload) => {
                let begun = with(|ctx| ctx.map(Ctx::panic_begun)).unwrap_or(u64::MAX);
                world.note_panic(&done, begun, crate::explore::message_of(payload.as_ref()));
                panic::resume_unwind(payload)
            }
        }
    }
}

/// Starts a thread of the run in this seat, which is taken for it.
pub(crate) fn start<F, T>(world: &Arc<World>, seat: usize, builder: Builder, work: F) -> io::Result<JoinHandle<T>>
where
    F: FnOnce() -> T + Send + 'static,
    T: Send + 'static,
{
    let start = Start::new(world, seat, builder.name.is_some());
    let (done, park, has_name) = start.told();
    let builder = builder.std(|| Some(start.name()));
    let std = builder.spawn(move || start.run(work)).inspect_err(|_| world.unseat(seat))?;
    let thread = Thread { std: std.thread().clone(), park: Some(park), has_name };
    Ok(JoinHandle { std, done: Some(done), thread })
}
