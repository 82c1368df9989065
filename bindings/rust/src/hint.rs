//! As `std::hint`.
use crate::program::ctx::with;
use crate::program::world::Way;
pub use std::hint::{assert_unchecked, black_box, unreachable_unchecked};
use std::panic::Location;

/// As [`std::hint::spin_loop`]. By a schedule the other threads go first, as the seed has it.
///
/// ```
/// octet::hint::spin_loop();
/// ```
#[inline]
#[track_caller]
pub fn spin_loop() {
    let caller = Location::caller();
    with(|ctx| match ctx {
        Some(ctx) if ctx.way == Way::Turns => ctx.yield_in_turn(caller),
        Some(ctx) => ctx.safe_point(),
        None => {}
    });
    std::hint::spin_loop();
}
