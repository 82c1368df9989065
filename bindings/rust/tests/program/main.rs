//! Programs over the look-alikes of `std`: explored, recorded, run again, and run plainly.
mod all;
mod corners;
mod crashes;
mod elsewhere;
mod found;
mod killed;
mod literature;
mod lookalikes;
mod planted;
mod refused;
mod right;
mod second_runs;

use std::path::PathBuf;

/// A file or a stem of this test's own.
fn scratch(name: &str) -> PathBuf {
    std::env::temp_dir().join(format!("octet-program-{name}-{}", std::process::id()))
}

/// Small enough that a recorded run begins at once.
fn small() -> octet::Program {
    octet::Program::new().objects(64).threads(8)
}
