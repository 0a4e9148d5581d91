//! Outside tests and benchmark: the proved library against the reference, on the same files.
//!
//! No expected value comes from the library: it comes from the reference, or from the generator that planted a fault.

pub mod calls;
pub mod cards;
pub mod cases;
pub mod compare;
pub mod dressing;
pub mod faults;
pub mod handmade;
pub mod lent;
pub mod looked;
pub mod networks;
pub mod program;
pub mod rooms;
pub mod run;
pub mod seeded;
pub mod settings;
pub mod shapes;
pub mod short;
pub mod sound;
pub mod tally;
pub mod timing;
pub mod vectors;

use std::path::{Path, PathBuf};

/// The repository's root.
pub fn root() -> PathBuf {
    Path::new(env!("CARGO_MANIFEST_DIR")).join("../..")
}
