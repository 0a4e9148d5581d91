//! Jorulbani: a proved analyser of relay wiring.
//!
//! It takes a scanner's wiring file and works out, for every vertex (a terminal), a formula in the variables (the coils) that says when
//! that vertex is joined to a live source. Every byte string is accepted, or refused with a number and a place; nothing has to be checked
//! beforehand.
//!
//! This crate is a safe wrapper of the proved library, which is x86-64 code. On an x86-64 host it is linked in. On others the calls go
//! through a bridge program, one process for each calling thread: [`ready`] says whether it can run, and the other functions panic where
//! it cannot.
//!
//! ```
//! // Coils 7 and 9; no given formulas; three vertices, the first one live; a switch on coil 7 between vertices 0 and 1, and one on
//! // coil 9 between 1 and 2. All numbers are 16 bits, low byte first; references 2 and 3 are the two coils.
//! let numbers: [u16; 17] = [2, 7, 9, 0, 3, 1, 0, 0, 2, 0, 1, 2, 2, 1, 2, 3, 3];
//! let file: Vec<u8> = numbers.iter().flat_map(|number| number.to_le_bytes()).collect();
//!
//! // With coil 7 on and coil 9 off, vertices 0 and 1 are live.
//! assert_eq!(jorulbani::direct(&file, &[1, 0])?, [1, 1, 0]);
//!
//! // Vertex 2 has formula 4: coil 7 and coil 9.
//! let listing = jorulbani::list(&file);
//! assert!(listing.contains("f 4 and 2 3\n"));
//! assert!(listing.ends_with("vertex 2 formula 4\n"));
//!
//! // A file that was cut is refused, with what is missing and where.
//! let refusal = jorulbani::analyse(&file[..20]).unwrap_err();
//! assert_eq!((refusal.cause(), refusal.place()), (jorulbani::Cause::Cut, 18));
//! # Ok::<(), jorulbani::Refusal>(())
//! ```
#![deny(unsafe_code)]
#![warn(missing_docs)]

#[doc(hidden)]
#[allow(missing_docs)]
pub mod bridge;
#[allow(unsafe_code)]
mod door;
mod refusal;

pub use refusal::{Cause, Refusal};

use refusal::decoded;
use std::io;

/// Bytes that are proved to be enough for every result.
pub const RESULT_ROOM: usize = 63_548;

/// Bytes that are enough for every direct answer: one for each vertex.
pub const ANSWER_ROOM: usize = 24;

/// Bytes that are enough for every listing, and that the proved library wants for one.
const LISTING_ROOM: usize = 262_144;

/// Analyses a wiring file and gives its result form.
///
/// # Errors
///
/// The file's refusal, 1 to 7.
pub fn analyse(file: &[u8]) -> Result<Vec<u8>, Refusal> {
    let mut out = vec![0; RESULT_ROOM];
    let len = analyse_into(file, &mut out)?;
    out.truncate(len);
    Ok(out)
}

/// Analyses a wiring file, writes its result form at the front of `out` and gives the length. The bytes behind it stay as they came.
///
/// # Errors
///
/// The file's refusal, 1 to 7, or 9 where `out` is too small for its result. All of `out` stays as it came.
pub fn analyse_into(file: &[u8], out: &mut [u8]) -> Result<usize, Refusal> {
    decoded(door::analyse(file, out), out.len())
}

/// Says for one setting which vertices are joined to a live source: 1 or 0 for each vertex. `setting` has a byte, 0 or 1, for each
/// variable in the file's order.
///
/// # Errors
///
/// The file's refusal, 1 to 7, or the setting's, 10 and 11.
pub fn direct(file: &[u8], setting: &[u8]) -> Result<Vec<u8>, Refusal> {
    let mut out = vec![0; ANSWER_ROOM];
    let vertices = direct_into(file, setting, &mut out)?;
    out.truncate(vertices);
    Ok(out)
}

/// As [`direct`], written at the front of `out`: gives the number of vertices. The bytes behind them stay as they came.
///
/// # Errors
///
/// As [`direct`], or 12 where `out` has fewer bytes than there are vertices. All of `out` stays as it came.
pub fn direct_into(file: &[u8], setting: &[u8], out: &mut [u8]) -> Result<usize, Refusal> {
    decoded(door::direct(file, setting, out), out.len())
}

/// Lists the analysis of a wiring file as text. For a refused file it is the one line `refused NUMBER at PLACE`.
pub fn list(file: &[u8]) -> String {
    let mut out = vec![0; LISTING_ROOM];
    match decoded(door::list(file, &mut out), LISTING_ROOM) {
        Ok(len) if len > 0 => out.truncate(len),
        answer => panic!("bug: the proved library answered a listing with {answer:?}"),
    }
    String::from_utf8(out).expect("bug: the proved library lists in ASCII")
}

/// Says whether calls can be made: always on x86-64, and elsewhere where the bridge program can run. It is started for this thread.
///
/// # Errors
///
/// Why the bridge cannot run, and what to do.
pub fn ready() -> io::Result<()> {
    door::ready()
}
