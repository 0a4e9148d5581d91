//! What one analysis takes, in the library and in the reference.

use crate::compare::AMPLE;
use jorulbani::bridge::{measured, Call};
use std::hint::black_box;
use std::time::Instant;

/// Where the library cannot be linked it is called by the bridge, under an emulator.
pub const EMULATED: bool = !cfg!(target_arch = "x86_64");

/// A figure is the best of so many rounds, after a warm-up.
pub const ROUNDS: usize = 7;

/// About how long a round takes, unless one call takes longer.
const ROUND_NANOSECONDS: u64 = 60_000_000;

/// The library wants this much room for a listing.
const LISTING_ROOM: usize = 262_144;

/// The figures of a file, and the time of one analysis.
pub struct Figures {
    pub records: usize,
    pub joins: usize,
    pub work: usize,
    pub library_nanoseconds: f64,
    pub reference_nanoseconds: f64,
}

impl Figures {
    /// Operations: joins and work.
    pub fn operations(&self) -> usize {
        self.joins + self.work
    }
}

/// Measures a file, once both sides have given the same result.
pub fn figures(file: &[u8]) -> Result<Figures, String> {
    let result =
        reference::analyse(file, AMPLE).map_err(|refusal| format!("refused: {refusal:?}"))?;
    if jorulbani::analyse(file).ok().as_ref() != Some(&result) {
        return Err("the library's result is not the reference's".to_string());
    }
    let number = |place: usize| usize::from(u16::from_le_bytes([result[place], result[place + 1]]));
    Ok(Figures {
        records: number(2 + 2 * number(0)),
        joins: number(result.len() - 4),
        work: number(result.len() - 2),
        library_nanoseconds: best(|times| library(file, times)),
        reference_nanoseconds: best(|times| reference_times(file, times)),
    })
}

/// The bytes of stack that one call of the library uses: analyse, direct, list.
pub fn stacks(file: &[u8]) -> [u64; 3] {
    let setting = vec![1; usize::from(u16::from_le_bytes([file[0], file[1]]))];
    let calls = [
        Call::Analyse,
        Call::Direct { setting: &setting },
        Call::List,
    ];
    calls.map(|call| measured(call, file, &mut vec![0; LISTING_ROOM], 1, true).stack)
}

/// The shortest time of one call, where `measure` gives that of a number of calls.
fn best(measure: impl Fn(u64) -> u64) -> f64 {
    let times = (ROUND_NANOSECONDS / measure(1).max(1)).max(1);
    let shortest = (0..ROUNDS).map(|_| measure(times)).min();
    shortest.unwrap_or(0) as f64 / times as f64
}

fn library(file: &[u8], times: u64) -> u64 {
    let mut out = vec![0; AMPLE];
    if EMULATED {
        return measured(Call::Analyse, file, &mut out, times, false).nanoseconds;
    }
    timed(times, || jorulbani::analyse_into(black_box(file), &mut out))
}

fn reference_times(file: &[u8], times: u64) -> u64 {
    timed(times, || reference::analyse(black_box(file), AMPLE))
}

fn timed<T>(times: u64, mut call: impl FnMut() -> T) -> u64 {
    let start = Instant::now();
    for _ in 0..times {
        black_box(call());
    }
    start.elapsed().as_nanos() as u64
}
