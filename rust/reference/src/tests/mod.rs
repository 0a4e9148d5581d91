//! Tests against the worked cases and the tables of the outline; every expected value is from there or by hand.

mod direct;
mod random;
mod refusals;
mod worked;

use crate::Refusal;

/// A refusal, for comparison.
fn refused<T>(number: u32, place: usize) -> Result<T, Refusal> {
    Err(Refusal { number, place })
}

/// The bytes of a network file from its four sections.
pub fn wiring(coils: &[u16], given: &[[u16; 3]], starts: &[u16], switches: &[[u16; 4]]) -> Vec<u8> {
    let mut file = Vec::new();
    let mut section = |count: usize, numbers: &[u16]| {
        file.extend(u16::try_from(count).unwrap().to_le_bytes());
        file.extend(numbers.iter().flat_map(|number| number.to_le_bytes()));
    };
    section(coils.len(), coils);
    section(given.len(), given.as_flattened());
    section(starts.len(), starts);
    section(switches.len(), switches.as_flattened());
    file
}

/// A longest file: every count at its limit.
fn longest_file() -> Vec<u8> {
    let coils: Vec<u16> = (0..200).collect();
    let starts: Vec<u16> = (0..24).collect();
    wiring(
        &coils,
        &[[1, 2, 3]; 500],
        &starts,
        &[[0, 23, 701, 701]; 400],
    )
}

/// A small random source (xorshift, 64 bits), the same on every run.
pub struct Xorshift(u64);

impl Xorshift {
    /// The source at its fixed seed.
    pub fn new() -> Xorshift {
        Xorshift(0x9E37_79B9_7F4A_7C15)
    }

    /// A number below the limit.
    pub fn below(&mut self, limit: u16) -> u16 {
        self.0 ^= self.0 << 13;
        self.0 ^= self.0 >> 7;
        self.0 ^= self.0 << 17;
        u16::try_from(self.0 % u64::from(limit)).unwrap()
    }
}
