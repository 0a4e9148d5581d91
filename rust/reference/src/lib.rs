//! The reference implementation of the outline's exact rules: wiring files in, results,
//! direct answers and listings out. It was written from that page alone and shares no code with the
//! proved library, so that the two can be compared.
#![forbid(unsafe_code)]
#![warn(missing_docs)]

mod analysis;
mod direct;
mod form;
mod formula;
mod listing;
mod result;
#[cfg(test)]
mod tests;

use analysis::Analysis;
use form::Network;
pub use formula::{Kind, Record, Search};
pub use result::truths;

/// "A refusal returns its number and place": the number of the outline's table, and a byte offset, an index or 0.
#[derive(Debug, Clone, Copy, PartialEq, Eq)]
pub struct Refusal {
    /// The cause, 1 to 12; "keep number 8 unused".
    pub number: u32,
    /// Where the cause stands, as the outline's table says for each number.
    pub place: usize,
}

/// The result's bytes, or the first refusal of 1 to 7, then 9: "9 follows 7".
pub fn analyse(file: &[u8], room: usize) -> Result<Vec<u8>, Refusal> {
    let network = Network::read(file)?;
    Analysis::of(&network).bytes(room)
}

/// One byte, 1 or 0, for each vertex, or the first refusal of "1 to 7, then 10, 11 (lowest index), 12".
pub fn direct(file: &[u8], setting: &[u8], room: usize) -> Result<Vec<u8>, Refusal> {
    let network = Network::read(file)?;
    direct::test(&network, setting, room)?;
    Ok(direct::answer(&network, setting))
}

/// The listing's text; "a refusal prints `refused NUMBER at PLACE` alone".
pub fn listing(file: &[u8]) -> String {
    Network::read(file)
        .map(|network| listing::text(&Analysis::of(&network)))
        .unwrap_or_else(listing::refused)
}

/// "Room needed for a result", or the first refusal of 1 to 7.
pub fn room_needed(file: &[u8]) -> Result<usize, Refusal> {
    let network = Network::read(file)?;
    Ok(Analysis::of(&network).room())
}

/// Every search for an existing record (rule 6) in the order of asking, or the first refusal of 1 to 7.
pub fn searches(file: &[u8]) -> Result<Vec<Search>, Refusal> {
    let network = Network::read(file)?;
    Ok(Analysis::noting(&network).searches().to_vec())
}
