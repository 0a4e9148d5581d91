//! Short seeded networks for the stored vectors, without a fault.

use crate::cases::{case, Case, Foreseen, BLOCK, KINDS};
use crate::handmade::{self, Named};
use std::collections::HashSet;

/// The file of each has so many bytes at most, and its listing so many lines.
const FILE: usize = 96;
const LISTING: usize = 20;

/// So many of each kind of cases at most, each with a name. None is made by hand too.
pub fn networks(seed: u64, of_each_kind: usize) -> Vec<Named> {
    let by_hand = handmade::files().into_iter();
    let mut seen: HashSet<Vec<u8>> = by_hand.map(|(_, file)| file).collect();
    let mut counts = [0; KINDS.len()];
    let mut networks = Vec::new();
    let sound = |case: &Case| case.foreseen == Foreseen::Accepted;
    for case in (0..BLOCK).map(|number| case(seed, number)).filter(sound) {
        let count = &mut counts[case.kind];
        let name = format!("seeded: {} {count}", case.kind_name());
        if *count < of_each_kind && is_short(&case.file) && seen.insert(case.file.clone()) {
            *count += 1;
            networks.push((name, case.file));
        }
    }
    networks
}

fn is_short(file: &[u8]) -> bool {
    file.len() <= FILE && reference::listing(file).lines().count() <= LISTING
}
