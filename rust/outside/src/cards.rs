//! The benchmark's inputs.

use crate::dressing::{wired, Labels};
use crate::networks::{Network, MOST_VERTICES};
use crate::seeded::Seeded;
use crate::shapes;
use crate::sound;

const SEED: u64 = 1;

/// A file to measure.
pub struct Card {
    pub name: String,
    pub file: Vec<u8>,
}

/// The cards: small, series-parallel, dense, and the limit.
pub fn cards() -> [Card; 4] {
    let mut seeded = Seeded::new(SEED, &[]);
    let mut small = shapes::ring(8);
    small.ends.extend([(0, 4), (1, 5), (2, 6)]);
    let chain = shapes::series_parallel(&mut seeded, MOST_VERTICES);
    let dense = shapes::random(&mut seeded, MOST_VERTICES, 50);
    [
        card("small", &wired(&small)),
        card("series-parallel", &wired(&chain)),
        card("dense", &wired(&dense)),
        card("limit", &limit()),
    ]
}

/// Every pair linked, for growing numbers of vertices.
pub fn growing() -> [Card; 6] {
    [4, 8, 12, 16, 20, MOST_VERTICES].map(|vertices| {
        card(
            &format!("{vertices} vertices"),
            &wired(&shapes::all_linked(vertices)),
        )
    })
}

/// All sections at their limits, every pair linked.
fn limit() -> Network {
    let mut seeded = Seeded::new(SEED, &[5]);
    sound::full(
        &mut seeded,
        shapes::all_linked(MOST_VERTICES),
        Labels::TwoCoils,
    )
}

fn card(name: &str, network: &Network) -> Card {
    Card {
        name: name.to_string(),
        file: network.encode(),
    }
}
