//! Bare networks: how many vertices, and which ends the switches have.

use crate::seeded::Seeded;

/// A bare network.
#[derive(Clone, Debug)]
pub struct Shape {
    pub vertices: usize,
    pub ends: Vec<(usize, usize)>,
}

impl Shape {
    /// The same network with vertices numbered at random, and switches in random order and direction.
    pub fn shuffled(mut self, seeded: &mut Seeded) -> Shape {
        let mut names: Vec<usize> = (0..self.vertices).collect();
        seeded.shuffle(&mut names);
        seeded.shuffle(&mut self.ends);
        for ends in &mut self.ends {
            *ends = (names[ends.0], names[ends.1]);
            if seeded.once_in(2) {
                *ends = (ends.1, ends.0);
            }
        }
        self
    }

    /// The same network with switches between ends that it has already, up to `switches` in all.
    pub fn thickened(mut self, seeded: &mut Seeded, switches: usize) -> Shape {
        let links = self.ends.clone();
        while self.ends.len() < switches {
            self.ends.push(seeded.one_of(&links));
        }
        self
    }
}

/// Every pair linked.
pub fn all_linked(vertices: usize) -> Shape {
    let pairs = |second| (0..second).map(move |first| (first, second));
    let ends = (0..vertices).flat_map(pairs).collect();
    Shape { vertices, ends }
}

/// Each pair linked with a chance of `percent` in 100.
pub fn random(seeded: &mut Seeded, vertices: usize, percent: usize) -> Shape {
    let mut shape = all_linked(vertices);
    shape.ends.retain(|_| seeded.below(100) < percent);
    shape
}

/// Switches with any ends, so that parallel and equal-ended ones arise.
pub fn tangle(seeded: &mut Seeded, vertices: usize, switches: usize) -> Shape {
    let ends = (0..switches)
        .map(|_| (seeded.below(vertices), seeded.below(vertices)))
        .collect();
    Shape { vertices, ends }
}

/// Built from nothing by adding vertices, each linked to none, to one, or to two that are linked to each other, that link kept or dropped.
pub fn series_parallel(seeded: &mut Seeded, vertices: usize) -> Shape {
    let mut ends: Vec<(usize, usize)> = Vec::new();
    for added in 0..vertices {
        match seeded.below(8) {
            0 => {}
            1..=5 if !ends.is_empty() => {
                let link = seeded.below(ends.len());
                let (one, other) = ends[link];
                if seeded.once_in(2) {
                    ends.swap_remove(link);
                }
                ends.extend([(one, added), (other, added)]);
            }
            _ if added > 0 => ends.push((seeded.below(added), added)),
            _ => {}
        }
    }
    Shape { vertices, ends }
}

/// Each vertex but the first linked to one before it.
pub fn tree(seeded: &mut Seeded, vertices: usize) -> Shape {
    let ends = (1..vertices).map(|v| (seeded.below(v), v)).collect();
    Shape { vertices, ends }
}

/// Vertex 0 linked to each other one.
pub fn star(vertices: usize) -> Shape {
    let ends = (1..vertices).map(|leaf| (0, leaf)).collect();
    Shape { vertices, ends }
}

/// Each vertex linked to the next, and the last to the first.
pub fn ring(vertices: usize) -> Shape {
    let ends = (0..vertices).map(|v| (v, (v + 1) % vertices)).collect();
    Shape { vertices, ends }
}

/// Two rails of `rungs` vertices, linked rung by rung.
pub fn ladder(rungs: usize) -> Shape {
    let rails = (2..2 * rungs).map(|v| (v - 2, v));
    let ends = rails
        .chain((0..rungs).map(|rung| (2 * rung, 2 * rung + 1)))
        .collect();
    Shape {
        vertices: 2 * rungs,
        ends,
    }
}
