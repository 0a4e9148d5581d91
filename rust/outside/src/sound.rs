//! Networks without a fault, kind by kind.

use crate::dressing::{dressed, Dressing, Labels};
use crate::networks::{Network, MOST_GIVENS, MOST_SWITCHES, MOST_VARIABLES, MOST_VERTICES};
use crate::seeded::Seeded;
use crate::shapes::{self, Shape};

/// The kinds that are cheap to analyse; faults are planted in these.
const CHEAP: [fn(&mut Seeded) -> Network; 10] = [
    sparse,
    dense,
    series_parallel,
    tree,
    ring,
    star,
    tangle,
    one_way,
    formulas,
    sections,
];

/// A cheap network of any kind.
pub fn any(seeded: &mut Seeded) -> Network {
    seeded.one_of(&CHEAP)(seeded)
}

/// A cheap network with a file of at most `longest` bytes.
pub fn short(seeded: &mut Seeded, longest: usize) -> Network {
    such(seeded, |network| network.length() <= longest)
}

/// A cheap network that meets the condition.
pub fn such(seeded: &mut Seeded, condition: impl Fn(&Network) -> bool) -> Network {
    loop {
        let network = any(seeded);
        if condition(&network) {
            return network;
        }
    }
}

/// Few variables, few given formulas, any labels.
fn small_dressing(seeded: &mut Seeded) -> Dressing {
    Dressing {
        variables: seeded.one_of(&[0, 1, 1, 2, 2, 3, 3, 4, 5, 5, 5, 6, 6, 7, 8, 9]),
        givens: seeded.one_of(&[0, 0, 1, 2, 3, 5]),
        labels: seeded.one_of(&[
            Labels::Coils,
            Labels::TwoCoils,
            Labels::Mixed,
            Labels::OneWay,
        ]),
    }
}

fn small(seeded: &mut Seeded, shape: Shape) -> Network {
    let dressing = small_dressing(seeded);
    let shape = shape.shuffled(seeded);
    dressed(seeded, &shape, dressing)
}

/// About as many links as vertices.
pub fn sparse(seeded: &mut Seeded) -> Network {
    let vertices = seeded.from_to(1, 10);
    let shape = shapes::random(seeded, vertices, 200 / (vertices + 1));
    small(seeded, shape)
}

/// More than half of all pairs linked.
pub fn dense(seeded: &mut Seeded) -> Network {
    let (vertices, percent) = (seeded.from_to(3, 7), seeded.from_to(50, 95));
    let shape = shapes::random(seeded, vertices, percent);
    small(seeded, shape)
}

/// Built one vertex at a time, up to the limit.
pub fn series_parallel(seeded: &mut Seeded) -> Network {
    let most = seeded.one_of(&[8, 8, 16, MOST_VERTICES]);
    let vertices = seeded.from_to(1, most);
    let shape = shapes::series_parallel(seeded, vertices);
    small(seeded, shape)
}

/// Every pair linked: mostly few vertices, now and then up to the limit.
pub fn all_linked(seeded: &mut Seeded) -> Network {
    let most = match seeded.below(400) {
        0 => MOST_VERTICES,
        1..=8 => 12,
        _ => 6,
    };
    let shape = shapes::all_linked(seeded.from_to(2, most));
    small(seeded, shape)
}

pub fn tree(seeded: &mut Seeded) -> Network {
    let vertices = seeded.from_to(2, 12);
    let shape = shapes::tree(seeded, vertices);
    small(seeded, shape)
}

pub fn ring(seeded: &mut Seeded) -> Network {
    let shape = shapes::ring(seeded.from_to(3, 12));
    small(seeded, shape)
}

pub fn star(seeded: &mut Seeded) -> Network {
    let shape = shapes::star(seeded.from_to(2, 12));
    small(seeded, shape)
}

pub fn ladder(seeded: &mut Seeded) -> Network {
    let shape = shapes::ladder(seeded.from_to(2, 6));
    small(seeded, shape)
}

/// Parallel and equal-ended switches.
pub fn tangle(seeded: &mut Seeded) -> Network {
    let (vertices, switches) = (seeded.from_to(1, 5), seeded.from_to(2, 20));
    let shape = shapes::tangle(seeded, vertices, switches);
    small(seeded, shape)
}

/// Labels that are mostly true one way only, and labels that are constant.
pub fn one_way(seeded: &mut Seeded) -> Network {
    let (vertices, percent) = (seeded.from_to(2, 8), seeded.from_to(30, 70));
    let shape = shapes::random(seeded, vertices, percent);
    let labels = seeded.one_of(&[Labels::OneWay, Labels::OneWay, Labels::Constants]);
    let dressing = Dressing {
        labels,
        ..small_dressing(seeded)
    };
    dressed(seeded, &shape, dressing)
}

/// Many given formulas over few variables, and few vertices.
pub fn formulas(seeded: &mut Seeded) -> Network {
    let (vertices, percent) = (seeded.from_to(1, 4), seeded.from_to(0, 100));
    let shape = shapes::random(seeded, vertices, percent);
    let givens = seeded.from_to(4, 24);
    let dressing = Dressing {
        givens,
        labels: Labels::Mixed,
        ..small_dressing(seeded)
    };
    dressed(seeded, &shape, dressing)
}

/// Sections that are empty, in every combination that a network can have.
pub fn sections(seeded: &mut Seeded) -> Network {
    let mut count = |most| {
        if seeded.once_in(2) {
            0
        } else {
            seeded.from_to(1, most)
        }
    };
    let (variables, givens, vertices, switches) = (count(4), count(6), count(5), count(8));
    let switches = if vertices == 0 { 0 } else { switches };
    let shape = shapes::tangle(seeded, vertices, switches);
    let labels = seeded.one_of(&[Labels::Coils, Labels::Mixed, Labels::OneWay]);
    dressed(
        seeded,
        &shape,
        Dressing {
            variables,
            givens,
            labels,
        },
    )
}

/// One section at its limit.
pub fn one_limit(seeded: &mut Seeded) -> Network {
    let mut dressing = small_dressing(seeded);
    let mut shape = shapes::ring(4);
    match seeded.below(4) {
        0 => dressing.variables = MOST_VARIABLES,
        1 => dressing.givens = MOST_GIVENS,
        2 => shape = shapes::tree(seeded, MOST_VERTICES),
        _ => shape = shape.thickened(seeded, MOST_SWITCHES),
    }
    let shape = shape.shuffled(seeded);
    dressed(seeded, &shape, dressing)
}

/// All sections at their limits, with links that cost little.
pub fn all_limits(seeded: &mut Seeded) -> Network {
    let links = match seeded.below(4) {
        0 => shapes::tree(seeded, MOST_VERTICES),
        1 => shapes::ring(MOST_VERTICES),
        2 => shapes::ladder(MOST_VERTICES / 2),
        _ => shapes::series_parallel(seeded, MOST_VERTICES),
    };
    let shape = if links.ends.is_empty() {
        shapes::star(MOST_VERTICES)
    } else {
        links
    };
    full(seeded, shape, Labels::Mixed)
}

/// All sections at their limits and every pair linked: the most work. Labels are constants, so that few records are made, or now and then
/// coils, so that as many are made as there can be.
pub fn most_work(seeded: &mut Seeded) -> Network {
    let labels = if seeded.once_in(20) {
        Labels::TwoCoils
    } else {
        Labels::Constants
    };
    full(seeded, shapes::all_linked(MOST_VERTICES), labels)
}

/// The shape with every section filled to its limit.
pub fn full(seeded: &mut Seeded, shape: Shape, labels: Labels) -> Network {
    let shape = shape.thickened(seeded, MOST_SWITCHES).shuffled(seeded);
    let dressing = Dressing {
        variables: MOST_VARIABLES,
        givens: MOST_GIVENS,
        labels,
    };
    dressed(seeded, &shape, dressing)
}

#[cfg(test)]
mod tests {
    use super::*;
    use crate::compare::AMPLE;
    use crate::networks::{LONGEST_FILE, NOT};

    /// Limits reached one by one and all together; the longest file is as long as the outline says.
    #[test]
    fn limits_are_reached() {
        let mut seeded = Seeded::new(1, &[]);
        let mut reached = [false; 4];
        for _ in 0..100 {
            let network = one_limit(&mut seeded);
            reached[0] |= network.coils.len() == MOST_VARIABLES;
            reached[1] |= network.givens.len() == MOST_GIVENS;
            reached[2] |= network.starts.len() == MOST_VERTICES;
            reached[3] |= network.switches.len() == MOST_SWITCHES;
            assert_eq!(all_limits(&mut seeded).length(), LONGEST_FILE);
        }
        assert_eq!(reached, [true; 4]);
        assert_eq!(most_work(&mut seeded).length(), LONGEST_FILE);
    }

    /// What is said of networks built one vertex at a time: no pivot has over two neighbours left, and each costs twelve operations at most.
    #[test]
    fn series_parallel_networks_cost_little() {
        let mut seeded = Seeded::new(1, &[]);
        for _ in 0..500 {
            let network = series_parallel(&mut seeded);
            let result = reference::analyse(&network.encode(), AMPLE).unwrap();
            let numbers: Vec<u16> = result
                .chunks(2)
                .map(|bytes| u16::from_le_bytes([bytes[0], bytes[1]]))
                .collect();
            let order = numbers.len() - 4 - 2 * network.starts.len();
            assert!(numbers[order..]
                .chunks(2)
                .take(network.starts.len())
                .all(|pivot| pivot[1] <= 2));
            assert!(usize::from(numbers[numbers.len() - 1]) <= 12 * network.starts.len());
        }
    }

    /// Given formulas of every form arise: equal arguments, constants, not of not, repeated ones, a formula and its not.
    #[test]
    fn given_formulas_have_every_form() {
        let mut seeded = Seeded::new(1, &[]);
        let mut seen = [false; 5];
        for _ in 0..200 {
            let network = formulas(&mut seeded);
            let before = 2 + network.coils.len();
            let not = |reference: u16| {
                let index = usize::from(reference).checked_sub(before)?;
                (network.givens[index].kind == NOT).then_some(network.givens[index].first)
            };
            for (index, given) in network.givens.iter().enumerate() {
                let of_two = given.kind != NOT;
                let key = |given: &crate::networks::Given| (given.kind, given.first, given.second);
                seen[0] |= of_two && given.first == given.second;
                seen[1] |= of_two && given.first.min(given.second) < 2;
                seen[2] |= !of_two && not(given.first).is_some();
                seen[3] |= network.givens[..index]
                    .iter()
                    .any(|earlier| key(earlier) == key(given));
                seen[4] |= of_two && not(given.second) == Some(given.first);
            }
        }
        assert_eq!(seen, [true; 5]);
    }
}
