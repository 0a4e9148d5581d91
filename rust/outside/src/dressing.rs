//! Coils, given formulas, starts and labels for a bare network.

use crate::networks::{Given, Network, Switch, AND, MOST_VARIABLES, NOT, OR};
use crate::seeded::Seeded;
use crate::shapes::Shape;

/// What labels may be.
#[derive(Clone, Copy, Debug)]
pub enum Labels {
    /// One coil, the same both ways.
    Coils,
    /// Any coil each way: of all these, they lead to the most records.
    TwoCoils,
    /// Any reference each way.
    Mixed,
    /// Mostly true one way only.
    OneWay,
    /// 0 or 1 each way.
    Constants,
}

/// How many variables and given formulas, and which labels.
#[derive(Clone, Copy, Debug)]
pub struct Dressing {
    pub variables: usize,
    pub givens: usize,
    pub labels: Labels,
}

/// A network of the given shape.
pub fn dressed(seeded: &mut Seeded, shape: &Shape, dressing: Dressing) -> Network {
    let mut network = Network {
        coils: coils(seeded, dressing.variables),
        ..Network::default()
    };
    for _ in 0..dressing.givens {
        let given = given(seeded, &network);
        network.givens.push(given);
    }
    network.starts = (0..shape.vertices)
        .map(|_| start(seeded, &network))
        .collect();
    if shape.vertices > 0 && !seeded.once_in(8) {
        network.starts[seeded.below(shape.vertices)] = 1;
    }
    for &(first, second) in &shape.ends {
        let (there, back) = labels(seeded, &network, dressing.labels);
        let (first, second) = (first as u16, second as u16);
        network.switches.push(Switch {
            first,
            second,
            there,
            back,
        });
    }
    network
}

/// A network with a coil for each switch, as long as there are coils, and a source at vertex 0.
pub fn wired(shape: &Shape) -> Network {
    let coils = shape.ends.len().min(MOST_VARIABLES) as u16;
    let switch = |(index, &(first, second)): (usize, &(usize, usize))| {
        let label = 2 + index as u16 % coils;
        let (first, second) = (first as u16, second as u16);
        Switch {
            first,
            second,
            there: label,
            back: label,
        }
    };
    Network {
        coils: (1..=coils).collect(),
        givens: Vec::new(),
        starts: (0..shape.vertices)
            .map(|vertex| u16::from(vertex == 0))
            .collect(),
        switches: shape.ends.iter().enumerate().map(switch).collect(),
    }
}

/// Strictly ascending coil numbers; now and then the first is 0 or the last is 65,535.
fn coils(seeded: &mut Seeded, variables: usize) -> Vec<u16> {
    let widest = if seeded.once_in(2) {
        3
    } else {
        65_535 / (variables + 1)
    };
    let mut coils: Vec<u16> = Vec::new();
    for index in 0..variables {
        let before = coils.last().map_or(0, |&coil| usize::from(coil));
        let step = if index == 0 {
            seeded.below(3)
        } else {
            seeded.from_to(1, widest)
        };
        coils.push((before + step) as u16);
    }
    if variables > 0 && seeded.once_in(8) {
        coils[variables - 1] = u16::MAX;
    }
    coils
}

/// A given formula in references that are defined so far.
fn given(seeded: &mut Seeded, network: &Network) -> Given {
    let references = network.references();
    let one = seeded.below(references) as u16;
    let other = seeded.below(references) as u16;
    let last = references as u16 - 1;
    let constant = seeded.one_of(&[0, 1]);
    let kind = seeded.one_of(&[AND, OR]);
    let of_two = |first, second| Given {
        kind,
        first,
        second,
    };
    match seeded.below(10) {
        0 => of_two(one, one),
        1 => of_two(constant, other),
        2 => of_two(one, constant),
        3 => not(one),
        4 => not(last),
        5 => repeated(seeded, network).unwrap_or(not(other)),
        6 => opposed(seeded, network).unwrap_or(not(last)),
        7 => of_two(last, one),
        _ => of_two(one, other),
    }
}

fn not(argument: u16) -> Given {
    let (kind, first, second) = (NOT, argument, 0);
    Given {
        kind,
        first,
        second,
    }
}

/// An earlier given formula again, its arguments perhaps exchanged.
fn repeated(seeded: &mut Seeded, network: &Network) -> Option<Given> {
    if network.givens.is_empty() {
        return None;
    }
    let earlier = seeded.one_of(&network.givens);
    if earlier.kind == NOT || seeded.once_in(2) {
        return Some(earlier);
    }
    Some(Given {
        first: earlier.second,
        second: earlier.first,
        ..earlier
    })
}

/// A not formula together with its own argument, in either order.
fn opposed(seeded: &mut Seeded, network: &Network) -> Option<Given> {
    let before = (2 + network.coils.len()) as u16;
    let place = network.givens.iter().rposition(|given| given.kind == NOT)?;
    let (argument, negation) = (network.givens[place].first, before + place as u16);
    let (first, second) = seeded.one_of(&[(argument, negation), (negation, argument)]);
    Some(Given {
        kind: seeded.one_of(&[AND, OR]),
        first,
        second,
    })
}

/// A variable; the constant true where there is none.
fn variable(seeded: &mut Seeded, network: &Network) -> u16 {
    match network.coils.len() {
        0 => 1,
        variables => 2 + seeded.below(variables) as u16,
    }
}

/// Any reference; given formulas as often as everything before them.
fn reference(seeded: &mut Seeded, network: &Network) -> u16 {
    let before = 2 + network.coils.len();
    if network.givens.is_empty() || seeded.once_in(2) {
        return seeded.below(before) as u16;
    }
    (before + seeded.below(network.givens.len())) as u16
}

/// A starting formula: mostly false.
fn start(seeded: &mut Seeded, network: &Network) -> u16 {
    match seeded.below(8) {
        0 => variable(seeded, network),
        1 | 2 => reference(seeded, network),
        _ => 0,
    }
}

/// The labels of one switch.
fn labels(seeded: &mut Seeded, network: &Network, labels: Labels) -> (u16, u16) {
    let label = variable(seeded, network);
    match labels {
        Labels::Coils => (label, label),
        Labels::TwoCoils => (label, variable(seeded, network)),
        Labels::Mixed => (reference(seeded, network), reference(seeded, network)),
        Labels::Constants => (seeded.below(2) as u16, seeded.below(2) as u16),
        Labels::OneWay => {
            let other = reference(seeded, network);
            seeded.one_of(&[
                (label, 0),
                (0, label),
                (1, 0),
                (0, 1),
                (0, 0),
                (label, other),
            ])
        }
    }
}
