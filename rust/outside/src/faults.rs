//! Files with a fault: planted ones, whose refusal is known from where they were put, and damage.

use crate::dressing::{dressed, Dressing, Labels};
use crate::networks::{
    Network, LONGEST_FILE, MOST_GIVENS, MOST_SWITCHES, MOST_VARIABLES, MOST_VERTICES, NOT,
};
use crate::seeded::Seeded;
use crate::{shapes, sound};
use reference::Refusal;

/// A file and the refusal that it must meet.
pub type Planted = (Vec<u8>, Refusal);

fn planted(network: &Network, number: u32, place: usize) -> Planted {
    (network.encode(), Refusal { number, place })
}

/// A number of `least` or more: a near one, an extreme one, or any.
fn at_least(seeded: &mut Seeded, least: usize) -> u16 {
    let any = seeded.from_to(least, usize::from(u16::MAX));
    seeded
        .one_of(&[least, least, least + 1, usize::from(u16::MAX), any])
        .min(usize::from(u16::MAX)) as u16
}

/// The network's file cut to `length` bytes, which are not all: the count or entry that is cut is the last to begin within them.
pub fn cut(network: &Network, length: usize) -> Planted {
    let (mut file, mut refusal) = planted(network, 1, 0);
    refusal.place = network
        .beginnings()
        .take_while(|&place| place <= length)
        .last()
        .unwrap_or(0);
    file.truncate(length);
    (file, refusal)
}

/// One count above its limit; the entries are there, or the file ends behind the count.
pub fn above_limit(seeded: &mut Seeded) -> Planted {
    let mut dressing = Dressing {
        variables: 3,
        givens: 2,
        labels: Labels::Mixed,
    };
    let mut shape = shapes::ring(5);
    let section = seeded.below(4);
    match section {
        0 => dressing.variables = MOST_VARIABLES + 1,
        1 => dressing.givens = MOST_GIVENS + 1,
        2 => shape = shapes::star(MOST_VERTICES + 1),
        _ => shape = shape.thickened(seeded, MOST_SWITCHES + 1),
    }
    let network = dressed(seeded, &shape, dressing);
    let place = match section {
        0 => 0,
        1 => network.given_place(0) - 2,
        2 => network.start_place(0) - 2,
        _ => network.switch_place(0) - 2,
    };
    let (mut file, refusal) = planted(&network, 2, place);
    if seeded.once_in(2) {
        file.truncate(place);
        let limit = [MOST_VARIABLES, MOST_GIVENS, MOST_VERTICES, MOST_SWITCHES][section];
        file.extend(at_least(seeded, limit + 1).to_le_bytes());
    }
    (file, refusal)
}

/// A coil number that is not above the one before.
pub fn coil_order(seeded: &mut Seeded) -> Planted {
    let mut network = sound::such(seeded, |network| network.coils.len() > 1);
    let coil = seeded.from_to(1, network.coils.len() - 1);
    let before = network.coils[coil - 1];
    network.coils[coil] = seeded.one_of(&[before, before.saturating_sub(1), 0]);
    planted(&network, 3, network.coil_place(coil))
}

/// A kind that is not 1, 2 or 3.
pub fn unknown_kind(seeded: &mut Seeded) -> Planted {
    let mut network = sound::such(seeded, |network| !network.givens.is_empty());
    let given = seeded.below(network.givens.len());
    network.givens[given].kind = seeded.one_of(&[0, 4, 5, 255, 256, 257, 258, 259, 768, u16::MAX]);
    planted(&network, 4, network.given_place(given))
}

/// A given formula that refers to itself or further on.
pub fn forward_reference(seeded: &mut Seeded) -> Planted {
    let mut network = sound::such(seeded, |network| !network.givens.is_empty());
    let index = seeded.below(network.givens.len());
    let place = network.given_place(index);
    let undefined = at_least(seeded, 2 + network.coils.len() + index);
    let given = &mut network.givens[index];
    if given.kind == NOT || seeded.once_in(2) {
        given.first = undefined;
        return planted(&network, 5, place + 2);
    }
    given.second = undefined;
    planted(&network, 5, place + 4)
}

/// A not formula with a second argument.
pub fn not_of_two(seeded: &mut Seeded) -> Planted {
    let is_not = |kind| kind == NOT;
    let mut network = sound::such(seeded, |network| {
        network.givens.iter().any(|given| is_not(given.kind))
    });
    let nots: Vec<usize> = (0..network.givens.len())
        .filter(|&index| is_not(network.givens[index].kind))
        .collect();
    let index = seeded.one_of(&nots);
    network.givens[index].second =
        seeded.one_of(&[1, 1, network.givens[index].first.max(1), 256, u16::MAX]);
    planted(&network, 5, network.given_place(index) + 4)
}

/// A start or a label that is no reference.
pub fn undefined_reference(seeded: &mut Seeded) -> Planted {
    let mut network = sound::such(seeded, |network| !network.switches.is_empty());
    let undefined = at_least(seeded, network.references());
    let vertex = seeded.below(network.starts.len());
    let switch = seeded.below(network.switches.len());
    match seeded.below(3) {
        0 => {
            network.starts[vertex] = undefined;
            planted(&network, 5, network.start_place(vertex))
        }
        1 => {
            network.switches[switch].there = undefined;
            planted(&network, 5, network.switch_place(switch) + 4)
        }
        _ => {
            network.switches[switch].back = undefined;
            planted(&network, 5, network.switch_place(switch) + 6)
        }
    }
}

/// A switch end that is no vertex.
pub fn no_vertex(seeded: &mut Seeded) -> Planted {
    let mut network = sound::such(seeded, |network| !network.switches.is_empty());
    let switch = seeded.below(network.switches.len());
    let place = network.switch_place(switch);
    let end = at_least(seeded, network.starts.len());
    if seeded.once_in(2) {
        network.switches[switch].first = end;
        return planted(&network, 6, place);
    }
    network.switches[switch].second = end;
    planted(&network, 6, place + 2)
}

/// Bytes behind the switches.
pub fn trailing(seeded: &mut Seeded) -> Planted {
    let network = sound::any(seeded);
    let (mut file, refusal) = planted(&network, 7, network.length());
    let longest = seeded.one_of(&[1, 2, 8, 8, 100, LONGEST_FILE]);
    let more = seeded.from_to(1, longest);
    let mask = seeded.one_of(&[0, 3, 255]);
    file.extend((0..more).map(|_| seeded.byte() & mask));
    (file, refusal)
}

/// A file of random bytes; small ones are read further before they are refused.
pub fn noise(seeded: &mut Seeded) -> Vec<u8> {
    let longest = seeded.one_of(&[8, 16, 40, 40, 120, 120, 1000, LONGEST_FILE + 400]);
    let length = seeded.from_to(0, longest);
    let mask = seeded.one_of(&[1, 3, 3, 7, 255]);
    let high = seeded.once_in(4);
    let byte = |place: usize| {
        let byte = seeded.byte() & mask;
        if place & 1 == 0 || high {
            byte
        } else {
            0
        }
    };
    (0..length).map(byte).collect()
}

/// One byte, anywhere, set to any other value.
pub fn damaged_byte(seeded: &mut Seeded) -> Vec<u8> {
    let mut file = sound::any(seeded).encode();
    let place = seeded.below(file.len());
    file[place] ^= seeded.from_to(1, 255) as u8;
    file
}

/// One number, or now and then several, changed to a near or an extreme value.
pub fn changed_numbers(seeded: &mut Seeded) -> Vec<u8> {
    let mut file = sound::any(seeded).encode();
    for _ in 0..seeded.one_of(&[1, 1, 2, 4]) {
        let place = 2 * seeded.below(file.len() / 2);
        let old = u16::from_le_bytes([file[place], file[place + 1]]);
        let near = [
            old.wrapping_add(1),
            old.wrapping_sub(1),
            old.wrapping_add(2),
            old.wrapping_sub(2),
        ];
        let far = [
            0,
            1,
            2,
            24,
            200,
            255,
            400,
            500,
            32_768,
            u16::MAX,
            old.swap_bytes(),
            old.wrapping_add(256),
        ];
        let new = if seeded.once_in(2) {
            seeded.one_of(&near)
        } else {
            seeded.one_of(&far)
        };
        file[place..place + 2].copy_from_slice(&new.to_le_bytes());
    }
    file
}
