//! The cases of a run: a case follows from the seed and its number alone.
//!
//! Cases come in blocks of [`BLOCK`]; in each, every kind has its share of the places. A block has files of its own for the sweeps, which
//! cut a file at every byte or change every byte to several values.

use crate::faults::{self, Planted};
use crate::networks::Network;
use crate::seeded::Seeded;
use crate::sound;
use reference::Refusal;

/// What a kind makes, and with it what must become of its files.
#[derive(Clone, Copy)]
enum Make {
    /// Networks that must be accepted.
    Sound(fn(&mut Seeded) -> Network),
    /// Files that must meet a known refusal.
    Planted(fn(&mut Seeded) -> Planted),
    /// The same, where the files of a block belong together.
    Cut(fn(Turn) -> Planted),
    /// Files of which hardly one is accepted.
    Noise(fn(&mut Seeded) -> Vec<u8>),
    /// Files of which some are accepted and some refused.
    Damaged(fn(&mut Seeded) -> Vec<u8>),
    /// The same, where the files of a block belong together.
    Swept(fn(Turn) -> Vec<u8>),
}

/// A kind of cases, and how many there are in each block.
pub struct Kind {
    pub name: &'static str,
    share: usize,
    make: Make,
}

/// What the generator knows of a case's outcome.
#[derive(Clone, Copy, Debug, PartialEq, Eq)]
pub enum Foreseen {
    Accepted,
    Refused(Refusal),
    Either,
}

/// One case.
#[derive(Clone, Debug)]
pub struct Case {
    pub seed: u64,
    pub number: u64,
    /// Its kind's place in [`KINDS`].
    pub kind: usize,
    pub file: Vec<u8>,
    pub foreseen: Foreseen,
}

/// A turn of a sweep: the block, and the place in the kind's share of it.
#[derive(Clone, Copy)]
struct Turn {
    seed: u64,
    block: u64,
    place: usize,
}

/// The longest file that is cut at every byte within a block.
const LONGEST_CUT: usize = 120;
/// The longest file whose bytes are all changed within a block.
const LONGEST_SWEPT: usize = 40;
/// What each of its bytes is changed by.
const CHANGES: [u8; 5] = [1, 2, 3, 128, 255];
/// A file at the limits is cut at every byte over this many blocks.
const ROUND: u64 = 100;

const fn kind(name: &'static str, share: usize, make: Make) -> Kind {
    Kind { name, share, make }
}

/// The kinds.
pub const KINDS: [Kind; 29] = [
    kind("sparse", 60, Make::Sound(sound::sparse)),
    kind("dense", 50, Make::Sound(sound::dense)),
    kind("series-parallel", 60, Make::Sound(sound::series_parallel)),
    kind("all linked", 40, Make::Sound(sound::all_linked)),
    kind("tree", 30, Make::Sound(sound::tree)),
    kind("ring", 30, Make::Sound(sound::ring)),
    kind("star", 30, Make::Sound(sound::star)),
    kind("ladder", 20, Make::Sound(sound::ladder)),
    kind("parallel and equal-ended", 50, Make::Sound(sound::tangle)),
    kind("one way", 50, Make::Sound(sound::one_way)),
    kind("given formulas", 50, Make::Sound(sound::formulas)),
    kind("empty sections", 30, Make::Sound(sound::sections)),
    kind("one limit", 4, Make::Sound(sound::one_limit)),
    kind("all limits", 2, Make::Sound(sound::all_limits)),
    kind("all limits, all linked", 1, Make::Sound(sound::most_work)),
    kind("above a limit", 6, Make::Planted(faults::above_limit)),
    kind("coils out of order", 10, Make::Planted(faults::coil_order)),
    kind("unknown kind", 10, Make::Planted(faults::unknown_kind)),
    kind(
        "forward reference",
        10,
        Make::Planted(faults::forward_reference),
    ),
    kind("not of two", 10, Make::Planted(faults::not_of_two)),
    kind(
        "undefined reference",
        10,
        Make::Planted(faults::undefined_reference),
    ),
    kind(
        "end that is no vertex",
        10,
        Make::Planted(faults::no_vertex),
    ),
    kind("trailing bytes", 10, Make::Planted(faults::trailing)),
    kind("cut at every byte", LONGEST_CUT, Make::Cut(cut)),
    kind(
        "limits, cut at every byte",
        67,
        Make::Cut(cut_at_the_limits),
    ),
    kind("random bytes", 20, Make::Noise(faults::noise)),
    kind("damaged byte", 20, Make::Damaged(faults::damaged_byte)),
    kind(
        "changed numbers",
        20,
        Make::Damaged(faults::changed_numbers),
    ),
    kind(
        "every byte changed",
        CHANGES.len() * LONGEST_SWEPT,
        Make::Swept(swept),
    ),
];

/// How many cases a block has.
pub const BLOCK: u64 = {
    let (mut sum, mut kind) = (0, 0);
    while kind < KINDS.len() {
        sum += KINDS[kind].share;
        kind += 1;
    }
    sum as u64
};

impl Kind {
    /// Whether a run shows accepted files of this kind.
    pub fn shows_accepted(&self) -> bool {
        !matches!(self.make, Make::Planted(_) | Make::Cut(_) | Make::Noise(_))
    }

    /// Whether a run shows refused files of this kind.
    pub fn shows_refused(&self) -> bool {
        !matches!(self.make, Make::Sound(_))
    }

    /// The file at a turn, and what is known of its outcome.
    fn file(&self, turn: Turn, seeded: &mut Seeded) -> (Vec<u8>, Foreseen) {
        let planted = |(file, refusal)| (file, Foreseen::Refused(refusal));
        match self.make {
            Make::Sound(make) => (make(seeded).encode(), Foreseen::Accepted),
            Make::Planted(make) => planted(make(seeded)),
            Make::Cut(make) => planted(make(turn)),
            Make::Noise(make) | Make::Damaged(make) => (make(seeded), Foreseen::Either),
            Make::Swept(make) => (make(turn), Foreseen::Either),
        }
    }
}

impl Case {
    /// The name of its kind.
    pub fn kind_name(&self) -> &'static str {
        KINDS[self.kind].name
    }
}

/// The case with this number.
pub fn case(seed: u64, number: u64) -> Case {
    let (block, mut place) = (number / BLOCK, (number % BLOCK) as usize);
    let mut kind = 0;
    while place >= KINDS[kind].share {
        place -= KINDS[kind].share;
        kind += 1;
    }
    let mut seeded = Seeded::new(seed, &[0, number]);
    let (file, foreseen) = KINDS[kind].file(Turn { seed, block, place }, &mut seeded);
    Case {
        seed,
        number,
        kind,
        file,
        foreseen,
    }
}

/// The number of the first case of a kind in block 0.
pub fn first_of(kind: usize) -> u64 {
    KINDS[..kind].iter().map(|kind| kind.share as u64).sum()
}

/// The block's files for a sweep come one behind the other, with `times` turns for each byte: the network at this turn, and the turn
/// within it. The first is swept completely where the kind's share is `times * longest`.
fn victim(turn: Turn, longest: usize, times: usize) -> (Network, usize) {
    let mut seeded = Seeded::new(turn.seed, &[1, turn.block, longest as u64]);
    let mut place = turn.place;
    loop {
        let network = sound::short(&mut seeded, longest);
        let turns = times * network.length();
        if place < turns {
            return (network, place);
        }
        place -= turns;
    }
}

fn cut(turn: Turn) -> Planted {
    let (network, length) = victim(turn, LONGEST_CUT, 1);
    faults::cut(&network, length)
}

fn cut_at_the_limits(turn: Turn) -> Planted {
    let mut seeded = Seeded::new(turn.seed, &[2, turn.block / ROUND]);
    let network = sound::all_limits(&mut seeded);
    let length = (turn.block % ROUND) as usize + ROUND as usize * turn.place;
    faults::cut(&network, length % network.length())
}

fn swept(turn: Turn) -> Vec<u8> {
    let (network, place) = victim(turn, LONGEST_SWEPT, CHANGES.len());
    let mut file = network.encode();
    file[place / CHANGES.len()] ^= CHANGES[place % CHANGES.len()];
    file
}

#[cfg(test)]
mod tests {
    use super::{case, first_of, Foreseen, BLOCK, KINDS};

    /// The reference accepts every network that is meant to be sound, and gives every planted refusal.
    #[test]
    fn outcomes_are_as_foreseen() {
        for number in 0..3 * BLOCK {
            let case = case(7, number);
            let outcome = reference::room_needed(&case.file).map(|_| ());
            match case.foreseen {
                Foreseen::Accepted => assert_eq!(outcome, Ok(()), "case {number}"),
                Foreseen::Refused(refusal) => assert_eq!(outcome, Err(refusal), "case {number}"),
                Foreseen::Either => {}
            }
        }
    }

    #[test]
    fn a_case_follows_from_seed_and_number() {
        for number in [0, 500, BLOCK, 100_000] {
            assert_eq!(case(1, number).file, case(1, number).file);
        }
        assert_ne!(case(1, 0).file, case(2, 0).file);
    }

    #[test]
    fn kinds_begin_where_they_are_said_to() {
        for kind in 0..KINDS.len() {
            assert_eq!(case(1, first_of(kind)).kind, kind);
        }
        assert_eq!(first_of(KINDS.len()), BLOCK);
    }

    /// Within a block a whole file is cut at every byte, from none left to all but one.
    #[test]
    fn a_block_cuts_a_file_at_every_byte() {
        let kind = KINDS
            .iter()
            .position(|kind| kind.name == "cut at every byte")
            .unwrap();
        let cut = |place| case(1, first_of(kind) + place).file;
        let length = (1..).find(|&place| cut(place).is_empty()).unwrap();
        for place in 0..length {
            assert_eq!(cut(place).len() as u64, place);
        }
    }
}
