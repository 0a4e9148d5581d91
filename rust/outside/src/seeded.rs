//! A small seeded generator (splitmix64): equal seeds give equal numbers on every machine.

/// The generator's state.
pub struct Seeded {
    state: u64,
}

impl Seeded {
    /// The generator of one use: a seed, and the numbers that tell this use from the others.
    pub fn new(seed: u64, uses: &[u64]) -> Seeded {
        let mut seeded = Seeded { state: seed };
        for &number in uses {
            seeded.state = seeded.number() ^ number;
        }
        seeded
    }

    /// The next 64 bits.
    pub fn number(&mut self) -> u64 {
        self.state = self.state.wrapping_add(0x9e37_79b9_7f4a_7c15);
        let mut mixed = self.state;
        mixed = (mixed ^ (mixed >> 30)).wrapping_mul(0xbf58_476d_1ce4_e5b9);
        mixed = (mixed ^ (mixed >> 27)).wrapping_mul(0x94d0_49bb_1331_11eb);
        mixed ^ (mixed >> 31)
    }

    /// A number below `bound`, which is not 0.
    pub fn below(&mut self, bound: usize) -> usize {
        (self.number() % bound as u64) as usize
    }

    /// A number from `least` to `most`, both included.
    pub fn from_to(&mut self, least: usize, most: usize) -> usize {
        least + self.below(most - least + 1)
    }

    /// True once in `times` on average.
    pub fn once_in(&mut self, times: usize) -> bool {
        self.below(times) == 0
    }

    /// One of `these`.
    pub fn one_of<T: Copy>(&mut self, these: &[T]) -> T {
        these[self.below(these.len())]
    }

    /// A random byte.
    pub fn byte(&mut self) -> u8 {
        self.number() as u8
    }

    /// `these` in a random order.
    pub fn shuffle<T>(&mut self, these: &mut [T]) {
        for last in (1..these.len()).rev() {
            these.swap(last, self.below(last + 1));
        }
    }
}

#[cfg(test)]
mod tests {
    use super::Seeded;

    /// The first numbers of splitmix64 from 1234567, as published with the generator.
    #[test]
    fn gives_the_published_numbers() {
        let mut seeded = Seeded::new(1234567, &[]);
        let numbers = [seeded.number(), seeded.number(), seeded.number()];
        assert_eq!(
            numbers,
            [
                6457827717110365317,
                3203168211198807973,
                9817491932198370423
            ]
        );
    }

    #[test]
    fn uses_differ() {
        let first = |uses: &[u64]| Seeded::new(1, uses).number();
        assert_ne!(first(&[0]), first(&[1]));
        assert_ne!(first(&[0, 1]), first(&[1, 0]));
    }
}
