//! Networks as values, and their files.

/// The limits of the file form.
pub const MOST_VARIABLES: usize = 200;
/// The most given formulas.
pub const MOST_GIVENS: usize = 500;
/// The most vertices.
pub const MOST_VERTICES: usize = 24;
/// The most switches.
pub const MOST_SWITCHES: usize = 400;

/// The longest accepted file.
pub const LONGEST_FILE: usize = 6656;

/// The kinds of formulas.
pub const AND: u16 = 1;
/// See [`AND`].
pub const OR: u16 = 2;
/// See [`AND`].
pub const NOT: u16 = 3;

/// A given formula.
#[derive(Clone, Copy, Debug)]
pub struct Given {
    pub kind: u16,
    pub first: u16,
    pub second: u16,
}

/// A switch: its ends, and its labels from first to second and back.
#[derive(Clone, Copy, Debug)]
pub struct Switch {
    pub first: u16,
    pub second: u16,
    pub there: u16,
    pub back: u16,
}

/// A network. Nothing keeps it from having a fault.
#[derive(Clone, Debug, Default)]
pub struct Network {
    pub coils: Vec<u16>,
    pub givens: Vec<Given>,
    pub starts: Vec<u16>,
    pub switches: Vec<Switch>,
}

impl Network {
    /// The network's file.
    pub fn encode(&self) -> Vec<u8> {
        let mut numbers = vec![self.coils.len() as u16];
        numbers.extend(&self.coils);
        numbers.push(self.givens.len() as u16);
        for given in &self.givens {
            numbers.extend([given.kind, given.first, given.second]);
        }
        numbers.push(self.starts.len() as u16);
        numbers.extend(&self.starts);
        numbers.push(self.switches.len() as u16);
        for switch in &self.switches {
            numbers.extend([switch.first, switch.second, switch.there, switch.back]);
        }
        numbers
            .iter()
            .flat_map(|number| number.to_le_bytes())
            .collect()
    }

    /// How many references are defined behind the given formulas.
    pub fn references(&self) -> usize {
        2 + self.coils.len() + self.givens.len()
    }

    /// Where coil number `index` is in the file; the place of the count of given formulas for the number behind the last.
    pub fn coil_place(&self, index: usize) -> usize {
        2 + 2 * index
    }

    /// Where given formula `index` is; the place of the count of vertices for the number behind the last.
    pub fn given_place(&self, index: usize) -> usize {
        self.coil_place(self.coils.len()) + 2 + 6 * index
    }

    /// Where the start of vertex `index` is; the place of the count of switches for the number behind the last.
    pub fn start_place(&self, index: usize) -> usize {
        self.given_place(self.givens.len()) + 2 + 2 * index
    }

    /// Where switch `index` is; the file's length for the number behind the last.
    pub fn switch_place(&self, index: usize) -> usize {
        self.start_place(self.starts.len()) + 2 + 8 * index
    }

    /// The file's length.
    pub fn length(&self) -> usize {
        self.switch_place(self.switches.len())
    }

    /// Where each count and each entry begins, in the file's order.
    pub fn beginnings(&self) -> impl Iterator<Item = usize> + '_ {
        let coils = (0..=self.coils.len()).map(|index| self.coil_place(index));
        let givens = (0..=self.givens.len()).map(|index| self.given_place(index));
        let starts = (0..=self.starts.len()).map(|index| self.start_place(index));
        let switches = (0..self.switches.len()).map(|index| self.switch_place(index));
        std::iter::once(0)
            .chain(coils)
            .chain(givens)
            .chain(starts)
            .chain(switches)
    }
}

#[cfg(test)]
mod tests {
    use super::{Given, Network, Switch, NOT};

    /// Example L of the outline with a given formula added: the numbers of its file, and where its entries begin.
    #[test]
    fn files_are_laid_out_as_the_form_says() {
        let switch = |first, second, label| Switch {
            first,
            second,
            there: label,
            back: label,
        };
        let network = Network {
            coils: vec![7, 9],
            givens: vec![Given {
                kind: NOT,
                first: 2,
                second: 0,
            }],
            starts: vec![1, 0, 0],
            switches: vec![switch(0, 1, 2), switch(1, 2, 3)],
        };
        let numbers = [2, 7, 9, 1, 3, 2, 0, 3, 1, 0, 0, 2, 0, 1, 2, 2, 1, 2, 3, 3];
        let bytes: Vec<u8> = numbers.iter().flat_map(|&number| [number, 0]).collect();
        assert_eq!(network.encode(), bytes);
        assert_eq!(network.length(), bytes.len());
        let beginnings: Vec<usize> = network.beginnings().collect();
        assert_eq!(beginnings, [0, 2, 4, 6, 8, 14, 16, 18, 20, 22, 24, 32]);
    }
}
