//! What a run has seen, added up over files and workers.

use crate::cases::KINDS;

/// How many files of a kind were accepted and refused.
#[derive(Clone, Copy, Default)]
pub struct Outcomes {
    pub accepted: u64,
    pub refused: u64,
}

/// The counts of a run.
#[derive(Clone, Default)]
pub struct Tally {
    pub comparisons: u64,
    /// How often each refusal was seen, by number; place 0 stays 0.
    pub refusals: [u64; 13],
    /// By place in [`KINDS`].
    pub outcomes: [Outcomes; KINDS.len()],
}

/// The number that no refusal has.
const UNUSED: usize = 8;

impl Tally {
    /// Adds another worker's counts.
    pub fn add(&mut self, other: &Tally) {
        self.comparisons += other.comparisons;
        for (sum, count) in self.refusals.iter_mut().zip(other.refusals) {
            *sum += count;
        }
        for (sum, outcomes) in self.outcomes.iter_mut().zip(other.outcomes) {
            sum.accepted += outcomes.accepted;
            sum.refused += outcomes.refused;
        }
    }

    /// How many files were checked.
    pub fn files(&self) -> u64 {
        let files = |outcomes: &Outcomes| outcomes.accepted + outcomes.refused;
        self.outcomes.iter().map(files).sum()
    }

    /// A line for each kind, and the refusals seen.
    pub fn report(&self) -> String {
        let mut lines = format!("{:28}{:>10}{:>10}\n", "kind", "accepted", "refused");
        for (kind, outcomes) in KINDS.iter().zip(self.outcomes) {
            let Outcomes { accepted, refused } = outcomes;
            lines += &format!("{:28}{accepted:>10}{refused:>10}\n", kind.name);
        }
        lines += "refusals seen:";
        for (number, count) in self.refusals.iter().enumerate().skip(1) {
            lines += &format!(" {number}: {count}");
        }
        lines + "\n(8 is unused)\n"
    }

    /// What a run must show and this one did not.
    pub fn missing(&self) -> Vec<String> {
        let mut missing = Vec::new();
        for (number, &count) in self.refusals.iter().enumerate().skip(1) {
            if (count == 0) != (number == UNUSED) {
                missing.push(format!("refusal {number} was seen {count} times"));
            }
        }
        for (kind, outcomes) in KINDS.iter().zip(self.outcomes) {
            if kind.shows_accepted() && outcomes.accepted == 0 {
                missing.push(format!("no file of kind '{}' was accepted", kind.name));
            }
            if kind.shows_refused() && outcomes.refused == 0 {
                missing.push(format!("no file of kind '{}' was refused", kind.name));
            }
        }
        missing
    }
}
