//! One file's checks: the proved library against the reference.

use crate::cases::{Case, Foreseen};
use crate::lent::Lent;
use crate::seeded::Seeded;
use crate::tally::Tally;
use reference::Refusal;

/// Room for every result of this edition.
pub const AMPLE: usize = 63_548;

/// Up to this many variables all settings are tried.
const ALL_SETTINGS: usize = 4;

/// What differed, in words.
pub type Difference = String;

/// What became of a call: the bytes written, or the refusal.
pub type Outcome = Result<Vec<u8>, Refusal>;

/// Compares all that is asked of one file, and counts it. The first difference ends it.
pub fn check(case: &Case, tally: &mut Tally) -> Result<(), Difference> {
    let mut checks = Checks {
        file: &case.file,
        seeded: Seeded::new(case.seed, &[3, case.number]),
        tally,
    };
    let outcome = checks.analyse(AMPLE)?;
    foreseen(case.foreseen, &outcome)?;
    match outcome {
        Ok(result) => {
            checks.tally.outcomes[case.kind].accepted += 1;
            checks.accepted(&result)
        }
        Err(_) => {
            checks.tally.outcomes[case.kind].refused += 1;
            checks.refused()
        }
    }
}

/// Whether the file met what its generator foresaw.
fn foreseen(foreseen: Foreseen, outcome: &Outcome) -> Result<(), Difference> {
    let as_foreseen = match foreseen {
        Foreseen::Accepted => outcome.is_ok(),
        Foreseen::Refused(refusal) => *outcome == Err(refusal),
        Foreseen::Either => true,
    };
    if as_foreseen {
        return Ok(());
    }
    let said = in_words(&length_of(outcome));
    Err(format!(
        "both say: {said}; the generator foresaw: {foreseen:?}"
    ))
}

/// The library's refusal as the reference's type.
pub fn of_library(refusal: jorulbani::Refusal) -> Refusal {
    let (number, place) = (refusal.number(), refusal.place());
    Refusal { number, place }
}

fn length_of(outcome: &Outcome) -> Result<usize, Refusal> {
    outcome.as_ref().map(Vec::len).map_err(|&refusal| refusal)
}

fn in_words(outcome: &Result<usize, Refusal>) -> String {
    match outcome {
        Ok(length) => format!("accepted, {length} bytes"),
        Err(refusal) => refused(*refusal),
    }
}

/// A refusal in words.
pub fn refused(refusal: Refusal) -> String {
    format!("refused {} at {}", refusal.number, refusal.place)
}

/// All settings of so many variables.
pub fn all_settings(variables: usize) -> Vec<Vec<u8>> {
    let bit = |setting: usize, variable: usize| (setting >> variable & 1) as u8;
    (0..1 << variables)
        .map(|setting| {
            (0..variables)
                .map(|variable| bit(setting, variable))
                .collect()
        })
        .collect()
}

/// The checks of one file.
struct Checks<'a> {
    file: &'a [u8],
    seeded: Seeded,
    tally: &'a mut Tally,
}

impl Checks<'_> {
    /// All that is asked of an accepted file, with the library's result.
    fn accepted(&mut self, result: &[u8]) -> Result<(), Difference> {
        let unexpected = |refusal| format!("the reference refuses what it accepted: {refusal:?}");
        let needed = reference::room_needed(self.file).map_err(unexpected)?;
        self.rooms(needed)?;
        let variables = usize::from(u16::from_le_bytes([result[0], result[1]]));
        let none = vec![0; variables];
        let vertices = reference::direct(self.file, &none, AMPLE)
            .map_err(unexpected)?
            .len();
        for setting in self.settings(variables) {
            let room = vertices + self.seeded.one_of(&[0, 0, 1, 40]);
            let answer = self.direct(&setting, room)?;
            self.truths(result, &setting, &answer)?;
        }
        let (setting, room) = self.spoiled(variables, vertices);
        let _ = self.direct(&setting, room)?;
        if self.seeded.once_in(8) {
            self.owned(&none)?;
        }
        self.list()
    }

    /// A refused file meets the same refusal in every call, whatever else is wrong.
    fn refused(&mut self) -> Result<(), Difference> {
        let (setting, room) = self.spoiled(2, 2);
        let _ = self.analyse(room)?;
        let _ = self.direct(&setting, room)?;
        if self.seeded.once_in(8) {
            self.owned(&setting)?;
        }
        self.list()
    }

    /// The room needed, one byte less, and now and then far less.
    fn rooms(&mut self, needed: usize) -> Result<(), Difference> {
        let _ = self.analyse(needed)?;
        let _ = self.analyse(needed - 1)?;
        if self.seeded.once_in(4) {
            let less = self.seeded.below(needed);
            let room = self.seeded.one_of(&[0, less]);
            let _ = self.analyse(room)?;
        }
        Ok(())
    }

    /// All settings of few variables; of many all 0, all 1 and two random ones.
    fn settings(&mut self, variables: usize) -> Vec<Vec<u8>> {
        if variables > ALL_SETTINGS {
            let mut random = || (0..variables).map(|_| self.seeded.byte() & 1).collect();
            return vec![vec![0; variables], vec![1; variables], random(), random()];
        }
        all_settings(variables)
    }

    /// A setting and a room of which one, two or three things are wrong: the length, bytes, the room.
    fn spoiled(&mut self, variables: usize, vertices: usize) -> (Vec<u8>, usize) {
        let wrong = self.seeded.from_to(1, 7);
        let mut setting: Vec<u8> = (0..variables).map(|_| self.seeded.byte() & 1).collect();
        if wrong & 1 != 0 {
            let any = self.seeded.below(300);
            let length = self
                .seeded
                .one_of(&[variables + 1, variables.saturating_sub(1), 0, any]);
            setting.resize(length, 0);
        }
        if wrong & 2 != 0 && !setting.is_empty() {
            for _ in 0..self.seeded.from_to(1, 2) {
                let index = self.seeded.below(setting.len());
                setting[index] = self.seeded.from_to(2, 255) as u8;
            }
        }
        if wrong & 4 != 0 && vertices > 0 {
            return (
                setting,
                self.seeded.one_of(&[vertices - 1, vertices - 1, 0]),
            );
        }
        (setting, vertices)
    }

    /// `analyse` into a lent buffer with this room.
    fn analyse(&mut self, room: usize) -> Result<Outcome, Difference> {
        let expected = reference::analyse(self.file, room);
        let mut lent = Lent::new(room, self.seeded.byte());
        let got = jorulbani::analyse_into(self.file, lent.out());
        self.settle(&format!("analyse with room {room}"), expected, got, lent)
    }

    /// `direct` into a lent buffer with this room.
    fn direct(&mut self, setting: &[u8], room: usize) -> Result<Outcome, Difference> {
        let expected = reference::direct(self.file, setting, room);
        let mut lent = Lent::new(room, self.seeded.byte());
        let got = jorulbani::direct_into(self.file, setting, lent.out());
        let what = format!("direct with room {room} under {setting:?}");
        self.settle(&what, expected, got, lent)
    }

    /// Compares the outcome and every byte of the lent buffer. Gives the outcome, with the library's bytes.
    fn settle(
        &mut self,
        what: &str,
        expected: Outcome,
        got: Result<usize, jorulbani::Refusal>,
        mut lent: Lent,
    ) -> Result<Outcome, Difference> {
        let got = got.map_err(of_library);
        if got != length_of(&expected) {
            let (got, expected) = (in_words(&got), in_words(&length_of(&expected)));
            return Err(format!(
                "{what}: the library says: {got}; the reference: {expected}"
            ));
        }
        let written = expected.as_deref().unwrap_or(&[]);
        lent.check(written)
            .map_err(|why| format!("{what}: {why}"))?;
        self.tally.comparisons += 1;
        if let Err(refusal) = expected {
            self.tally.refusals[refusal.number as usize] += 1;
        }
        Ok(got.map(|length| lent.out()[..length].to_vec()))
    }

    /// Whether the formulas of the library's result say, under a setting, what its direct answer says.
    fn truths(
        &mut self,
        result: &[u8],
        setting: &[u8],
        answer: &Outcome,
    ) -> Result<(), Difference> {
        let truths = reference::truths(result, setting);
        if *answer != Ok(truths) {
            return Err(format!(
                "the stored formulas are not worth the direct answer under {setting:?}"
            ));
        }
        self.tally.comparisons += 1;
        Ok(())
    }

    /// The calls that bring their own room.
    fn owned(&mut self, setting: &[u8]) -> Result<(), Difference> {
        let analysed = jorulbani::analyse(self.file).map_err(of_library);
        let answered = jorulbani::direct(self.file, setting).map_err(of_library);
        if analysed != reference::analyse(self.file, AMPLE) {
            return Err("analyse with its own room".to_string());
        }
        if answered != reference::direct(self.file, setting, AMPLE) {
            return Err(format!("direct with its own room under {setting:?}"));
        }
        self.tally.comparisons += 2;
        Ok(())
    }

    /// The listing's text.
    fn list(&mut self) -> Result<(), Difference> {
        same_text(&jorulbani::list(self.file), &reference::listing(self.file))
            .map_err(|why| format!("the listing: {why}"))?;
        self.tally.comparisons += 1;
        Ok(())
    }
}

/// Whether a text is what it should be.
pub fn same_text(text: &str, expected: &str) -> Result<(), Difference> {
    if text == expected {
        return Ok(());
    }
    let line = |text: &str, number: usize| match text.split('\n').nth(number - 1) {
        Some(line) => format!("'{line}'"),
        None => "missing".to_string(),
    };
    let differs = |&number: &usize| line(text, number) != line(expected, number);
    let number = (1..).find(differs).unwrap_or(1);
    let (is, should) = (line(text, number), line(expected, number));
    Err(format!("line {number} is {is}, not {should}"))
}
