//! Formula records, the rules that make them (the outline, "Making a formula record") and their truth.

use std::collections::HashMap;

/// "Constant false is reference 0, constant true is reference 1"; then the variables, then the records.
pub type Reference = u16;
const FALSE: Reference = 0;
const TRUE: Reference = 1;

/// The kind of a formula, with its number in both file forms.
#[derive(Debug, Clone, Copy, PartialEq, Eq, Hash)]
pub enum Kind {
    /// Both arguments.
    And = 1,
    /// One of the arguments, or both.
    Or = 2,
    /// Not the first argument.
    Not = 3,
}

impl Kind {
    /// "kind (1 and, 2 or, 3 not)"; no other number is one.
    pub fn of(number: u16) -> Option<Kind> {
        [Kind::And, Kind::Or, Kind::Not]
            .into_iter()
            .find(|&kind| kind as u16 == number)
    }

    /// The word of the listing's f line.
    pub fn word(self) -> &'static str {
        match self {
            Kind::And => "and",
            Kind::Or => "or",
            Kind::Not => "not",
        }
    }
}

/// "kind, first, second": a record, and likewise a given formula of the file.
#[derive(Debug, Clone, Copy, PartialEq, Eq, Hash)]
pub struct Record {
    /// The operation.
    pub kind: Kind,
    /// Its first argument.
    pub first: Reference,
    /// Its second argument, 0 for not.
    pub second: Reference,
}

/// Rule 6 asked once: which record is sought, how many there are, and at which of them it is.
#[derive(Debug, Clone, Copy, PartialEq, Eq)]
pub struct Search {
    /// The record that is sought.
    pub sought: Record,
    /// How many records there are.
    pub count: usize,
    /// The index of the one that it equals; none where a record is added.
    pub found: Option<usize>,
}

/// All records made so far, in order, and each one's reference for rule 6.
pub struct Formulas {
    variables: usize,
    records: Vec<Record>,
    references: HashMap<Record, Reference>,
    searches: Option<Vec<Search>>,
}

impl Formulas {
    /// No records yet; "record k has reference 2+p+k".
    pub fn new(variables: usize) -> Formulas {
        Formulas {
            variables,
            records: Vec::new(),
            references: HashMap::new(),
            searches: None,
        }
    }

    /// No records yet, and each search is noted.
    pub fn noting(variables: usize) -> Formulas {
        Formulas {
            searches: Some(Vec::new()),
            ..Formulas::new(variables)
        }
    }

    /// What was noted, in the order of asking.
    pub fn searches(&self) -> &[Search] {
        self.searches.as_deref().unwrap_or_default()
    }

    /// The records in the order of their making.
    pub fn records(&self) -> &[Record] {
        &self.records
    }

    /// "An operation on references gives a reference"; the second argument of not is not looked at.
    pub fn ask(&mut self, kind: Kind, first: Reference, second: Reference) -> Reference {
        match kind {
            Kind::And => self.and(first, second),
            Kind::Or => self.or(first, second),
            Kind::Not => self.not(first),
        }
    }

    /// and, by rules 1 ("the smaller goes first"), 2, 3, 4, absorption, and then 6 and 7.
    pub fn and(&mut self, one: Reference, other: Reference) -> Reference {
        let (first, second) = (one.min(other), one.max(other));
        if first == FALSE {
            FALSE
        } else if first == TRUE || first == second {
            second
        } else if self.negated(second) == Some(first) {
            FALSE
        } else if let Some(left) = self.absorbed(Kind::And, first, second) {
            left
        } else {
            self.record(Kind::And, first, second)
        }
    }

    /// or, by rules 1 ("the smaller goes first"), 2, 3, 4, absorption, and then 6 and 7.
    pub fn or(&mut self, one: Reference, other: Reference) -> Reference {
        let (first, second) = (one.min(other), one.max(other));
        if first == TRUE {
            TRUE
        } else if first == FALSE || first == second {
            second
        } else if self.negated(second) == Some(first) {
            TRUE
        } else if let Some(left) = self.absorbed(Kind::Or, first, second) {
            left
        } else {
            self.record(Kind::Or, first, second)
        }
    }

    /// not, by rule 5 ("0 gives 1, 1 gives 0, a not record gives its argument") and then 6 and 7.
    pub fn not(&mut self, argument: Reference) -> Reference {
        match (argument, self.negated(argument)) {
            (FALSE, _) => TRUE,
            (TRUE, _) => FALSE,
            (_, Some(inner)) => inner,
            (_, None) => self.record(Kind::Not, argument, 0),
        }
    }

    /// "if the other argument is a record holding a, then a or (a and b) is a; a and (a or b) is a; a or (a or b),
    /// a and (a and b) are that record itself": each argument is tried as a, and the other is the record.
    fn absorbed(&self, kind: Kind, one: Reference, other: Reference) -> Option<Reference> {
        let given = |a: Reference, other: Reference| {
            let record = self
                .named(other)
                .filter(|record| record.kind != Kind::Not)?;
            let holding = record.first == a || record.second == a;
            holding.then_some(if record.kind == kind { other } else { a })
        };
        given(one, other).or_else(|| given(other, one))
    }

    /// The argument of a not record; none for every other reference.
    fn negated(&self, reference: Reference) -> Option<Reference> {
        let record = self.named(reference)?;
        (record.kind == Kind::Not).then_some(record.first)
    }

    /// The record of a reference; none for a constant or a variable.
    fn named(&self, reference: Reference) -> Option<Record> {
        let index = usize::from(reference).checked_sub(2 + self.variables)?;
        Some(self.records[index])
    }

    /// Rule 6, the record that exists already, or rule 7, "a new record after the last".
    fn record(&mut self, kind: Kind, first: Reference, second: Reference) -> Reference {
        let record = Record {
            kind,
            first,
            second,
        };
        self.note(record);
        let next = 2 + self.variables + self.records.len();
        *self.references.entry(record).or_insert_with(|| {
            self.records.push(record);
            Reference::try_from(next)
                .expect("the outline's limits keep references far below 65,536")
        })
    }

    /// Notes a search, where searches are noted.
    fn note(&mut self, sought: Record) {
        let Some(searches) = &mut self.searches else {
            return;
        };
        let index = |&reference: &Reference| usize::from(reference) - 2 - self.variables;
        searches.push(Search {
            sought,
            count: self.records.len(),
            found: self.references.get(&sought).map(index),
        });
    }
}

/// The truth of every reference, ascending, where setting byte i decides variable i.
pub fn values(setting: &[u8], records: &[Record]) -> Vec<bool> {
    let mut values = vec![false, true];
    values.extend(setting.iter().map(|&byte| byte == 1));
    for record in records {
        let first = values[usize::from(record.first)];
        let second = values[usize::from(record.second)];
        values.push(match record.kind {
            Kind::And => first && second,
            Kind::Or => first || second,
            Kind::Not => !first,
        });
    }
    values
}

#[cfg(test)]
mod tests {
    use super::*;

    /// Rules 1 to 3: the smaller goes first, constants and equal arguments give no record.
    #[test]
    fn constants_and_equal_arguments() {
        let mut formulas = Formulas::new(2);
        for x in 0..4 {
            assert_eq!((formulas.and(0, x), formulas.and(x, 0)), (0, 0));
            assert_eq!((formulas.and(1, x), formulas.and(x, 1)), (x, x));
            assert_eq!((formulas.or(0, x), formulas.or(x, 0)), (x, x));
            assert_eq!((formulas.or(1, x), formulas.or(x, 1)), (1, 1));
            assert_eq!((formulas.and(x, x), formulas.or(x, x)), (x, x));
        }
        assert_eq!(formulas.records(), []);
    }

    /// Rules 4 and 5: a formula and its not record, either way round, and not of a not record.
    #[test]
    fn negations() {
        let mut formulas = Formulas::new(2);
        assert_eq!((formulas.not(0), formulas.not(1)), (1, 0));
        assert_eq!(formulas.not(3), 4);
        assert_eq!(formulas.not(4), 3);
        assert_eq!((formulas.or(3, 4), formulas.or(4, 3)), (1, 1));
        assert_eq!((formulas.and(3, 4), formulas.and(4, 3)), (0, 0));
        assert_eq!(formulas.records().len(), 1);
        assert_eq!((formulas.and(2, 4), formulas.or(2, 4)), (5, 6));
    }

    /// Absorption: an argument held first or second by an and or an or record, either way round, and one level deep.
    #[test]
    fn absorption() {
        let mut formulas = Formulas::new(3);
        assert_eq!((formulas.and(2, 3), formulas.or(2, 3)), (5, 6));
        for a in [2, 3] {
            assert_eq!((formulas.or(a, 5), formulas.or(5, a)), (a, a));
            assert_eq!((formulas.and(a, 6), formulas.and(6, a)), (a, a));
            assert_eq!((formulas.or(a, 6), formulas.or(6, a)), (6, 6));
            assert_eq!((formulas.and(a, 5), formulas.and(5, a)), (5, 5));
        }
        assert_eq!(formulas.records().len(), 2);
        assert_eq!((formulas.or(4, 5), formulas.and(4, 6)), (7, 8));
        assert_eq!((formulas.or(2, 7), formulas.and(2, 8)), (9, 10));
        assert_eq!((formulas.or(5, 7), formulas.and(6, 8)), (7, 8));
    }

    /// Rules 6 and 7: one record for both argument orders, and another for another kind. Six searches, of which three find.
    #[test]
    fn existing_and_new_records() {
        let mut formulas = Formulas::noting(2);
        assert_eq!((formulas.and(3, 2), formulas.and(2, 3)), (4, 4));
        assert_eq!((formulas.or(3, 2), formulas.not(2)), (5, 6));
        assert_eq!((formulas.or(2, 3), formulas.not(2)), (5, 6));
        let made: Vec<_> = formulas
            .records()
            .iter()
            .map(|record| (record.kind, record.first, record.second))
            .collect();
        let expected = [(Kind::And, 2, 3), (Kind::Or, 2, 3), (Kind::Not, 2, 0)];
        assert_eq!(made, expected);
        let noted: Vec<_> = formulas
            .searches()
            .iter()
            .map(|search| (search.count, search.found))
            .collect();
        let expected = [
            (0, None),
            (1, Some(0)),
            (1, None),
            (2, None),
            (3, Some(1)),
            (3, Some(2)),
        ];
        assert_eq!(noted, expected);
    }
}
