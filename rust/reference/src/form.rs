//! Reading the network form (the outline, "The network form") with refusals 1 to 7.

use crate::formula::{Kind, Record, Reference};
use crate::Refusal;

const VARIABLES: u16 = 200;
const GIVEN_FORMULAS: u16 = 500;
const VERTICES: u16 = 24;
const SWITCHES: u16 = 400;

/// A switch as the file has it; its labels are the file's own references.
pub struct Switch {
    pub first_end: usize,
    pub second_end: usize,
    pub first_to_second: Reference,
    pub second_to_first: Reference,
}

/// An accepted file, section by section.
pub struct Network {
    pub coils: Vec<u16>,
    pub given: Vec<Record>,
    pub starts: Vec<Reference>,
    pub switches: Vec<Switch>,
}

impl Network {
    /// "Four sections in this order, each after its count", then nothing (7: "bytes after the switches").
    pub fn read(file: &[u8]) -> Result<Network, Refusal> {
        let mut cursor = Cursor { file, place: 0 };
        let coils = read_coils(&mut cursor)?;
        let given = read_given(&mut cursor, 2 + coils.len())?;
        let defined = 2 + coils.len() + given.len();
        let starts = read_starts(&mut cursor, defined)?;
        let switches = read_switches(&mut cursor, starts.len(), defined)?;
        if cursor.place < file.len() {
            return Err(Refusal {
                number: 7,
                place: cursor.place,
            });
        }
        Ok(Network {
            coils,
            given,
            starts,
            switches,
        })
    }
}

/// The file and how far it has been read.
struct Cursor<'a> {
    file: &'a [u8],
    place: usize,
}

/// The numbers of one complete entry and where it starts.
struct Entry<const N: usize> {
    numbers: [u16; N],
    place: usize,
}

impl Cursor<'_> {
    /// "An entry must be complete before its fields are tested"; 1 at its start where the file ends in it.
    fn entry<const N: usize>(&mut self) -> Result<Entry<N>, Refusal> {
        let place = self.place;
        let Some(bytes) = self.file.get(place..place + 2 * N) else {
            return Err(Refusal { number: 1, place });
        };
        self.place += 2 * N;
        let numbers = std::array::from_fn(|field| {
            u16::from_le_bytes([bytes[2 * field], bytes[2 * field + 1]])
        });
        Ok(Entry { numbers, place })
    }

    /// "A count is tested on being read": 2 where it is above its limit.
    fn count(&mut self, limit: u16) -> Result<usize, Refusal> {
        let count = self.entry::<1>()?;
        count.test(0, 2, count.numbers[0] <= limit)?;
        Ok(count.numbers[0].into())
    }
}

impl<const N: usize> Entry<N> {
    /// A field's fault is at "that number": the offset of the field.
    fn test(&self, field: usize, number: u32, good: bool) -> Result<(), Refusal> {
        let place = self.place + 2 * field;
        if good {
            Ok(())
        } else {
            Err(Refusal { number, place })
        }
    }

    /// 5: "reference not defined there", the defined ones being those below `defined`.
    fn reference(&self, field: usize, defined: usize) -> Result<Reference, Refusal> {
        let reference = self.numbers[field];
        self.test(field, 5, usize::from(reference) < defined)?;
        Ok(reference)
    }

    /// 6: "switch end is not a vertex".
    fn end(&self, field: usize, vertices: usize) -> Result<usize, Refusal> {
        let end = usize::from(self.numbers[field]);
        self.test(field, 6, end < vertices)?;
        Ok(end)
    }
}

/// Variables: "coil number, strictly ascending"; 3: "coil number not above the one before".
fn read_coils(cursor: &mut Cursor) -> Result<Vec<u16>, Refusal> {
    let count = cursor.count(VARIABLES)?;
    let mut coils: Vec<u16> = Vec::with_capacity(count);
    for _ in 0..count {
        let entry = cursor.entry::<1>()?;
        let coil = entry.numbers[0];
        entry.test(0, 3, coils.last().is_none_or(|&before| coil > before))?;
        coils.push(coil);
    }
    Ok(coils)
}

/// Given formulas: "a given formula refers only to smaller references than its own".
fn read_given(cursor: &mut Cursor, before: usize) -> Result<Vec<Record>, Refusal> {
    let count = cursor.count(GIVEN_FORMULAS)?;
    let mut given = Vec::with_capacity(count);
    for own in before..before + count {
        given.push(read_formula(&cursor.entry()?, own)?);
    }
    Ok(given)
}

/// One given formula's fields, left to right: 4 for the kind, 5 for an argument ("0 for not" the second).
fn read_formula(entry: &Entry<3>, own: usize) -> Result<Record, Refusal> {
    let Some(kind) = Kind::of(entry.numbers[0]) else {
        return Err(Refusal {
            number: 4,
            place: entry.place,
        });
    };
    let first = entry.reference(1, own)?;
    let allowed = if kind == Kind::Not { 1 } else { own };
    let second = entry.reference(2, allowed)?;
    Ok(Record {
        kind,
        first,
        second,
    })
}

/// Vertices: "reference to the starting formula".
fn read_starts(cursor: &mut Cursor, defined: usize) -> Result<Vec<Reference>, Refusal> {
    let count = cursor.count(VERTICES)?;
    (0..count)
        .map(|_| cursor.entry::<1>()?.reference(0, defined))
        .collect()
}

/// Switches: "first end, second end, label first to second, label second to first".
fn read_switches(
    cursor: &mut Cursor,
    vertices: usize,
    defined: usize,
) -> Result<Vec<Switch>, Refusal> {
    let count = cursor.count(SWITCHES)?;
    let mut switches = Vec::with_capacity(count);
    for _ in 0..count {
        let entry = cursor.entry::<4>()?;
        switches.push(Switch {
            first_end: entry.end(0, vertices)?,
            second_end: entry.end(1, vertices)?,
            first_to_second: entry.reference(2, defined)?,
            second_to_first: entry.reference(3, defined)?,
        });
    }
    Ok(switches)
}
