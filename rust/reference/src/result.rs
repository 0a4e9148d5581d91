//! Reading a stored result back (the outline, "The result form").

use crate::formula::{values, Kind, Record};

/// The truth, 1 or 0, of each vertex's formula in a stored result, where setting byte i decides variable i.
///
/// # Panics
///
/// Where `result` is cut or faulty in its variables, records or vertices, or the setting's length is
/// not its number of variables. The order and the figures are not looked at.
pub fn truths(result: &[u8], setting: &[u8]) -> Vec<u8> {
    let mut numbers = result
        .chunks_exact(2)
        .map(|bytes| u16::from_le_bytes([bytes[0], bytes[1]]));
    let variables: Vec<[u16; 1]> = section(&mut numbers);
    assert_eq!(setting.len(), variables.len(), "one byte per variable");
    let records: Vec<Record> = section(&mut numbers).into_iter().map(record).collect();
    let truth = values(setting, &records);
    section(&mut numbers)
        .into_iter()
        .map(|[answer]| u8::from(truth[usize::from(answer)]))
        .collect()
}

/// "each after its count": the entries of one section, N numbers each.
fn section<const N: usize>(numbers: &mut impl Iterator<Item = u16>) -> Vec<[u16; N]> {
    let mut next = || numbers.next().expect("the result is whole");
    (0..next())
        .map(|_| std::array::from_fn(|_| next()))
        .collect()
}

/// "records (kind, first, second)".
fn record([kind, first, second]: [u16; 3]) -> Record {
    Record {
        kind: Kind::of(kind).expect("a record's kind is 1, 2 or 3"),
        first,
        second,
    }
}
