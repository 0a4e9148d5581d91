//! How many records the searches of one analysis look at, by the way of searching.

use reference::{Record, Search};

/// How many searches there are and how many of them find a record, and the records that all look at: from the first record
/// on, from the newest on, from the newest on down to the larger argument, and from the newest of the bucket on down to it.
#[derive(Debug, Default, PartialEq, Eq)]
pub struct Looked {
    pub searches: usize,
    pub found: usize,
    pub first_on: usize,
    pub newest_on: usize,
    pub to_argument: usize,
    pub in_bucket: usize,
}

/// The sums of a file that both sides analyse.
pub fn looked(file: &[u8]) -> Result<Looked, String> {
    let variables = usize::from(u16::from_le_bytes([file[0], file[1]]));
    let searches = reference::searches(file).map_err(|refusal| format!("refused: {refusal:?}"))?;
    Ok(summed(variables, &searches))
}

fn summed(variables: usize, searches: &[Search]) -> Looked {
    let mut looked = Looked {
        searches: searches.len(),
        found: searches
            .iter()
            .filter(|search| search.found.is_some())
            .count(),
        ..Looked::default()
    };
    let mut newest = [0_usize; BUCKETS];
    for search in searches {
        let begin = newest[bucket(&search.sought)];
        let argument = usize::from(search.sought.first.max(search.sought.second));
        // A search ends after the record that it finds, or where the larger argument forbids an equal one.
        let end = search
            .found
            .unwrap_or(argument.saturating_sub(1 + variables));
        looked.first_on += search.found.map_or(search.count, |index| index + 1);
        looked.newest_on += search.count - search.found.unwrap_or(0);
        looked.to_argument += search.count - end;
        looked.in_bucket += begin.saturating_sub(end);
        if search.found.is_none() {
            newest[bucket(&search.sought)] = search.count + 1;
        }
    }
    looked
}

/// The library's buckets, as its definitions have them (`records/Newest`).
const BUCKETS: usize = 4096;

fn bucket(record: &Record) -> usize {
    let first = usize::from(record.first);
    let second = usize::from(record.second);
    (record.kind as usize + 3 * first + 67 * second) % BUCKETS
}

#[cfg(test)]
mod tests {
    use super::*;
    use reference::Kind;

    fn search(first: u16, second: u16, count: usize, found: Option<usize>) -> Search {
        let sought = Record {
            kind: Kind::And,
            first,
            second,
        };
        Search {
            sought,
            count,
            found,
        }
    }

    /// The records looked at by one search, with three variables; no bucket has a record then.
    fn alone(first: u16, second: u16, count: usize, found: Option<usize>) -> [usize; 3] {
        let looked = summed(3, &[search(first, second, count, found)]);
        assert_eq!(looked.searches, 1);
        assert_eq!(looked.found, usize::from(found.is_some()));
        assert_eq!(looked.in_bucket, 0);
        [looked.first_on, looked.newest_on, looked.to_argument]
    }

    /// The variables are references 2 to 4, ten records 5 to 14.
    #[test]
    fn by_hand() {
        assert_eq!(alone(2, 4, 10, None), [10, 10, 10]);
        assert_eq!(alone(2, 5, 10, None), [10, 10, 9]);
        assert_eq!(alone(5, 14, 10, None), [10, 10, 0]);
        assert_eq!(alone(2, 0, 10, None), [10, 10, 10]);
        assert_eq!(alone(2, 5, 10, Some(1)), [2, 9, 9]);
        assert_eq!(alone(2, 5, 10, Some(9)), [10, 1, 1]);
        assert_eq!(alone(2, 3, 0, None), [0, 0, 0]);
    }

    /// A record is noted where a search finds none; the next search of its bucket begins there.
    #[test]
    fn by_bucket() {
        let stored = search(2, 3, 4, None);
        let again = search(2, 3, 9, Some(4));
        assert_eq!(summed(3, &[stored, again]).in_bucket, 1);
        // 3 × 2 + 67 × 3 and 3 × (2 + 67) + 67 × 0 are one bucket: records 4 to 0 are looked at, as far as argument 69 allows.
        let apart = search(69, 0, 70, None);
        assert_eq!(bucket(&stored.sought), bucket(&apart.sought));
        assert_eq!(summed(3, &[stored, apart]).in_bucket, 0);
        assert_eq!(summed(67, &[stored, apart]).in_bucket, 4);
        assert_eq!(summed(69, &[stored, apart]).in_bucket, 5);
    }
}
