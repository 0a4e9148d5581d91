//! Calls of `analyse` for the stored vectors: wiring files, each with the room that its result needs, and with less and more.

use crate::compare::AMPLE;
use crate::handmade::{self, Named};
use crate::short;

/// Accepted files whose names begin so are analysed with other rooms, too.
const VARIED: [&str; 3] = ["uneven: ", "parallel: ", "shape: "];

/// So many refused files there are for each number.
const FAULTY: usize = 4;

/// What a call shows, its file and its room.
type Asked = (String, Vec<u8>, usize);

/// All of them.
pub fn calls() -> Vec<Asked> {
    let accepted = handmade::files().into_iter().chain(handmade::uneven());
    let accepted = accepted.chain(short::networks(3, 2));
    let faulty = handmade::faulty(FAULTY).into_iter();
    accepted
        .flat_map(analysed)
        .chain(faulty.flat_map(refused))
        .collect()
}

/// An accepted file with rooms around the one it needs; nothing for a refused one.
fn analysed((name, file): Named) -> Vec<Asked> {
    let Ok(needed) = reference::room_needed(&file) else {
        return Vec::new();
    };
    let mut calls = vec![(name.clone(), file.clone(), needed)];
    if VARIED.iter().any(|prefix| name.starts_with(prefix)) {
        let others = [
            ("a byte less", needed - 1),
            ("no room", 0),
            ("a byte more", needed + 1),
        ];
        calls.extend(others.map(|(what, room)| (format!("{name}; {what}"), file.clone(), room)));
    }
    calls
}

/// A refused file with room for every result, and with none: its own fault comes before the room's.
fn refused((name, file): Named) -> [Asked; 2] {
    [("ample room", AMPLE), ("no room", 0)]
        .map(|(what, room)| (format!("{name}; {what}"), file.clone(), room))
}

#[cfg(test)]
mod tests {
    use super::*;

    /// A call is refused where its name says so: for the file, or else for the room.
    #[test]
    fn names_tell_refusals() {
        for (name, file, room) in calls() {
            let outcome = reference::analyse(&file, room);
            let number = outcome.map_or_else(|refusal| refusal.number, |_| 0);
            match name.strip_prefix("refusal ") {
                Some(rest) => assert!(rest.starts_with(&format!("{number}: ")), "{name}: {number}"),
                None if name.ends_with("; a byte less") => assert_eq!(number, 9, "{name}"),
                None if name.ends_with("; no room") => assert_eq!(number, 9, "{name}"),
                None => assert_eq!(number, 0, "{name}"),
            }
        }
    }
}
