//! Calls of `direct` for the stored vectors: wiring files, settings and rooms.

use crate::compare::{all_settings, AMPLE};
use crate::handmade::{self, Named};
use crate::networks::MOST_VERTICES;
use crate::short;
use std::collections::HashMap;

/// What a call shows, its file, its setting and its room.
type Asked = (String, Vec<u8>, Vec<u8>, usize);

/// Accepted files whose names begin so are asked under all settings, where they have few variables.
const ALL_SETTINGS: [&str; 5] = [
    "start: ",
    "label: ",
    "parallel: ",
    "equal ends: ",
    "given formulas: ",
];
const FEW: usize = 3;

/// So many refused files there are for each number.
const FAULTY: usize = 2;

/// Calls in which setting or room is at fault, or nearly so, a row for each: name | the file's name | setting | room. A byte of the setting
/// that comes several times is written once, with '*' and the number of times behind it.
const TRIED: &str = "
setting: 200 coils, all on                         | limit: 200 variables             | 1*200 | 1
setting: 200 coils, the last one off               | limit: 200 variables             | 1*199 0 | 1
setting: 200 coils, only the last one on           | limit: 200 variables             | 0*199 1 | 1
room: none, and no vertices                        | given formulas: no vertices      | 1 0 | 0
room: 24 bytes for 24 vertices                     | limit: 24 vertices               | | 24
room: 300 bytes for 24 vertices                    | limit: 24 vertices               | | 300

refusal 10: no bytes for three coils               | all sections: three entries each | | 3
refusal 10: two bytes for three coils              | all sections: three entries each | 1 0 | 3
refusal 10: four bytes for three coils             | all sections: three entries each | 1 0 1 0 | 3
refusal 10: 259 bytes for three coils              | all sections: three entries each | 0*259 | 3
refusal 10: a byte for no coils                    | K2: one vertex                   | 0 | 1
refusal 10: 256 bytes for no coils                 | K2: one vertex                   | 0*256 | 1
refusal 10: 199 bytes for 200 coils                | limit: 200 variables             | 1*199 | 1
refusal 10: 201 bytes for 200 coils                | limit: 200 variables             | 1*201 | 1
refusal 10: no vertices, and no room               | given formulas: no vertices      | 0 | 0
refusal 10: before a byte of 2                     | all sections: three entries each | 2 0 | 3
refusal 10: before a byte of 2 behind the coils    | all sections: three entries each | 1 0 1 2 | 3
refusal 10: before a room of one byte less         | all sections: three entries each | 1 0 | 2
refusal 10: before a byte of 255 and no room       | all sections: three entries each | 0 1 255 0 | 0
refusal 10: before no room, 200 coils              | limit: 200 variables             | 1*199 | 0
refusal 10: before 23 bytes for 24 vertices        | limit: 24 vertices               | 2 | 23

refusal 11: 2 is the first byte                    | all sections: three entries each | 2 0 1 | 3
refusal 11: 128 is the middle byte                 | all sections: three entries each | 0 128 1 | 3
refusal 11: 255 is the last byte                   | all sections: three entries each | 0 1 255 | 3
refusal 11: the first and the last byte            | all sections: three entries each | 3 0 2 | 3
refusal 11: the middle and the last byte           | all sections: three entries each | 0 255 2 | 3
refusal 11: all bytes                              | all sections: three entries each | 128 2 255 | 3
refusal 11: the last of 200 bytes                  | limit: 200 variables             | 0*199 2 | 1
refusal 11: two of 200 bytes                       | limit: 200 variables             | 1*100 255 0*98 128 | 1
refusal 11: no vertices, and no room               | given formulas: no vertices      | 0 2 | 0
refusal 11: before a room of one byte less         | all sections: three entries each | 1 1 2 | 2
refusal 11: before no room                         | all sections: three entries each | 1 254 128 | 0
refusal 11: before no room, 200 coils              | limit: 200 variables             | 1*199 128 | 0
refusal 11: before no room, a row of three         | example L: two relays in a row   | 0 2 | 0
refusal 11: before two bytes, a row of three       | example L: two relays in a row   | 2 2 | 2
refusal 11: before one byte, two vertices          | label: another coil each way     | 1 255 | 1

refusal 12: two bytes for three vertices           | all sections: three entries each | 1 0 1 | 2
refusal 12: no bytes for three vertices            | all sections: three entries each | 1 0 1 | 0
refusal 12: no bytes for one vertex                | K2: one vertex                   | | 0
refusal 12: no bytes for one vertex, 200 coils     | limit: 200 variables             | 1*200 | 0
refusal 12: 23 bytes for 24 vertices               | limit: 24 vertices               | | 23
refusal 12: no bytes for 24 vertices               | limit: 24 vertices               | | 0
refusal 12: two bytes, a row of three              | example L: two relays in a row   | 0 1 | 2
";

/// All of them.
pub fn calls() -> Vec<Asked> {
    let files = handmade::files();
    let begins = |(name, _): &&Named| ALL_SETTINGS.iter().any(|prefix| name.starts_with(prefix));
    let others = handmade::uneven().into_iter().chain(short::networks(4, 1));
    let by_name: HashMap<String, Vec<u8>> = files.iter().cloned().collect();
    let tried = |row| tried(row, &by_name);
    let mut calls = Vec::new();
    calls.extend(files.iter().filter(begins).flat_map(under_all));
    calls.extend(others.flat_map(under_two));
    calls.extend(TRIED.lines().filter(|row| !row.is_empty()).map(tried));
    calls.extend(handmade::faulty(FAULTY).into_iter().flat_map(refused));
    calls
}

/// An accepted file under all settings, with exactly the room and with more; nothing for one with many variables.
fn under_all((name, file): &Named) -> Vec<Asked> {
    let (variables, vertices) = counts(file);
    if variables > FEW {
        return Vec::new();
    }
    let rooms = [0, 1, 0, 40].map(|more| vertices + more);
    let call = |(setting, room): (Vec<u8>, usize)| {
        let bits: String = setting.iter().map(u8::to_string).collect();
        let said = if bits.is_empty() { "none" } else { &bits };
        (
            format!("{name}; setting {said}"),
            file.clone(),
            setting,
            room,
        )
    };
    let settings = all_settings(variables).into_iter();
    settings.zip(rooms.into_iter().cycle()).map(call).collect()
}

/// An accepted file under two settings.
fn under_two((name, file): Named) -> [Asked; 2] {
    let (variables, vertices) = counts(&file);
    let other = (0..variables).map(|index| u8::from(index % 2 == 0));
    let third = (0..variables).map(|index| u8::from(index % 3 != 1));
    [
        ("every other coil on", other.collect(), vertices),
        ("every third coil off", third.collect(), vertices + 1),
    ]
    .map(|(what, setting, room)| (format!("{name}; {what}"), file.clone(), setting, room))
}

/// A refused file with a setting and a room at fault, and with room enough: its own fault comes before theirs.
fn refused((name, file): Named) -> [Asked; 2] {
    [
        ("a setting of 2 and 255, and no room", vec![2, 255], 0),
        ("no setting", vec![], MOST_VERTICES),
    ]
    .map(|(what, setting, room)| (format!("{name}; {what}"), file.clone(), setting, room))
}

/// How many variables and vertices an accepted file has.
fn counts(file: &[u8]) -> (usize, usize) {
    let variables = usize::from(u16::from_le_bytes([file[0], file[1]]));
    let answer = reference::direct(file, &vec![0; variables], AMPLE);
    (variables, answer.expect("the file is accepted").len())
}

/// The call of a row.
fn tried(row: &str, files: &HashMap<String, Vec<u8>>) -> Asked {
    let columns: Vec<&str> = row.split('|').map(str::trim).collect();
    let [name, file, setting, room] = columns[..] else {
        panic!("'{row}' has not four columns")
    };
    let room = room.parse().expect("a room is a number");
    (name.to_string(), files[file].clone(), bytes(setting), room)
}

/// The bytes of a setting in a row.
fn bytes(words: &str) -> Vec<u8> {
    let number = |digits: &str| -> usize { digits.parse().expect("a setting has numbers") };
    let bytes = words.split_whitespace().flat_map(|word| {
        let (byte, times) = word.split_once('*').unwrap_or((word, "1"));
        vec![number(byte) as u8; number(times)]
    });
    bytes.collect()
}

#[cfg(test)]
mod tests {
    use super::*;

    /// A call is refused where its name says so, and with that number.
    #[test]
    fn names_tell_refusals() {
        for (name, file, setting, room) in calls() {
            let outcome = reference::direct(&file, &setting, room);
            let number = outcome.map_or_else(|refusal| refusal.number, |_| 0);
            match name.strip_prefix("refusal ") {
                Some(rest) => assert!(rest.starts_with(&format!("{number}: ")), "{name}: {number}"),
                None => assert_eq!(number, 0, "{name}"),
            }
        }
    }
}
