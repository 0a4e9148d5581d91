//! Refusals 1 to 7 and 9 to 12, each with its place.

use super::{longest_file, refused, wiring};
use crate::{analyse, direct, listing, room_needed};

/// Two variables, two given formulas, two vertices, one switch; the places are set down below.
const FILE: [u8; 36] = [
    2, 0, 7, 0, 9, 0, // count at 0, entries at 2 and 4
    2, 0, 1, 0, 2, 0, 3, 0, 3, 0, 4, 0, 0, 0, // count at 6, entries at 8 and 14
    2, 0, 1, 0, 5, 0, // count at 20, entries at 22 and 24
    1, 0, 0, 0, 1, 0, 2, 0, 5, 0, // count at 26, entry at 28
];

/// The starts of the counts and entries of `FILE`, and its end.
const STARTS: [usize; 12] = [0, 2, 4, 6, 8, 14, 20, 22, 24, 26, 28, 36];

/// The file with one number put in at a place.
fn with(place: usize, number: u16) -> Vec<u8> {
    let mut file = FILE.to_vec();
    file[place..place + 2].copy_from_slice(&number.to_le_bytes());
    file
}

/// All four ways to read a file give the same refusal, whatever the room and the setting.
#[track_caller]
fn assert_refused(file: &[u8], number: u32, place: usize) {
    assert_eq!(analyse(file, 0), refused(number, place));
    assert_eq!(room_needed(file), refused(number, place));
    assert_eq!(direct(file, &[2; 300], 0), refused(number, place));
    assert_eq!(listing(file), format!("refused {number} at {place}\n"));
}

/// 1: "file ends inside or before a count or entry", for every cut.
#[test]
fn cut() {
    for length in 0..FILE.len() {
        let start = STARTS.iter().rfind(|&&start| start <= length).unwrap();
        assert_refused(&FILE[..length], 1, *start);
    }
    assert!(room_needed(&FILE).is_ok());
}

/// 2: "count above its limit", at the count, though no entry follows; the limits themselves are accepted.
#[test]
fn count() {
    for (place, limit) in [(0, 200), (6, 500), (20, 24), (26, 400)] {
        assert_refused(&with(place, limit + 1)[..place + 2], 2, place);
        assert_refused(&with(place, 65_535), 2, place);
        assert_refused(&with(place, limit)[..place + 2], 1, place + 2);
    }
}

/// 3: "coil number not above the one before"; the first may be any.
#[test]
fn coil() {
    assert_refused(&with(4, 7), 3, 4);
    assert_refused(&with(4, 0), 3, 4);
    assert_refused(&with(2, 65_535), 3, 4);
    assert!(room_needed(&with(2, 0)).is_ok());
    assert!(room_needed(&with(4, 65_535)).is_ok());
}

/// 4: "kind not 1, 2 or 3".
#[test]
fn kind() {
    for number in [0, 4, 257, 65_535] {
        assert_refused(&with(8, number), 4, 8);
        assert_refused(&with(14, number), 4, 14);
    }
}

/// 5: "reference not defined there, or second argument of not is not 0".
#[test]
fn reference() {
    for place in [10, 12] {
        assert_refused(&with(place, 4), 5, place);
        assert!(room_needed(&with(place, 0)).is_ok());
    }
    assert_refused(&with(16, 5), 5, 16);
    assert_refused(&with(18, 1), 5, 18);
    for place in [22, 24, 32, 34] {
        assert_refused(&with(place, 6), 5, place);
        assert!(room_needed(&with(place, 5)).is_ok());
    }
}

/// 6: "switch end is not a vertex".
#[test]
fn end() {
    for place in [28, 30] {
        assert_refused(&with(place, 2), 6, place);
        assert_refused(&with(place, 65_535), 6, place);
    }
}

/// 7: "bytes after the switches".
#[test]
fn trailing() {
    let mut file = FILE.to_vec();
    file.push(0);
    assert_refused(&file, 7, 36);
    file.push(1);
    assert_refused(&file, 7, 36);
}

/// "The first fault wins", and an entry's fields are tested "left to right", once it is complete.
#[test]
fn first_fault() {
    assert_refused(&wiring(&[1, 0, 9, 8], &[[9; 3]], &[9], &[[9; 4]]), 3, 4);
    assert_refused(&wiring(&[], &[[9; 3]], &[9], &[[9; 4]]), 4, 4);
    assert_refused(&wiring(&[], &[[3, 2, 1]], &[9], &[[9; 4]]), 5, 6);
    assert_refused(&wiring(&[], &[[1, 1, 2]], &[9], &[[9; 4]]), 5, 8);
    assert_refused(&wiring(&[], &[], &[2], &[[9; 4]]), 5, 6);
    assert_refused(&wiring(&[], &[], &[1], &[[9; 4]]), 6, 10);
    assert_refused(&wiring(&[], &[], &[1], &[[0, 9, 9, 9]]), 6, 12);
    assert_refused(&wiring(&[], &[], &[1], &[[0, 0, 9, 9]]), 5, 14);
    assert_refused(&wiring(&[], &[], &[1], &[[0, 0, 1, 9]]), 5, 16);
    let incomplete = wiring(&[], &[[9; 3]], &[], &[]);
    assert_refused(&incomplete[..9], 1, 4);
}

/// Nothing past 6,657 bytes changes an answer: each longer file has a fault in its first 6,657.
#[test]
fn longer_than_read() {
    let mut file = longest_file();
    file.resize(10_000, 1);
    assert_refused(&file, 7, 6_656);
    assert_refused(&file[..6_657], 7, 6_656);
}

/// 9: "one byte less gives 9; exactly that much is accepted". Here 16 + 4 + 6(2 + 0 + 4) + 12 = 68.
#[test]
fn result_room() {
    assert_eq!(room_needed(&FILE), Ok(68));
    assert_eq!(analyse(&FILE, 67), refused(9, 0));
    assert!(analyse(&FILE, 68).is_ok());
}

/// "then 10, 11 (lowest index), 12".
#[test]
fn setting_and_answer_room() {
    assert_eq!(direct(&FILE, &[2], 0), refused(10, 0));
    assert_eq!(direct(&FILE, &[0, 0, 0], 2), refused(10, 0));
    assert_eq!(direct(&FILE, &[], 2), refused(10, 0));
    assert_eq!(direct(&FILE, &[2, 255], 0), refused(11, 0));
    assert_eq!(direct(&FILE, &[1, 255], 0), refused(11, 1));
    assert_eq!(direct(&FILE, &[1, 1], 1), refused(12, 0));
    assert!(direct(&FILE, &[1, 1], 2).is_ok());
    assert!(direct(&FILE, &[1, 1], 3).is_ok());
}
