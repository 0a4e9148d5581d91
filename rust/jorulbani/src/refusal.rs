//! Refusals: their causes, what they say in words, and how an answer of the proved library tells one.

use std::error::Error;
use std::fmt;

/// Why a call was refused. A cause's value is the refusal's number; 8 is unused.
#[derive(Debug, Clone, Copy, PartialEq, Eq, Hash)]
pub enum Cause {
    /// 1: the file ends inside or before a count or entry.
    Cut = 1,
    /// 2: a count is above its limit.
    Count,
    /// 3: a coil number is not above the one before.
    Coil,
    /// 4: a kind is not 1, 2 or 3.
    Kind,
    /// 5: a reference is not defined there, or the second argument of not is not 0.
    Reference,
    /// 6: a switch end is not a vertex.
    End,
    /// 7: there are bytes after the switches.
    Trailing,
    /// 9: the room for the result is too small.
    ResultRoom = 9,
    /// 10: the setting's length is not the number of variables.
    SettingLength,
    /// 11: a byte of the setting is not 0 or 1.
    SettingByte,
    /// 12: the room for the direct answer is below the vertex count.
    AnswerRoom,
}

impl Cause {
    const ALL: [Cause; 11] = [
        Cause::Cut,
        Cause::Count,
        Cause::Coil,
        Cause::Kind,
        Cause::Reference,
        Cause::End,
        Cause::Trailing,
        Cause::ResultRoom,
        Cause::SettingLength,
        Cause::SettingByte,
        Cause::AnswerRoom,
    ];

    /// The refusal's number: 1 to 7, or 9 to 12.
    pub fn number(self) -> u32 {
        self as u32
    }

    fn numbered(number: u32) -> Option<Cause> {
        Cause::ALL
            .into_iter()
            .find(|cause| cause.number() == number)
    }

    /// The cause in words.
    pub fn words(self) -> &'static str {
        match self {
            Cause::Cut => "file ends inside or before a count or entry",
            Cause::Count => "count above its limit",
            Cause::Coil => "coil number not above the one before",
            Cause::Kind => "kind not 1, 2 or 3",
            Cause::Reference => "reference not defined there, or second argument of not is not 0",
            Cause::End => "switch end is not a vertex",
            Cause::Trailing => "bytes after the switches",
            Cause::ResultRoom => "result room too small",
            Cause::SettingLength => "setting's length is not the number of variables",
            Cause::SettingByte => "setting byte not 0 or 1",
            Cause::AnswerRoom => "direct answer's room below the vertex count",
        }
    }
}

/// A refused call: its cause, and where in the input the cause stands. Nothing was written.
///
/// Shown, it says both in words:
///
/// ```
/// let refusal = jorulbani::analyse(&[]).unwrap_err();
/// assert_eq!(
///     refusal.to_string(),
///     "refused 1 at 0: file ends inside or before a count or entry (the count or entry that starts at byte 0)"
/// );
/// ```
#[derive(Debug, Clone, Copy, PartialEq, Eq, Hash)]
pub struct Refusal {
    cause: Cause,
    place: usize,
}

impl Refusal {
    /// Why the call was refused.
    pub fn cause(&self) -> Cause {
        self.cause
    }

    /// The refusal's number: 1 to 7, or 9 to 12.
    pub fn number(&self) -> u32 {
        self.cause.number()
    }

    /// Where the cause stands: a byte offset into the file for numbers 1 to 7, an index into the setting for 11, and 0 for the others.
    pub fn place(&self) -> usize {
        self.place
    }
}

impl fmt::Display for Refusal {
    fn fmt(&self, f: &mut fmt::Formatter<'_>) -> fmt::Result {
        let place = self.place;
        write!(
            f,
            "refused {} at {place}: {}",
            self.number(),
            self.cause.words()
        )?;
        match self.cause {
            Cause::Cut => write!(f, " (the count or entry that starts at byte {place})"),
            Cause::Count => write!(f, " (the count at byte {place})"),
            Cause::Kind => write!(f, " (the kind at byte {place})"),
            Cause::Coil | Cause::Reference | Cause::End => {
                write!(f, " (the number at byte {place})")
            }
            Cause::Trailing => write!(f, " (the first at byte {place})"),
            Cause::SettingByte => write!(f, " (index {place} of the setting)"),
            Cause::ResultRoom | Cause::SettingLength | Cause::AnswerRoom => Ok(()),
        }
    }
}

impl Error for Refusal {}

/// What an answer of `jorulbani_analyse` or `jorulbani_direct` in `room` bytes says: a length, or number × 2³² + place.
///
/// # Panics
///
/// On an answer that says neither. The proved library gives none.
pub(crate) fn decoded(answer: u64, room: usize) -> Result<usize, Refusal> {
    let (number, rest) = ((answer >> 32) as u32, answer as u32 as usize);
    match Cause::numbered(number) {
        Some(cause) => Err(Refusal { cause, place: rest }),
        None if number == 0 && rest <= room => Ok(rest),
        None => panic!("bug: the proved library answered {answer:#x} in {room} bytes of room, which is no length and no refusal"),
    }
}

#[cfg(test)]
mod tests {
    use super::*;

    const UPPER: u64 = 1 << 32;

    #[test]
    fn lengths_are_decoded() {
        assert_eq!(decoded(0, 0), Ok(0));
        assert_eq!(decoded(62, 62), Ok(62));
        assert_eq!(decoded(63_548, 63_548), Ok(63_548));
    }

    #[test]
    fn refusals_are_decoded() {
        for (number, cause) in (1..=7).chain(9..=12).zip(Cause::ALL) {
            let refusal = decoded(number * UPPER + 6_656, 0).unwrap_err();
            assert_eq!(refusal.cause(), cause);
            assert_eq!(u64::from(refusal.number()), number);
            assert_eq!(refusal.place(), 6_656);
        }
    }

    #[test]
    fn the_largest_place_is_decoded() {
        let refusal = decoded(11 * UPPER + 0xffff_ffff, 0).unwrap_err();
        assert_eq!((refusal.number(), refusal.place()), (11, 0xffff_ffff));
    }

    #[test]
    #[should_panic(expected = "bug: the proved library answered 0x800000000")]
    fn the_number_eight_is_a_bug() {
        let _ = decoded(8 * UPPER, 0);
    }

    #[test]
    #[should_panic(expected = "bug: the proved library answered 0xd00000000")]
    fn a_number_above_twelve_is_a_bug() {
        let _ = decoded(13 * UPPER, 0);
    }

    #[test]
    #[should_panic(expected = "bug: the proved library answered 0x3f")]
    fn a_length_above_the_room_is_a_bug() {
        let _ = decoded(63, 62);
    }

    #[test]
    fn words_name_the_place_by_what_it_is() {
        let shown =
            |number: u64, place: u64| decoded(number * UPPER + place, 0).unwrap_err().to_string();
        let expected = [
            (1, 2, "refused 1 at 2: file ends inside or before a count or entry (the count or entry that starts at byte 2)"),
            (2, 0, "refused 2 at 0: count above its limit (the count at byte 0)"),
            (3, 4, "refused 3 at 4: coil number not above the one before (the number at byte 4)"),
            (4, 8, "refused 4 at 8: kind not 1, 2 or 3 (the kind at byte 8)"),
            (5, 12, "refused 5 at 12: reference not defined there, or second argument of not is not 0 (the number at byte 12)"),
            (6, 18, "refused 6 at 18: switch end is not a vertex (the number at byte 18)"),
            (7, 8, "refused 7 at 8: bytes after the switches (the first at byte 8)"),
            (9, 0, "refused 9 at 0: result room too small"),
            (10, 0, "refused 10 at 0: setting's length is not the number of variables"),
            (11, 3, "refused 11 at 3: setting byte not 0 or 1 (index 3 of the setting)"),
            (12, 0, "refused 12 at 0: direct answer's room below the vertex count"),
        ];
        for (number, place, line) in expected {
            assert_eq!(shown(number, place), line);
        }
    }
}
