//! The kinds of calls whose vectors are stored, each kind in a file of its own.

use crate::compare::{of_library, refused, same_text, Outcome};
use crate::lent::Lent;
use crate::vectors::{in_hexadecimal, same_calls, Field, Form, Format, Input, Inputs, Vector};
use crate::{handmade, program, rooms, root, settings, short};
use std::fs;
use std::panic::{catch_unwind, UnwindSafe};

/// A kind of call.
pub struct Call {
    /// What its file is called.
    pub name: &'static str,
    format: Format,
    /// The calls to store: what each shows, and its inputs in the order of the fields.
    asked: fn() -> Vec<(String, Vec<Input>)>,
    /// What the reference says.
    reference: fn(&Inputs) -> String,
    /// Who else is asked.
    others: &'static [(&'static str, Ask)],
}

/// How someone is asked for the text of a call. Where no text comes, it says why.
type Ask = fn(&Inputs) -> Result<String, String>;

/// The inputs that calls have.
const FILE: Field = Field {
    word: "file",
    form: Form::Bytes { together: 2 },
};
const SETTING: Field = Field {
    word: "setting",
    form: Form::Bytes { together: 1 },
};
const ROOM: Field = Field {
    word: "room",
    form: Form::Number,
};

/// The kinds.
pub static CALLS: [Call; 3] = [LIST, ANALYSE, DIRECT];

const LIST: Call = Call {
    name: "listings",
    format: Format {
        comment: "\
# Wiring files, and the listing that is expected of each.
# A vector is 'vector' and what it shows; then 'file' and the file's bytes in hexadecimal, two together where they are a number, in as
# many lines as it takes; then each line of the listing, after '| '. A blank line stands between two vectors.
# No text here comes from the proved program: each listing is that of rust/reference, which was written from the outline alone.
# 'rust/target/release/vectors write listings' prints this file, and 'rust/target/release/vectors' compares with it.
# Refusals 1 to 7 are here. 8 is unused, and 9 to 12 are not a file's: results.txt and direct.txt have those.
",
        fields: &[FILE],
        least: 200,
    },
    asked: || {
        let files = handmade::files().into_iter().chain(short::networks(2, 3));
        files.map(|(name, file)| (name, vec![file.into()])).collect()
    },
    reference: |inputs| reference::listing(inputs.bytes("file")),
    others: &[
        ("the program", |inputs| program::listed(inputs.bytes("file"))),
        ("the library", |inputs| Ok(jorulbani::list(inputs.bytes("file")))),
    ],
};

const ANALYSE: Call = Call {
    name: "results",
    format: Format {
        comment: "\
# Calls of 'analyse': a wiring file and the room that is lent, and the result that is expected.
# A vector is 'vector' and what it shows; then 'file' and the file's bytes in hexadecimal, two together where they are a number, in as
# many lines as it takes; then 'room' and how many bytes are lent; then, after '| ', the result's bytes, written like the file's, or
# 'refused NUMBER at PLACE'. A blank line stands between two vectors.
# The result is put at the front of what is lent. The bytes behind it stay as they came, and after a refusal all of them do.
# No text here comes from the proved program: each is that of rust/reference, which was written from the outline alone.
# 'rust/target/release/vectors write results' prints this file, and 'rust/target/release/vectors' compares with it.
# Refusals 1 to 7 and 9 are here: 8 is unused, and 10 to 12 are not of this call.
",
        fields: &[FILE, ROOM],
        least: 300,
    },
    asked: || {
        let calls = rooms::calls().into_iter();
        calls.map(|(name, file, room)| (name, vec![file.into(), room.into()])).collect()
    },
    reference: |inputs| {
        let (file, room) = (inputs.bytes("file"), inputs.number("room"));
        in_text(reference::analyse(file, room), result)
    },
    others: &[("the library", |inputs| {
        let (file, room) = (inputs.bytes("file"), inputs.number("room"));
        let analyse = |out: &mut [u8]| jorulbani::analyse_into(file, out);
        Ok(in_text(lent(room, analyse)?, result))
    })],
};

const DIRECT: Call = Call {
    name: "direct",
    format: Format {
        comment: "\
# Calls of 'direct': a wiring file, a setting and the room that is lent, and the answer that is expected.
# A vector is 'vector' and what it shows; then 'file' and the file's bytes in hexadecimal, two together where they are a number, in as
# many lines as it takes; then 'setting' and its bytes, one by one; then 'room' and how many bytes are lent; then, after '| ', 'answer'
# and the byte of each vertex, 1 or 0, or 'refused NUMBER at PLACE'. A blank line stands between two vectors.
# The answer is put at the front of what is lent. The bytes behind it stay as they came, and after a refusal all of them do.
# No text here comes from the proved program: each is that of rust/reference, which was written from the outline alone.
# 'rust/target/release/vectors write direct' prints this file, and 'rust/target/release/vectors' compares with it.
# Refusals 1 to 7 and 10 to 12 are here, alone and together: 8 is unused, and 9 is not of this call.
",
        fields: &[FILE, SETTING, ROOM],
        least: 250,
    },
    asked: || {
        let calls = settings::calls().into_iter();
        let inputs = |file: Vec<u8>, setting: Vec<u8>, room: usize| vec![file.into(), setting.into(), room.into()];
        calls.map(|(name, file, setting, room)| (name, inputs(file, setting, room))).collect()
    },
    reference: |inputs| {
        let (file, setting) = (inputs.bytes("file"), inputs.bytes("setting"));
        in_text(reference::direct(file, setting, inputs.number("room")), answer)
    },
    others: &[("the library", |inputs| {
        let (file, setting) = (inputs.bytes("file"), inputs.bytes("setting"));
        let direct = |out: &mut [u8]| jorulbani::direct_into(file, setting, out);
        Ok(in_text(lent(inputs.number("room"), direct)?, answer))
    })],
};

impl Call {
    /// Where its vectors are stored.
    pub fn path(&self) -> String {
        format!("vectors/{}.txt", self.name)
    }

    /// The text to store, made anew with the reference alone and read back, or why it cannot be used.
    pub fn made(&self) -> Result<String, String> {
        let vector = |(name, inputs)| {
            let inputs = self.format.inputs(inputs);
            let expected = (self.reference)(&inputs);
            Vector {
                name,
                inputs,
                expected,
            }
        };
        let vectors: Vec<Vector> = (self.asked)().into_iter().map(vector).collect();
        let text = self.format.text(&vectors);
        self.format.read(&text)?;
        Ok(text)
    }

    /// The stored text, and its vectors, or why it cannot be used.
    pub fn stored(&self) -> Result<(String, Vec<Vector>), String> {
        let text = fs::read_to_string(root().join(self.path())).map_err(|why| why.to_string())?;
        let vectors = self.format.read(&text)?;
        Ok((text, vectors))
    }

    /// Whether a stored text has the calls that are made, and no others.
    pub fn held(&self, text: &str) -> Result<(), String> {
        same_calls(text, &self.made()?)
    }

    /// Compares the reference with one vector.
    pub fn compare_reference(&self, vector: &Vector) -> Result<(), String> {
        let ask = || Ok((self.reference)(&vector.inputs));
        compare("the reference", ask, &vector.expected)
    }

    /// Compares all who are asked with one vector, and says what differs.
    pub fn compare(&self, vector: &Vector) -> Result<(), String> {
        let reference = self.compare_reference(vector);
        let others = self
            .others
            .iter()
            .map(|(who, ask)| compare(who, || ask(&vector.inputs), &vector.expected));
        let differences: Vec<String> = others.chain([reference]).filter_map(Result::err).collect();
        if differences.is_empty() {
            return Ok(());
        }
        let (name, differences) = (&vector.name, differences.join("\n"));
        Err(format!("'{name}' is not as stored\n{differences}"))
    }

    /// Those who are asked, in words.
    pub fn who(&self) -> String {
        let others: Vec<&str> = self.others.iter().map(|(who, _)| *who).collect();
        format!("{} and the reference", others.join(", "))
    }
}

/// Compares the text that someone gives with the one expected.
fn compare(
    who: &str,
    ask: impl FnOnce() -> Result<String, String> + UnwindSafe,
    expected: &str,
) -> Result<(), String> {
    let lost = |_| "the call did not come back: see the message above".to_string();
    let came = catch_unwind(ask).map_err(lost).and_then(|came| came);
    came.and_then(|came| same_text(&came, expected))
        .map_err(|why| format!("{who}: {why}"))
}

/// What becomes of a call of the library with so many bytes lent, where it leaves all that it should as it came. The call is made twice, over
/// opposite bytes, so that a byte which it writes is another one at least once.
fn lent(
    room: usize,
    call: impl Fn(&mut [u8]) -> Result<usize, jorulbani::Refusal>,
) -> Result<Outcome, String> {
    let once = |salt: u8| -> Result<Outcome, String> {
        let mut lent = Lent::new(room, salt);
        let length = call(lent.out()).map_err(of_library);
        let outcome = length.map(|length| lent.out()[..length].to_vec());
        lent.check(outcome.as_deref().unwrap_or(&[]))?;
        Ok(outcome)
    };
    let (outcome, again) = (once(0)?, once(!0)?);
    if outcome != again {
        return Err("a second call over other bytes has another outcome".to_string());
    }
    Ok(outcome)
}

/// The text of an outcome, where the bytes written have one.
fn in_text(outcome: Outcome, text: fn(&[u8]) -> String) -> String {
    match outcome {
        Ok(bytes) => text(&bytes),
        Err(refusal) => refused(refusal) + "\n",
    }
}

/// The text of a result.
fn result(bytes: &[u8]) -> String {
    in_hexadecimal(bytes, 2).join("\n") + "\n"
}

/// The text of a direct answer.
fn answer(bytes: &[u8]) -> String {
    let bytes = bytes.iter().map(|byte| format!(" {byte}"));
    format!("answer{}\n", bytes.collect::<String>())
}

#[cfg(test)]
mod tests {
    use super::*;

    /// A call that is refused with a number that the library has.
    fn refusal() -> jorulbani::Refusal {
        jorulbani::analyse(&[]).unwrap_err()
    }

    #[test]
    fn what_is_made_is_read_again() {
        for call in &CALLS {
            let text = call.made().unwrap();
            let vectors = call.format.read(&text).unwrap();
            assert_eq!(call.format.text(&vectors), text);
            assert_eq!(call.held(&text), Ok(()));
            assert!(vectors
                .iter()
                .all(|vector| call.compare_reference(vector).is_ok()));
        }
    }

    #[test]
    fn outcomes_have_texts() {
        let refusal = reference::Refusal {
            number: 9,
            place: 0,
        };
        assert_eq!(in_text(Err(refusal), result), "refused 9 at 0\n");
        assert_eq!(in_text(Ok(vec![1, 0, 2, 255]), result), "0100 02ff\n");
        assert_eq!(in_text(Ok(vec![7; 50]), result).lines().count(), 2);
        assert_eq!(in_text(Ok(vec![1, 0, 1]), answer), "answer 1 0 1\n");
        assert_eq!(in_text(Ok(vec![]), answer), "answer\n");
    }

    #[test]
    fn differences_are_told() {
        let told = |ask: fn() -> Result<String, String>| compare("it", ask, "one\ntwo\n");
        assert_eq!(told(|| Ok("one\ntwo\n".to_string())), Ok(()));
        let why = "it: line 2 is 'three', not 'two'".to_string();
        assert_eq!(told(|| Ok("one\nthree\n".to_string())), Err(why));
        assert_eq!(told(|| Err("why".to_string())), Err("it: why".to_string()));
        let why = "it: the call did not come back: see the message above".to_string();
        assert_eq!(told(|| panic!("this is part of a test")), Err(why));
    }

    /// A call that writes a byte too many, writes although it refuses, or goes by the bytes that it is lent.
    #[test]
    fn what_is_lent_is_watched() {
        let bytes = [1, 0, 1];
        let written = |more: usize| {
            move |out: &mut [u8]| {
                out[..3].copy_from_slice(&bytes);
                out[3..3 + more].fill(0);
                Ok(3)
            }
        };
        assert_eq!(lent(3, written(0)), Ok(Ok(bytes.to_vec())));
        assert_eq!(lent(4, written(0)), Ok(Ok(bytes.to_vec())));
        assert!(lent(4, written(1)).is_err());
        assert_eq!(lent(3, |_| Err(refusal())), Ok(Err(of_library(refusal()))));
        let refused = |out: &mut [u8]| {
            out[2] = 0;
            Err(refusal())
        };
        assert!(lent(3, refused).is_err());
        assert!(lent(3, |out| Ok(usize::from(out[0] & 1))).is_err());
    }
}
