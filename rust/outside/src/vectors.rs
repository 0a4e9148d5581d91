//! The text form of stored vectors: calls, each with a name, its inputs, and the text that is expected of it. One form serves all kinds of
//! calls; [`crate::calls`] has the kinds.

use std::collections::{HashMap, HashSet};

/// So many bytes stand in a line.
const WIDTH: usize = 48;

/// How an input is written.
#[derive(Clone, Copy, Debug)]
pub enum Form {
    /// Bytes in hexadecimal, so many together, in as many lines as it takes.
    Bytes { together: usize },
    /// A number in decimal.
    Number,
}

/// An input that each call of a kind has: the word before it, and how it is written.
#[derive(Clone, Copy, Debug)]
pub struct Field {
    pub word: &'static str,
    pub form: Form,
}

/// What is given to a call.
#[derive(Clone, Debug, PartialEq, Eq, Hash)]
pub enum Input {
    Bytes(Vec<u8>),
    Number(usize),
}

impl From<Vec<u8>> for Input {
    fn from(bytes: Vec<u8>) -> Input {
        Input::Bytes(bytes)
    }
}

impl From<usize> for Input {
    fn from(number: usize) -> Input {
        Input::Number(number)
    }
}

/// The inputs of a call, each with its word, in the order of the fields.
#[derive(Clone, Debug, PartialEq, Eq, Hash)]
pub struct Inputs(Vec<(&'static str, Input)>);

/// A call with the text that is expected of it, and what it shows.
#[derive(Clone, Debug, PartialEq, Eq)]
pub struct Vector {
    pub name: String,
    pub inputs: Inputs,
    /// Each line of it has its end.
    pub expected: String,
}

/// What the text of a kind of calls is held to.
#[derive(Clone, Copy, Debug)]
pub struct Format {
    /// It begins with this.
    pub comment: &'static str,
    pub fields: &'static [Field],
    /// It has so many vectors or more.
    pub least: usize,
}

/// A line of a text, with its number.
type Line<'a> = (usize, &'a str);

impl Inputs {
    fn input(&self, word: &str) -> &Input {
        let found = self.0.iter().find(|(other, _)| *other == word);
        let (_, input) = found.unwrap_or_else(|| panic!("this call has no '{word}'"));
        input
    }

    /// The bytes behind a word.
    ///
    /// # Panics
    ///
    /// Where this kind of call has none.
    pub fn bytes(&self, word: &str) -> &[u8] {
        match self.input(word) {
            Input::Bytes(bytes) => bytes,
            Input::Number(_) => panic!("'{word}' is a number"),
        }
    }

    /// The number behind a word.
    ///
    /// # Panics
    ///
    /// Where this kind of call has none.
    pub fn number(&self, word: &str) -> usize {
        match self.input(word) {
            Input::Number(number) => *number,
            Input::Bytes(_) => panic!("'{word}' is bytes"),
        }
    }
}

impl Format {
    /// Inputs that come in the order of the fields.
    pub fn inputs(&self, inputs: Vec<Input>) -> Inputs {
        assert_eq!(inputs.len(), self.fields.len(), "an input for each field");
        let words = self.fields.iter().map(|field| field.word);
        Inputs(words.zip(inputs).collect())
    }

    /// The text in which vectors are stored.
    pub fn text(&self, vectors: &[Vector]) -> String {
        let mut text = self.comment.to_string();
        for vector in vectors {
            text += &format!("\nvector {}\n", vector.name);
            for field in self.fields {
                text += &field.lines(vector.inputs.input(field.word));
            }
            for line in vector.expected.lines() {
                text += &format!("| {line}\n");
            }
        }
        text
    }

    /// The vectors of a text, or why it cannot be used: it is damaged, has too few, or has a name or a call twice.
    pub fn read(&self, text: &str) -> Result<Vec<Vector>, String> {
        let vectors = self.parsed(text)?;
        if vectors.len() < self.least {
            let (is, least) = (vectors.len(), self.least);
            return Err(format!("{is} vectors, not {least} or more"));
        }
        let mut names = HashSet::new();
        let mut calls = HashMap::new();
        for Vector { name, inputs, .. } in &vectors {
            if !names.insert(name) {
                return Err(format!("two vectors are called '{name}'"));
            }
            if let Some(other) = calls.insert(inputs, name) {
                return Err(format!("'{other}' and '{name}' are the same call"));
            }
        }
        Ok(vectors)
    }

    /// The vectors of a text, in its order.
    fn parsed(&self, text: &str) -> Result<Vec<Vector>, String> {
        let text = text.strip_suffix('\n').ok_or("the last line has no end")?;
        let mut vectors = Vec::new();
        let mut first = 1;
        for block in text.split("\n\n") {
            let lines: Vec<Line> = (first..).zip(block.split('\n')).collect();
            match first {
                1 => comment(&lines)?,
                _ => vectors.push(self.vector(&lines)?),
            }
            first += lines.len() + 1;
        }
        Ok(vectors)
    }

    /// The vector of the lines between two blank ones.
    fn vector(&self, lines: &[Line]) -> Result<Vector, String> {
        let (first, line) = lines[0];
        let name = line.strip_prefix("vector ").filter(|name| !name.is_empty());
        let name = name.ok_or_else(|| wrong(first, "no 'vector' with a name"))?;
        let (mut inputs, mut next) = (Vec::new(), 1);
        for field in self.fields {
            let begins = |(_, line): &&Line| line.split(' ').next() == Some(field.word);
            let end = next + lines[next..].iter().take_while(begins).count();
            if end == next {
                return Err(wrong(first + next, &format!("no '{}'", field.word)));
            }
            inputs.push(field.input(&lines[next..end])?);
            next = end;
        }
        let expected = expected(&lines[next..])?;
        if expected.is_empty() {
            return Err(wrong(first + next, "nothing is expected"));
        }
        Ok(Vector {
            name: name.to_string(),
            inputs: self.inputs(inputs),
            expected,
        })
    }
}

impl Field {
    /// The lines of an input.
    fn lines(&self, input: &Input) -> String {
        let values = match (self.form, input) {
            (Form::Bytes { together }, Input::Bytes(bytes)) => in_hexadecimal(bytes, together),
            (Form::Number, Input::Number(number)) => vec![number.to_string()],
            _ => panic!("'{}' is not of its form: {input:?}", self.word),
        };
        if values.is_empty() {
            return format!("{}\n", self.word);
        }
        let line = |value| format!("{} {value}\n", self.word);
        values.into_iter().map(line).collect()
    }

    /// The input that its lines say. There is one line or more.
    fn input(&self, lines: &[Line]) -> Result<Input, String> {
        match self.form {
            Form::Bytes { .. } => {
                let bytes = lines.iter().map(|&(number, line)| {
                    bytes(line).ok_or_else(|| wrong(number, "no bytes in hexadecimal"))
                });
                let lines: Vec<Vec<u8>> = bytes.collect::<Result<_, _>>()?;
                Ok(Input::Bytes(lines.concat()))
            }
            Form::Number => match *lines {
                [(place, line)] => number(line)
                    .map(Input::Number)
                    .ok_or_else(|| wrong(place, "no number in decimal")),
                _ => Err(wrong(lines[1].0, &format!("a second '{}'", self.word))),
            },
        }
    }
}

/// Whether a text is the one that is made, but for what is expected: comment, names and inputs. Gives the first line that is not.
pub fn same_calls(text: &str, made: &str) -> Result<(), String> {
    let is_expected = |line: &str| line.starts_with("| ");
    let mut made = made.split('\n').filter(|line| !is_expected(line));
    for (number, is) in (1..)
        .zip(text.split('\n'))
        .filter(|(_, line)| !is_expected(line))
    {
        let should = made.next().unwrap_or("the end");
        if is != should {
            return Err(format!("line {number} is '{is}', and should be '{should}'"));
        }
    }
    match made.next() {
        Some(missing) => Err(format!("it ends before '{missing}'")),
        None => Ok(()),
    }
}

/// Bytes in hexadecimal, so many together, in as many lines as it takes.
pub fn in_hexadecimal(bytes: &[u8], together: usize) -> Vec<String> {
    let digits = |byte: &u8| format!("{byte:02x}");
    let word = |bytes: &[u8]| bytes.iter().map(digits).collect::<String>();
    let line = |bytes: &[u8]| bytes.chunks(together).map(word).collect::<Vec<_>>();
    let lines = bytes.chunks(WIDTH).map(line);
    lines.map(|words| words.join(" ")).collect()
}

fn wrong(number: usize, why: &str) -> String {
    format!("line {number}: {why}")
}

fn comment(lines: &[Line]) -> Result<(), String> {
    match lines.iter().find(|(_, line)| !line.starts_with('#')) {
        Some(&(number, _)) => Err(wrong(number, "no comment")),
        None => Ok(()),
    }
}

/// The text of the lines that tell what is expected.
fn expected(lines: &[Line]) -> Result<String, String> {
    let mut text = String::new();
    for &(number, line) in lines {
        let line = line.strip_prefix("| ");
        text += line.ok_or_else(|| wrong(number, "no line of an input or of what is expected"))?;
        text += "\n";
    }
    Ok(text)
}

/// The bytes of a line, behind its word.
fn bytes(line: &str) -> Option<Vec<u8>> {
    let digit = |digit: u8| char::from(digit).to_digit(16);
    let mut bytes = Vec::new();
    for word in line.split(' ').skip(1) {
        if word.is_empty() {
            return None;
        }
        for pair in word.as_bytes().chunks(2) {
            let &[high, low] = pair else { return None };
            bytes.push((16 * digit(high)? + digit(low)?) as u8);
        }
    }
    Some(bytes)
}

/// The number of a line, behind its word.
fn number(line: &str) -> Option<usize> {
    let (_, digits) = line.split_once(' ')?;
    let number: usize = digits.parse().ok()?;
    (number.to_string() == digits).then_some(number)
}

#[cfg(test)]
mod tests {
    use super::*;

    const fn field(word: &'static str, form: Form) -> Field {
        Field { word, form }
    }

    const FORMAT: Format = Format {
        comment: "# Three calls.\n",
        fields: &[
            field("file", Form::Bytes { together: 2 }),
            field("setting", Form::Bytes { together: 1 }),
            field("room", Form::Number),
        ],
        least: 3,
    };

    const THREE: &str = "\
# Three calls.

vector empty
file
setting
room 0
| refused 1 at 0

vector no vertices
file 0000 0000 0000 00
setting 01 ff
room 70
| one line
| another

vector no setting
file 0000 0000 0000 0000
setting
room 0
| answer
";

    fn three() -> Vec<Vector> {
        let vector =
            |name: &str, file: usize, setting: &[u8], room: usize, expected: &str| Vector {
                name: name.to_string(),
                inputs: FORMAT.inputs(vec![
                    vec![0; file].into(),
                    setting.to_vec().into(),
                    room.into(),
                ]),
                expected: expected.to_string(),
            };
        vec![
            vector("empty", 0, &[], 0, "refused 1 at 0\n"),
            vector("no vertices", 7, &[1, 255], 70, "one line\nanother\n"),
            vector("no setting", 8, &[], 0, "answer\n"),
        ]
    }

    #[test]
    fn a_text_is_written_and_read() {
        assert_eq!(FORMAT.text(&three()), THREE);
        assert_eq!(FORMAT.read(THREE), Ok(three()));
        let inputs = &three()[1].inputs;
        assert_eq!(inputs.bytes("setting"), [1, 255]);
        assert_eq!(inputs.number("room"), 70);
    }

    #[test]
    fn long_inputs_take_several_lines() {
        let mut vectors = three();
        let long = Input::Bytes((0..100).collect());
        vectors[1].inputs.0[0].1 = long.clone();
        vectors[1].inputs.0[1].1 = long;
        let text = FORMAT.text(&vectors);
        assert!(text.contains("5c5d 5e5f\nfile 6061 6263\nsetting 00 01 02"));
        assert_eq!(FORMAT.read(&text), Ok(vectors));
    }

    /// A text in which something else stands for what stands there is refused for this.
    fn is_refused(old: &str, new: &str, why: &str) {
        let damaged = THREE.replacen(old, new, 1);
        assert_ne!(damaged, THREE);
        assert_eq!(FORMAT.read(&damaged), Err(why.to_string()), "{new:?}");
    }

    #[test]
    fn a_text_with_other_lines_is_refused() {
        for (old, new, why) in [
            ("# Three", "Three", "line 1: no comment"),
            ("calls.\n\n", "calls.\n", "line 2: no comment"),
            ("file\n", "", "line 4: no 'file'"),
            ("file\n", "files\n", "line 4: no 'file'"),
            ("file\n", "room 0\nfile\n", "line 4: no 'file'"),
            ("setting\n", "", "line 5: no 'setting'"),
            ("room 0\n", "", "line 6: no 'room'"),
            ("room 0\n", "room 0\nroom 0\n", "line 7: a second 'room'"),
            ("| refused 1 at 0\n", "", "line 7: nothing is expected"),
            ("answer\n", "answer", "the last line has no end"),
        ] {
            is_refused(old, new, why);
        }
        for (old, new, number) in [
            ("\n\nvector no", "\n\n\nvector no", 9),
            ("vector no vertices\n", "", 9),
            ("vector no vertices\n", "vector \n", 9),
            ("vector no", "Vector no", 9),
        ] {
            let why = format!("line {number}: no 'vector' with a name");
            is_refused(old, new, &why);
        }
        assert!(FORMAT.read("").is_err());
        assert!(FORMAT.read("\n").is_err());
    }

    #[test]
    fn a_text_with_other_words_is_refused() {
        for (old, new, number) in [
            ("file\n", "file \n", 4),
            ("0000 00\n", "0000 0\n", 10),
            ("0000 00\n", "0000 0g\n", 10),
            ("0000 00\n", "0000 +0\n", 10),
            ("0000 00\n", "0000  00\n", 10),
            ("0000 00\n", "0000 00\r\n", 10),
            ("01 ff", "1 ff", 11),
        ] {
            let why = format!("line {number}: no bytes in hexadecimal");
            is_refused(old, new, &why);
        }
        for new in [
            "room", "room ", "room 070", "room +70", "room 7 0", "room 7f",
        ] {
            is_refused("room 70", new, "line 12: no number in decimal");
        }
        for (old, new, number) in [
            ("\n\nvector no", "\nvector no", 8),
            ("| refused", "refused", 7),
            ("| refused", "|refused", 7),
            ("| another", "room 70", 14),
            ("answer\n", "answer\n\n", 21),
        ] {
            let why = format!("line {number}: no line of an input or of what is expected");
            is_refused(old, new, &why);
        }
    }

    #[test]
    fn too_few_vectors_and_equal_ones_are_refused() {
        let refused = |vectors: &[Vector]| FORMAT.read(&FORMAT.text(vectors)).unwrap_err();
        assert_eq!(refused(&three()[..2]), "2 vectors, not 3 or more");
        let mut changed = three();
        changed[2].name = changed[0].name.clone();
        assert_eq!(refused(&changed), "two vectors are called 'empty'");
        let mut changed = three();
        changed[2].inputs = changed[0].inputs.clone();
        let why = "'empty' and 'no setting' are the same call";
        assert_eq!(refused(&changed), why);
        changed[2].inputs.0[2].1 = Input::Number(1);
        assert!(FORMAT.read(&FORMAT.text(&changed)).is_ok());
    }

    #[test]
    fn a_text_is_held_to_names_and_inputs() {
        let held = |old, new| same_calls(&THREE.replacen(old, new, 1), THREE);
        assert_eq!(held("refused 1", "refused 2"), Ok(()));
        assert_eq!(held("| another\n", ""), Ok(()));
        for (old, new, why) in [
            (
                "no vertices",
                "none",
                "line 9 is 'vector none', and should be 'vector no vertices'",
            ),
            (
                "room 70",
                "room 71",
                "line 12 is 'room 71', and should be 'room 70'",
            ),
            (
                "setting 01 ff\n",
                "",
                "line 11 is 'room 70', and should be 'setting 01 ff'",
            ),
        ] {
            assert_eq!(held(old, new), Err(why.to_string()));
        }
        let last = THREE.find("\nvector no setting").unwrap();
        let why = "it ends before 'vector no setting'".to_string();
        assert_eq!(same_calls(&THREE[..last], THREE), Err(why));
    }
}
