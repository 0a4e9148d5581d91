//! The stored vectors: the proved code and the reference against stored texts.

use outside::calls::{Call, CALLS};
use std::env;
use std::process::ExitCode;

const HELP: &str = "\
vectors               compares the library, the reference and, for listings, the listing program with all stored texts
vectors reference     compares the reference alone with them, and counts for each file how many texts differ
vectors write NAME    prints a file anew, with the reference alone: listings, results or direct
vectors write         prints all of them, one behind the other
The texts are in vectors/NAME.txt.
The status is 0 where every text is as stored, 1 on a difference, and 2 where a stored file is damaged and for wrong usage.
";

/// What is said on standard error, and the exit status.
struct Failure {
    message: String,
    status: u8,
}

impl Failure {
    fn differs(message: String) -> Failure {
        Failure { message, status: 1 }
    }

    fn unusable(message: String) -> Failure {
        Failure { message, status: 2 }
    }

    /// The stored text of a kind of calls cannot be used.
    fn damaged(call: &Call) -> impl Fn(String) -> Failure + '_ {
        |why| Failure::unusable(format!("{}: {why}", call.path()))
    }
}

fn main() -> ExitCode {
    let words: Vec<String> = env::args().skip(1).collect();
    let words: Vec<&str> = words.iter().map(String::as_str).collect();
    let outcome = match words[..] {
        [] => check(),
        ["reference"] => reference(),
        ["write"] => write(|_| true),
        ["write", name] if CALLS.iter().any(|call| call.name == name) => {
            write(|call| call.name == name)
        }
        ["--help"] => Ok(HELP.to_string()),
        _ => Err(Failure::unusable(format!(
            "cannot use '{}'; see --help",
            words.join(" ")
        ))),
    };
    match outcome {
        Ok(text) => {
            print!("{text}");
            ExitCode::SUCCESS
        }
        Err(failure) => {
            eprintln!("vectors: {}", failure.message);
            ExitCode::from(failure.status)
        }
    }
}

/// The texts to store, of the chosen kinds of calls.
fn write(chosen: impl Fn(&Call) -> bool) -> Result<String, Failure> {
    let chosen = CALLS.iter().filter(|call| chosen(call));
    let texts = chosen.map(|call| call.made().map_err(Failure::damaged(call)));
    texts.collect()
}

/// Compares all that is stored. Gives what is said where nothing differs.
fn check() -> Result<String, Failure> {
    jorulbani::ready().map_err(|why| Failure::unusable(why.to_string()))?;
    CALLS.iter().map(check_call).collect()
}

/// Compares all that is stored for one kind of calls. The first difference ends it.
fn check_call(call: &Call) -> Result<String, Failure> {
    let (text, vectors) = call.stored().map_err(Failure::damaged(call))?;
    let path = call.path();
    for vector in &vectors {
        let differs = |why| Failure::differs(format!("{path}: {why}"));
        call.compare(vector).map_err(differs)?;
    }
    call.held(&text).map_err(Failure::damaged(call))?;
    let (count, who) = (vectors.len(), call.who());
    Ok(format!(
        "{path}: {count} texts, each as stored from {who}\n"
    ))
}

/// Compares the reference with all that is stored, and says for each kind of calls how many texts differ.
fn reference() -> Result<String, Failure> {
    let mut said = Vec::new();
    let mut all = 0;
    for call in &CALLS {
        let (_, vectors) = call.stored().map_err(Failure::damaged(call))?;
        let differs = |vector: &&_| call.compare_reference(vector).is_err();
        let different = vectors.iter().filter(differs).count();
        said.push(format!("{} {different} of {}", call.name, vectors.len()));
        all += different;
    }
    let said = format!("texts that differ: {}", said.join(", "));
    if all > 0 {
        return Err(Failure::differs(said));
    }
    Ok(format!("vectors: {said}\n"))
}
