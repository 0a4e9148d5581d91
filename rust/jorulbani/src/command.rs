//! What the command line says.

use std::ffi::{OsStr, OsString};
use std::path::PathBuf;

pub const HELP: &str = "\
Jorulbani, a proved analyser of relay wiring.

  jorulbani list NETWORK                  list the analysis of a wiring file
  jorulbani analyse NETWORK -o RESULT     write its result form to the file RESULT, whole or not at all
  jorulbani direct NETWORK --setting 01.. say which vertices are live under one setting of the variables:
                                          a line 'vertex V 1' or 'vertex V 0' for each vertex V
  jorulbani --help                        print this (also -h, help)
  jorulbani --version                     print the version

NETWORK is a file's name, or - for standard input. --setting has a digit for each variable, in the
file's order: 0 passes the byte 0, 1 the byte 1, and any other character the byte 2, which is refused.
Where the network has no variables it is empty: --setting ''.

Exit status: 0 accepted; 1 refused, with one line on standard error that says why and where; 2 wrong
usage, or something could not be read or written.
";

#[derive(Debug, PartialEq, Eq)]
pub enum Command {
    Help,
    Version,
    List { network: OsString },
    Analyse { network: OsString, result: PathBuf },
    Direct { network: OsString, setting: Vec<u8> },
}

/// The command that the words after the program's name give, or what is wrong with them.
pub fn parse(words: impl IntoIterator<Item = OsString>) -> Result<Command, String> {
    let mut words = words.into_iter();
    let first = words.next().ok_or("no command is given")?;
    let rest: Vec<OsString> = words.collect();
    match first.to_str() {
        Some("help" | "--help" | "-h") => alone(&rest, Command::Help),
        Some("--version") => alone(&rest, Command::Version),
        Some("list" | "analyse" | "direct")
            if rest.iter().any(|word| word == "--help" || word == "-h") =>
        {
            Ok(Command::Help)
        }
        Some("list") => given(rest, None).map(|(network, _)| Command::List { network }),
        Some("analyse") => {
            given(rest, Some("-o")).and_then(|(network, value)| analyse(network, value))
        }
        Some("direct") => {
            given(rest, Some("--setting")).map(|(network, value)| direct(network, &value))
        }
        _ => Err(format!("unknown command {first:?}")),
    }
}

fn alone(rest: &[OsString], command: Command) -> Result<Command, String> {
    match rest.first() {
        None => Ok(command),
        Some(word) => Err(format!("unexpected word {word:?}")),
    }
}

/// NETWORK, and the value of the one option that the command wants beside it, if it wants one.
fn given(words: Vec<OsString>, option: Option<&str>) -> Result<(OsString, OsString), String> {
    let (mut network, mut value) = (None, None);
    let mut words = words.into_iter();
    while let Some(word) = words.next() {
        if option.is_some_and(|option| word == option) {
            let given = words
                .next()
                .ok_or_else(|| format!("{word:?} wants a value"))?;
            if value.replace(given).is_some() {
                return Err(format!("{word:?} is given twice"));
            }
        } else if word != "-" && word.as_encoded_bytes().starts_with(b"-") {
            return Err(format!("unknown option {word:?}"));
        } else if network.is_some() {
            return Err(format!("unexpected word {word:?}"));
        } else {
            network = Some(word);
        }
    }
    let network = network.ok_or("NETWORK is missing")?;
    match (option, value) {
        (Some(option), None) => Err(format!("{option:?} is missing")),
        (_, value) => Ok((network, value.unwrap_or_default())),
    }
}

fn analyse(network: OsString, result: OsString) -> Result<Command, String> {
    if result == "-" {
        return Err("RESULT is a file's name, and standard output is none".to_owned());
    }
    Ok(Command::Analyse {
        network,
        result: result.into(),
    })
}

/// A character other than 0 and 1 becomes a byte that the library refuses, at the character's index.
fn direct(network: OsString, digits: &OsStr) -> Command {
    let byte = |digit| match digit {
        '0' => 0,
        '1' => 1,
        _ => 2,
    };
    let setting = digits.to_string_lossy().chars().map(byte).collect();
    Command::Direct { network, setting }
}

#[cfg(test)]
mod tests {
    use super::*;

    fn parsed(line: &[&str]) -> Result<Command, String> {
        parse(line.iter().map(OsString::from))
    }

    #[test]
    fn commands() {
        let network = || OsString::from("net");
        assert_eq!(
            parsed(&["list", "net"]),
            Ok(Command::List { network: network() })
        );
        let analyse = Ok(Command::Analyse {
            network: network(),
            result: "out".into(),
        });
        assert_eq!(parsed(&["analyse", "net", "-o", "out"]), analyse);
        assert_eq!(parsed(&["analyse", "-o", "out", "net"]), analyse);
        let direct = |setting| {
            Ok(Command::Direct {
                network: network(),
                setting,
            })
        };
        assert_eq!(
            parsed(&["direct", "net", "--setting", "0110"]),
            direct(vec![0, 1, 1, 0])
        );
        assert_eq!(parsed(&["direct", "--setting", "", "net"]), direct(vec![]));
        assert_eq!(
            parsed(&["direct", "net", "--setting", "2é-1"]),
            direct(vec![2, 2, 2, 1])
        );
    }

    #[test]
    fn standard_input_is_a_network() {
        assert_eq!(
            parsed(&["list", "-"]),
            Ok(Command::List {
                network: "-".into()
            })
        );
    }

    #[test]
    fn help_and_version() {
        for line in [
            &["help"][..],
            &["--help"],
            &["-h"],
            &["list", "-h"],
            &["direct", "net", "--help"],
        ] {
            assert_eq!(parsed(line), Ok(Command::Help));
        }
        assert_eq!(parsed(&["--version"]), Ok(Command::Version));
    }

    #[test]
    fn wrong_usage_is_named() {
        let wrong: [(&[&str], &str); 15] = [
            (&[], "no command is given"),
            (&["lsit", "net"], "unknown command \"lsit\""),
            (&[""], "unknown command \"\""),
            (&["help", "list"], "unexpected word \"list\""),
            (&["--version", "x"], "unexpected word \"x\""),
            (&["list"], "NETWORK is missing"),
            (&["list", "one", "two"], "unexpected word \"two\""),
            (&["list", "net", "-o", "out"], "unknown option \"-o\""),
            (&["analyse", "net"], "\"-o\" is missing"),
            (&["analyse", "net", "-o"], "\"-o\" wants a value"),
            (&["analyse", "-o", "out"], "NETWORK is missing"),
            (
                &["analyse", "net", "-o", "out", "-o", "out"],
                "\"-o\" is given twice",
            ),
            (
                &["analyse", "net", "-o", "-"],
                "RESULT is a file's name, and standard output is none",
            ),
            (&["direct", "net"], "\"--setting\" is missing"),
            (
                &["direct", "net", "--setting=01"],
                "unknown option \"--setting=01\"",
            ),
        ];
        for (line, message) in wrong {
            assert_eq!(parsed(line), Err(message.to_owned()), "{line:?}");
        }
    }
}
