//! The command-line tool: lists a wiring file's analysis, writes its result, or answers for one setting.
#![forbid(unsafe_code)]

mod command;
mod files;

use command::Command;
use jorulbani::Refusal;
use std::ffi::OsStr;
use std::fmt::Write as _;
use std::io::{self, Write as _};
use std::process::ExitCode;

/// Why nothing came of a command: what is said on standard error, and the exit status.
struct Failure {
    message: String,
    status: u8,
}

impl Failure {
    fn refused(network: &OsStr, refusal: Refusal) -> Failure {
        Failure {
            message: format!("{}: {refusal}", shown(network)),
            status: 1,
        }
    }

    fn trouble(message: String) -> Failure {
        Failure { message, status: 2 }
    }
}

fn main() -> ExitCode {
    let outcome = command::parse(std::env::args_os().skip(1))
        .map_err(|wrong| Failure::trouble(format!("{wrong}\nTry 'jorulbani --help'.")))
        .and_then(run);
    match outcome {
        Ok(()) => ExitCode::SUCCESS,
        Err(failure) => {
            // Where standard error is closed the exit status still tells.
            let _ = writeln!(io::stderr(), "jorulbani: {}", failure.message);
            ExitCode::from(failure.status)
        }
    }
}

fn run(command: Command) -> Result<(), Failure> {
    match command {
        Command::Help => print(command::HELP),
        Command::Version => print(concat!("jorulbani ", env!("CARGO_PKG_VERSION"), "\n")),
        Command::List { network } => {
            let file = read(&network)?;
            // A refused file is told apart by its analysis: the listing has refusals as text.
            jorulbani::analyse(&file).map_err(|refusal| Failure::refused(&network, refusal))?;
            print(&jorulbani::list(&file))
        }
        Command::Analyse { network, result } => {
            let file = read(&network)?;
            let bytes =
                jorulbani::analyse(&file).map_err(|refusal| Failure::refused(&network, refusal))?;
            files::write_whole(&result, &bytes).map_err(|error| {
                Failure::trouble(format!("{}: cannot write: {error}", result.display()))
            })
        }
        Command::Direct { network, setting } => {
            let file = read(&network)?;
            let truths = jorulbani::direct(&file, &setting)
                .map_err(|refusal| Failure::refused(&network, refusal))?;
            print(&vertex_lines(&truths))
        }
    }
}

/// The bytes of a network, once it is known that the library can be called.
fn read(network: &OsStr) -> Result<Vec<u8>, Failure> {
    let file = files::read_network(network)
        .map_err(|error| Failure::trouble(format!("{}: cannot read: {error}", shown(network))))?;
    jorulbani::ready().map_err(|error| Failure::trouble(error.to_string()))?;
    Ok(file)
}

fn shown(network: &OsStr) -> String {
    match network.to_string_lossy() {
        name if name == "-" => "standard input".to_owned(),
        name => name.into_owned(),
    }
}

fn vertex_lines(truths: &[u8]) -> String {
    let mut lines = String::new();
    for (vertex, truth) in truths.iter().enumerate() {
        writeln!(lines, "vertex {vertex} {truth}").expect("a string takes any text");
    }
    lines
}

/// Writes to standard output at once. A reader that has closed its end wants no more, and that is no failure.
fn print(text: &str) -> Result<(), Failure> {
    let mut output = io::stdout().lock();
    match output
        .write_all(text.as_bytes())
        .and_then(|()| output.flush())
    {
        Err(error) if error.kind() != io::ErrorKind::BrokenPipe => Err(Failure::trouble(format!(
            "standard output: cannot write: {error}"
        ))),
        _ => Ok(()),
    }
}
