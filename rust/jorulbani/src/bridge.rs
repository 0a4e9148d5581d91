//! The client of the bridge program, `bridge/bridge.c`, which makes calls of the proved library on behalf of this process. Its head
//! says what requests and replies are.
//!
//! Each thread has a bridge process of its own, started by the thread's first call and ended with the thread. It is
//! `target/bridge/bridge`, run by `tools/launch`, or the program that the environment variable `JORULBANI_BRIDGE` names, run as it is.

use std::cell::Cell;
use std::env;
use std::io::{self, Read, Write};
use std::path::Path;
use std::process::{Child, Command, Stdio};

/// The function that is called, with what it takes beside the file and the room.
#[derive(Debug, Clone, Copy)]
pub enum Call<'a> {
    Analyse,
    Direct { setting: &'a [u8] },
    List,
}

impl<'a> Call<'a> {
    fn op(self) -> u64 {
        match self {
            Call::Analyse => 1,
            Call::Direct { .. } => 2,
            Call::List => 3,
        }
    }

    fn setting(self) -> &'a [u8] {
        match self {
            Call::Direct { setting } => setting,
            Call::Analyse | Call::List => &[],
        }
    }
}

/// What calls gave and took.
#[derive(Debug, Clone, Copy)]
pub struct Measured {
    /// The last call's answer.
    pub answer: u64,
    /// The time of all calls together.
    pub nanoseconds: u64,
    /// The bytes of stack that the library used, 0 unless asked.
    pub stack: u64,
}

thread_local! {
    static BRIDGE: Cell<Option<Bridge>> = const { Cell::new(None) };
}

/// Starts this thread's bridge, if it does not run yet.
///
/// # Errors
///
/// Where there is no bridge program or it cannot run. The message says what to do.
pub fn ready() -> io::Result<()> {
    BRIDGE.set(Some(Bridge::of_thread()?));
    Ok(())
}

/// One call.
///
/// # Panics
///
/// As [`measured`].
pub fn call(call: Call, file: &[u8], out: &mut [u8]) -> u64 {
    measured(call, file, out, 1, false).answer
}

/// The same call made `times` times, at least once. `out` is lent to each as the one before left it. With `stack` the calls are made on
/// a thread of the bridge whose stack is measured.
///
/// # Panics
///
/// Where the bridge cannot be started or ends: it does on a request above its limits, and where the library wrote where it must not.
pub fn measured(call: Call, file: &[u8], out: &mut [u8], times: u64, stack: bool) -> Measured {
    let measured = Bridge::of_thread().and_then(|mut bridge| {
        let measured = bridge.ask(call, file, out, times, stack)?;
        BRIDGE.set(Some(bridge));
        Ok(measured)
    });
    measured.unwrap_or_else(|error| panic!("{error}"))
}

struct Bridge {
    process: Child,
}

impl Bridge {
    fn of_thread() -> io::Result<Bridge> {
        match BRIDGE.take() {
            Some(bridge) => Ok(bridge),
            None => Bridge::start(),
        }
    }

    /// Starts a bridge, and has it make a call, so that one that cannot run is found here.
    fn start() -> io::Result<Bridge> {
        let mut command = command()?;
        let process = command
            .stdin(Stdio::piped())
            .stdout(Stdio::piped())
            .spawn()
            .map_err(|error| {
                io::Error::new(
                    error.kind(),
                    format!("cannot start the bridge {command:?}: {error}"),
                )
            })?;
        let mut bridge = Bridge { process };
        bridge.ask(Call::Analyse, &[], &mut [], 1, false)?;
        Ok(bridge)
    }

    fn ask(
        &mut self,
        call: Call,
        file: &[u8],
        out: &mut [u8],
        times: u64,
        stack: bool,
    ) -> io::Result<Measured> {
        let request = request(call, file, out, times, stack);
        self.exchange(&request, out)
            .map_err(|error| match self.process.wait() {
                Ok(status) => io::Error::new(
                    error.kind(),
                    format!("the bridge ended with {status}: {error}"),
                ),
                Err(_) => error,
            })
    }

    fn exchange(&mut self, request: &[u8], out: &mut [u8]) -> io::Result<Measured> {
        let (Some(requests), Some(replies)) = (&mut self.process.stdin, &mut self.process.stdout)
        else {
            unreachable!("both were piped, and neither was taken")
        };
        requests.write_all(request)?;
        let mut head = [0; 24];
        replies.read_exact(&mut head)?;
        replies.read_exact(out)?;
        let [answer, nanoseconds, stack] = [0, 8, 16].map(|at| number_at(&head, at));
        Ok(Measured {
            answer,
            nanoseconds,
            stack,
        })
    }
}

impl Drop for Bridge {
    fn drop(&mut self) {
        // This ends its input, and so the bridge. What it ended with no longer matters.
        let _ = self.process.wait();
    }
}

fn command() -> io::Result<Command> {
    if let Some(program) = env::var_os("JORULBANI_BRIDGE") {
        return Ok(Command::new(program));
    }
    let root = Path::new(concat!(env!("CARGO_MANIFEST_DIR"), "/../.."));
    let program = root.join("target/bridge/bridge");
    if !program.is_file() {
        let message = format!(
            "no {}: build it with `tools/build-bridge`",
            program.display()
        );
        return Err(io::Error::new(io::ErrorKind::NotFound, message));
    }
    let mut command = Command::new(root.join("tools/launch"));
    command.arg(program);
    Ok(command)
}

fn request(call: Call, file: &[u8], out: &[u8], times: u64, stack: bool) -> Vec<u8> {
    let setting = call.setting();
    let lengths = [file, setting, out].map(|bytes| bytes.len() as u64);
    let mut request = Vec::with_capacity(48 + file.len() + setting.len() + out.len());
    for number in [call.op(), times, u64::from(stack)]
        .into_iter()
        .chain(lengths)
    {
        request.extend(number.to_le_bytes());
    }
    for bytes in [file, setting, out] {
        request.extend(bytes);
    }
    request
}

fn number_at(bytes: &[u8], at: usize) -> u64 {
    bytes[at..at + 8]
        .iter()
        .rev()
        .fold(0, |number, &byte| number << 8 | u64::from(byte))
}
