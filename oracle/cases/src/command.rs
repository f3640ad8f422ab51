//! What the commands over cases share: how they are called, how they stop, and with which status.

use crate::lines::Refused;
use std::io::{self, BufWriter, ErrorKind, StdoutLock, Write};
use std::process::ExitCode;

/// Why a command stops early.
pub enum Stop {
    /// Bad arguments or input.
    Input(String),
    /// An explorer panicked or broke its word.
    Explorer(String),
    Output(io::Error),
}

impl From<io::Error> for Stop {
    fn from(error: io::Error) -> Stop {
        Stop::Output(error)
    }
}

impl From<Refused> for Stop {
    fn from(refused: Refused) -> Stop {
        Stop::Input(refused.to_string())
    }
}

/// True where everything was as it should be.
pub type Outcome = Result<bool, Stop>;

/// Standard output, as a command writes to it.
pub type Out = BufWriter<StdoutLock<'static>>;

/// Runs the program of this name on its arguments: 0 well, 1 not as it should be, 2 unusable input, 3 a fault of an
/// explorer.
pub fn status(name: &str, run: impl FnOnce(&[String], &mut Out) -> Outcome) -> ExitCode {
    // An argument that is no text is no command or number either, and is refused as such.
    let arguments = std::env::args_os().skip(1);
    let arguments: Vec<String> = arguments.map(|a| a.to_string_lossy().into_owned()).collect();
    let mut out = BufWriter::new(io::stdout().lock());
    let outcome = run(&arguments, &mut out).and_then(|well| {
        out.flush()?;
        Ok(well)
    });
    let fail = |status: u8, what: &str| {
        eprintln!("{name}: {what}");
        ExitCode::from(status)
    };
    match outcome {
        Ok(true) => ExitCode::SUCCESS,
        Ok(false) => ExitCode::from(1),
        // Whoever read our output has had enough.
        Err(Stop::Output(error)) if error.kind() == ErrorKind::BrokenPipe => ExitCode::SUCCESS,
        Err(Stop::Output(error)) => fail(2, &format!("standard output: {error}")),
        Err(Stop::Input(what)) => fail(2, &what),
        Err(Stop::Explorer(what)) => fail(3, &what),
    }
}

/// What to say of a command that was not understood: its usage, if the program has such a command.
pub fn wrong(name: &str, usage: &str, command: &str) -> String {
    let called = format!("{name} ");
    let known = usage
        .lines()
        .filter_map(|line| line.split_once(called.as_str()))
        .map(|(_, rest)| rest.split("  ").next().unwrap_or(rest))
        .find(|rest| rest.split(' ').next() == Some(command));
    match known {
        Some(usage) => format!("usage: {name} {usage}"),
        None => format!("unknown command '{command}'; try '{name} help'"),
    }
}

pub fn number(text: &str) -> Result<u64, Stop> {
    let digits = text.bytes().all(|b| b.is_ascii_digit());
    match text.parse() {
        Ok(number) if digits => Ok(number),
        _ => Err(Stop::Input(format!("'{text}' is not a number from 0 to 2^64-1"))),
    }
}
