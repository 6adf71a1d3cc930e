//! Shows how Vealtikum reads a file, or where it does not.
mod args;
mod json;
mod plain;

use args::{Command, Input};
use std::fs::File;
use std::io::{self, BufWriter, Read, Write};
use std::process::ExitCode;
use vealtikum::LONGEST;

/// What became of an input, as the exit status has it; the worst counts.
#[derive(Clone, Copy, PartialEq, Eq, PartialOrd, Ord)]
pub enum Outcome {
    Accepted = 0,
    Refused = 1,
    Unreadable = 2,
}

fn main() -> ExitCode {
    let mut out = BufWriter::new(io::stdout().lock());
    let status = match args::parse(std::env::args_os().skip(1)) {
        Ok(Command::Inspect { json, inputs }) => inspect(&mut out, json, &inputs).map(|outcome| outcome as u8),
        Ok(Command::Say(what)) => out.write_all(what.as_bytes()).map(|()| 0),
        Err(why) => {
            eprintln!("hcl-inspect: {why}\nTry 'hcl-inspect --help'.");
            Ok(2)
        }
    };
    match status.and_then(|status| out.flush().map(|()| status)) {
        Ok(status) => ExitCode::from(status),
        // whoever reads the output has seen enough
        Err(why) if why.kind() == io::ErrorKind::BrokenPipe => ExitCode::SUCCESS,
        Err(why) => {
            eprintln!("hcl-inspect: can't write: {why}");
            ExitCode::from(2)
        }
    }
}

fn inspect(out: &mut impl Write, json: bool, inputs: &[Input]) -> io::Result<Outcome> {
    let mut worst = Outcome::Accepted;
    for (i, input) in inputs.iter().enumerate() {
        let bytes = load(input);
        let outcome = if json {
            json::show(out, &input.name(), bytes.as_deref())?
        } else {
            if 0 < i {
                writeln!(out)?;
            }
            plain::show(out, &input.name(), bytes.as_deref())?
        };
        worst = worst.max(outcome);
    }
    Ok(worst)
}

/// The bytes of an input, no more of them than it takes to see that it is too long.
fn load(input: &Input) -> io::Result<Vec<u8>> {
    let most = LONGEST as u64 + 3;
    let mut bytes = Vec::new();
    match input {
        Input::Standard => io::stdin().lock().take(most).read_to_end(&mut bytes)?,
        Input::File(path) => File::open(path)?.take(most).read_to_end(&mut bytes)?,
    };
    Ok(bytes)
}

/// The source in a file's bytes: editors put a line ending behind the last line, and one is not part of the source.
fn source(bytes: &[u8]) -> &[u8] {
    match bytes.strip_suffix(b"\n") {
        Some(rest) => rest.strip_suffix(b"\r").unwrap_or(rest),
        None => bytes,
    }
}
