use std::borrow::Cow;
use std::ffi::OsString;

pub const HELP: &str = "\
Shows how Vealtikum reads a file with one HCL expression, or where and why it does not.

usage: hcl-inspect [--json] FILE..
       hcl-inspect [--json] --expr < FILE

  --expr     read standard input
  --json     a line of JSON for each input
  --help     this text
  --version  the version

A file holds one expression, from its first byte to its last. One line ending behind it is not counted. Any other
space before or behind it is refused, and so is a file of more than 65,535 bytes.

For a file that is read the tree is shown: kinds, first and last places in bytes, and text. For one that is refused:
line, column, the line itself and the place in it.

With --json a file that is read has \"nodes\": the records, children before their parent. \"count\" is the number of
nodes in the subtree.

Exit status: 0 all were read; 1 some were refused; 2 some could not be opened, or the command is wrong.
";

pub enum Input {
    Standard,
    File(OsString),
}

impl Input {
    pub fn name(&self) -> Cow<'_, str> {
        match self {
            Input::Standard => Cow::Borrowed("standard input"),
            Input::File(path) => path.to_string_lossy(),
        }
    }
}

pub enum Command {
    Inspect { json: bool, inputs: Vec<Input> },
    Say(String),
}

pub fn parse(words: impl Iterator<Item = OsString>) -> Result<Command, String> {
    let (mut json, mut inputs, mut files) = (false, Vec::new(), false);
    for word in words {
        match word.to_str() {
            Some("--") if !files => files = true,
            Some("--json") if !files => json = true,
            Some("--expr") if !files => inputs.push(Input::Standard),
            Some("--help" | "-h") if !files => return Ok(Command::Say(HELP.to_string())),
            Some("--version") if !files => return Ok(Command::Say(format!("hcl-inspect {}\n", env!("CARGO_PKG_VERSION")))),
            Some(other) if !files && other.starts_with('-') => return Err(format!("there is no option {other}")),
            _ => inputs.push(Input::File(word)),
        }
    }
    if inputs.is_empty() {
        return Err("name a file, or use --expr for standard input".to_string());
    }
    Ok(Command::Inspect { json, inputs })
}
