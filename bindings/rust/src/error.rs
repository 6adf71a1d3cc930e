//! A refusal with the line that it is about. The form of the message, and how line and column are counted, follow hcl-edit's (see NOTICE).
use crate::Refusal;
use std::fmt;

/// Where a refusal is.
#[derive(Debug, Clone, Copy, PartialEq, Eq)]
pub struct Location {
    line: usize,
    column: usize,
    offset: usize,
}

impl Location {
    /// The line, from 1 on.
    pub fn line(&self) -> usize {
        self.line
    }

    /// The column, from 1 on: characters, or bytes where the line is not UTF-8.
    pub fn column(&self) -> usize {
        self.column
    }

    /// The byte of the source, from 0 on.
    pub fn offset(&self) -> usize {
        self.offset
    }
}

/// A refusal, with its line and column.
///
/// ```
/// let error = vealtikum::parse(b"[1, 2").unwrap_err();
/// assert_eq!((error.location().line(), error.location().column()), (1, 6));
/// assert_eq!(error.line(), "[1, 2");
/// assert_eq!(error.message(), "unexpected end of the source");
/// ```
#[derive(Debug, Clone, PartialEq, Eq)]
pub struct Error {
    refusal: Refusal,
    message: &'static str,
    line: String,
    location: Location,
}

impl Error {
    /// The error for a refusal of a source.
    pub fn new(source: &[u8], refusal: Refusal) -> Error {
        let at_end = refusal.place() == source.len() && matches!(refusal, Refusal::Unexpected { .. });
        let message = if at_end { "unexpected end of the source" } else { refusal.message() };
        let (line, location) = locate(source, refusal.place());
        Error { refusal, message, line: shown(line), location }
    }

    /// The refusal.
    pub fn refusal(&self) -> Refusal {
        self.refusal
    }

    /// What the matter is.
    pub fn message(&self) -> &str {
        self.message
    }

    /// The whole line that the refusal is in. A control character is shown as one that can be printed.
    pub fn line(&self) -> &str {
        &self.line
    }

    /// Line and column.
    pub fn location(&self) -> Location {
        self.location
    }
}

impl std::error::Error for Error {}

impl fmt::Display for Error {
    fn fmt(&self, f: &mut fmt::Formatter<'_>) -> fmt::Result {
        let (l, c) = (self.location.line, self.location.column);
        let s = " ".repeat(l.to_string().len());
        writeln!(f, "{s}--> HCL parse error in line {l}, column {c}")?;
        writeln!(f, "{s} |")?;
        writeln!(f, "{l} | {}", self.line)?;
        writeln!(f, "{s} | {:>c$}---", '^')?;
        writeln!(f, "{s} |")?;
        write!(f, "{s} = {}", self.message)
    }
}

/// The line that a place is in, without its ending, and where that is. The end of the source counts as behind its last byte.
fn locate(source: &[u8], place: usize) -> (&[u8], Location) {
    let offset = place.min(source.len());
    let last = offset.min(source.len().saturating_sub(1));
    let begin = source[..last].iter().rposition(|&b| b == b'\n').map_or(0, |i| i + 1);
    let end = source[begin..].iter().position(|&b| b == b'\n').map_or(source.len(), |i| begin + i);
    let line = source[..begin].iter().filter(|&&b| b == b'\n').count() + 1;
    let before = &source[begin..offset];
    let column = std::str::from_utf8(before).map_or(before.len(), |s| s.chars().count()) + 1;
    (&source[begin..end], Location { line, column, offset })
}

/// A line as it is printed: as many characters, none of which moves the cursor.
fn shown(line: &[u8]) -> String {
    let line = line.strip_suffix(b"\r").unwrap_or(line);
    let printed = |c: char| match c {
        '\t' => ' ',
        c if c.is_control() => char::REPLACEMENT_CHARACTER,
        c => c,
    };
    String::from_utf8_lossy(line).chars().map(printed).collect()
}
