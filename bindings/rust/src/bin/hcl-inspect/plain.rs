//! For people: an indented tree, or the refusal with its line.
use crate::{source, Outcome};
use std::io::{self, Write};
use vealtikum::{parse, Kind, Node};

pub fn show(out: &mut impl Write, name: &str, bytes: Result<&[u8], &io::Error>) -> io::Result<Outcome> {
    let name = name.escape_debug();
    let bytes = match bytes {
        Ok(bytes) => bytes,
        Err(why) => {
            out.flush()?;
            eprintln!("hcl-inspect: {name}: {why}");
            return Ok(Outcome::Unreadable);
        }
    };
    match parse(source(bytes)) {
        Ok(reading) => {
            writeln!(out, "{name}:")?;
            for (depth, node) in reading.table().walk() {
                line(out, depth, node)?;
            }
            Ok(Outcome::Accepted)
        }
        Err(error) => {
            writeln!(out, "{name}:\n{error}")?;
            Ok(Outcome::Refused)
        }
    }
}

fn line(out: &mut impl Write, depth: usize, node: Node<'_>) -> io::Result<()> {
    let span = node.span();
    // a run of operators may lie thousands deep, and the indent has to end somewhere
    let indent = depth.min(64) * 2;
    write!(out, "{:indent$}{} {}..{}", "", node.kind(), span.start, span.end)?;
    if let Some(mark) = mark(node) {
        write!(out, " ({mark})")?;
    }
    if let Some(text) = node.text_str() {
        write!(out, " {text:?}")?;
    } else if is_word(node.kind()) {
        write!(out, " {}", String::from_utf8_lossy(node.source()).escape_debug())?;
    }
    writeln!(out)
}

/// Whether a kind is best shown by its bytes.
fn is_word(kind: Kind) -> bool {
    matches!(kind, Kind::Number | Kind::Variable | Kind::Key | Kind::Name | Kind::Attribute | Kind::LegacyIndex)
}

/// What a node's flag says.
fn mark(node: Node<'_>) -> Option<&'static str> {
    match (node.kind(), node.flag()) {
        (_, 0) => None,
        (Kind::Number, _) => Some("with a minus"),
        (Kind::Heredoc, _) => Some("<<-"),
        (Kind::Interpolation, 1) => Some("~ on the left"),
        (Kind::Interpolation, 2) => Some("~ on the right"),
        (Kind::Interpolation, _) => Some("~ on both sides"),
        (Kind::Item, _) => Some("with a colon"),
        (Kind::Call | Kind::ObjectFor, _) => Some("with ..."),
        (Kind::String | Kind::Piece, _) => Some("with escapes"),
        _ => None,
    }
}
