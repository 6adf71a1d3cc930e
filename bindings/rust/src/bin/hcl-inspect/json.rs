//! For machines: a line of JSON for each input.
use crate::{source, Outcome};
use std::io::{self, Write};
use vealtikum::{parse, Error, Node, Reading};

pub fn show(out: &mut impl Write, name: &str, bytes: Result<&[u8], &io::Error>) -> io::Result<Outcome> {
    write!(out, "{{\"file\":")?;
    string(out, name)?;
    let outcome = match bytes {
        Ok(bytes) => match parse(source(bytes)) {
            Ok(reading) => accepted(out, &reading)?,
            Err(error) => refused(out, &error)?,
        },
        Err(why) => {
            write!(out, ",\"ok\":false,\"error\":")?;
            string(out, &why.to_string())?;
            Outcome::Unreadable
        }
    };
    writeln!(out, "}}")?;
    Ok(outcome)
}

fn accepted(out: &mut impl Write, reading: &Reading<'_>) -> io::Result<Outcome> {
    write!(out, ",\"ok\":true,\"nodes\":[")?;
    let table = reading.table();
    for (i, node) in (0..table.len()).filter_map(|i| table.node(i)).enumerate() {
        if 0 < i {
            write!(out, ",")?;
        }
        record(out, node)?;
    }
    write!(out, "]")?;
    Ok(Outcome::Accepted)
}

fn record(out: &mut impl Write, node: Node<'_>) -> io::Result<()> {
    write!(out, "{{\"kind\":")?;
    string(out, node.kind().name())?;
    let span = node.span();
    write!(out, ",\"flag\":{},\"start\":{},\"end\":{},\"count\":{}", node.flag(), span.start, span.end, node.count())?;
    if let Some(text) = node.text_str() {
        write!(out, ",\"text\":")?;
        string(out, text)?;
    }
    write!(out, "}}")
}

fn refused(out: &mut impl Write, error: &Error) -> io::Result<Outcome> {
    let (refusal, location) = (error.refusal(), error.location());
    write!(out, ",\"ok\":false,\"refusal\":\"{}\",\"number\":{},\"place\":{}", refusal.name(), refusal.number(), refusal.place())?;
    write!(out, ",\"line\":{},\"column\":{},\"message\":", location.line(), location.column())?;
    string(out, error.message())?;
    Ok(Outcome::Refused)
}

fn string(out: &mut impl Write, text: &str) -> io::Result<()> {
    write!(out, "\"")?;
    for c in text.chars() {
        match c {
            '"' | '\\' => write!(out, "\\{c}")?,
            c if u32::from(c) < 32 => write!(out, "\\u{:04x}", u32::from(c))?,
            c => write!(out, "{c}")?,
        }
    }
    write!(out, "\"")
}
