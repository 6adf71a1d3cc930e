//! Takes the cut-off out of an object of settings.
use std::error::Error;
use vealtikum::{parse, Kind, Node};

/// The value of a key that is a lone word.
fn value<'a>(object: Node<'a>, key: &str) -> Option<Node<'a>> {
    object.children().find_map(|item| {
        let mut both = item.children();
        let (name, value) = (both.next()?, both.next()?);
        (name.kind() == Kind::Key && name.source() == key.as_bytes()).then_some(value)
    })
}

fn cutoff(source: &[u8]) -> Result<f64, Box<dyn Error>> {
    let reading = parse(source)?;
    let found = value(reading.root(), "cutoff").ok_or("there is no cutoff")?;
    match found.kind() {
        Kind::Number => Ok(std::str::from_utf8(found.source())?.parse()?),
        other => Err(format!("cutoff is not a number, but: {other}").into()),
    }
}

fn main() {
    assert_eq!(cutoff(b"{ cutoff = 5, samples = [\"liver-1\"] }").unwrap(), 5.0);
    assert_eq!(cutoff(b"{ cutoff = \"5\" }").unwrap_err().to_string(), "cutoff is not a number, but: string");
    println!("{}", cutoff(b"{\n  cutoff = 5\n  cutoff = 6\n}").unwrap_err());
}
