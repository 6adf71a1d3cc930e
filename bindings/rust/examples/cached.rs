//! Keeps a reading as bytes, and takes it back only where it is the reading of the source.
use vealtikum::{parse, Error, Table};

/// How many numbers there are, the numbers, the text; the lowest byte first.
fn pack(nodes: &[u16], text: &[u8]) -> Vec<u8> {
    let mut out = (nodes.len() as u32).to_le_bytes().to_vec();
    out.extend(nodes.iter().flat_map(|n| n.to_le_bytes()));
    out.extend(text);
    out
}

fn unpack(kept: &[u8]) -> Option<(Vec<u16>, &[u8])> {
    let count = u32::from_le_bytes(kept.get(..4)?.try_into().ok()?) as usize;
    let end = 4 + 2 * count;
    let numbers = kept.get(4..end)?.chunks_exact(2);
    Some((numbers.map(|n| u16::from_le_bytes([n[0], n[1]])).collect(), &kept[end..]))
}

/// How many nodes a kept reading has; none where it is not the reading of this source.
fn trusted(source: &[u8], kept: &[u8]) -> Option<usize> {
    let (nodes, text) = unpack(kept)?;
    Table::from_parts(source, &nodes, text).map(|table| table.len())
}

fn main() -> Result<(), Error> {
    let source = b"{ cutoff = 5, name = \"a\\tb\" }";
    let (nodes, text) = parse(source)?.into_parts();
    let kept = pack(&nodes, &text);
    assert_eq!(trusted(source, &kept), Some(7));
    // the file has changed since
    assert_eq!(trusted(b"{ cutoff = 5, name: \"a\\tb\" }", &kept), None);
    // or what was kept has: any byte of it
    for i in 0..kept.len() {
        let mut other = kept.clone();
        other[i] ^= 1;
        assert_eq!(trusted(source, &other), None);
    }
    println!("{} bytes are kept of {} nodes, and none can change", kept.len(), nodes.len() / vealtikum::WIDTH);
    Ok(())
}
