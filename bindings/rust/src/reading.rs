use crate::{ffi, Error, Node, Refusal, Table, LONGEST, WIDTH};

/// What reading a source into lent room gives.
#[derive(Debug, Clone, Copy, PartialEq, Eq)]
pub enum Answer<'a> {
    /// The source is good: its table, in the lent room.
    Accepted(Table<'a>),
    /// It is not, or there is too little room. Nothing that was lent has changed.
    Refused(Refusal),
}

/// Reads a source into lent room, and allocates nothing. `nodes` takes [`WIDTH`] numbers for each node.
///
/// ```
/// use vealtikum::{read, Answer, Refusal};
/// let (mut nodes, mut text) = ([0; 14], [0; 4]);
/// match read(b"-x", &mut nodes, &mut text) {
///     Answer::Accepted(table) => assert_eq!(table.numbers(), [5, 0, 1, 2, 1, 0, 0, 22, 0, 0, 2, 2, 0, 0]),
///     Answer::Refused(refusal) => panic!("{refusal:?}"),
/// }
///
/// // too little room: the needs are told
/// let answer = read(b"[1, 2, \"\\n\"]", &mut nodes, &mut text);
/// assert_eq!(answer, Answer::Refused(Refusal::Slots { nodes: 4, text: 1 }));
/// ```
pub fn read<'a>(source: &'a [u8], nodes: &'a mut [u16], text: &'a mut [u8]) -> Answer<'a> {
    let numbers = ffi::read(source, nodes, text);
    match Refusal::of(&numbers) {
        Some(refusal) => Answer::Refused(refusal),
        None => Answer::Accepted(Table::accepted(source, &nodes[..numbers.nodes * WIDTH], &text[..numbers.text])),
    }
}

/// Whether numbers and text from anyone are the reading of a source: yes exactly where [`read`], lent enough room, accepts
/// the source and writes these very numbers and bytes. It does not read the source again.
///
/// ```
/// use vealtikum::{check, parse};
/// let (nodes, text) = parse(b"8 - 3 - 2")?.into_parts();
/// assert!(check(b"8 - 3 - 2", &nodes, &text));
/// // this groups in another way
/// assert!(!check(b"8 - 3 * 2", &nodes, &text));
/// # Ok::<(), vealtikum::Error>(())
/// ```
pub fn check(source: &[u8], nodes: &[u16], text: &[u8]) -> bool {
    ffi::check(source, nodes, text)
}

/// A reading that owns its records and its text. The source stays the caller's.
#[derive(Debug, Clone, PartialEq, Eq)]
pub struct Reading<'s> {
    source: &'s [u8],
    nodes: Vec<u16>,
    text: Vec<u8>,
}

impl<'s> Reading<'s> {
    /// The table.
    pub fn table(&self) -> Table<'_> {
        Table::accepted(self.source, &self.nodes, &self.text)
    }

    /// The node that holds all others.
    pub fn root(&self) -> Node<'_> {
        self.table().root()
    }

    /// The records and the text, to be kept. [`Table::from_parts`] takes them back.
    pub fn into_parts(self) -> (Vec<u16>, Vec<u8>) {
        (self.nodes, self.text)
    }
}

/// Reads a source, and allocates the room for its reading.
///
/// ```
/// let reading = vealtikum::parse(b"{ cutoff = 5 }")?;
/// let item = reading.root().children().next().unwrap();
/// let both: Vec<&[u8]> = item.children().map(|node| node.source()).collect();
/// assert_eq!(both, [b"cutoff", &b"5"[..]]);
/// # Ok::<(), vealtikum::Error>(())
/// ```
pub fn parse(source: &[u8]) -> Result<Reading<'_>, Error> {
    // no reading has more nodes, or more text, than its source has bytes
    let room = source.len().min(LONGEST);
    let (mut nodes, mut text) = (vec![0; room * WIDTH], vec![0; room]);
    let numbers = ffi::read(source, &mut nodes, &mut text);
    if let Some(refusal) = Refusal::of(&numbers) {
        return Err(Error::new(source, refusal));
    }
    nodes.truncate(numbers.nodes * WIDTH);
    nodes.shrink_to_fit();
    text.truncate(numbers.text);
    text.shrink_to_fit();
    Ok(Reading { source, nodes, text })
}
