use crate::{ffi, Kind, WIDTH};
use std::fmt;
use std::ops::Range;

/// The reading of a source: its records and its text, next to the source itself.
///
/// Only an acceptance or a check makes one, so its records are a reading's.
#[derive(Clone, Copy, PartialEq, Eq)]
pub struct Table<'a> {
    source: &'a [u8],
    nodes: &'a [u16],
    text: &'a [u8],
}

impl<'a> Table<'a> {
    /// A table that an acceptance wrote, or that was checked. It has at least one record.
    pub(crate) fn accepted(source: &'a [u8], nodes: &'a [u16], text: &'a [u8]) -> Table<'a> {
        Table { source, nodes, text }
    }

    /// Numbers and text that were kept, or that come from anyone, as a table; none where they are not the reading of the source.
    ///
    /// ```
    /// use vealtikum::{parse, Kind, Table};
    /// let (nodes, text) = parse(b"8 - 3")?.into_parts();
    /// let table = Table::from_parts(b"8 - 3", &nodes, &text).unwrap();
    /// assert_eq!(table.root().kind(), Kind::Subtract);
    /// // the source has changed since
    /// assert_eq!(Table::from_parts(b"8 + 3", &nodes, &text), None);
    /// # Ok::<(), vealtikum::Error>(())
    /// ```
    pub fn from_parts(source: &'a [u8], nodes: &'a [u16], text: &'a [u8]) -> Option<Table<'a>> {
        ffi::check(source, nodes, text).then(|| Table::accepted(source, nodes, text))
    }

    /// The source.
    pub fn source(self) -> &'a [u8] {
        self.source
    }

    /// The records: seven numbers for each node.
    pub fn numbers(self) -> &'a [u16] {
        self.nodes
    }

    /// The text of the strings and pieces that held escapes, without them.
    pub fn text(self) -> &'a [u8] {
        self.text
    }

    /// How many nodes there are. A reading has at least one.
    #[allow(clippy::len_without_is_empty)]
    pub fn len(self) -> usize {
        self.nodes.len() / WIDTH
    }

    /// The i-th node, in the order of the records: children before their parent.
    pub fn node(self, i: usize) -> Option<Node<'a>> {
        if i < self.len() {
            Some(Node { table: self, index: i })
        } else {
            None
        }
    }

    /// The node that holds all others.
    pub fn root(self) -> Node<'a> {
        Node { table: self, index: self.len() - 1 }
    }

    /// All nodes as a tree: each node with its depth, a parent before its children, in source order.
    ///
    /// ```
    /// let reading = vealtikum::parse(b"[a, f(1)]")?;
    /// let tree: Vec<String> = reading.table().walk().map(|(depth, node)| format!("{depth} {} {:?}", node.kind(), node.span())).collect();
    /// assert_eq!(tree, ["0 array 0..9", "1 variable 1..2", "1 call 4..8", "2 name 4..5", "2 number 6..7"]);
    /// # Ok::<(), vealtikum::Error>(())
    /// ```
    pub fn walk(self) -> Walk<'a> {
        Walk { table: self, next: vec![(0, self.len() - 1)] }
    }
}

impl fmt::Debug for Table<'_> {
    fn fmt(&self, f: &mut fmt::Formatter<'_>) -> fmt::Result {
        f.debug_list().entries(self.nodes.chunks_exact(WIDTH)).finish()
    }
}

/// A node of a table.
#[derive(Clone, Copy, PartialEq, Eq)]
pub struct Node<'a> {
    table: Table<'a>,
    index: usize,
}

impl<'a> Node<'a> {
    /// Where its record stands in the table.
    pub fn index(self) -> usize {
        self.index
    }

    /// What it is.
    pub fn kind(self) -> Kind {
        Kind::of(self.number(0)).expect("a reading has no other kinds")
    }

    /// Its flag; [`Kind`] says what that means. For a string or a piece: 1 where it held escapes.
    pub fn flag(self) -> u16 {
        self.number(1)
    }

    /// Which bytes of the source it is.
    pub fn span(self) -> Range<usize> {
        usize::from(self.number(2))..usize::from(self.number(3))
    }

    /// Those bytes.
    pub fn source(self) -> &'a [u8] {
        &self.table.source[self.span()]
    }

    /// How many nodes its subtree has, itself included.
    pub fn count(self) -> usize {
        usize::from(self.number(4))
    }

    /// The text of a string or a piece, with escapes resolved: a part of the source or of the table's text, never a copy.
    ///
    /// ```
    /// let reading = vealtikum::parse(br#"["", "plain", "a\tb", 1]"#)?;
    /// let texts: Vec<Option<&[u8]>> = reading.root().children().map(|node| node.text()).collect();
    /// assert_eq!(texts, [Some(&b""[..]), Some(b"plain"), Some(b"a\tb"), None]);
    /// # Ok::<(), vealtikum::Error>(())
    /// ```
    pub fn text(self) -> Option<&'a [u8]> {
        ffi::text(self.table.source, self.table.nodes, self.table.text, self.index)
    }

    /// The same as a `str`.
    ///
    /// ```
    /// let reading = vealtikum::parse("\"grün \\u00e9\"".as_bytes())?;
    /// assert_eq!(reading.root().text_str(), Some("grün é"));
    /// # Ok::<(), vealtikum::Error>(())
    /// ```
    pub fn text_str(self) -> Option<&'a str> {
        std::str::from_utf8(self.text()?).ok()
    }

    /// Its children, in source order.
    pub fn children(self) -> Children<'a> {
        let mut found: Vec<usize> = Vec::new();
        self.each_child_from_the_last(|i| found.push(i));
        Children { table: self.table, found }
    }

    /// The last child stands right before its parent, and each earlier one before the subtree of the next.
    fn each_child_from_the_last(self, mut take: impl FnMut(usize)) {
        let first = self.index + 1 - self.count();
        let mut end = self.index;
        while first < end {
            take(end - 1);
            end -= Node { table: self.table, index: end - 1 }.count();
        }
    }

    fn number(self, i: usize) -> u16 {
        self.table.nodes[self.index * WIDTH + i]
    }
}

impl fmt::Debug for Node<'_> {
    fn fmt(&self, f: &mut fmt::Formatter<'_>) -> fmt::Result {
        write!(f, "{:?}@{:?}", self.kind(), self.span())
    }
}

/// The children of a node, in source order.
#[derive(Debug, Clone)]
pub struct Children<'a> {
    table: Table<'a>,
    found: Vec<usize>,
}

impl<'a> Iterator for Children<'a> {
    type Item = Node<'a>;

    fn next(&mut self) -> Option<Node<'a>> {
        let index = self.found.pop()?;
        Some(Node { table: self.table, index })
    }

    fn size_hint(&self) -> (usize, Option<usize>) {
        (self.found.len(), Some(self.found.len()))
    }
}

impl ExactSizeIterator for Children<'_> {}

/// The nodes of a table as a tree, each with its depth.
#[derive(Debug, Clone)]
pub struct Walk<'a> {
    table: Table<'a>,
    next: Vec<(usize, usize)>,
}

impl<'a> Iterator for Walk<'a> {
    type Item = (usize, Node<'a>);

    fn next(&mut self) -> Option<(usize, Node<'a>)> {
        let (depth, index) = self.next.pop()?;
        let node = Node { table: self.table, index };
        let next = &mut self.next;
        node.each_child_from_the_last(|i| next.push((depth + 1, i)));
        Some((depth, node))
    }
}
