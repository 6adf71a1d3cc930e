use crate::ffi::Numbers;

/// Why a source is not read, and where. A place is a byte of the source, or its length.
#[derive(Debug, Clone, Copy, PartialEq, Eq, Hash)]
pub enum Refusal {
    /// The source has more than 65,535 bytes.
    Long,
    /// The source is not well-formed UTF-8; at the bad sequence's first byte.
    Utf8 {
        #[allow(missing_docs)]
        place: usize,
    },
    /// A scalar of 128 or more where neither literal text nor a comment is.
    Foreign {
        #[allow(missing_docs)]
        place: usize,
    },
    /// Nothing can go on with what stands there, or with the source's end.
    Unexpected {
        #[allow(missing_docs)]
        place: usize,
    },
    /// An escape that is wrong or cut short; at its backslash.
    Escape {
        #[allow(missing_docs)]
        place: usize,
    },
    /// The source ends in quoted text, heredoc text or a block comment; where that starts.
    Unclosed {
        #[allow(missing_docs)]
        place: usize,
    },
    /// A key that the object has already; at the later one.
    Duplicate {
        #[allow(missing_docs)]
        place: usize,
    },
    /// A 65th level; at the byte that opens it.
    Deep {
        #[allow(missing_docs)]
        place: usize,
    },
    /// `%{` in literal text; at its `%`.
    Directive {
        #[allow(missing_docs)]
        place: usize,
    },
    /// A legacy index over 18,446,744,073,709,551,615; at its first digit.
    Index {
        #[allow(missing_docs)]
        place: usize,
    },
    /// The source is good, but there is too little room for its nodes. Both needs are told.
    Slots {
        /// How many records are needed.
        nodes: usize,
        /// How many text bytes are needed.
        text: usize,
    },
    /// The source is good and there is room for its nodes, but too little for its text. Both needs are told.
    Text {
        /// How many records are needed.
        nodes: usize,
        /// How many text bytes are needed.
        text: usize,
    },
}

impl Refusal {
    /// The refusal of an answer's numbers; none where they are an acceptance's.
    pub(crate) fn of(numbers: &Numbers) -> Option<Refusal> {
        let Numbers { kind, place, nodes, text } = *numbers;
        Some(match kind {
            0 => return None,
            1 => Refusal::Long,
            2 => Refusal::Utf8 { place },
            3 => Refusal::Foreign { place },
            4 => Refusal::Unexpected { place },
            5 => Refusal::Escape { place },
            6 => Refusal::Unclosed { place },
            7 => Refusal::Duplicate { place },
            8 => Refusal::Deep { place },
            9 => Refusal::Directive { place },
            10 => Refusal::Index { place },
            11 => Refusal::Slots { nodes, text },
            _ => Refusal::Text { nodes, text },
        })
    }

    /// The refusal's number, from 1 to 12.
    ///
    /// ```
    /// use vealtikum::Refusal;
    /// assert_eq!(Refusal::Long.number(), 1);
    /// assert_eq!(Refusal::Text { nodes: 1, text: 3 }.number(), 12);
    /// ```
    pub fn number(self) -> u8 {
        self.row().0
    }

    /// The refusal's name.
    pub fn name(self) -> &'static str {
        self.row().1
    }

    /// What the matter is, in a few words.
    pub fn message(self) -> &'static str {
        self.row().2
    }

    /// The place; 0 for those that are about the source as a whole.
    ///
    /// ```
    /// use vealtikum::Refusal;
    /// assert_eq!(Refusal::Escape { place: 4 }.place(), 4);
    /// assert_eq!(Refusal::Long.place(), 0);
    /// ```
    pub fn place(self) -> usize {
        self.row().3
    }

    fn row(self) -> (u8, &'static str, &'static str, usize) {
        match self {
            Refusal::Long => (1, "Long", "the source has more than 65,535 bytes", 0),
            Refusal::Utf8 { place } => (2, "Utf8", "these bytes are not well-formed UTF-8", place),
            Refusal::Foreign { place } => (3, "Foreign", "a character outside ASCII may stand in text and comments only", place),
            Refusal::Unexpected { place } => (4, "Unexpected", "unexpected token", place),
            Refusal::Escape { place } => (5, "Escape", "this escape is wrong or cut short", place),
            Refusal::Unclosed { place } => (6, "Unclosed", "what starts here is not closed", place),
            Refusal::Duplicate { place } => (7, "Duplicate", "the object has this key already", place),
            Refusal::Deep { place } => (8, "Deep", "this opens a 65th level, and there may be 64", place),
            Refusal::Directive { place } => (9, "Directive", "template directives are not read; for the text itself write %%{", place),
            Refusal::Index { place } => (10, "Index", "this index is too large", place),
            Refusal::Slots { .. } => (11, "Slots", "there is too little room for the nodes", 0),
            Refusal::Text { .. } => (12, "Text", "there is too little room for the text", 0),
        }
    }
}
