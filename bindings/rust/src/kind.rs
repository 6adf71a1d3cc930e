use std::fmt;

macro_rules! kinds {
    ($($(#[$doc:meta])* $variant:ident = $number:literal, $name:literal;)*) => {
        /// What a node is.
        #[derive(Debug, Clone, Copy, PartialEq, Eq, Hash)]
        #[repr(u16)]
        pub enum Kind {
            $($(#[$doc])* $variant = $number,)*
        }

        impl Kind {
            /// Every kind, by its number.
            pub const ALL: [Kind; 42] = [$(Kind::$variant,)*];

            /// The kind's name: for an operator its sign, else a word or two.
            pub fn name(self) -> &'static str {
                match self {
                    $(Kind::$variant => $name,)*
                }
            }
        }
    };
}

kinds! {
    /// `null`
    Null = 1, "null";
    /// `true`
    True = 2, "true";
    /// `false`
    False = 3, "false";
    /// A number. Flag 1: with a minus.
    Number = 4, "number";
    /// A variable.
    Variable = 5, "variable";
    /// Quoted text with no interpolation. It has text.
    String = 6, "string";
    /// Quoted text with an interpolation. Its children are pieces and interpolations.
    Template = 7, "template";
    /// A heredoc. Its children are pieces and interpolations. Flag 1: `<<-`.
    Heredoc = 8, "heredoc";
    /// A piece of literal text, as long as can be. It has text.
    Piece = 9, "piece";
    /// `${ }`. Flag 1: a left `~`, 2: a right one, 3: both.
    Interpolation = 10, "interpolation";
    /// `[ ]`
    Array = 11, "array";
    /// `{ }`. Its children are items.
    Object = 12, "object";
    /// A key and its value. Flag 1: with `:`.
    Item = 13, "item";
    /// A key that is a lone word.
    Key = 14, "key";
    /// `( )`
    Parentheses = 15, "parentheses";
    /// A call: its names, then its arguments. Flag 1: with `...`.
    Call = 16, "call";
    /// A name of a call or of a for-expression.
    Name = 17, "name";
    /// `[for .. in .. : ..]`
    ListFor = 18, "list for";
    /// `{for .. in .. : .. => ..}`. Flag 1: with `...`.
    ObjectFor = 19, "object for";
    /// The `if ..` of a for-expression.
    Condition = 20, "condition";
    /// `.. ? .. : ..`
    Conditional = 21, "conditional";
    /// `-` before a term.
    Negation = 22, "negation";
    /// `!` before a term.
    Not = 23, "not";
    /// `*`
    Multiply = 24, "*";
    /// `/`
    Divide = 25, "/";
    /// `%`
    Modulo = 26, "%";
    /// `+`
    Add = 27, "+";
    /// `-`
    Subtract = 28, "-";
    /// `>`
    Greater = 29, ">";
    /// `>=`
    GreaterEqual = 30, ">=";
    /// `<`
    Less = 31, "<";
    /// `<=`
    LessEqual = 32, "<=";
    /// `==`
    Equal = 33, "==";
    /// `!=`
    NotEqual = 34, "!=";
    /// `&&`
    And = 35, "&&";
    /// `||`
    Or = 36, "||";
    /// A term and what follows it of the next five kinds.
    Traversal = 37, "traversal";
    /// `.a`
    Attribute = 38, "attribute";
    /// `.0`
    LegacyIndex = 39, "legacy index";
    /// `.*`
    AttributeSplat = 40, "attribute splat";
    /// `[*]`
    FullSplat = 41, "full splat";
    /// `[a]`
    Index = 42, "index";
}

impl Kind {
    /// The kind of a number.
    ///
    /// ```
    /// use vealtikum::Kind;
    /// assert_eq!(Kind::of(12), Some(Kind::Object));
    /// assert_eq!(Kind::of(0), None);
    /// assert_eq!(Kind::of(43), None);
    /// ```
    pub fn of(number: u16) -> Option<Kind> {
        Kind::ALL.get(usize::from(number).checked_sub(1)?).copied()
    }

    /// The kind's number in a record.
    pub fn number(self) -> u16 {
        self as u16
    }
}

impl fmt::Display for Kind {
    fn fmt(&self, f: &mut fmt::Formatter<'_>) -> fmt::Result {
        f.pad(self.name())
    }
}
