//! The documents' numbers by name: kinds of tokens, kinds of tree records, reasons of a refusal.

use std::fmt;

// An enum whose variants are numbered, each one more than that before it or as it says, and each with its words.
macro_rules! numbered {
    (
        $(#[$doc:meta])* $name:ident,
        $($(#[$own:meta])* $variant:ident $(= $number:literal)? $words:literal)*
    ) => {
        $(#[$doc])*
        #[derive(Clone, Copy, Debug, PartialEq, Eq, Hash, PartialOrd, Ord)]
        #[repr(u32)]
        pub enum $name {
            $($(#[$own])* $variant $(= $number)?,)*
        }

        impl $name {
            /// All of them, in the order of their numbers.
            pub const ALL: &'static [$name] = &[$($name::$variant),*];

            /// The number that document 01 or 02 gives it.
            pub fn number(self) -> u32 {
                self as u32
            }

            /// The one of this number, if there is one.
            pub fn from_number(number: u32) -> Option<$name> {
                $(if number == $name::$variant as u32 {
                    return Some($name::$variant);
                })*
                None
            }

            /// It in words.
            pub fn name(self) -> &'static str {
                match self {
                    $($name::$variant => $words,)*
                }
            }
        }
    };
}

numbered! {
    /// The kinds of tokens. A kind's name is its spelling, or what it is where that varies.
    ///
    /// ```
    /// use quanta::TokenKind;
    /// assert_eq!(TokenKind::Shr.number(), 61);
    /// assert_eq!(TokenKind::from_number(53), Some(TokenKind::Gt));
    /// assert_eq!(TokenKind::Gt.name(), ">");
    /// assert_eq!(TokenKind::Ident.to_string(), "identifier");
    /// assert_eq!(TokenKind::Gt.to_string(), "`>`");
    /// ```
    TokenKind,
    Ident = 1 "identifier"
    Int "integer"
    Date "date"
    Str "string"
    Contract "contract"
    Entry "entry"
    Guard "guard"
    Genesis "genesis"
    Caller "caller"
    InAsset "in_asset"
    Native "native"
    Now "now"
    State "state"
    Invariant "invariant"
    Event "event"
    Emit "emit"
    Asset "asset"
    Let "let"
    Signed "signed"
    By "by"
    Sealed "sealed"
    Meta "meta"
    Quorum "Quorum"
    After "after"
    From "from"
    Mints "mints"
    Burns "burns"
    Conserves "conserves"
    Writes "writes"
    Reads "reads"
    Limits "limits"
    Denies "denies"
    Import "import"
    Checked "checked"
    Wrapping "wrapping"
    LBrace "{"
    RBrace "}"
    LParen "("
    RParen ")"
    Comma ","
    Semi ";"
    Colon ":"
    Dot "."
    Eq "="
    PlusEq "+="
    MinusEq "-="
    Plus "+"
    Minus "-"
    Star "*"
    Slash "/"
    Percent "%"
    Lt "<"
    Gt ">"
    Le "<="
    Ge ">="
    EqEq "=="
    Ne "!="
    Bang "!"
    AndAnd "&&"
    OrOr "||"
    Shr ">>"
    Eof "end of input"
}

impl TokenKind {
    /// Whether every token of this kind is spelled the same, by the kind's name.
    pub fn is_fixed(self) -> bool {
        self > TokenKind::Str && self < TokenKind::Eof
    }
}

impl fmt::Display for TokenKind {
    fn fmt(&self, f: &mut fmt::Formatter<'_>) -> fmt::Result {
        if self.is_fixed() {
            write!(f, "`{}`", self.name())
        } else {
            f.write_str(self.name())
        }
    }
}

numbered! {
    /// The kinds of tree records, named as document 01 names them.
    ///
    /// ```
    /// use quanta::Node;
    /// assert_eq!(Node::MofN.number(), 21);
    /// assert_eq!(Node::from_number(21).map(Node::name), Some("m-of-n"));
    /// assert_eq!(Node::from_number(41), None);
    /// ```
    Node,
    Program = 1 "program"
    Import "import"
    Contract "contract"
    Asset "asset"
    State "state"
    Genesis "genesis"
    Invariant "invariant"
    Event "event"
    Entry "entry"
    /// Flag: 1 for meta plus 2 for a default.
    Field "state field"
    /// Flag: 1 for sealed plus 2 for signed by.
    Param "parameter"
    Writes "writes"
    Reads "reads"
    Conserves "conserves"
    Mints "mints"
    Burns "burns"
    Limits "limits"
    Denies "denies"
    /// Flag: 1 for `from` plus 2 for a duration.
    After "after"
    Type "type"
    MofN "m-of-n"
    Guard "guard"
    Let "let"
    Emit "emit"
    /// Flag: 0 for `=`, 1 for `+=`, 2 for `-=`.
    Assign "assign"
    ExprStmt "expression statement"
    Name "name"
    Int "int"
    Date "date"
    Str "string"
    Caller "caller"
    InAsset "in_asset"
    Native "native"
    Now "now"
    Checked "checked"
    Wrapping "wrapping"
    /// Flag: 0 for `!`, 1 for `-`.
    Unary "unary"
    /// Flag, from 0: `|| && == != < > <= >= + - * / % >>`.
    Binary "binary"
    Access "field access"
    Call "call"
}

impl fmt::Display for Node {
    fn fmt(&self, f: &mut fmt::Formatter<'_>) -> fmt::Result {
        f.write_str(self.name())
    }
}

numbered! {
    /// Why a source is refused. The numbers are in the order of the tests, but for 12 to 22, of which
    /// the first in reading comes; 28, which stands among 6 to 10; and 29, which is the first test.
    ///
    /// ```
    /// use quanta::Reason;
    /// assert_eq!(Reason::TreeRoom.number(), 23);
    /// assert_eq!(Reason::from_number(28), Some(Reason::NoDay));
    /// assert_eq!(Reason::from_number(24), None);
    /// ```
    Reason,
    BadTable = 1 "the word table is too long or malformed"
    SourceTooLong "the source is longer than 1,048,576 bytes"
    NotUtf8 "a byte that is not UTF-8"
    LoneCr "a carriage return without a line feed"
    BarredCharacter "an invisible or direction changing character"
    BarredWord "a word of the word table"
    BareDate "a date without `@`"
    LeadingZero "a number that starts with 0"
    OpenString "a string that is not closed in its line"
    StrayByte "a byte that starts no token"
    TokenRoom "too few token records"
    ExpectedToken "expected a certain token"
    ExpectedIdentifier "expected an identifier"
    ExpectedInteger "expected an integer"
    ExpectedImportName "expected an import name"
    ExpectedString "expected a string"
    ExpectedExpression "expected an expression"
    ExpectedType "expected a type"
    ExpectedItem "expected a contract item"
    TooDeep "nested deeper than 64"
    BadTarget "assigned to what is no name and no field"
    Trailing "more after the end"
    TreeRoom "too few tree records"
    /// In edition 2 only.
    NoDay = 28 "a date that is no day"
    /// Of the archive's own functions only: an [`Edition`](crate::Edition) is never unknown.
    UnknownEdition "an edition other than 1 and 2"
}

impl fmt::Display for Reason {
    fn fmt(&self, f: &mut fmt::Formatter<'_>) -> fmt::Result {
        f.write_str(self.name())
    }
}
