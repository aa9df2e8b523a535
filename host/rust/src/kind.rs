//! What a literal is used for.

use std::fmt;

/// What a literal is used for, which decides how it is checked.
#[derive(Debug, Clone, Copy, PartialEq, Eq, Hash)]
pub enum Kind {
    /// A format of `string.format`.
    Format,
    /// A pattern of `string.find`, `match`, `gmatch` and `gsub`.
    Pattern,
    /// A format of `string.pack` and `unpack`.
    Pack,
    /// A format of `string.packsize`.
    Packsize,
    /// A replacement of `string.gsub`.
    Replacement,
    /// A format of `os.date`.
    Date,
}

impl Kind {
    /// Every kind.
    pub const ALL: [Self; 6] = [Self::Format, Self::Pattern, Self::Pack, Self::Packsize, Self::Replacement, Self::Date];

    /// The letter that the C function takes.
    #[must_use]
    pub const fn letter(self) -> u8 {
        match self {
            Self::Format => b'F',
            Self::Pattern => b'P',
            Self::Pack => b'K',
            Self::Packsize => b'S',
            Self::Replacement => b'G',
            Self::Date => b'D',
        }
    }

    /// The kind of a letter; none for a byte other than the six.
    ///
    /// ```
    /// use luck::Kind;
    ///
    /// assert_eq!(Kind::from_letter(b'P'), Some(Kind::Pattern));
    /// assert_eq!(Kind::from_letter(b'Z'), None);
    /// ```
    #[must_use]
    pub fn from_letter(letter: u8) -> Option<Self> {
        Self::ALL.into_iter().find(|kind| kind.letter() == letter)
    }
}

/// Its name, as the command `luck` takes it.
///
/// ```
/// use luck::Kind;
///
/// assert_eq!(Kind::Packsize.to_string(), "packsize");
/// ```
impl fmt::Display for Kind {
    fn fmt(&self, f: &mut fmt::Formatter<'_>) -> fmt::Result {
        f.pad(match self {
            Self::Format => "format",
            Self::Pattern => "pattern",
            Self::Pack => "pack",
            Self::Packsize => "packsize",
            Self::Replacement => "replacement",
            Self::Date => "date",
        })
    }
}
