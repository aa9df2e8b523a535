//! The versions of Lua.

use std::error::Error;
use std::fmt;
use std::str::FromStr;

/// A version of Lua whose rules the library knows.
#[derive(Debug, Clone, Copy, PartialEq, Eq, PartialOrd, Ord, Hash)]
#[non_exhaustive]
pub enum Version {
    /// Lua 5.1
    Lua51,
    /// Lua 5.2
    Lua52,
    /// Lua 5.3
    Lua53,
    /// Lua 5.4
    Lua54,
    /// Lua 5.5
    Lua55,
    /// Luau
    Luau,
}

impl Version {
    /// Every version, by its number.
    pub const ALL: [Self; 6] = [Self::Lua51, Self::Lua52, Self::Lua53, Self::Lua54, Self::Lua55, Self::Luau];

    /// The number that the C functions take: 1 to 5 for Lua 5.1 to 5.5, 6 for Luau.
    #[must_use]
    pub const fn number(self) -> u32 {
        match self {
            Self::Lua51 => 1,
            Self::Lua52 => 2,
            Self::Lua53 => 3,
            Self::Lua54 => 4,
            Self::Lua55 => 5,
            Self::Luau => 6,
        }
    }

    /// The version of a number; none for a number other than 1 to 6.
    ///
    /// ```
    /// use luck::Version;
    ///
    /// assert_eq!(Version::from_number(4), Some(Version::Lua54));
    /// assert_eq!(Version::from_number(7), None);
    /// ```
    #[must_use]
    pub fn from_number(number: u32) -> Option<Self> {
        Self::ALL.into_iter().find(|version| version.number() == number)
    }
}

/// A number or a name that is no version.
#[derive(Debug, Clone, Copy, PartialEq, Eq, Hash)]
pub struct UnknownVersion;

impl fmt::Display for UnknownVersion {
    fn fmt(&self, f: &mut fmt::Formatter<'_>) -> fmt::Result {
        f.write_str("unknown version: neither 5.1 to 5.5 or luau, nor a number from 1 to 6")
    }
}

impl Error for UnknownVersion {}

/// By the number that the C functions take.
///
/// ```
/// use luck::{UnknownVersion, Version};
///
/// assert_eq!(Version::try_from(4), Ok(Version::Lua54));
/// assert_eq!(Version::try_from(7), Err(UnknownVersion));
/// ```
impl TryFrom<u32> for Version {
    type Error = UnknownVersion;

    fn try_from(number: u32) -> Result<Self, UnknownVersion> {
        Self::from_number(number).ok_or(UnknownVersion)
    }
}

impl From<Version> for u32 {
    fn from(version: Version) -> Self {
        version.number()
    }
}

/// By its name, in any case, as the command `luck` takes it: `5.4`, `lua5.4`, `Lua 5.4` or the number `4`; `luau` or `6`.
///
/// ```
/// use luck::{UnknownVersion, Version};
///
/// assert_eq!("5.4".parse(), Ok(Version::Lua54));
/// assert_eq!("Luau".parse(), Ok(Version::Luau));
/// assert_eq!("5.6".parse::<Version>(), Err(UnknownVersion));
/// ```
impl FromStr for Version {
    type Err = UnknownVersion;

    fn from_str(name: &str) -> Result<Self, UnknownVersion> {
        let name = name.to_ascii_lowercase();
        let plain = name.strip_prefix("lua").map_or(name.as_str(), |rest| rest.strip_prefix(' ').unwrap_or(rest));
        match (plain, name.as_str()) {
            ("5.1", _) | (_, "1") => Ok(Self::Lua51),
            ("5.2", _) | (_, "2") => Ok(Self::Lua52),
            ("5.3", _) | (_, "3") => Ok(Self::Lua53),
            ("5.4", _) | (_, "4") => Ok(Self::Lua54),
            ("5.5", _) | (_, "5") => Ok(Self::Lua55),
            (_, "luau" | "6") => Ok(Self::Luau),
            _ => Err(UnknownVersion),
        }
    }
}

/// As [`FromStr`] reads it.
impl fmt::Display for Version {
    fn fmt(&self, f: &mut fmt::Formatter<'_>) -> fmt::Result {
        f.pad(match self {
            Self::Lua51 => "Lua 5.1",
            Self::Lua52 => "Lua 5.2",
            Self::Lua53 => "Lua 5.3",
            Self::Lua54 => "Lua 5.4",
            Self::Lua55 => "Lua 5.5",
            Self::Luau => "Luau",
        })
    }
}
