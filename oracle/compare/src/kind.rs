//! The kinds of text that are checked.

use library::{Answer, c};
use luck_linter::Fault;
use luck_token::LuaVersion;

use crate::comparison::report::Check;

#[derive(Debug, Clone, Copy, PartialEq, Eq)]
pub enum Kind {
    Format,
    Pattern,
    Pack,
    Packsize,
    Replacement,
    Date,
}

impl Kind {
    pub const ALL: [Self; 6] = [Self::Format, Self::Pattern, Self::Pack, Self::Packsize, Self::Replacement, Self::Date];

    pub const fn letter(self) -> u8 {
        match self {
            Self::Format => b'F',
            Self::Pattern => b'P',
            Self::Pack => b'K',
            Self::Packsize => b'S',
            Self::Replacement => b'G',
            Self::Date => b'D',
        }
    }

    pub fn of_letter(letter: u8) -> Option<Self> {
        Self::ALL.into_iter().find(|kind| kind.letter() == letter)
    }

    pub const fn check(self) -> Check {
        match self {
            Self::Format => Check::Format,
            Self::Pattern => Check::Pattern,
            Self::Pack => Check::Pack,
            Self::Packsize => Check::Packsize,
            Self::Replacement => Check::Replacement,
            Self::Date => Check::Date,
        }
    }

    /// The library's check.
    #[inline]
    pub fn by_library(self, version: u32, captures: Option<usize>, body: &[u8]) -> Answer {
        match self {
            Self::Format => library::check(c::luck_check_format, version, body),
            Self::Pattern => library::check(c::luck_check_pattern, version, body),
            Self::Pack => library::check(c::luck_check_pack, version, body),
            Self::Packsize => library::check(c::luck_check_packsize, version, body),
            Self::Replacement => library::check_replacement(version, captures, body),
            Self::Date => library::check(c::luck_check_date, version, body),
        }
    }

    /// luck's check. A replacement and a date have no count, which is 0 in the library.
    pub fn validate(self, body: &str, version: LuaVersion, captures: Option<usize>) -> Result<usize, Fault> {
        match self {
            Self::Format => luck_linter::validate_format(body, version),
            Self::Pattern => luck_linter::validate_lua_pattern(body),
            Self::Pack => luck_linter::validate_pack_format(body, false),
            Self::Packsize => luck_linter::validate_pack_format(body, true),
            Self::Replacement => luck_linter::validate_gsub_replacement(body, captures, version).map(|()| 0),
            Self::Date => luck_linter::validate_os_date(body, version).map(|()| 0),
        }
    }
}
