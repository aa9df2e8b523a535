//! What was compared, how often, and what differed.

use std::fmt;

use crate::comparison::known::{self, KNOWN};
use crate::comparison::left_out::LeftOut;

#[derive(Debug, Clone, Copy, PartialEq, Eq)]
pub enum Check {
    Rules,
    Whitespace,
    Span,
    Utf8,
    CharAt,
    LineBreak,
    ShortBody,
    Decode,
    /// Of wide literals, which luck turns away.
    DecodeWide,
    Format,
    Pattern,
    /// Of patterns that are refused with 39, which luck does not know.
    PatternReversed,
    Pack,
    Packsize,
    Replacement,
    Date,
    Literal,
    /// The same of literals.
    LiteralReversed,
}

impl Check {
    const ALL: [Self; 18] = [
        Self::Rules,
        Self::Whitespace,
        Self::Span,
        Self::Utf8,
        Self::CharAt,
        Self::LineBreak,
        Self::ShortBody,
        Self::Decode,
        Self::DecodeWide,
        Self::Format,
        Self::Pattern,
        Self::PatternReversed,
        Self::Pack,
        Self::Packsize,
        Self::Replacement,
        Self::Date,
        Self::Literal,
        Self::LiteralReversed,
    ];

    const fn name(self) -> &'static str {
        match self {
            Self::Rules => "rules",
            Self::Whitespace => "is_lua_whitespace",
            Self::Span => "span",
            Self::Utf8 => "utf8",
            Self::CharAt => "char_at",
            Self::LineBreak => "strip_line_break",
            Self::ShortBody => "short_string_body",
            Self::Decode => "decode_string",
            Self::DecodeWide => "decode_string wide",
            Self::Format => "check_format",
            Self::Pattern => "check_pattern",
            Self::PatternReversed => "pattern reversed",
            Self::Pack => "check_pack",
            Self::Packsize => "check_packsize",
            Self::Replacement => "check_replacement",
            Self::Date => "check_date",
            Self::Literal => "check_literal",
            Self::LiteralReversed => "literal reversed",
        }
    }
}

#[derive(Debug, Clone, Copy, Default)]
struct Count {
    compared: u64,
    differing: u64,
    known: u64,
}

/// One call, for the report of a difference.
pub struct Case<'text> {
    pub check: Check,
    /// None where the check has no version.
    pub version: Option<u32>,
    pub text: &'text [u8],
}

#[derive(Default)]
pub struct Report {
    counts: [Count; Check::ALL.len()],
    /// Of the checks of bodies, and of those of literals.
    pub bodies: LeftOut,
    pub literals: LeftOut,
    shown: Vec<String>,
}

impl Report {
    /// The first ones of each check are shown: exhaustive inputs come shortest first.
    const MOST_SHOWN: u64 = 4;

    /// Counts a call, and keeps it where the answers differ. `details` is asked for only then.
    pub fn add<D: fmt::Display>(&mut self, case: Case<'_>, is_same: bool, details: impl FnOnce() -> D) {
        let count = &mut self.counts[case.check as usize];
        count.compared += 1;
        if is_same {
            return;
        }
        if known::is_known(case.check, case.version, case.text) {
            count.known += 1;
            return;
        }
        count.differing += 1;
        if count.differing <= Self::MOST_SHOWN {
            self.shown.push(format!("{case}: {}", details()));
        }
    }

    /// Whether anything differs, or what was left out is not just what luck has no answer for.
    pub fn has_failed(&self) -> bool {
        let has = |check: Check| self.counts[check as usize].compared > 0;
        let is_missing = |check: Check, reversed: Check| has(check) && !has(reversed);
        self.differing() > 0
            || self.bodies.has_failed()
            || self.literals.has_failed()
            || is_missing(Check::Pattern, Check::PatternReversed)
            || is_missing(Check::Literal, Check::LiteralReversed)
    }

    pub fn compared(&self) -> u64 {
        self.counts.iter().map(|count| count.compared).sum()
    }

    pub fn differing(&self) -> u64 {
        self.counts.iter().map(|count| count.differing).sum()
    }
}

impl fmt::Display for Case<'_> {
    fn fmt(&self, f: &mut fmt::Formatter<'_>) -> fmt::Result {
        write!(f, "{} ", self.check.name())?;
        if let Some(version) = self.version {
            write!(f, "V{version} ")?;
        }
        Shown(self.text).fmt(f)
    }
}

/// A text for a report, of which only the front is shown where it is long.
pub struct Shown<'text>(pub &'text [u8]);

impl fmt::Display for Shown<'_> {
    fn fmt(&self, f: &mut fmt::Formatter<'_>) -> fmt::Result {
        const LONGEST_SHOWN: usize = 200;
        let shown = self.0.get(..LONGEST_SHOWN).unwrap_or(self.0);
        write!(f, "`{}`", shown.escape_ascii())?;
        if shown.len() < self.0.len() {
            write!(f, " and so on, {} bytes", self.0.len())?;
        }
        Ok(())
    }
}

impl fmt::Display for Report {
    fn fmt(&self, f: &mut fmt::Formatter<'_>) -> fmt::Result {
        for check in Check::ALL {
            let Count { compared, differing, known } = self.counts[check as usize];
            writeln!(f, "{:<18} {compared:>12} compared {differing:>8} differ {known:>8} known", check.name())?;
        }
        writeln!(f, "left out of luck's, bodies: {}", self.bodies)?;
        writeln!(f, "left out of luck's, literals: {}", self.literals)?;
        for known in KNOWN {
            writeln!(f, "known: {}", known.reason)?;
        }
        for difference in &self.shown {
            writeln!(f, "difference: {difference}")?;
        }
        let hidden = self.differing() - self.shown.len() as u64;
        if hidden > 0 {
            writeln!(f, "and {hidden} more")?;
        }
        if self.has_failed() && self.differing() == 0 {
            writeln!(f, "failed: what is left out of luck's is nothing, or not just what is answered 39")?;
        }
        write!(f, "{} calls compared, {} differences", self.compared(), self.differing())
    }
}
