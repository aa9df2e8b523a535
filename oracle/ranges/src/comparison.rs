//! Asks the library and the plain program the same, and counts where they differ.

use std::collections::BTreeMap;
use std::fmt;

use library::c;
use ranges::answers;
use ranges::plain::{self, REVERSED, Ranges};

/// The versions, and numbers beside and far from them.
const VERSIONS: [u32; 9] = [1, 2, 3, 4, 5, 6, 0, 7, u32::MAX];
/// The one of them in which texts are counted.
const COUNTED: u32 = 1;
/// Places of a literal in its source: a span saturates at the largest one.
const STARTS: [u32; 8] = [0, 1, 1000, u32::MAX / 2, u32::MAX - 4, u32::MAX - 3, u32::MAX - 1, u32::MAX];
/// Differences of a kind that are printed.
const SHOWN: u64 = 3;

/// What was asked about.
#[derive(Debug, Clone, Copy, PartialEq, Eq, PartialOrd, Ord)]
enum Check {
    Pattern,
    Literal,
}

#[derive(Default)]
pub struct Comparison {
    calls: u64,
    /// Calls by the number that the plain program gives; a skipped literal has 0.
    numbers: BTreeMap<(Check, u32), u64>,
    /// Differences by version, the plain program's number and the library's.
    differences: BTreeMap<(Check, u32, u32, u32), u64>,
    /// Patterns and literals, not calls, that are answered 39.
    reversed: u64,
    /// Literals in which a backslash is all that keeps 39 from being tested for.
    untested: u64,
    /// Counts the calls about literals, so that their starts take turns.
    turn: usize,
}

impl Comparison {
    /// In every version.
    pub fn pattern(&mut self, body: &[u8]) {
        for version in VERSIONS {
            let expected = answers::pattern(version, body, Ranges::Tested);
            let found = library::check(c::luck_check_pattern, version, body);
            self.count(Check::Pattern, version, body, (expected.number, found.number), found == expected, || {
                format!("library {found:?}, plain {expected:?}")
            });
            self.reversed += u64::from(version == COUNTED && expected.number == REVERSED);
        }
    }

    /// In every version. The starts take turns, which begin one place later at each text.
    pub fn literal(&mut self, text: &[u8]) {
        self.turn = self.turn.wrapping_add(1);
        for version in VERSIONS {
            self.turn = self.turn.wrapping_add(1);
            let start = STARTS[self.turn % STARTS.len()];
            let expected = answers::literal(version, start, text);
            let found = library::check_literal(b'P', version, None, start, text);
            self.count(Check::Literal, version, text, (expected.number, found.number), found == expected, || {
                format!("start {start}: library {found:?}, plain {expected:?}")
            });
            self.reversed += u64::from(version == COUNTED && expected.number == REVERSED);
        }
        self.untested += u64::from(is_untested(text));
    }

    fn count(
        &mut self,
        check: Check,
        version: u32,
        text: &[u8],
        (expected, found): (u32, u32),
        is_same: bool,
        details: impl Fn() -> String,
    ) {
        self.calls += 1;
        *self.numbers.entry((check, expected)).or_default() += 1;
        if is_same {
            return;
        }
        let alike = self.differences.entry((check, version, expected, found)).or_default();
        *alike += 1;
        if *alike <= SHOWN {
            println!("{check:?}, version {version}, `{}`: {}", text.escape_ascii(), details());
        }
    }

    pub const fn reversed(&self) -> u64 {
        self.reversed
    }

    pub fn differing(&self) -> u64 {
        self.differences.values().sum()
    }

    fn calls_with_39(&self, check: Check) -> u64 {
        self.numbers.get(&(check, REVERSED)).copied().unwrap_or_default()
    }

    /// Whether anything differs, or there was none of what the comparison is about.
    pub fn has_failed(&self) -> bool {
        let has_all = self.calls_with_39(Check::Pattern) > 0 && self.calls_with_39(Check::Literal) > 0 && self.untested > 0;
        self.differing() > 0 || !has_all
    }
}

/// Whether a literal's body has a backslash and would be answered 39 without the rule about it.
fn is_untested(text: &[u8]) -> bool {
    let body = plain::checked_body(text).filter(|body| plain::ranges_of(body) == Ranges::Untested);
    body.is_some_and(|body| str::from_utf8(text).is_ok() && plain::reversed(body).is_some())
}

impl fmt::Display for Comparison {
    fn fmt(&self, f: &mut fmt::Formatter<'_>) -> fmt::Result {
        writeln!(f, "{} calls, {} differ", self.calls, self.differing())?;
        for ((check, number), count) in &self.numbers {
            writeln!(f, "  {check:?} number {number}: {count}")?;
        }
        for ((check, version, expected, found), count) in &self.differences {
            writeln!(f, "  {check:?} differ in version {version}, plain {expected}, library {found}: {count}")?;
        }
        let [patterns, literals] = [Check::Pattern, Check::Literal].map(|check| self.calls_with_39(check));
        writeln!(f, "  calls answered 39: {patterns} of patterns, {literals} of literals; {} texts", self.reversed)?;
        write!(f, "  literals with a reversed range and a backslash, in which it is not tested for: {}", self.untested)
    }
}
