//! The checks of bodies and of literals.

use super::Comparison;
use crate::comparison::report::{Case, Check};
use crate::kind::Kind;
use crate::reference::checks::{Body, Text};
use crate::reference::{NO_VERSIONS, VERSIONS};

/// Counts of captures, none for unknown.
const CAPTURES: [Option<usize>; 9] = [None, Some(0), Some(1), Some(2), Some(3), Some(8), Some(9), Some(32), Some(usize::MAX)];

/// Places of a literal in its source: a span saturates at the largest one.
const STARTS: [u32; 9] = [0, 1, 1000, u32::MAX / 2, u32::MAX - 4, u32::MAX - 3, u32::MAX - 2, u32::MAX - 1, u32::MAX];

/// The letters, and two bytes that are none.
const KINDS: [u8; 8] = *b"FPKSGDf\0";

impl Comparison {
    /// The check of a body of this kind in every version, a replacement's with every count of captures.
    pub fn body(&mut self, kind: Kind, text: &[u8]) {
        let captures = if kind == Kind::Replacement { &CAPTURES[..] } else { &[None] };
        let body = Body::new(text);
        if let Some(is_first_fault) = body.is_first_fault(kind) {
            self.report.bodies.text(is_first_fault);
        }
        for version in VERSIONS.chain(NO_VERSIONS) {
            for &captures in captures {
                let [answer, by_luck] = [kind.by_library(version, captures, text), body.by_luck(kind, version, captures)];
                let reversed = body.reversed(kind, version);
                let check = if reversed.is_some() { Check::PatternReversed } else { kind.check() };
                let expected = reversed.unwrap_or(by_luck);
                self.report.bodies.call(reversed.is_some(), answer == by_luck);
                self.report.add(Case { check, version: Some(version), text }, answer == expected, || {
                    format!("captures {captures:?}: library {answer:?}, wanted {expected:?}")
                });
            }
        }
    }

    /// The check of a literal by every kind and in every version. Its start and the count of captures take turns, which
    /// begin one place later at each text: otherwise a kind would meet the same start in every text.
    pub fn literal(&mut self, text: &[u8]) {
        let mut expected = self.literal_text(text);
        self.turn = self.turn.wrapping_add(1);
        for version in VERSIONS.chain(NO_VERSIONS) {
            for kind in KINDS {
                self.turn = self.turn.wrapping_add(1);
                let start = STARTS[self.turn % STARTS.len()];
                let captures = CAPTURES[self.turn / STARTS.len() % CAPTURES.len()];
                self.literal_at(kind, version, captures, start, text, &mut expected);
            }
        }
    }

    /// The check of a literal by every byte as a kind, and by every kind with every start and count of captures.
    pub fn literal_in_all_ways(&mut self, text: &[u8]) {
        let mut expected = self.literal_text(text);
        for version in VERSIONS.chain(NO_VERSIONS) {
            for kind in 0..=u8::MAX {
                self.literal_at(kind, version, None, 0, text, &mut expected);
            }
            for kind in KINDS {
                for captures in CAPTURES {
                    for start in STARTS {
                        self.literal_at(kind, version, captures, start, text, &mut expected);
                    }
                }
            }
        }
    }

    fn literal_text(&mut self, text: &[u8]) -> Text {
        let expected = Text::new(text);
        if let Some(is_first_fault) = expected.is_first_fault() {
            self.report.literals.text(is_first_fault);
        }
        expected
    }

    fn literal_at(&mut self, kind: u8, version: u32, captures: Option<usize>, start: u32, text: &[u8], expected: &mut Text) {
        let answer = library::check_literal(kind, version, captures, start, text);
        let by_luck = expected.by_luck(kind, version, captures, start);
        let reversed = expected.reversed(kind, version, start);
        let check = if reversed.is_some() { Check::LiteralReversed } else { Check::Literal };
        let expected = reversed.unwrap_or(by_luck);
        self.report.literals.call(reversed.is_some(), answer == by_luck);
        self.report.add(Case { check, version: Some(version), text }, answer == expected, || {
            let kind = kind.escape_ascii();
            format!("kind {kind}, captures {captures:?}, start {start}: library {answer:?}, wanted {expected:?}")
        });
    }
}
