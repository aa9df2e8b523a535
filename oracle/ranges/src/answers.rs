//! The plain program's answers in the library's structs.

use library::{Answer, Literal};

use crate::plain::{self, Checked, Ranges, Refusal, Span};

const ACCEPTED: Answer = Answer { number: 0, first: 0, second: 0, offset: 0, count: 0 };

const fn refused(Refusal { number, offset, character }: Refusal) -> Answer {
    Answer { number, offset, first: character, ..ACCEPTED }
}

const fn unspanned(Answer { number, first, second, offset, count }: Answer) -> Literal {
    Literal { number, first, second, skipped: 0, spanned: 0, start: 0, end: 0, offset, count }
}

pub fn pattern(version: u32, body: &[u8], ranges: Ranges) -> Answer {
    match plain::pattern(version, body, ranges) {
        Ok(count) => Answer { count, ..ACCEPTED },
        Err(refusal) => refused(refusal),
    }
}

/// Of a literal with the letter P.
pub fn literal(version: u32, start: u32, text: &[u8]) -> Literal {
    match plain::literal(version, start, text) {
        Checked::Skipped => Literal { skipped: 1, ..unspanned(ACCEPTED) },
        Checked::Accepted(count) => unspanned(Answer { count, ..ACCEPTED }),
        Checked::Unspanned(refusal) => unspanned(refused(refusal)),
        Checked::Spanned(refusal, Span { start, end }) => Literal { spanned: 1, start, end, ..unspanned(refused(refusal)) },
    }
}
