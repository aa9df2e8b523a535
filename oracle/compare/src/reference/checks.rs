//! What is right of a check: luck's Rust, with the port's own refusals 30, 25 and 23 around it, and 39 for patterns with a reversed
//! range.

use std::str;

use luck_linter::Fault;
use luck_token::Span;

use crate::kind::Kind;
use crate::reference::{VERSIONS, lua_version, reversed};
use library::{Answer, Literal};

const ACCEPTED: Answer = Answer { number: 0, first: 0, second: 0, offset: 0, count: 0 };
const SKIPPED: Literal = Literal { skipped: 1, ..unspanned(ACCEPTED) };

const fn refused(number: u32, offset: usize) -> Answer {
    Answer { number, offset, ..ACCEPTED }
}

fn answer(checked: Result<usize, Fault>) -> Answer {
    match checked {
        Ok(count) => Answer { count, ..ACCEPTED },
        Err(fault) => {
            let [first, second] = fault.characters().map(|character| character.map_or(0, u32::from));
            Answer { number: fault.number(), first, second, offset: fault.offset(), count: 0 }
        }
    }
}

const fn unspanned(answer: Answer) -> Literal {
    let Answer { number, first, second, offset, count } = answer;
    Literal { number, first, second, skipped: 0, spanned: 0, start: 0, end: 0, offset, count }
}

/// A text that was tested once for UTF-8: luck takes text only.
#[derive(Clone, Copy)]
pub struct Body<'text>(Result<&'text str, usize>);

impl<'text> Body<'text> {
    pub fn new(text: &'text [u8]) -> Self {
        Self(str::from_utf8(text).map_err(|error| error.valid_up_to()))
    }

    /// luck's answer, but for patterns that are refused with 39.
    pub fn check(self, kind: Kind, version: u32, captures: Option<usize>) -> Answer {
        self.reversed(kind, version).unwrap_or_else(|| self.by_luck(kind, version, captures))
    }

    /// The answer for a pattern that is refused with 39. luck's stands for all others.
    pub fn reversed(self, kind: Kind, version: u32) -> Option<Answer> {
        if kind == Kind::Pattern { reversed::pattern(version, self.0.ok()?.as_bytes()) } else { None }
    }

    /// Of a pattern that is refused with 39: whether luck finds no fault before the end of the set.
    pub fn is_first_fault(self, kind: Kind) -> Option<bool> {
        if kind == Kind::Pattern { reversed::is_first_fault(self.0.ok()?) } else { None }
    }

    pub fn by_luck(self, kind: Kind, version: u32, captures: Option<usize>) -> Answer {
        let Some(version) = lua_version(version) else { return refused(25, 0) };
        match self.0 {
            Ok(body) => answer(kind.validate(body, version, captures)),
            Err(place) => refused(23, place),
        }
    }
}

/// A literal's text, as luck takes it.
pub struct Text(Result<luck_linter::Literal, usize>);

impl Text {
    pub fn new(text: &[u8]) -> Self {
        let text = Body::new(text).0;
        Self(text.map(|text| luck_linter::Literal { text: text.into(), span: Span::default() }))
    }

    /// The answer for a literal that starts at `start`: luck's, but for patterns that are refused with 39.
    pub fn check(&mut self, kind: u8, version: u32, captures: Option<usize>, start: u32) -> Literal {
        self.reversed(kind, version, start).unwrap_or_else(|| self.by_luck(kind, version, captures, start))
    }

    /// The answer for a pattern that is refused with 39. luck's stands for all others.
    pub fn reversed(&self, kind: u8, version: u32, start: u32) -> Option<Literal> {
        let text = &self.0.as_ref().ok()?.text;
        if kind == Kind::Pattern.letter() { reversed::literal(version, start, text.as_bytes()) } else { None }
    }

    /// Of a literal that is refused with 39 where it is a pattern: whether luck finds no fault before the end of the set.
    pub fn is_first_fault(&self) -> Option<bool> {
        self.reversed(Kind::Pattern.letter(), *VERSIONS.start(), 0)?;
        reversed::is_first_fault(self.0.as_ref().ok()?.checkable_body()?)
    }

    pub fn by_luck(&mut self, kind: u8, version: u32, captures: Option<usize>, start: u32) -> Literal {
        let Some(kind) = Kind::of_letter(kind) else { return unspanned(refused(30, 0)) };
        let Some(version) = lua_version(version) else { return unspanned(refused(25, 0)) };
        let literal = match &mut self.0 {
            Ok(literal) => literal,
            Err(place) => return unspanned(refused(23, *place)),
        };
        let end = start.saturating_add(u32::try_from(literal.text.len()).unwrap_or(u32::MAX));
        literal.span = Span::new(start, end);
        let Some(body) = literal.checkable_body() else { return SKIPPED };
        let checked = kind.validate(body, version, captures);
        let unspanned = unspanned(answer(checked));
        match checked {
            Ok(_) => unspanned,
            Err(fault) => {
                let Span { start, end } = literal.error(fault, body, "literal").span;
                Literal { spanned: 1, start, end, ..unspanned }
            }
        }
    }
}
