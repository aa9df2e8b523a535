//! Patterns with a reversed range, which the check refuses with 39 since F-10. luck knows no 39, so which patterns these are the
//! plain program of `ranges` says; luck says that nothing before the end of the range's set is at fault.

use ranges::answers;
use ranges::plain::{self, REVERSED, Ranges};

use library::{Answer, Literal};

/// Refusal 11 where it is at the end: the only one that a text may owe to its having been cut there.
const OPEN_CAPTURE: u32 = 11;

/// The answer with 39, where the plain program gives that.
pub fn pattern(version: u32, body: &[u8]) -> Option<Answer> {
    Some(answers::pattern(version, body, Ranges::Tested)).filter(|answer| answer.number == REVERSED)
}

/// The same of a literal, with the letter P.
pub fn literal(version: u32, start: u32, text: &[u8]) -> Option<Literal> {
    Some(answers::literal(version, start, text)).filter(|literal| literal.number == REVERSED)
}

/// Of a pattern with 39: whether luck, given the text up to the end of the set, takes it, or finds nothing but a capture that is
/// still open there.
pub fn is_first_fault(body: &str) -> Option<bool> {
    let front = body.get(..plain::reversed(body.as_bytes())?.behind_set)?;
    Some(match luck_linter::validate_lua_pattern(front) {
        Ok(_) => true,
        Err(fault) => fault.number() == OPEN_CAPTURE && fault.offset() == front.len(),
    })
}
