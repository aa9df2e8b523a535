//! The two functions of luck's rule that work on a literal's text. The rest of its file is about calls in a syntax
//! tree and is not built, so the two structs that they use of it have stand-ins here.

use compact_str::CompactString;
use luck_token::{Span, short_string_body};

use crate::fault::Fault;
use crate::format_pattern::PatternError;

include!(concat!(env!("OUT_DIR"), "/functions.rs"));

/// Stand-in for the syntax tree's literal.
#[derive(Debug, Clone)]
pub struct Literal {
    /// With its quotes.
    pub text: CompactString,
    pub span: Span,
}

/// Stand-in for the linter's finding: what is wrong, and where in the source.
#[derive(Debug, Clone, PartialEq, Eq)]
pub struct Finding {
    pub message: String,
    pub span: Span,
}

impl Finding {
    const fn new(message: String, span: Span) -> Self {
        Self { message, span }
    }
}

impl Literal {
    #[must_use]
    pub fn checkable_body(&self) -> Option<&str> {
        checkable_body(self)
    }

    /// luck's finding for a fault in the literal's `body`, which the checks call a `noun`.
    #[must_use]
    pub fn error(&self, fault: Fault, body: &str, noun: &str) -> Finding {
        literal_error(fault.0, self, body, noun)
    }
}
