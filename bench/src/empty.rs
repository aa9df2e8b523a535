//! Functions of the library's types that do nothing. What a call of them takes is not the library's.

use library::{Answer, Decoded, Literal, Trial};

const ANSWER: Answer = Answer { number: 0, first: 0, second: 0, offset: 0, count: 0 };

pub extern "C" fn check(_: u32, _: *const u8, _: usize) -> Answer {
    ANSWER
}

pub extern "C" fn replacement(_: u32, _: u8, _: usize, _: *const u8, _: usize) -> Answer {
    ANSWER
}

pub extern "C" fn literal(_: u8, _: u32, _: u8, _: usize, _: u32, _: *const u8, _: usize) -> Literal {
    Literal { number: 0, first: 0, second: 0, skipped: 0, spanned: 0, start: 0, end: 0, offset: 0, count: 0 }
}

pub extern "C" fn decode(_: u32, _: *const u8, _: usize, _: *mut u8, _: usize) -> Decoded {
    Decoded { number: 0, offset: 0, written: 0 }
}

pub extern "C" fn gsub(
    _: u32,
    _: *const u8,
    _: usize,
    _: *const u8,
    _: usize,
    _: *const u8,
    _: usize,
    _: u32,
    _: *mut u8,
    _: usize,
) -> Trial {
    Trial { number: 0, kind: 0, written: 0, replacements: 0, steps: 0 }
}
