//! The structs and functions of `include/luck.h`, and the functions' types.

/// What a check of a body answers.
#[repr(C)]
#[derive(Debug, Clone, Copy, PartialEq, Eq)]
pub struct Answer {
    pub number: u32,
    pub first: u32,
    pub second: u32,
    pub offset: usize,
    pub count: usize,
}

/// What the check of a literal answers.
#[repr(C)]
#[derive(Debug, Clone, Copy, PartialEq, Eq)]
pub struct Literal {
    pub number: u32,
    pub first: u32,
    pub second: u32,
    pub skipped: u8,
    pub spanned: u8,
    pub start: u32,
    pub end: u32,
    pub offset: usize,
    pub count: usize,
}

/// What decoding answers.
#[repr(C)]
#[derive(Debug, Clone, Copy, PartialEq, Eq)]
pub struct Decoded {
    pub number: u32,
    pub offset: usize,
    pub written: usize,
}

/// What a trial of gsub answers.
#[repr(C)]
#[derive(Debug, Clone, Copy, PartialEq, Eq)]
pub struct Trial {
    pub number: u32,
    pub kind: u32,
    pub written: usize,
    pub replacements: usize,
    pub steps: u32,
}

pub type Check = unsafe extern "C" fn(u32, *const u8, usize) -> Answer;
pub type Replacement = unsafe extern "C" fn(u32, u8, usize, *const u8, usize) -> Answer;
pub type Literals = unsafe extern "C" fn(u8, u32, u8, usize, u32, *const u8, usize) -> Literal;
pub type Decode = unsafe extern "C" fn(u32, *const u8, usize, *mut u8, usize) -> Decoded;
pub type Gsub = unsafe extern "C" fn(u32, *const u8, usize, *const u8, usize, *const u8, usize, u32, *mut u8, usize) -> Trial;

unsafe extern "C" {
    pub fn luck_check_format(version: u32, body: *const u8, len: usize) -> Answer;
    pub fn luck_check_pattern(version: u32, body: *const u8, len: usize) -> Answer;
    pub fn luck_check_pack(version: u32, body: *const u8, len: usize) -> Answer;
    pub fn luck_check_packsize(version: u32, body: *const u8, len: usize) -> Answer;
    pub fn luck_check_date(version: u32, body: *const u8, len: usize) -> Answer;
    pub fn luck_check_replacement(version: u32, known: u8, captures: usize, body: *const u8, len: usize) -> Answer;
    pub fn luck_check_literal(
        kind: u8,
        version: u32,
        known: u8,
        captures: usize,
        start: u32,
        text: *const u8,
        len: usize,
    ) -> Literal;
    pub fn luck_decode_string(version: u32, text: *const u8, len: usize, output: *mut u8, room: usize) -> Decoded;
    pub fn luck_gsub_trial(
        version: u32,
        pattern: *const u8,
        pattern_len: usize,
        replacement: *const u8,
        replacement_len: usize,
        subject: *const u8,
        subject_len: usize,
        budget: u32,
        output: *mut u8,
        room: usize,
    ) -> Trial;
}
