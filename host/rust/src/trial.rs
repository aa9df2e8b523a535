//! A trial of gsub.

use std::error::Error;
use std::fmt;

use crate::raw;
use crate::version::Version;

/// What a trial of gsub gave.
#[derive(Debug, Clone, Copy, PartialEq, Eq, Hash)]
#[must_use]
#[non_exhaustive]
pub struct Trial {
    /// How it ended.
    pub ending: Ending,
    /// The bytes that were written to the front of the output, however it ended.
    pub written: usize,
    /// The matches that were replaced, the one at which it stopped included.
    pub replacements: usize,
    /// The steps taken, at most the budget.
    pub steps: u32,
}

/// How a trial ended.
#[derive(Debug, Clone, Copy, PartialEq, Eq, Hash)]
#[non_exhaustive]
pub enum Ending {
    /// The whole subject was read.
    Done,
    /// 26: a byte was due and the output was full.
    OutputFull,
    /// 27: a step was due and the budget was spent.
    StepsSpent,
    /// 28: the 201st level, which real Lua raises as "pattern too complex" (5.1 has no such limit).
    TooDeep,
    /// 29: Lua raises an error.
    Raised(RaisedKind),
    /// Any other number or kind. The library gives none to [`gsub_trial`]; 25 comes from [`crate::raw`].
    Other {
        /// The number.
        number: u32,
        /// The answer's kind.
        kind: u32,
    },
}

/// The error that Lua raises, by its message.
#[derive(Debug, Clone, Copy, PartialEq, Eq, Hash)]
#[non_exhaustive]
pub enum RaisedKind {
    /// 1: the pattern ends with `%`.
    EndsWithPercent,
    /// 2: missing `]`.
    MissingBracket,
    /// 3: missing `[` after `%f`.
    MissingSet,
    /// 4: missing arguments to `%b`.
    MissingArguments,
    /// 5: invalid pattern capture, a `)` without its `(`.
    InvalidCapture,
    /// 6: unfinished capture, which the replacement would write.
    UnfinishedCapture,
    /// 7: invalid capture index in the pattern.
    PatternIndex,
    /// 8: too many captures.
    TooManyCaptures,
    /// 9: invalid use of `%` in the replacement.
    InvalidPercent,
    /// 10: invalid capture index in the replacement.
    ReplacementIndex,
}

impl RaisedKind {
    /// Every kind, by its number from 1 on.
    pub const ALL: [Self; 10] = [
        Self::EndsWithPercent,
        Self::MissingBracket,
        Self::MissingSet,
        Self::MissingArguments,
        Self::InvalidCapture,
        Self::UnfinishedCapture,
        Self::PatternIndex,
        Self::TooManyCaptures,
        Self::InvalidPercent,
        Self::ReplacementIndex,
    ];

    /// The kind of a number; none for a number other than 1 to 10.
    #[must_use]
    pub fn from_number(number: u32) -> Option<Self> {
        Self::ALL.into_iter().find(|kind| kind.number() == number)
    }

    /// The number of the kind, from 1 to 10.
    #[must_use]
    pub const fn number(self) -> u32 {
        match self {
            Self::EndsWithPercent => 1,
            Self::MissingBracket => 2,
            Self::MissingSet => 3,
            Self::MissingArguments => 4,
            Self::InvalidCapture => 5,
            Self::UnfinishedCapture => 6,
            Self::PatternIndex => 7,
            Self::TooManyCaptures => 8,
            Self::InvalidPercent => 9,
            Self::ReplacementIndex => 10,
        }
    }
}

impl fmt::Display for RaisedKind {
    fn fmt(&self, f: &mut fmt::Formatter<'_>) -> fmt::Result {
        f.write_str(match self {
            Self::EndsWithPercent => "pattern ends with '%'",
            Self::MissingBracket => "missing ']'",
            Self::MissingSet => "missing '[' after '%f'",
            Self::MissingArguments => "missing arguments to '%b'",
            Self::InvalidCapture => "invalid pattern capture",
            Self::UnfinishedCapture => "unfinished capture",
            Self::PatternIndex => "invalid capture index in the pattern",
            Self::TooManyCaptures => "too many captures",
            Self::InvalidPercent => "invalid use of '%' in the replacement",
            Self::ReplacementIndex => "invalid capture index in the replacement",
        })
    }
}

impl Error for RaisedKind {}

impl Ending {
    fn new(number: u32, kind: u32) -> Self {
        match (number, RaisedKind::from_number(kind)) {
            (raw::ACCEPTED, _) => Self::Done,
            (raw::OUTPUT_TOO_SHORT, _) => Self::OutputFull,
            (raw::STEPS_SPENT, _) => Self::StepsSpent,
            (raw::TOO_DEEP, _) => Self::TooDeep,
            (raw::RAISED, Some(kind)) => Self::Raised(kind),
            _ => Self::Other { number, kind },
        }
    }
}

impl fmt::Display for Ending {
    fn fmt(&self, f: &mut fmt::Formatter<'_>) -> fmt::Result {
        match self {
            Self::Done => f.write_str("done"),
            Self::OutputFull => f.write_str("the output is full"),
            Self::StepsSpent => f.write_str("the budget of steps is spent"),
            Self::TooDeep => f.write_str("too deep: real Lua raises \"pattern too complex\""),
            Self::Raised(kind) => kind.fmt(f),
            Self::Other { number, kind } => write!(f, "refusal {number}, kind {kind}"),
        }
    }
}

impl From<raw::Trial> for Trial {
    fn from(answer: raw::Trial) -> Self {
        Self {
            ending: Ending::new(answer.number, answer.kind),
            written: answer.written,
            replacements: answer.replacements,
            steps: answer.steps,
        }
    }
}

/// Tries `string.gsub(subject, pattern, replacement)` within a budget of steps, and writes the result to the front of `output`; the rest
/// of the output is as it was. The texts are not checked first.
///
/// It goes by the rules of 5.4 in every version; but for replacements that only 5.1 takes, its answer does not depend on the version. Lua 5.1
/// and 5.2 themselves also replace an empty match right after a match, and in 5.1 `%g` is the letter g (`docs/DIFFERENCES.md`).
///
/// The budget bounds the steps and not the time: a step may read the whole pattern or the whole subject.
///
/// It takes up to 140 KiB of stack: give a thread that calls it 512 KiB or more (`std::thread::Builder::stack_size`; Rust's own default, 2 MiB,
/// is enough), or the process dies.
///
/// ```
/// use luck::{Ending, Version};
///
/// let mut output = [0; 64];
/// let trial = luck::gsub_trial(Version::Lua54, b"%d+", b"<%0>", b"trip 17", 1000, &mut output);
/// assert_eq!(trial.ending, Ending::Done);
/// assert_eq!(trial.replacements, 1);
/// assert_eq!(&output[..trial.written], b"trip <17>");
/// ```
pub fn gsub_trial(version: Version, pattern: &[u8], replacement: &[u8], subject: &[u8], budget: u32, output: &mut [u8]) -> Trial {
    // SAFETY: the slices are live for the call, the output is apart from the others, and the function stays inside them.
    let answer = unsafe {
        raw::luck_gsub_trial(
            version.number(),
            pattern.as_ptr(),
            pattern.len(),
            replacement.as_ptr(),
            replacement.len(),
            subject.as_ptr(),
            subject.len(),
            budget,
            output.as_mut_ptr(),
            output.len(),
        )
    };
    answer.into()
}
