//! The check of a pattern with F-10, plainly, from documents 01 (the table of refusals, "Pattern, then replacement", "The
//! trial" for the elements of a set, and the check of a literal), 02 (F-10) and 03 (points 8 to 11, F-10), and from luck's
//! format_pattern.rs and format_string.rs where these say nothing: what the library is compared with. It shares no code with
//! the library, nor with luck.

use std::iter;

const MOST_CAPTURES: usize = 32;
pub const REVERSED: u32 = 39;

#[derive(Debug, Clone, Copy, PartialEq, Eq)]
pub struct Refusal {
    pub number: u32,
    pub offset: usize,
    /// The character that it carries, 0 for none.
    pub character: u32,
}

const NO_VERSION: Refusal = refusal(25, 0);

const fn refusal(number: u32, offset: usize) -> Refusal {
    Refusal { number, offset, character: 0 }
}

/// Whether 39 is tested for.
#[derive(Debug, Clone, Copy, PartialEq, Eq)]
pub enum Ranges {
    Tested,
    Untested,
}

/// An element of a set, as the matching reads it.
#[derive(Debug, Clone, Copy, PartialEq, Eq)]
pub enum Element {
    Byte(u8),
    /// The byte behind a `%`.
    Escaped(u8),
    Range(u8, u8),
}

impl Element {
    pub const fn is_reversed(self) -> bool {
        matches!(self, Self::Range(left, right) if left > right)
    }
}

/// A set with its closing `]`, which is found first; its elements are read afterwards, and otherwise.
#[derive(Debug, Clone, Copy)]
pub struct Set<'pattern> {
    pattern: &'pattern [u8],
    pub is_complement: bool,
    /// The place of its first member.
    first: usize,
    /// The place of the closing `]`.
    close: usize,
}

impl<'pattern> Set<'pattern> {
    /// The set whose `[` stands at `open`. Its first member may be a `]`.
    pub fn read(pattern: &'pattern [u8], open: usize) -> Result<Self, Refusal> {
        let is_complement = pattern.get(open + 1) == Some(&b'^');
        let first = open + 1 + usize::from(is_complement);
        if pattern[first..] == *b"]" {
            return Err(refusal(9, open));
        }
        let mut close = behind_member(pattern, open, first)?;
        while pattern.get(close) != Some(&b']') {
            close = behind_member(pattern, open, close)?;
        }
        Ok(Self { pattern, is_complement, first, close })
    }

    /// The place behind the closing `]`.
    pub const fn end(&self) -> usize {
        self.close + 1
    }

    /// The elements with their places, from the front.
    pub fn elements(self) -> impl Iterator<Item = (usize, Element)> {
        let mut next = self.first;
        iter::from_fn(move || {
            let place = next;
            let (element, width) = self.element(place)?;
            next += width;
            Some((place, element))
        })
    }

    /// The element at a place, and how many bytes it has.
    fn element(&self, place: usize) -> Option<(Element, usize)> {
        match *self.pattern[..self.close].get(place..)? {
            [] => None,
            // Left as the last byte, as in `[!-%%]`: it means the `]`.
            [b'%'] => Some((Element::Escaped(b']'), 2)),
            [b'%', escaped, ..] => Some((Element::Escaped(escaped), 2)),
            [left, b'-', right, ..] => Some((Element::Range(left, right), 3)),
            [byte, ..] => Some((Element::Byte(byte), 1)),
        }
    }

    /// The place of the first range whose left byte is greater than its right one.
    fn reversed(self) -> Option<usize> {
        self.elements().find(|(_, element)| element.is_reversed()).map(|(place, _)| place)
    }
}

/// The place behind a member, as the closing `]` is looked for: `%` takes one more byte wherever it stands.
fn behind_member(pattern: &[u8], open: usize, place: usize) -> Result<usize, Refusal> {
    match pattern[place..] {
        [] => Err(refusal(8, open)),
        [b'%'] => Err(refusal(1, place)),
        [b'%', _, ..] => Ok(place + 2),
        _ => Ok(place + 1),
    }
}

/// The walk through a pattern, item by item.
struct Walk<'pattern> {
    pattern: &'pattern [u8],
    ranges: Ranges,
    place: usize,
    /// Captures seen.
    captures: usize,
    /// Those of them that are open, the latest last; the first capture is 1.
    open: Vec<usize>,
}

impl<'pattern> Walk<'pattern> {
    const fn new(pattern: &'pattern [u8], ranges: Ranges) -> Self {
        Self { pattern, ranges, place: 0, captures: 0, open: Vec::new() }
    }

    /// To the end, or to the first fault.
    fn run(&mut self) -> Result<usize, Refusal> {
        while let Some(&byte) = self.pattern.get(self.place) {
            match byte {
                b'%' => self.escape()?,
                b'[' => self.set()?,
                b'(' => self.open()?,
                b')' => self.close()?,
                _ => self.place += 1,
            }
        }
        if self.open.is_empty() { Ok(self.captures) } else { Err(refusal(11, self.place)) }
    }

    fn escape(&mut self) -> Result<(), Refusal> {
        match self.pattern[self.place + 1..] {
            [] => return Err(refusal(1, self.place)),
            [digit @ b'0'..=b'9', ..] => self.back_reference(usize::from(digit - b'0'))?,
            [b'b', _, _, ..] => self.place += 4,
            [b'b', ..] => return Err(refusal(1, self.place)),
            [b'f', b'[', ..] => {
                self.place += 2;
                self.set()?;
            }
            [b'f', ..] => return Err(Refusal { character: 'f'.into(), ..refusal(10, self.place) }),
            _ => self.place += 2,
        }
        Ok(())
    }

    fn back_reference(&mut self, capture: usize) -> Result<(), Refusal> {
        let is_seen = (1..=self.captures).contains(&capture);
        if !is_seen || self.open.contains(&capture) {
            return Err(refusal(13, self.place + 1));
        }
        self.place += 2;
        Ok(())
    }

    /// The ranges are tested once the set has closed, and before anything behind it.
    fn set(&mut self) -> Result<(), Refusal> {
        let set = Set::read(self.pattern, self.place)?;
        self.place = set.end();
        match set.reversed() {
            Some(left) if self.ranges == Ranges::Tested => Err(refusal(REVERSED, left)),
            _ => Ok(()),
        }
    }

    fn open(&mut self) -> Result<(), Refusal> {
        if self.captures == MOST_CAPTURES {
            return Err(refusal(12, self.place));
        }
        self.captures += 1;
        self.open.push(self.captures);
        self.place += 1;
        Ok(())
    }

    fn close(&mut self) -> Result<(), Refusal> {
        self.open.pop().ok_or(refusal(11, self.place))?;
        self.place += 1;
        Ok(())
    }
}

/// 25, then 23.
fn readable(version: u32, text: &[u8]) -> Result<(), Refusal> {
    if !(1..=6).contains(&version) {
        return Err(NO_VERSION);
    }
    str::from_utf8(text).map(|_| ()).map_err(|error| refusal(23, error.valid_up_to()))
}

/// The number of captures, or the refusal.
pub fn pattern(version: u32, body: &[u8], ranges: Ranges) -> Result<usize, Refusal> {
    readable(version, body)?;
    Walk::new(body, ranges).run()
}

/// A range that a pattern is refused for.
#[derive(Debug, Clone, Copy, PartialEq, Eq)]
pub struct Reversed {
    /// The place of its left byte.
    pub left: usize,
    /// The place behind its set.
    pub behind_set: usize,
}

/// Of a pattern that is UTF-8: where it is refused with 39.
pub fn reversed(body: &[u8]) -> Option<Reversed> {
    let mut walk = Walk::new(body, Ranges::Tested);
    match walk.run() {
        Err(Refusal { number: REVERSED, offset, .. }) => Some(Reversed { left: offset, behind_set: walk.place }),
        _ => None,
    }
}

/// What the check of a literal with the letter P answers.
#[derive(Debug, Clone, Copy, PartialEq, Eq)]
pub enum Checked {
    Skipped,
    Accepted(usize),
    /// 25 or 23.
    Unspanned(Refusal),
    Spanned(Refusal, Span),
}

#[derive(Debug, Clone, Copy, PartialEq, Eq)]
pub struct Span {
    pub start: u32,
    pub end: u32,
}

/// Of a literal that starts at `start`. In a body with a backslash 39 is not tested for.
pub fn literal(version: u32, start: u32, text: &[u8]) -> Checked {
    if let Err(refusal) = readable(version, text) {
        return Checked::Unspanned(refusal);
    }
    let Some(body) = checked_body(text) else { return Checked::Skipped };
    match Walk::new(body, ranges_of(body)).run() {
        Ok(count) => Checked::Accepted(count),
        Err(refusal) => Checked::Spanned(refusal, span(start, body, refusal.offset)),
    }
}

/// Whether 39 is tested for in a literal's body.
pub fn ranges_of(body: &[u8]) -> Ranges {
    if body.contains(&b'\\') { Ranges::Untested } else { Ranges::Tested }
}

/// The body of a short string without an escape `\0` to `\9`, `\x`, `\u`; other texts are skipped.
pub fn checked_body(text: &[u8]) -> Option<&[u8]> {
    let ([b'"', body @ .., b'"'] | [b'\'', body @ .., b'\'']) = text else { return None };
    let mut rest = body;
    while let [byte, behind @ ..] = rest {
        rest = match behind {
            [b'0'..=b'9' | b'x' | b'u', ..] if *byte == b'\\' => return None,
            [_, behind @ ..] if *byte == b'\\' => behind,
            _ => behind,
        };
    }
    Some(body)
}

/// From the literal's start + 1 + offset, one character wide; one byte at the end and inside a character.
fn span(start: u32, body: &[u8], offset: usize) -> Span {
    let width = match body.get(offset) {
        Some(0xC0..=0xDF) => 2,
        Some(0xE0..=0xEF) => 3,
        Some(0xF0..) => 4,
        _ => 1,
    };
    let place = |offset: usize| start.saturating_add(1).saturating_add(u32::try_from(offset).unwrap_or(u32::MAX));
    Span { start: place(offset), end: place(offset + width) }
}
