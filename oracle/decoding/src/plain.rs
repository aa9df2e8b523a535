//! The decoding of a literal, plainly, from documents 01 (rules by version, refusals 23 to 26), 02 (F-4) and 03 (points 5
//! and 12, F-4), and from luck's string.rs where these say nothing: what the library is compared with. It shares no code
//! with the library, nor with luck.

/// What a version's `\u{}` may have.
const LAST_CHARACTER: u32 = 0x10_FFFF;
const LAST_CODE_POINT: u32 = 0x7FFF_FFFF;
const SURROGATES: std::ops::RangeInclusive<u32> = 0xD800..=0xDFFF;
const MOST_DIGITS_OF_LUAU: usize = 16;

/// RFC 2279: the last code point of one to six bytes, and the ones at the front of their first byte.
const ENCODINGS: [(u32, u8); 6] =
    [(0x7F, 0x00), (0x7FF, 0xC0), (0xFFFF, 0xE0), (0x1F_FFFF, 0xF0), (0x3FF_FFFF, 0xF8), (LAST_CODE_POINT, 0xFC)];

#[derive(Debug, Clone, Copy, PartialEq, Eq)]
pub struct Refusal {
    pub number: u32,
    pub offset: usize,
}

const UNDECODABLE: Refusal = Refusal { number: 24, offset: 0 };
const NO_VERSION: Refusal = Refusal { number: 25, offset: 0 };
const SHORT_OUTPUT: Refusal = Refusal { number: 26, offset: 0 };

/// The rules of document 01's table that decoding reads.
#[derive(Clone, Copy)]
struct Rules {
    strict_escapes: bool,
    x_and_z: bool,
    u: bool,
    lf_cr_is_one_break: bool,
    /// F-4: each value up to 7FFFFFFF, and not the characters only.
    every_code_point: bool,
    few_digits: bool,
}

impl Rules {
    fn of(version: u32) -> Option<Self> {
        (1..=6).contains(&version).then_some(Self {
            strict_escapes: (2..=5).contains(&version),
            x_and_z: version >= 2,
            u: version >= 3,
            lf_cr_is_one_break: version <= 5,
            every_code_point: version == 4 || version == 5,
            few_digits: version == 6,
        })
    }

    /// Bytes of the line break that the text starts with, 0 for none. A lone CR is none in Luau.
    fn line_break(self, text: &[u8]) -> usize {
        match text {
            [b'\r', b'\n', ..] => 2,
            [b'\n', b'\r', ..] if self.lf_cr_is_one_break => 2,
            [b'\n', ..] => 1,
            [b'\r', ..] if self.lf_cr_is_one_break => 1,
            _ => 0,
        }
    }

    fn short(self, body: &[u8]) -> Option<Vec<u8>> {
        let mut value = Vec::new();
        let mut rest = body;
        while let [first, others @ ..] = rest {
            rest = others;
            if *first == b'\\' {
                self.escape(&mut rest, &mut value)?;
            } else {
                value.push(*first);
            }
        }
        Some(value)
    }

    /// The escape whose backslash stood before `rest`: takes its bytes from there.
    fn escape(self, rest: &mut &[u8], value: &mut Vec<u8>) -> Option<()> {
        let whole = *rest;
        let (&escaped, others) = whole.split_first()?;
        *rest = others;
        match escaped {
            b'a' => value.push(7),
            b'b' => value.push(8),
            b't' => value.push(9),
            b'n' => value.push(10),
            b'v' => value.push(11),
            b'f' => value.push(12),
            b'r' => value.push(13),
            b'\\' | b'"' | b'\'' => value.push(escaped),
            b'\n' | b'\r' => {
                // Behind a backslash a lone CR is a break in Luau too.
                *rest = &whole[self.line_break(whole).max(1)..];
                value.push(b'\n');
            }
            b'0'..=b'9' => {
                *rest = whole;
                let digits = taken(rest, 3, u8::is_ascii_digit);
                value.push(str::from_utf8(digits).ok()?.parse().ok()?);
            }
            b'z' if self.x_and_z => {
                taken(rest, usize::MAX, |byte| matches!(byte, b' ' | b'\t'..=b'\r'));
            }
            b'x' if self.x_and_z => {
                let digits = taken(rest, 2, u8::is_ascii_hexdigit);
                if digits.len() < 2 {
                    return None;
                }
                value.push(u8::try_from(number(digits)?).ok()?);
            }
            b'u' if self.u => {
                *rest = rest.strip_prefix(b"{")?;
                let digits = taken(rest, usize::MAX, u8::is_ascii_hexdigit);
                *rest = rest.strip_prefix(b"}")?;
                value.extend(encoded(self.code_point(digits)?));
            }
            _ if self.strict_escapes => return None,
            _ => value.push(escaped),
        }
        Some(())
    }

    fn code_point(self, digits: &[u8]) -> Option<u32> {
        if self.few_digits && digits.len() > MOST_DIGITS_OF_LUAU {
            return None;
        }
        let code = number(digits)?;
        let is_character = code <= LAST_CHARACTER && !SURROGATES.contains(&code);
        let is_taken = if self.every_code_point { code <= LAST_CODE_POINT } else { is_character };
        is_taken.then_some(code)
    }

    /// Between brackets of one level. A line break right behind the first is dropped, and each other one is an LF.
    fn long(self, text: &[u8]) -> Option<Vec<u8>> {
        let level = text.iter().skip(1).take_while(|byte| **byte == b'=').count();
        let bracket = |byte: u8| [&[byte], "=".repeat(level).as_bytes(), &[byte]].concat();
        let content = text.strip_prefix(bracket(b'[').as_slice())?.strip_suffix(bracket(b']').as_slice())?;
        let mut value = Vec::new();
        let mut place = self.line_break(content);
        while place < content.len() {
            let width = self.line_break(&content[place..]);
            value.push(if width > 0 { b'\n' } else { content[place] });
            place += width.max(1);
        }
        Some(value)
    }
}

/// The first bytes that are of a kind, so many at most, taken from the front of the text.
fn taken<'text>(text: &mut &'text [u8], most: usize, is_one: impl Fn(&u8) -> bool) -> &'text [u8] {
    let count = text.iter().take(most).take_while(|byte| is_one(byte)).count();
    let (front, rest) = text.split_at(count);
    *text = rest;
    front
}

/// None where there are no digits, or where the number has more than 32 bits and so is no code point; zeros in front don't count.
fn number(digits: &[u8]) -> Option<u32> {
    if digits.is_empty() {
        return None;
    }
    digits.iter().try_fold(0u32, |number, digit| number.checked_mul(16)?.checked_add(char::from(*digit).to_digit(16)?))
}

/// The bytes of a code point up to 7FFFFFFF: its highest bits in the first one, then six in each.
pub fn encoded(code: u32) -> Vec<u8> {
    let following = ENCODINGS.iter().position(|(last, _)| code <= *last).expect("a code point up to 7FFFFFFF");
    let highest = u8::try_from(code >> (6 * following)).expect("what the following bytes leave");
    let six = |place: usize| u8::try_from(code >> (6 * place) & 0x3F).expect("six bits");
    let first = ENCODINGS[following].1 | highest;
    [first].into_iter().chain((0..following).rev().map(|place| 0x80 | six(place))).collect()
}

/// A literal's value, before the output's room is looked at: the refusals in their order, 25, 23, 24.
pub fn value(version: u32, text: &[u8]) -> Result<Vec<u8>, Refusal> {
    let rules = Rules::of(version).ok_or(NO_VERSION)?;
    str::from_utf8(text).map_err(|error| Refusal { number: 23, offset: error.valid_up_to() })?;
    let value = match text {
        [b'[', ..] => rules.long(text),
        [quote @ (b'"' | b'\''), body @ .., last] if last == quote => rules.short(body),
        _ => None,
    };
    value.ok_or(UNDECODABLE)
}

/// The bytes that an output of this room gets, or the refusal; 26 comes last.
pub fn written(value: &Result<Vec<u8>, Refusal>, room: usize) -> Result<&[u8], Refusal> {
    match value {
        Ok(bytes) if bytes.len() > room => Err(SHORT_OUTPUT),
        Ok(bytes) => Ok(bytes),
        Err(refusal) => Err(*refusal),
    }
}
