//! Every refusal of a check at its smallest input of `docs/REFUSALS.md`: its number, offset, characters and message.

use luck::Kind::{Date, Format, Pack, Packsize, Pattern, Replacement};
use luck::{Kind, Refusal, Version, raw};

struct Row {
    kind: Kind,
    version: u32,
    body: &'static [u8],
    number: u32,
    refusal: Refusal,
    message: &'static str,
}

const fn row(kind: Kind, version: u32, body: &'static [u8], number: u32, refusal: Refusal, message: &'static str) -> Row {
    Row { kind, version, body, number, refusal, message }
}

/// A replacement's pattern has one capture.
const CAPTURES: usize = 1;

const ROWS: [Row; 29] = [
    row(Format, 1, b"%", 1, Refusal::TruncatedSpecifier { offset: 0 }, "truncated specifier at offset 0"),
    row(Format, 1, b"%y", 2, Refusal::UnknownSpecifier { offset: 1, character: 'y' }, "unknown specifier `%y` at offset 1"),
    row(Format, 1, b"%------d", 3, Refusal::BadFlag { offset: 6, character: '-' }, "too many flags at `-` at offset 6"),
    row(Format, 1, b"%100d", 4, Refusal::BadWidth { offset: 1 }, "width too long at offset 1"),
    row(Format, 1, b"%.100d", 5, Refusal::BadPrecision { offset: 2 }, "precision too long at offset 2"),
    row(
        Format,
        4,
        b"%#d",
        6,
        Refusal::BadModifier { offset: 1, modifier: '#', conversion: 'd' },
        "`%d` can't take `#` at offset 1",
    ),
    row(Format, 4, b"%000000000000000000000d", 7, Refusal::LongSpecifier { offset: 1 }, "specifier too long at offset 1"),
    row(Pattern, 1, b"%", 1, Refusal::TruncatedSpecifier { offset: 0 }, "truncated specifier at offset 0"),
    row(Pattern, 1, b"[a", 8, Refusal::UnterminatedSet { offset: 0 }, "unterminated set at offset 0"),
    row(Pattern, 1, b"[]", 9, Refusal::EmptySet { offset: 0 }, "empty set at offset 0"),
    row(Pattern, 1, b"%f", 10, Refusal::BadEscape { offset: 0, character: 'f' }, "bad escape `%f` at offset 0"),
    row(Pattern, 1, b")", 11, Refusal::UnmatchedCapture { offset: 0 }, "unmatched capture at offset 0"),
    row(Pattern, 1, b"(", 11, Refusal::UnmatchedCapture { offset: 1 }, "unmatched capture at offset 1"),
    row(Pattern, 1, &[b'('; 33], 12, Refusal::TooManyCaptures { offset: 32 }, "too many captures at offset 32"),
    row(Pattern, 1, b"%1", 13, Refusal::BadBackReference { offset: 1 }, "back reference names no closed capture at offset 1"),
    row(Pattern, 1, b"[z-a]", 39, Refusal::ReversedRange { offset: 1 }, "reversed range at offset 1"),
    row(Pack, 3, b"y", 14, Refusal::InvalidPackOption { offset: 0, character: 'y' }, "invalid pack option `y` at offset 0"),
    row(Pack, 3, b"b1", 14, Refusal::InvalidPackOption { offset: 1, character: '1' }, "invalid pack option `1` at offset 1"),
    row(Pack, 3, b"c", 15, Refusal::TruncatedPackSize { offset: 1 }, "truncated pack size at offset 1"),
    row(Pack, 3, b"i17", 16, Refusal::PackSizeOutOfLimits { offset: 1 }, "integer size out of limits at offset 1"),
    row(Pack, 3, b"!i3", 17, Refusal::BadPackAlignment { offset: 1 }, "alignment is not a power of 2 at offset 1"),
    row(
        Packsize,
        3,
        b"s",
        18,
        Refusal::VariableLengthPackOption { offset: 0, character: 's' },
        "variable-length option `s` at offset 0",
    ),
    row(Replacement, 2, b"%", 19, Refusal::LonePercent { offset: 0 }, "ends with a lone `%` at offset 0"),
    row(
        Replacement,
        2,
        b"%x",
        20,
        Refusal::BadReplacementEscape { offset: 1 },
        "unexpected character after `%`, expected a digit or `%` at offset 1",
    ),
    row(
        Replacement,
        2,
        b"%2",
        21,
        Refusal::CaptureIndexOutOfRange { offset: 1 },
        "capture index is higher than the pattern's capture count at offset 1",
    ),
    row(Date, 2, b"%", 19, Refusal::LonePercent { offset: 0 }, "ends with a lone `%` at offset 0"),
    row(
        Date,
        2,
        b"%Q",
        22,
        Refusal::BadDateSpecifier { offset: 1 },
        "unexpected character after `%`, expected a date specifier or `%` at offset 1",
    ),
    row(Format, 1, b"\xFF", 23, Refusal::NotUtf8 { offset: 0 }, "not UTF-8 at offset 0"),
    row(Pattern, 1, b"(\xFF", 23, Refusal::NotUtf8 { offset: 1 }, "not UTF-8 at offset 1"),
];

fn refusal_of(row: &Row) -> Refusal {
    let version = Version::from_number(row.version).unwrap();
    let checked = match row.kind {
        Format => luck::check_format(version, row.body).map(|_| ()),
        Pattern => luck::check_pattern(version, row.body).map(|_| ()),
        Pack => luck::check_pack(version, row.body).map(|_| ()),
        Packsize => luck::check_packsize(version, row.body).map(|_| ()),
        Replacement => luck::check_replacement(version, Some(CAPTURES), row.body),
        Date => luck::check_date(version, row.body),
    };
    checked.unwrap_err()
}

fn raw_answer(row: &Row) -> raw::Answer {
    let (version, body, len) = (row.version, row.body.as_ptr(), row.body.len());
    // SAFETY: the pointer and the count are those of a live slice.
    unsafe {
        match row.kind {
            Format => raw::luck_check_format(version, body, len),
            Pattern => raw::luck_check_pattern(version, body, len),
            Pack => raw::luck_check_pack(version, body, len),
            Packsize => raw::luck_check_packsize(version, body, len),
            Replacement => raw::luck_check_replacement(version, true, CAPTURES, body, len),
            Date => raw::luck_check_date(version, body, len),
        }
    }
}

/// The characters that a refusal carries, as the C answer has them.
fn carried(refusal: &Refusal) -> (u32, u32) {
    match *refusal {
        Refusal::UnknownSpecifier { character, .. }
        | Refusal::BadFlag { character, .. }
        | Refusal::BadEscape { character, .. }
        | Refusal::InvalidPackOption { character, .. }
        | Refusal::VariableLengthPackOption { character, .. } => (character.into(), 0),
        Refusal::BadModifier { modifier, conversion, .. } => (modifier.into(), conversion.into()),
        _ => (0, 0),
    }
}

#[test]
fn smallest_inputs() {
    for row in &ROWS {
        let refusal = refusal_of(row);
        assert_eq!(refusal, row.refusal);
        assert_eq!(refusal.number(), row.number, "{refusal:?}");
        assert_eq!(refusal.to_string(), row.message);
    }
}

/// Each message ends with the place of its fault.
#[test]
fn places() {
    for row in &ROWS {
        let place = format!(" at offset {}", row.refusal.offset());
        assert!(row.refusal.to_string().ends_with(&place), "{}", row.refusal);
    }
}

#[test]
fn plain_answers() {
    for row in &ROWS {
        let (first, second) = carried(&row.refusal);
        let wanted = raw::Answer { number: row.number, first, second, offset: row.refusal.offset(), count: 0 };
        assert_eq!(raw_answer(row), wanted, "{:?}", row.refusal);
    }
}

#[test]
fn literals() {
    for row in ROWS.iter().filter(|row| row.number != raw::NOT_UTF8) {
        let text = [b"'", row.body, b"'"].concat();
        let version = Version::from_number(row.version).unwrap();
        let error = luck::check_literal(row.kind, version, Some(CAPTURES), 10, &text).unwrap_err();
        assert_eq!(error.refusal, row.refusal);
        assert_eq!(error.to_string(), row.message);
        let start = 11 + u32::try_from(row.refusal.offset()).unwrap();
        assert_eq!(error.span, Some(luck::Span { start, end: start + 1 }), "{:?}", row.refusal);
    }
}

#[test]
fn every_number() {
    for number in (1..=raw::NOT_UTF8).chain([raw::REVERSED_RANGE]) {
        assert!(ROWS.iter().any(|row| row.number == number), "{number} has no row");
    }
}

#[test]
fn other_numbers() {
    for number in [24, 25, 26, 27, 28, 29, 30, 31, 38, 40, u32::MAX] {
        let answer = raw::Answer { number, first: 0, second: 0, offset: 5, count: 0 };
        let refusal = answer.result().unwrap_err();
        assert_eq!(refusal, Refusal::Other { number, offset: 5 });
        assert_eq!((refusal.number(), refusal.offset()), (number, 5));
        assert_eq!(refusal.to_string(), format!("refusal {number} at offset 5"));
    }
}

/// A code point that is no character, which the library does not give.
#[test]
fn no_character() {
    for first in [0xD800, 0x11_0000, u32::MAX] {
        let answer = raw::Answer { number: raw::UNKNOWN_SPECIFIER, first, second: 0, offset: 1, count: 0 };
        assert_eq!(answer.result(), Err(Refusal::UnknownSpecifier { offset: 1, character: '\u{FFFD}' }));
    }
}
