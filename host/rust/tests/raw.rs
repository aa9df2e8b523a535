//! The C functions with plain numbers: what no enum can say, null pointers, and the header's own numbers.

use std::ptr::{null, null_mut};

use luck::raw::{self, Answer, Decoded, Literal, Trial};
use luck::{Kind, Version};

const NO_VERSIONS: [u32; 4] = [0, 7, 257, u32::MAX];

fn refused(number: u32) -> Answer {
    Answer { number, first: 0, second: 0, offset: 0, count: 0 }
}

fn literal(number: u32) -> Literal {
    Literal { number, first: 0, second: 0, skipped: false, spanned: false, start: 0, end: 0, offset: 0, count: 0 }
}

/// The version comes before a text that is not UTF-8.
#[test]
fn no_version() {
    let text = b"%\xFF";
    let (pointer, len) = (text.as_ptr(), text.len());
    let mut output = [0xAA; 4];
    for version in NO_VERSIONS {
        // SAFETY: the pointers and counts are those of live arrays, and the output is apart from the text.
        unsafe {
            for check in [
                raw::luck_check_format,
                raw::luck_check_pattern,
                raw::luck_check_pack,
                raw::luck_check_packsize,
                raw::luck_check_date,
            ] {
                assert_eq!(check(version, pointer, len), refused(raw::UNKNOWN_VERSION));
            }
            for known in [false, true] {
                let answer = raw::luck_check_replacement(version, known, 0, pointer, len);
                assert_eq!(answer, refused(raw::UNKNOWN_VERSION));
            }
            for kind in *b"FPKSGD" {
                let answer = raw::luck_check_literal(kind, version, false, 0, 100, pointer, len);
                assert_eq!(answer, literal(raw::UNKNOWN_VERSION));
            }
            let decoded = raw::luck_decode_string(version, pointer, len, output.as_mut_ptr(), 4);
            assert_eq!(decoded, Decoded { number: raw::UNKNOWN_VERSION, offset: 0, written: 0 });
            let trial = raw::luck_gsub_trial(version, pointer, 0, pointer, 1, pointer, len, 100, output.as_mut_ptr(), 4);
            assert_eq!(trial, Trial { number: raw::UNKNOWN_VERSION, kind: 0, written: 0, replacements: 0, steps: 0 });
        }
        assert_eq!(output, [0xAA; 4]);
    }
}

/// The letter comes before the version and the text.
#[test]
fn no_kind() {
    let text = b"'\xFF'";
    for kind in (0..=u8::MAX).filter(|kind| !b"FPKSGD".contains(kind)) {
        for version in [1, 6, 7] {
            // SAFETY: the pointer and the count are those of a live array.
            let answer = unsafe { raw::luck_check_literal(kind, version, true, 1, 100, text.as_ptr(), text.len()) };
            assert_eq!(answer, literal(raw::UNKNOWN_KIND), "{kind}");
        }
    }
}

#[test]
fn null_pointers() {
    // SAFETY: a pointer with a count of 0 is not read.
    unsafe {
        for check in [
            raw::luck_check_format,
            raw::luck_check_pattern,
            raw::luck_check_pack,
            raw::luck_check_packsize,
            raw::luck_check_date,
        ] {
            assert_eq!(check(4, null(), 0).result(), Ok(0));
        }
        assert_eq!(raw::luck_check_replacement(4, true, 0, null(), 0).result(), Ok(0));
        let skipped = raw::luck_check_literal(b'F', 4, false, 0, 100, null(), 0);
        assert_eq!(skipped, Literal { skipped: true, ..literal(0) });
        let decoded = raw::luck_decode_string(4, null(), 0, null_mut(), 0);
        assert_eq!(decoded, Decoded { number: raw::UNDECODABLE, offset: 0, written: 0 });
        let trial = raw::luck_gsub_trial(4, null(), 0, null(), 0, null(), 0, 100, null_mut(), 0);
        assert_eq!(trial, Trial { number: 0, kind: 0, written: 0, replacements: 1, steps: 2 });
    }
}

/// A count of captures that is not known is not looked at.
#[test]
fn not_known() {
    for (known, captures, number) in [(false, 1, 0), (false, usize::MAX, 0), (true, 1, raw::CAPTURE_INDEX), (true, 2, 0)] {
        // SAFETY: the pointers and counts are those of live arrays.
        let (body, text) = unsafe {
            (
                raw::luck_check_replacement(2, known, captures, b"%2".as_ptr(), 2),
                raw::luck_check_literal(b'G', 2, known, captures, 0, b"'%2'".as_ptr(), 4),
            )
        };
        assert_eq!((body.number, text.number), (number, number));
    }
}

/// Every field of an answer, each with a value of its own.
#[test]
fn fields() {
    let text = b"'ab%#d'";
    // SAFETY: the pointer and the count are those of a live array.
    let answer = unsafe { raw::luck_check_literal(b'F', 4, false, 0, 100, text.as_ptr(), text.len()) };
    let fault = Literal { first: '#'.into(), second: 'd'.into(), spanned: true, start: 104, end: 105, offset: 3, ..literal(6) };
    assert_eq!(answer, fault);
}

/// The numbers of `include/luck.h`, by their names, are those of this crate.
#[test]
fn numbers_of_the_header() {
    let here = [
        ("ACCEPTED", raw::ACCEPTED),
        ("TRUNCATED_SPECIFIER", raw::TRUNCATED_SPECIFIER),
        ("UNKNOWN_SPECIFIER", raw::UNKNOWN_SPECIFIER),
        ("BAD_FLAG", raw::BAD_FLAG),
        ("BAD_WIDTH", raw::BAD_WIDTH),
        ("BAD_PRECISION", raw::BAD_PRECISION),
        ("BAD_MODIFIER", raw::BAD_MODIFIER),
        ("LONG_SPECIFIER", raw::LONG_SPECIFIER),
        ("UNTERMINATED_SET", raw::UNTERMINATED_SET),
        ("EMPTY_SET", raw::EMPTY_SET),
        ("BAD_ESCAPE", raw::BAD_ESCAPE),
        ("UNMATCHED_CAPTURE", raw::UNMATCHED_CAPTURE),
        ("TOO_MANY_CAPTURES", raw::TOO_MANY_CAPTURES),
        ("BAD_BACK_REFERENCE", raw::BAD_BACK_REFERENCE),
        ("INVALID_PACK_OPTION", raw::INVALID_PACK_OPTION),
        ("TRUNCATED_PACK_SIZE", raw::TRUNCATED_PACK_SIZE),
        ("PACK_SIZE_LIMITS", raw::PACK_SIZE_LIMITS),
        ("BAD_PACK_ALIGNMENT", raw::BAD_PACK_ALIGNMENT),
        ("VARIABLE_LENGTH", raw::VARIABLE_LENGTH),
        ("LONE_PERCENT", raw::LONE_PERCENT),
        ("BAD_REPLACEMENT", raw::BAD_REPLACEMENT),
        ("CAPTURE_INDEX", raw::CAPTURE_INDEX),
        ("BAD_DATE_SPECIFIER", raw::BAD_DATE_SPECIFIER),
        ("NOT_UTF8", raw::NOT_UTF8),
        ("UNDECODABLE", raw::UNDECODABLE),
        ("UNKNOWN_VERSION", raw::UNKNOWN_VERSION),
        ("OUTPUT_TOO_SHORT", raw::OUTPUT_TOO_SHORT),
        ("STEPS_SPENT", raw::STEPS_SPENT),
        ("TOO_DEEP", raw::TOO_DEEP),
        ("RAISED", raw::RAISED),
        ("UNKNOWN_KIND", raw::UNKNOWN_KIND),
        ("REVERSED_RANGE", raw::REVERSED_RANGE),
    ];
    assert_eq!(numbers_after("/* `number`"), here.map(|(name, number)| (name.to_owned(), number)));
}

const HEADER: &str = include_str!("../../../include/luck.h");

/// The names, without `LUCK_`, and numbers or letters of the enum of `include/luck.h` that follows this comment.
fn numbers_after(comment: &str) -> Vec<(String, u32)> {
    let (_, rest) = HEADER.split_once(comment).unwrap();
    let (body, _) = rest.split_once("};").unwrap();
    body.lines()
        .filter_map(|line| line.trim().strip_prefix("LUCK_")?.split([',', '/']).next()?.split_once(" = "))
        .map(|(name, value)| {
            let letter = value.trim().trim_matches('\'').as_bytes();
            (name.to_owned(), value.trim().parse().unwrap_or_else(|_| u32::from(letter[0])))
        })
        .collect()
}

/// The versions and kinds of the header are those of this crate, in the same order.
#[test]
fn names_of_the_header() {
    let versions = numbers_after("/* `version`");
    assert_eq!(versions.iter().map(|(_, number)| *number).collect::<Vec<_>>(), Version::ALL.map(Version::number));
    for ((name, _), version) in versions.iter().zip(Version::ALL) {
        assert_eq!(name.replace('_', ""), format!("{version:?}").to_uppercase());
    }
    let kinds = numbers_after("/* `kind`");
    assert_eq!(kinds.iter().map(|(_, letter)| *letter).collect::<Vec<_>>(), Kind::ALL.map(|kind| kind.letter().into()));
    for ((name, _), kind) in kinds.iter().zip(Kind::ALL) {
        assert_eq!(name.strip_prefix("KIND_"), Some(kind.to_string().to_uppercase().as_str()));
    }
}

/// The crate has the version of the header.
#[test]
fn version_of_the_header() {
    assert!(HEADER.contains(concat!("#define LUCK_VERSION \"", env!("CARGO_PKG_VERSION"), "\"\n")));
}
