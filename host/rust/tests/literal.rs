//! The check of a literal: every kind, spans, what is skipped, and edge inputs.

use luck::LiteralCheck::{Accepted, Skipped};
use luck::Version::{Lua51, Lua52, Lua53, Lua54};
use luck::{Kind, LiteralCheck, LiteralError, Refusal, Span, Version};

fn format(start: u32, text: &[u8]) -> Result<LiteralCheck, LiteralError> {
    luck::check_literal(Kind::Format, Lua54, None, start, text)
}

fn span_of(start: u32, text: &[u8]) -> (u32, u32) {
    let Span { start, end } = format(start, text).unwrap_err().span.unwrap();
    (start, end)
}

#[test]
fn accepted() {
    let check = |kind, text| luck::check_literal(kind, Lua53, None, 100, text);
    assert_eq!(check(Kind::Format, b"'%d%s'"), Ok(Accepted(2)));
    assert_eq!(check(Kind::Pattern, b"\"(a)()\""), Ok(Accepted(2)));
    assert_eq!(check(Kind::Pack, b"'i4s'"), Ok(Accepted(2)));
    assert_eq!(check(Kind::Packsize, b"'i4'"), Ok(Accepted(1)));
    assert_eq!(check(Kind::Replacement, b"'%2'"), Ok(Accepted(0)));
    assert_eq!(check(Kind::Date, b"'%Y'"), Ok(Accepted(0)));
}

#[test]
fn empty() {
    for kind in Kind::ALL {
        for version in Version::ALL {
            assert_eq!(luck::check_literal(kind, version, None, 0, b"''"), Ok(Accepted(0)));
            assert_eq!(luck::check_literal(kind, version, None, 0, b""), Ok(Skipped));
        }
    }
}

#[test]
fn skipped() {
    let texts: [&[u8]; 9] = [b"[[%y]]", b"%y", b"'%y\"", b"'%y", b"'", br"'%y\65'", br"'%y\0'", br"'%y\x41'", br"'%y\u{41}'"];
    for text in texts {
        assert_eq!(format(0, text), Ok(Skipped), "{text:?}");
    }
    // an escaped backslash before a digit, and the other escapes, are checked
    for text in [br"'%y\\1'".as_slice(), br"'%y\n'", br"'%y\z'"] {
        assert_eq!(format(0, text).unwrap_err().refusal, Refusal::UnknownSpecifier { offset: 1, character: 'y' });
    }
}

#[test]
fn spans() {
    assert_eq!(span_of(100, b"'ab%#d'"), (104, 105));
    assert_eq!(span_of(0, "'%é'".as_bytes()), (2, 4));
    assert_eq!(span_of(0, "'%\u{1F600}'".as_bytes()), (2, 6));
    let open = luck::check_literal(Kind::Pattern, Lua54, None, 7, b"'('").unwrap_err();
    assert_eq!(open.span, Some(Span { start: 9, end: 10 }), "at the body's end");
}

/// A range may begin inside a character, and a body with a backslash is not tested for one.
#[test]
fn ranges() {
    let check = |text: &str| luck::check_literal(Kind::Pattern, Lua54, None, 100, text.as_bytes());
    for (text, offset) in [("'[z-a]'", 1), ("'[é-a]'", 2), ("'[z-a])'", 1), ("'[\u{1F600}-a]'", 4)] {
        let error = check(text).unwrap_err();
        assert_eq!(error.refusal, Refusal::ReversedRange { offset }, "{text}");
        let start = 101 + u32::try_from(offset).unwrap();
        assert_eq!(error.span, Some(Span { start, end: start + 1 }), "{text}");
    }
    for text in [r"'[z-a]\n'", r"'\\[z-a]'", r"'[\-.]'", r"'[z-a\]]'"] {
        assert_eq!(check(text), Ok(Accepted(0)), "{text}");
    }
    assert_eq!(check(r"'[z-a]\n)'").unwrap_err().refusal, Refusal::UnmatchedCapture { offset: 7 });
    assert_eq!(check(r"'[z-a]\65'"), Ok(Skipped));
}

/// The fault of `'%y'` is at the start + 2.
#[test]
fn saturating_spans() {
    const MAX: u32 = u32::MAX;
    assert_eq!(span_of(MAX - 3, b"'%y'"), (MAX - 1, MAX));
    assert_eq!(span_of(MAX - 2, b"'%y'"), (MAX, MAX));
    assert_eq!(span_of(MAX - 1, b"'%y'"), (MAX, MAX));
    assert_eq!(span_of(MAX, b"'%y'"), (MAX, MAX));
}

#[test]
fn captures() {
    let check = |kind, captures, text| luck::check_literal(kind, Lua52, captures, 0, text);
    assert_eq!(check(Kind::Replacement, None, b"'%9'"), Ok(Accepted(0)));
    assert_eq!(check(Kind::Replacement, Some(usize::MAX), b"'%9'"), Ok(Accepted(0)));
    assert_eq!(check(Kind::Replacement, Some(0), b"'%1'"), Ok(Accepted(0)));
    let error = check(Kind::Replacement, Some(1), b"'%2'").unwrap_err();
    assert_eq!(error.refusal, Refusal::CaptureIndexOutOfRange { offset: 1 });
    // the other kinds do not look at it
    assert_eq!(check(Kind::Format, Some(usize::MAX), b"'%d'"), Ok(Accepted(1)));
}

#[test]
fn nul() {
    let error = luck::check_literal(Kind::Format, Lua51, None, 0, b"'\0%\0'").unwrap_err();
    assert_eq!(error.refusal, Refusal::UnknownSpecifier { offset: 2, character: '\0' });
    assert_eq!(error.span, Some(Span { start: 3, end: 4 }));
}

/// The offset counts the quote, and there is no span; it comes before skipping.
#[test]
fn not_utf8() {
    for text in [b"'%\xFF'".as_slice(), b"[[\xFF]]", b"'\\\xFF", b"%y\xFF"] {
        let error = format(100, text).unwrap_err();
        assert_eq!((error.refusal, error.span), (Refusal::NotUtf8 { offset: 2 }, None));
    }
}

#[test]
fn kinds_by_name() {
    let names: Vec<String> = Kind::ALL.into_iter().map(|kind| kind.to_string()).collect();
    assert_eq!(names, ["format", "pattern", "pack", "packsize", "replacement", "date"]);
    assert_eq!(format!("{:>8}", Kind::Pack), "    pack");
}

#[test]
fn kinds_by_letter() {
    let letters: Vec<u8> = Kind::ALL.into_iter().map(Kind::letter).collect();
    assert_eq!(letters, b"FPKSGD");
    for letter in 0..=u8::MAX {
        let kind = Kind::from_letter(letter);
        assert_eq!(kind.map(Kind::letter), letters.contains(&letter).then_some(letter));
    }
}
