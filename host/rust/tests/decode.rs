//! Decoding: values, refusals in their order, and the bytes of the output that must stay as they were.

use luck::DecodeError::{NotUtf8, OutputTooShort, Undecodable};
use luck::Version::{Lua51, Lua52, Lua53, Lua54, Lua55, Luau};
use luck::{DecodeError, Refusal, Version, check_pattern, decode_string, decode_string_into, raw};

const UNTOUCHED: u8 = 0xAA;

#[test]
fn values() {
    for version in Version::ALL {
        assert_eq!(decode_string(version, b"''"), Ok(vec![]));
        assert_eq!(decode_string(version, b"[[]]"), Ok(vec![]));
        assert_eq!(decode_string(version, br#""a\n\t\65\0""#), Ok(b"a\n\tA\0".to_vec()));
        assert_eq!(decode_string(version, b"[==[\na]]b]==]"), Ok(b"a]]b".to_vec()));
        assert_eq!(decode_string(version, b"'\0'"), Ok(vec![0]));
        assert_eq!(decode_string(version, br"'\255'"), Ok(vec![0xFF]));
    }
}

#[test]
fn values_by_version() {
    let by_version = |text: &[u8]| Version::ALL.map(|version| decode_string(version, text).ok());
    let value = |text: &str| Some(text.as_bytes().to_vec());
    assert_eq!(by_version(br"'\q'"), [value("q"), None, None, None, None, value("q")]);
    assert_eq!(by_version(br"'\x41'"), [value("x41"), value("A"), value("A"), value("A"), value("A"), value("A")]);
    assert_eq!(by_version(br"'\u{E9}'"), [value("u{E9}"), None, value("é"), value("é"), value("é"), value("é")]);
}

/// Lua 5.4 and 5.5 take each code point up to 7FFFFFFF, Lua 5.3 and Luau characters only. The value of another one is not UTF-8, and a
/// check refuses it.
#[test]
fn code_points() {
    const VERSIONS: [Version; 4] = [Lua53, Lua54, Lua55, Luau];
    let values: [(u32, &[u8]); 18] = [
        (0, b"\0"),
        (0x7F, b"\x7F"),
        (0x80, b"\xC2\x80"),
        (0x7FF, b"\xDF\xBF"),
        (0x800, b"\xE0\xA0\x80"),
        (0xD7FF, b"\xED\x9F\xBF"),
        (0xD800, b"\xED\xA0\x80"),
        (0xDFFF, b"\xED\xBF\xBF"),
        (0xE000, b"\xEE\x80\x80"),
        (0xFFFF, b"\xEF\xBF\xBF"),
        (0x1_0000, b"\xF0\x90\x80\x80"),
        (0x10_FFFF, b"\xF4\x8F\xBF\xBF"),
        (0x11_0000, b"\xF4\x90\x80\x80"),
        (0x1F_FFFF, b"\xF7\xBF\xBF\xBF"),
        (0x20_0000, b"\xF8\x88\x80\x80\x80"),
        (0x3FF_FFFF, b"\xFB\xBF\xBF\xBF\xBF"),
        (0x400_0000, b"\xFC\x84\x80\x80\x80\x80"),
        (0x7FFF_FFFF, b"\xFD\xBF\xBF\xBF\xBF\xBF"),
    ];
    for (code, value) in values {
        let is_character = char::from_u32(code).is_some();
        for version in VERSIONS {
            let wanted = if is_character || [Lua54, Lua55].contains(&version) { Ok(value.to_vec()) } else { Err(Undecodable) };
            assert_eq!(decode_string(version, format!("'\\u{{{code:X}}}'").as_bytes()), wanted, "{version}: {code:X}");
            assert_eq!(decode_string(version, format!("'\\u{{{code:016x}}}'").as_bytes()), wanted, "{version}: {code:016x}");
        }
        assert_eq!(std::str::from_utf8(value).is_ok(), is_character);
        let wanted = if is_character { Ok(0) } else { Err(Refusal::NotUtf8 { offset: 0 }) };
        assert_eq!(check_pattern(Lua54, value), wanted, "{code:X}");
    }
    for version in VERSIONS {
        for digits in ["80000000", "FFFFFFFF", "100000041", "10000000000000041"] {
            assert_eq!(decode_string(version, format!("'\\u{{{digits}}}'").as_bytes()), Err(Undecodable), "{version}: {digits}");
        }
        let many = if version == Luau { Err(Undecodable) } else { Ok(b"A".to_vec()) };
        assert_eq!(decode_string(version, br"'\u{00000000000000041}'"), many, "{version}: 17 digits");
    }
}

#[test]
fn refusals() {
    assert_eq!(decode_string(Lua52, br#""\q""#), Err(Undecodable));
    for text in [b"".as_slice(), b"'", b"\"a'", b"[[a", b"[=[a]]", b"a", br"'\256'", br"'\'"] {
        for version in Version::ALL {
            assert_eq!(decode_string(version, text), Err(Undecodable), "{version}: {text:?}");
        }
    }
    assert_eq!(decode_string(Lua54, br"'\u{80000000}'"), Err(Undecodable));
    assert_eq!(decode_string(Lua53, br"'\u{D800}'"), Err(Undecodable));
    assert_eq!(decode_string(Lua51, b"'a\xFF'"), Err(NotUtf8 { offset: 2 }));
}

/// 23 comes before 24, and 24 before 26.
#[test]
fn order() {
    assert_eq!(decode_string_into(Lua52, b"'\\q\xFF", &mut []), Err(NotUtf8 { offset: 3 }));
    assert_eq!(decode_string_into(Lua52, br"'\q'", &mut []), Err(Undecodable));
    assert_eq!(decode_string_into(Lua52, b"'a'", &mut []), Err(OutputTooShort));
}

/// Lends the inner `room` bytes of a larger buffer, and gives the answer and the whole buffer.
fn into_room(text: &[u8], room: usize) -> (Result<usize, DecodeError>, Vec<u8>) {
    let mut buffer = vec![UNTOUCHED; room + 4];
    let answer = decode_string_into(Lua52, text, &mut buffer[2..2 + room]);
    (answer, buffer)
}

#[test]
fn written_bytes() {
    let (answer, buffer) = into_room(br#""a\n""#, 4);
    assert_eq!(answer, Ok(2));
    assert_eq!(buffer, b"\xAA\xAAa\n\xAA\xAA\xAA\xAA");
}

#[test]
fn rooms() {
    assert_eq!(into_room(b"''", 0), (Ok(0), vec![UNTOUCHED; 4]));
    assert_eq!(into_room(b"'ab'", 2), (Ok(2), b"\xAA\xAAab\xAA\xAA".to_vec()));
    for room in [0, 1] {
        assert_eq!(into_room(b"'ab'", room), (Err(OutputTooShort), vec![UNTOUCHED; room + 4]));
    }
    for text in [br#""ab\q""#.as_slice(), b"'ab", b"'ab\xFF'"] {
        let (answer, buffer) = into_room(text, 8);
        assert!(answer.is_err());
        assert_eq!(buffer, [UNTOUCHED; 12]);
    }
}

#[test]
fn messages() {
    assert_eq!(NotUtf8 { offset: 3 }.to_string(), "not UTF-8 at offset 3");
    assert_eq!(Undecodable.to_string(), "no literal, or an escape that is malformed or that is not read in this version");
    assert_eq!(OutputTooShort.to_string(), "the value is longer than the output");
}

#[test]
fn other_numbers() {
    for number in [1, 25, 27, u32::MAX] {
        let error = raw::Decoded { number, offset: 0, written: 0 }.result().unwrap_err();
        assert_eq!(error, DecodeError::Other { number });
        assert_eq!(error.to_string(), format!("refusal {number}"));
    }
}
