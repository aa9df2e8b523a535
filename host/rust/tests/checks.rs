//! The checks of bodies: what is accepted, what depends on the version, and edge inputs.

use luck::Version::{Lua51, Lua52, Lua53, Lua54, Luau};
use luck::{Refusal, UnknownVersion, Version};

/// The versions that accept, by number.
fn accepting(check: impl Fn(Version) -> bool) -> Vec<u32> {
    Version::ALL.into_iter().filter(|version| check(*version)).map(Version::number).collect()
}

#[test]
fn empty() {
    for version in Version::ALL {
        assert_eq!(luck::check_format(version, b""), Ok(0));
        assert_eq!(luck::check_pattern(version, b""), Ok(0));
        assert_eq!(luck::check_pack(version, b""), Ok(0));
        assert_eq!(luck::check_packsize(version, b""), Ok(0));
        assert_eq!(luck::check_date(version, b""), Ok(()));
        assert_eq!(luck::check_replacement(version, None, b""), Ok(()));
        assert_eq!(luck::check_replacement(version, Some(0), b""), Ok(()));
    }
}

#[test]
fn formats() {
    assert_eq!(luck::check_format(Lua51, b"%d%s"), Ok(2));
    assert_eq!(luck::check_format(Lua51, b"%% 100%%"), Ok(0));
    assert_eq!(luck::check_format(Lua51, b"%-----d"), Ok(1));
    assert_eq!(luck::check_format(Lua51, b"%99.99f"), Ok(1));
    assert_eq!(luck::check_format(Lua51, b"a%"), Err(Refusal::TruncatedSpecifier { offset: 1 }));
    assert_eq!(luck::check_format(Lua51, "%é".as_bytes()), Err(Refusal::UnknownSpecifier { offset: 1, character: 'é' }));
    assert_eq!(accepting(|version| luck::check_format(version, b"%a") == Ok(1)), [2, 3, 4, 5]);
    assert_eq!(accepting(|version| luck::check_format(version, b"%p") == Ok(1)), [4, 5]);
    assert_eq!(accepting(|version| luck::check_format(version, b"%*") == Ok(1)), [6]);
    assert_eq!(luck::check_format(Luau, b"%5*"), Err(Refusal::UnknownSpecifier { offset: 2, character: '*' }));
}

#[test]
fn patterns() {
    assert_eq!(luck::check_pattern(Lua54, b"()%1"), Ok(1));
    assert_eq!(luck::check_pattern(Lua54, b"[]]"), Ok(0));
    assert_eq!(luck::check_pattern(Lua54, b"*"), Ok(0));
    assert_eq!(luck::check_pattern(Lua54, b"(a%1)"), Err(Refusal::BadBackReference { offset: 3 }));
    assert_eq!(luck::check_pattern(Lua54, b"%b("), Err(Refusal::TruncatedSpecifier { offset: 0 }));
    assert_eq!(luck::check_pattern(Lua54, b"[%"), Err(Refusal::TruncatedSpecifier { offset: 1 }));
}

/// A range's ends are bytes. A set's other faults come before its ranges, and those before what follows the set.
#[test]
fn ranges() {
    let reversed: [(&str, usize); 10] = [
        ("[z-a]", 1),
        ("[^z-a]", 2),
        ("%f[z-a]", 3),
        ("[z-%a]", 1),
        ("[]-A]", 1),
        ("[a-cz-yb-a]", 4),
        ("[z-a])", 1),
        ("([z-a]", 2),
        ("[é-a]", 2),
        ("[a-é-z]", 4),
    ];
    for version in Version::ALL {
        for (body, offset) in reversed {
            assert_eq!(luck::check_pattern(version, body.as_bytes()), Err(Refusal::ReversedRange { offset }), "{body}");
        }
        for body in ["[a-a]", "[%z-a]", "[z-]", "[-a]", "z-a", "[z-é]", "[!-%%]"] {
            assert_eq!(luck::check_pattern(version, body.as_bytes()), Ok(0), "{body}");
        }
        assert_eq!(luck::check_pattern(version, b")[z-a]"), Err(Refusal::UnmatchedCapture { offset: 0 }));
        assert_eq!(luck::check_pattern(version, b"[z-a"), Err(Refusal::UnterminatedSet { offset: 0 }));
        assert_eq!(luck::check_pattern(version, b"[z-a%"), Err(Refusal::TruncatedSpecifier { offset: 4 }));
    }
}

#[test]
fn captures() {
    let captures = |count| [vec![b'('; count], vec![b')'; count]].concat();
    for version in Version::ALL {
        assert_eq!(luck::check_pattern(version, &captures(32)), Ok(32));
        assert_eq!(luck::check_pattern(version, &captures(33)), Err(Refusal::TooManyCaptures { offset: 32 }));
    }
}

#[test]
fn packs() {
    assert_eq!(luck::check_pack(Lua53, b"i4s"), Ok(2));
    assert_eq!(luck::check_packsize(Lua53, b"i4c10"), Ok(2));
    assert_eq!(luck::check_pack(Lua53, b"<>=! "), Ok(0));
    assert_eq!(luck::check_pack(Lua53, b"!8i3"), Err(Refusal::BadPackAlignment { offset: 2 }));
    assert_eq!(luck::check_pack(Lua53, b"X"), Err(Refusal::TruncatedPackSize { offset: 1 }));
    assert_eq!(luck::check_pack(Lua53, b"Xz"), Err(Refusal::InvalidPackOption { offset: 1, character: 'z' }));
    assert_eq!(luck::check_pack(Lua53, b"i0"), Err(Refusal::PackSizeOutOfLimits { offset: 1 }));
    assert_eq!(luck::check_pack(Lua53, b"bz"), Ok(2));
    let variable = Refusal::VariableLengthPackOption { offset: 1, character: 'z' };
    assert_eq!(luck::check_packsize(Lua53, b"bz"), Err(variable));
}

#[test]
fn dates() {
    assert_eq!(luck::check_date(Lua52, b"!%Y-%m-%d %%"), Ok(()));
    assert_eq!(luck::check_date(Lua52, b"*t"), Ok(()));
    assert_eq!(accepting(|version| luck::check_date(version, b"%Q").is_ok()), [1]);
    assert_eq!(accepting(|version| luck::check_date(version, b"%").is_ok()), [1, 6]);
    assert_eq!(accepting(|version| luck::check_date(version, b"%Ey").is_ok()), [1, 2, 3, 4, 5]);
}

#[test]
fn replacements() {
    let check = luck::check_replacement;
    let too_high = Err(Refusal::CaptureIndexOutOfRange { offset: 1 });
    for version in Version::ALL {
        assert_eq!(check(version, None, b"%9%%%0"), Ok(()));
        assert_eq!(check(version, Some(0), b"%1"), Ok(()));
        assert_eq!(check(version, Some(0), b"%2"), too_high);
        assert_eq!(check(version, Some(1), b"%2"), too_high);
        assert_eq!(check(version, Some(2), b"%2"), Ok(()));
        assert_eq!(check(version, Some(usize::MAX), b"%9"), Ok(()));
    }
    assert_eq!(accepting(|version| check(version, None, b"%x").is_ok()), [1]);
    assert_eq!(accepting(|version| check(version, None, b"%").is_ok()), [1]);
}

/// A zero byte is a byte like any other.
#[test]
fn nul() {
    assert_eq!(luck::check_format(Lua51, b"%\0"), Err(Refusal::UnknownSpecifier { offset: 1, character: '\0' }));
    assert_eq!(luck::check_format(Lua51, b"\0%d"), Ok(1));
    assert_eq!(luck::check_pattern(Lua51, b"\0()"), Ok(1));
    assert_eq!(luck::check_pattern(Lua51, b"\0("), Err(Refusal::UnmatchedCapture { offset: 2 }));
    assert_eq!(luck::check_pack(Lua53, b"b\0"), Err(Refusal::InvalidPackOption { offset: 1, character: '\0' }));
    assert_eq!(luck::check_packsize(Lua53, b"\0"), Err(Refusal::InvalidPackOption { offset: 0, character: '\0' }));
    assert_eq!(luck::check_date(Lua52, b"\0%Q"), Err(Refusal::BadDateSpecifier { offset: 2 }));
    assert_eq!(luck::check_replacement(Lua52, None, b"\0%x"), Err(Refusal::BadReplacementEscape { offset: 2 }));
}

/// The place of the first ill-formed sequence comes before every fault of the text.
#[test]
fn not_utf8() {
    let wrong: [&[u8]; 7] = [b"%\xFF", b"%\x80", b"%\xC3", b"%\xC0\x80", b"%\xE2\x82", b"%\xED\xA0\x80", b"%\xF4\x90\x80\x80"];
    for body in wrong {
        let refusal = Refusal::NotUtf8 { offset: 1 };
        for version in Version::ALL {
            assert_eq!(luck::check_format(version, body), Err(refusal));
            assert_eq!(luck::check_pattern(version, body), Err(refusal));
            assert_eq!(luck::check_pack(version, body), Err(refusal));
            assert_eq!(luck::check_packsize(version, body), Err(refusal));
            assert_eq!(luck::check_date(version, body), Err(refusal));
            assert_eq!(luck::check_replacement(version, None, body), Err(refusal));
        }
    }
}

/// A place far into a text is counted in full.
#[test]
fn long_texts() {
    let mut body = vec![b'a'; 5_000_000];
    body.push(b'%');
    assert_eq!(luck::check_format(Lua54, &body), Err(Refusal::TruncatedSpecifier { offset: 5_000_000 }));
    let specifiers = b"%d".repeat(100_000);
    assert_eq!(luck::check_format(Lua54, &specifiers), Ok(100_000));
}

#[test]
fn versions_by_number() {
    for (number, version) in (1..).zip(Version::ALL) {
        assert_eq!((version.number(), Version::from_number(number)), (number, Some(version)));
    }
    for number in [0, 7, u32::MAX] {
        assert_eq!(Version::from_number(number), None);
    }
    for number in 0..8 {
        assert_eq!(Version::try_from(number).ok(), Version::from_number(number));
    }
    assert_eq!(u32::from(Lua54), 4);
}

#[test]
fn versions_by_name() {
    let names: Vec<String> = Version::ALL.into_iter().map(|version| version.to_string()).collect();
    assert_eq!(names, ["Lua 5.1", "Lua 5.2", "Lua 5.3", "Lua 5.4", "Lua 5.5", "Luau"]);
    assert_eq!(format!("{:>8}", Version::Luau), "    Luau");
    for version in Version::ALL {
        for name in [version.to_string(), version.to_string().to_uppercase(), version.number().to_string()] {
            assert_eq!(name.parse(), Ok(version), "{name}");
        }
    }
    for name in ["5.4", "lua5.4", "LUA5.4", "Lua 5.4"] {
        assert_eq!(name.parse(), Ok(Lua54), "{name}");
    }
    for name in ["", "0", "7", "04", "5.0", "5.6", "5.10", "lua", "lua4", "lua  5.4", " 5.4", "lualuau", "lua6"] {
        assert_eq!(name.parse::<Version>(), Err(UnknownVersion), "{name}");
    }
    assert_eq!(UnknownVersion.to_string(), "unknown version: neither 5.1 to 5.5 or luau, nor a number from 1 to 6");
}
