//! Wide literals: those that luck turns away for nothing but code points that versions 4 and 5 decode since F-4, the
//! surrogates and those from 110000 to 7FFFFFFF.

use std::str;

use decoding::plain;
use luck_token::LuaVersion;

use crate::reference::lua_version;

/// A wide literal's value: luck's values of the pieces around those code points, and between them the plain program's bytes
/// of each. It is luck that says which escapes are of a code point that it turns away, and that it takes all the rest; so a
/// literal with no such escape, or with another fault, has no value here.
pub fn value(version: u32, text: &[u8]) -> Option<Vec<u8>> {
    let version = lua_version(version).filter(|version| version.has_extended_unicode_escape())?;
    let mut rest = luck_token::short_string_body(str::from_utf8(text).ok()?)?;
    let mut value = Vec::new();
    let mut has_escape = false;
    while let Some(Escape { before, code, behind }) = next_escape(version, rest) {
        value.extend(piece(version, before)?);
        value.extend(plain::encoded(code));
        rest = behind;
        has_escape = true;
    }
    if !has_escape {
        return None;
    }
    value.extend(piece(version, rest)?);
    Some(value)
}

/// luck's value of a piece, as a literal of its own: an escape ends where the next one begins.
fn piece(version: LuaVersion, body: &str) -> Option<Vec<u8>> {
    luck_token::decode_string(&format!("\"{body}\""), version).map(Vec::from)
}

/// An escape of a code point that luck turns away, and what stands around it.
struct Escape<'body> {
    before: &'body str,
    code: u32,
    behind: &'body str,
}

fn next_escape(version: LuaVersion, body: &str) -> Option<Escape<'_>> {
    let mut place = 0;
    loop {
        place += body.get(place..)?.find('\\')?;
        let (before, escape) = body.split_at(place);
        if let Some((code, behind)) = turned_away(version, escape) {
            return Some(Escape { before, code, behind });
        }
        // The escaped character too: a backslash behind a backslash begins no escape.
        place += escape.chars().take(2).map(char::len_utf8).sum::<usize>();
    }
}

/// The code point of the `\u{}` that the text begins with, and what stands behind it: one that luck reads, and turns away
/// since it is no character.
fn turned_away(version: LuaVersion, escape: &str) -> Option<(u32, &str)> {
    let (digits, behind) = escape.strip_prefix("\\u{")?.split_once('}')?;
    if !digits.bytes().all(|digit| digit.is_ascii_hexdigit()) {
        return None;
    }
    let code = luck_token::unicode_escape_codepoint(digits.as_bytes(), version)?;
    char::from_u32(code).is_none().then_some((code, behind))
}
