//! Literals picked by hand: each escape at its edges, brackets, line breaks, and UTF-8 at the ends of its ranges.

use std::collections::HashSet;

use crate::texts::grammar::CODE_POINTS;

/// Each text once, in a fixed order.
pub fn texts() -> Vec<Vec<u8>> {
    let mut texts = Vec::new();
    texts.extend(WHOLE.iter().map(|text| text.as_bytes().to_vec()));
    texts.extend((0..0x80).map(|byte| quoted(&[b'\\', byte])));
    texts.extend(BODIES.iter().map(|body| quoted(body.as_bytes())));
    texts.extend(unicode_bodies().iter().map(|body| quoted(body.as_bytes())));
    texts.extend(line_break_texts());
    texts.extend(SEQUENCES.iter().flat_map(|sequence| utf8_texts(sequence)));
    let mut seen = HashSet::new();
    texts.retain(|text: &Vec<u8>| seen.insert(text.clone()));
    texts
}

fn quoted(body: &[u8]) -> Vec<u8> {
    [b"\"", body, b"\""].concat()
}

/// Quotes and brackets: literals, and texts that are nearly one.
const WHOLE: &[&str] = &[
    "",
    "\"",
    "'",
    "\"\"",
    "''",
    "\"'",
    "'\"",
    "a",
    "\"a",
    "a\"",
    "\"a\"",
    "'a'",
    "'\"'",
    "\"'\"",
    "\"\"\"",
    "\"a\"b\"",
    "\"a\nb\"",
    "\"a\rb\"",
    "\"\0\"",
    "'\\''",
    "'\\\"'",
    "'\\'",
    "'\\\\'",
    " \"\"",
    "\"\" ",
    "`a`",
    "\"]]\"",
    "[",
    "[[",
    "[[]",
    "[[]]",
    "[[a]]",
    "[[]]]",
    "[[[]]",
    "[[[[]]]]",
    "[[]]]]",
    "[]",
    "[]]",
    "[]]]",
    "[a]",
    "[=",
    "[=]",
    "[==",
    "[=[",
    "[=[]",
    "[=[]]",
    "[=[]=",
    "[=[]=]",
    "[=[a]=]",
    "[=[]==]",
    "[==[]=]",
    "[==[]==]",
    "[[]=]",
    "[=[=]=]",
    "[=[]]=]",
    "[=[]=]=]",
    "[==[]=]==]",
    "[===[]===]",
    "[====[a]==]]====]",
    "[=====[]=====]",
    "[=====[]====]",
    "[=====[a]=====]",
    "[=[a]-]",
    "[=a[]=]",
    "[[a]b]",
    "[[a]]b]]",
    "x[[]]",
    "[[]]x",
    " [[]]",
    "[[]] ",
    "[[\\n]]",
    "[[\\x41\\65\\u{41}]]",
    "[[\\]]",
    "[[\"]]",
    "[['\"']]",
    "[[\0]]",
    "[[ \n]]",
    "--[[]]",
    "\u{FEFF}\"\"",
];

/// Insides of a quoted literal.
const BODIES: &[&str] = &[
    // `\x`
    "\\x00",
    "\\x7f",
    "\\x7F",
    "\\x80",
    "\\xff",
    "\\xFF",
    "\\xaF",
    "\\xFa",
    "\\x411",
    "\\x41\\x42",
    "\\x",
    "\\x4",
    "\\x/0",
    "\\x:0",
    "\\x@0",
    "\\xG0",
    "\\x`0",
    "\\xg0",
    "\\x0/",
    "\\x0:",
    "\\x0@",
    "\\x0G",
    "\\x0`",
    "\\x0g",
    "\\x é",
    "\\x+1",
    "\\X41",
    // `\ddd`
    "\\00",
    "\\000",
    "\\0000",
    "\\01",
    "\\001",
    "\\10",
    "\\99",
    "\\100",
    "\\127",
    "\\128",
    "\\199",
    "\\200",
    "\\249",
    "\\250",
    "\\254",
    "\\255",
    "\\256",
    "\\259",
    "\\260",
    "\\300",
    "\\999",
    "\\0255",
    "\\0256",
    "\\1000",
    "\\2550",
    "\\2560",
    "\\25a",
    "\\2/",
    "\\2:",
    "\\1x",
    "\\65\\66",
    "\\6\\5",
    "\\-1",
    "\\+1",
    // `\z`
    "\\z ",
    "\\z\t",
    "\\z\n",
    "\\z\x0B",
    "\\z\x0C",
    "\\z\r",
    "\\z \t\n\x0B\x0C\r",
    "\\z \t\n\x0B\x0C\ra",
    "a\\z  \nb",
    "\\z\\z",
    "\\z \\z a",
    "\\z\\n",
    "\\z \\q",
    "\\z\x08",
    "\\z\x0E",
    "\\z\x1F",
    "\\z!",
    "\\z\0",
    "\\z\u{85}",
    "\\z\u{A0}",
    "\\z\\",
    "\\Z ",
    // after and before one another
    "\\\\\\",
    "\\\\\\\\",
    "a\\",
    "\\n\\",
    "\\a\\b\\f\\n\\r\\t\\v",
    "a\\qb",
    "\\é",
    "\\€",
    "\\😀",
    "é\\n€",
    "\\q\\q",
    "\\\"\\'",
];

/// `\u` well and ill formed, at each limit, with zeros in front up to and past 16 digits.
fn unicode_bodies() -> Vec<String> {
    const MALFORMED: [&str; 20] = [
        "\\u",
        "\\u{",
        "\\u{}",
        "\\u}",
        "\\u41",
        "\\u{41",
        "\\u41}",
        "\\u{ 41}",
        "\\u{41 }",
        "\\u{+41}",
        "\\u{-41}",
        "\\u{G}",
        "\\u{4G}",
        "\\u{g}",
        "\\u{/}",
        "\\u{:}",
        "\\u{@}",
        "\\u{`}",
        "\\u{{41}}",
        "\\u[41]",
    ];
    const AMONG_OTHERS: [&str; 17] = [
        "\\u{41}41",
        "\\u{41}}",
        "\\u{20ac}\\u{E9}",
        "\\U{41}",
        "a\\u{D800}b",
        "\\u{DBFF}\\u{DC00}",
        "\\u{7FFFFFFF}\\u{7FFFFFFF}",
        "é\\u{110000}\\65\\u{10FFFF}\\x41",
        "\\z \\u{200000}\\\n\\u{3FFFFFF}",
        "\\u{4000000}}\\u{41}",
        "\\u{D800}\\q",
        "\\q\\u{D800}",
        "\\u{D800}\\u{80000000}",
        "\\u{110000}\\",
        "\\\\u{110000}",
        "\\\\\\u{110000}",
        "\\u{110000\\u{110000}",
    ];
    const PADDED: [&str; 10] = ["0", "41", "D800", "e9", "20AC", "10FFFF", "110000", "7fffffff", "80000000", "10000000000000041"];
    const DIGITS: [usize; 4] = [8, 16, 17, 20];
    let plain = CODE_POINTS.iter().map(|digits| format!("\\u{{{digits}}}"));
    let padded = PADDED.iter().flat_map(|number| DIGITS.iter().map(move |digits| format!("\\u{{{number:0>digits$}}}")));
    let others = AMONG_OTHERS.map(str::to_owned);
    MALFORMED.into_iter().map(str::to_owned).chain(plain).chain(padded).chain(others).collect()
}

/// Every run of one to three LF and CR: escaped in a short string, right after a long bracket, and inside a long string.
fn line_break_texts() -> Vec<Vec<u8>> {
    let runs = (1..=3).flat_map(|length| (0..1 << length).map(move |bits| line_break_run(length, bits)));
    runs.flat_map(|run| {
        [
            quoted(&[b"\\", run.as_slice()].concat()),
            [b"[[", run.as_slice(), b"]]"].concat(),
            [b"[=[a", run.as_slice(), b"b]=]"].concat(),
        ]
    })
    .collect()
}

/// The lowest `length` bits as LF (0) and CR (1).
fn line_break_run(length: u32, bits: u32) -> Vec<u8> {
    (0..length).map(|bit| if bits >> bit & 1 == 0 { b'\n' } else { b'\r' }).collect()
}

/// Byte sequences at the ends of the ranges of RFC 3629, well and ill formed.
const SEQUENCES: &[&[u8]] = &[
    b"\\256\xFF",
    b"\x7F",
    b"\x80",
    b"\xBF",
    b"\xC0\x80",
    b"\xC1\xBF",
    b"\xC2\x80",
    b"\xC2\x7F",
    b"\xC2\xC0",
    b"\xDF\xBF",
    b"\xC2",
    b"\xE0\xA0\x80",
    b"\xE0\x9F\xBF",
    b"\xE0\xBF\xBF",
    b"\xE0\xA0",
    b"\xE1\x80\x80",
    b"\xE1\x7F\x80",
    b"\xE1\x80\xC0",
    b"\xEC\xBF\xBF",
    b"\xED\x80\x80",
    b"\xED\x9F\xBF",
    b"\xED\xA0\x80",
    b"\xED\xBF\xBF",
    b"\xEE\x80\x80",
    b"\xEF\xBF\xBF",
    b"\xE2\x82",
    b"\xE2",
    b"\xF0\x90\x80\x80",
    b"\xF0\x8F\xBF\xBF",
    b"\xF0\xBF\xBF\xBF",
    b"\xF1\x80\x80\x80",
    b"\xF3\xBF\xBF\xBF",
    b"\xF4\x80\x80\x80",
    b"\xF4\x8F\xBF\xBF",
    b"\xF4\x90\x80\x80",
    b"\xF5\x80\x80\x80",
    b"\xF0\x9F\x98",
    b"\xF0\x9F",
    b"\xF0",
    b"\xFE",
    b"\xFF",
    b"\xC2\xA9\xC2",
    b"\xED\xA0\xBD\xED\xB8\x80",
];

/// A sequence in a literal, and by itself, where the text ends with it: that is no literal, but 23 comes before 24.
fn utf8_texts(sequence: &[u8]) -> [Vec<u8>; 2] {
    [quoted(&[b"a", sequence].concat()), sequence.to_vec()]
}
