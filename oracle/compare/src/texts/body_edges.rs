//! Bodies picked by hand, which are longer than the exhaustive ones: each limit, from both sides.

use crate::kind::Kind;

/// Each is checked as a body of every kind and in quotes.
pub fn texts() -> Vec<Vec<u8>> {
    let mut texts: Vec<Vec<u8>> = PLAIN.iter().map(|text| text.as_bytes().to_vec()).collect();
    texts.extend(modifiers());
    texts.extend(captures());
    texts.extend(sizes());
    texts.extend(long_texts());
    texts.extend(plain_runs());
    texts
}

/// Document 01's rows and the wrong readings that it names, and places where luck and a first reading of it part.
const PLAIN: &[&str] = &[
    "",
    "a%",
    "%y",
    "%------d",
    "%-----d",
    "%123d",
    "%.123d",
    "%99.99f",
    "%#d",
    "%5*",
    "%*",
    "%-5.3q",
    "%s%d%%%c",
    "%5",
    "%.",
    "%5.",
    "%é",
    "%5é",
    "[]a",
    "[^]",
    "[]",
    "[]]",
    "[^]]",
    "[]a]",
    "[%",
    "[%]",
    "[%]]",
    "[a%",
    "a%f",
    "%f[a]",
    "%f[]",
    "%f[^]",
    "%b",
    "%bx",
    "%bxy",
    "%bé",
    "%b€",
    "(a",
    "a)",
    "(a%1)",
    "()%1",
    "(a)(b)%2%1%3",
    "%0",
    "((a)%2)%1",
    "((a)%1)",
    "(()())%1%2%3%4",
    "b1",
    "c",
    "c0",
    "c10z",
    "i17",
    "i16",
    "i0",
    "i",
    "!8i3",
    "!4i3",
    "!16i16",
    "!5j",
    "!6j",
    "!i3",
    "bz",
    "Xs",
    "X",
    "Xz",
    "Xc1",
    "X!",
    "XX",
    "X ",
    "Xx",
    "Xi17",
    "!8Xi3",
    "!3Xd",
    "!8 <i4 >d =n s2 z x Xi8",
    "%x",
    "%%",
    "%1%2%9%0",
    "%2",
    "%",
    "%%%",
    "%Q",
    "%Ec%Od%#c",
    "%Ea",
    "%Oc",
    "%#a",
    "%E",
    "%O",
    "%#",
    "*t",
    "!*t",
    "!!*t",
    "*t ",
    "!*t%",
    "!",
    "!%c",
    "%!",
    "%Y-%m-%dT%H:%M:%SZ",
    "\0",
    "%\0",
    "\u{FFFD}",
    "%\u{FFFD}",
    "%\u{10FFFF}",
    "y\u{10FFFF}",
    "[z-a]",
    "[z-%a]",
    "[%z-a]",
    "[^z-a]",
    "%f[z-a]",
    "[a-a]",
    ")[z-a]",
    "[z-a])",
    "[z-a",
    "([z-a]",
    "[z-a]%",
    "%1[z-a]",
    "[é-a]",
    "[a-é]",
    "[%é-a]",
    "[a-z][z-a]",
    "[a-zb-a]",
    "[]-A]",
    "[z-]",
    "[--%]",
    "[--%]]",
    "[!-%%g]",
    "%b[z-a]",
];

/// 5 to 7 flags, 1 to 4 digits, and 19 to 23 modifiers, before conversions of several sorts.
fn modifiers() -> Vec<Vec<u8>> {
    let runs = ["-", "0", "#", " ", "+", "1", ".", "-1", "0.", "1.1"];
    let counts = [1, 2, 3, 4, 5, 6, 7, 19, 20, 21, 22, 23, 100];
    let ends = ["", "d", "s", "q", "c", "x", "u", "a", "p", "*", "%", "y", "é", "\0"];
    let mut texts = Vec::new();
    for run in runs {
        for count in counts {
            let run: String = run.chars().cycle().take(count).collect();
            texts.extend(ends.iter().map(|end| format!("%{run}{end}").into_bytes()));
        }
    }
    texts
}

/// 31 to 34 captures: opened only, closed each, nested, as positions; and references to the last ones.
fn captures() -> Vec<Vec<u8>> {
    let mut texts = Vec::new();
    for count in [1, 8, 9, 10, 31, 32, 33, 34] {
        let (open, close) = ("(".repeat(count), ")".repeat(count));
        texts.extend([
            open.clone(),
            format!("{open}{close}"),
            format!("{open}{close})"),
            format!("{open}{}", &close[1..]),
            format!("{open}%9{close}"),
            format!("{open}{close}%9"),
            "()".repeat(count),
            "(a)".repeat(count) + "%9%8%1",
            "()".repeat(count - 1) + "(",
            "()".repeat(count - 1) + "(%1)%9",
            format!("{open}é{close}é"),
        ]);
    }
    texts.into_iter().map(String::into_bytes).collect()
}

/// Sizes about their limits and about the edges of machine numbers, with zeros in front, behind each option that takes one.
fn sizes() -> Vec<Vec<u8>> {
    const NUMBERS: [&str; 22] = [
        "0",
        "1",
        "2",
        "3",
        "7",
        "8",
        "9",
        "15",
        "16",
        "17",
        "20",
        "26",
        "99",
        "100",
        "255",
        "257",
        "2147483648",
        "4294967295",
        "4294967296",
        "4294967297",
        "18446744073709551617",
        "340282366920938463463374607431768211457",
    ];
    let mut texts = Vec::new();
    for number in NUMBERS {
        for zeros in [0, 1, 2, 20, 300] {
            let number = "0".repeat(zeros) + number;
            texts.extend(
                ["i", "I", "s", "!", "c", "Xi", "Xs", "!8i", "!i", "!16Xs", "bc", "!"].map(|option| format!("{option}{number}")),
            );
            texts.push(format!("!{number}i16!{number}d"));
            texts.push(format!("c{number}i{number}s{number}z"));
        }
    }
    texts.into_iter().map(String::into_bytes).collect()
}

/// Bodies of some thousand bytes, with the fault, if any, at the end.
fn long_texts() -> Vec<Vec<u8>> {
    let pieces = ["a", "é", "%d", "%%", "%5.2f", "[]]", "[^%]é]", "%a", "i4", "!8d", "c10", "b", " ", "%1", "%Y", "%Ec"];
    let ends = ["", "%", "é", "[", "(", ")", "i17", "X", "%y", "\u{FFFD}"];
    let mut texts = Vec::new();
    for piece in pieces {
        for end in ends {
            texts.push((piece.repeat(1500) + end).into_bytes());
        }
    }
    texts
}

/// Runs of plain bytes of every length up to 100, a piece, by turns no run or one of about 16, 32 or 48 bytes, and a piece again:
/// what passes over plain or ASCII bytes by blocks must stop at each of these places.
fn plain_runs() -> Vec<Vec<u8>> {
    const PIECES: [&[u8]; 11] =
        [b"", b"%", b"%1", b"%9", b"%%", b"%x", b"\\n", "é".as_bytes(), "😀".as_bytes(), b"\xFF", b"\xE2\x82"];
    const LATER: [usize; 10] = [0, 15, 16, 17, 31, 32, 33, 34, 47, 49];
    const ENDS: [&[u8]; 5] = [b"", b"%", b"%2", b"%x", b"\\6"];
    let mut texts = Vec::new();
    for before in 0..=100 {
        for piece in PIECES {
            let behind = LATER[before % LATER.len()];
            texts.extend(ENDS.map(|end| [&b"a".repeat(before), piece, &b"b".repeat(behind), end].concat()));
        }
    }
    texts
}

/// How a body stands in a literal: in either quote, with an escape, as a long string, and as nearly a literal.
pub fn literals(body: &[u8]) -> Vec<Vec<u8>> {
    const AROUND: [(&str, &str); 16] = [
        ("\"", "\""),
        ("'", "'"),
        ("\"\\n", "\""),
        ("\"\\\\", "\""),
        ("\"\\0", "\""),
        ("\"\\9", "\""),
        ("\"", "\\x41\""),
        ("'", "\\u{41}'"),
        ("\"", "\\\""),
        ("\"", "'"),
        ("\"", ""),
        ("", "\""),
        ("[[", "]]"),
        ("[=[", "]=]"),
        ("", ""),
        ("\"é\\é", "\""),
    ];
    AROUND.iter().map(|(open, close)| [open.as_bytes(), body, close.as_bytes()].concat()).collect()
}

/// Every body of two bytes, by itself and behind what gives a meaning to them.
pub fn two_bytes(kind: Kind, visit: &mut dyn FnMut(&[u8])) {
    let prefixes: &[&[u8]] = match kind {
        Kind::Format => &[b"", b"%", b"%5.", b"%-"],
        Kind::Pattern => &[b"", b"%", b"[", b"[^", b"%f", b"%b", b"(%", b"()%"],
        Kind::Pack | Kind::Packsize => &[b"", b"i", b"!", b"X", b"c", b"!8X"],
        Kind::Replacement => &[b"", b"%"],
        Kind::Date => &[b"", b"%", b"%E", b"%O", b"%#", b"!", b"*"],
    };
    for prefix in prefixes {
        for number in 0..=u16::MAX {
            visit(&[*prefix, &number.to_be_bytes()].concat());
        }
    }
}
