//! Every text of some kind, shortest first.

use texts::exhaustive::Form;

/// What a pattern is made of and what breaks one: each byte that the check reads, letters on both sides of each other, those that
/// have a meaning behind `%`, a digit, a backslash, a quote, a character of two bytes, and a byte that no text has.
pub const HOSTILE: [&[u8]; 18] =
    [b"[", b"]", b"^", b"%", b"-", b"a", b"z", b"(", b")", b"f", b"b", b"1", b"!", b"\\", b"\"", b"\0", "é".as_bytes(), b"\xFF"];

/// The same without what a range or a capture does not need, for longer texts.
pub const SOME: [&[u8]; 9] = [b"[", b"]", b"^", b"%", b"-", b"a", b"z", b"(", "é".as_bytes()];

/// For the inside of a set: what its reading tests for, and bytes below and above these.
pub const MEMBERS: [&[u8]; 8] = [b"%", b"-", b"]", b"^", b"[", b"a", b"!", "é".as_bytes()];

/// The neighbours of `%`, `-`, `]` and `^`, and characters of each width.
pub const NEIGHBOURS: [&[u8]; 20] = [
    b"$",
    b"%",
    b"&",
    b",",
    b"-",
    b".",
    b"\\",
    b"]",
    b"^",
    b"_",
    b"[",
    b"\0",
    b"\n",
    b"z",
    b"\x7F",
    "\u{80}".as_bytes(),
    "\u{BF}".as_bytes(),
    "€".as_bytes(),
    "😀".as_bytes(),
    b"\xC3",
];

/// What reading a set twice and otherwise has to do with only, for the longest texts.
pub const FEW_MEMBERS: [&[u8]; 5] = [b"%", b"-", b"]", b"a", b"!"];

pub const RAW: Form = Form::new("by themselves", b"", b"");
pub const SET: Form = Form::new("in [ ]", b"[", b"]");
/// A set with something before or behind it: faults, which come first or don't, captures, and what makes it no set.
pub const SETS: [Form; 10] = [
    Form::new("in [^ ]", b"[^", b"]"),
    Form::new("in %f[ ]", b"%f[", b"]"),
    Form::new("in ([ ]", b"([", b"]"),
    Form::new("in )[ ]", b")[", b"]"),
    Form::new("in [ ])", b"[", b"])"),
    Form::new("in [ ]%", b"[", b"]%"),
    Form::new("in [a-z][ ][z-a]", b"[a-z][", b"][z-a]"),
    Form::new("in [z-a][ ]", b"[z-a][", b"]"),
    Form::new("in %b[ ]", b"%b[", b"]"),
    Form::new("in %[ ]", b"%[", b"]"),
];
pub const QUOTED: Form = Form::new("in quotes", b"\"", b"\"");
pub const QUOTED_SET: Form = Form::new("in \"[ ]\"", b"\"[", b"]\"");
pub const BACKSLASHED_SETS: [Form; 4] = [
    Form::new("in '\\n[ ]'", b"'\\n[", b"]'"),
    Form::new("in '[ ]\\\\'", b"'[", b"]\\\\'"),
    Form::new("in '[ ]\\'", b"'[", b"]\\'"),
    Form::new("in '\\x41[ ]'", b"'\\x41[", b"]'"),
];

/// Every two bytes as the ends of what is or looks like a range: in each place of a set, behind `%`, before `%`, and beside other
/// ranges.
pub fn pairs(visit: &mut dyn FnMut(&[u8])) {
    for left in 0..=u8::MAX {
        for right in 0..=u8::MAX {
            visit(&[b'[', left, b'-', right, b']']);
            visit(&[b'[', b'^', left, b'-', right, b']']);
            visit(&[b'%', b'f', b'[', left, b'-', right, b']']);
            visit(&[b'[', b']', left, b'-', right, b']']);
            visit(&[b'[', b'a', left, b'-', right, b'b', b']']);
            visit(&[b'[', b'%', left, b'-', right, b']']);
            visit(&[b'[', left, b'-', b'%', right, b']']);
            visit(&[b'[', left, b'-', right, b'-', left, b']']);
            visit(&[b'[', b'a', b'-', left, b'-', right, b']']);
            visit(&[b'[', left, right, b']', b']']);
            visit(&[b'(', b'[', left, b'-', right, b']', b'[', right, b'-', left, b']', b')']);
        }
    }
}

/// Every two characters of a kind each as ends: all of ASCII, and some of every width.
pub fn character_pairs(visit: &mut dyn FnMut(&[u8])) {
    const FURTHER: [char; 18] = [
        '\u{80}',
        '\u{BF}',
        'é',
        '\u{FF}',
        '\u{7C0}',
        '\u{7FF}',
        '\u{800}',
        '\u{FFF}',
        '€',
        '\u{D7FF}',
        '\u{E000}',
        '\u{FFFD}',
        '\u{FFFF}',
        '\u{10000}',
        '😀',
        '\u{3FFFF}',
        '\u{100000}',
        '\u{10FFFF}',
    ];
    let characters = || ('\0'..='\x7F').chain(FURTHER);
    for left in characters() {
        for right in characters() {
            visit(format!("[{left}-{right}]").as_bytes());
            visit(format!("[%{left}-{right}]").as_bytes());
            visit(format!("é[^é{left}-{right}é]é").as_bytes());
        }
    }
}

/// Every three bytes up to `last` in a set.
pub fn triples(last: u8, visit: &mut dyn FnMut(&[u8])) {
    for first in 0..=last {
        for second in 0..=last {
            for third in 0..=last {
                visit(&[b'[', first, second, third, b']']);
            }
        }
    }
}

/// Captures about their limit, a set among them, and back-references behind it.
pub fn captures(visit: &mut dyn FnMut(&[u8])) {
    for count in (0..=10).chain(30..=35) {
        for set in ["[z-a]", "[a-z]", "%f[z-a]", "[z-%a]", "[%z-a]"] {
            let [open, close, closed] = ["(", ")", "()"].map(|piece| piece.repeat(count));
            visit(format!("{open}{set}{close}").as_bytes());
            visit(format!("{open}{close}{set}").as_bytes());
            visit(format!("{open}{close}){set}").as_bytes());
            visit(format!("{closed}{set}").as_bytes());
            visit(format!("{set}{closed}(").as_bytes());
            visit(format!("{closed}{set}%9{set}").as_bytes());
            visit(format!("{closed}%9{set}").as_bytes());
            visit(format!("{closed}({set}%1)%2{set}").as_bytes());
        }
    }
}

/// Runs of every length before a set, in it, and behind it, of plain bytes, of escapes and of ranges: what reads a set or a pattern by
/// blocks must find each place.
pub fn runs(visit: &mut dyn FnMut(&[u8])) {
    const MOST: usize = 70;
    const PIECES: [&str; 5] = ["b", "é", "%]", "a-z", "%%-"];
    const LAST: [&str; 6] = ["z-a", "z-%a", "%z-a", "z-", "é-a", "a-z"];
    for length in 0..=MOST {
        for piece in PIECES {
            let run = piece.repeat(length);
            for last in LAST {
                visit(format!("[{run}{last}]").as_bytes());
                visit(format!("[{last}{run}]").as_bytes());
                visit(format!("[^{run}{last}{run}]{run}").as_bytes());
                visit(format!("{run}[{last}]").as_bytes());
                visit(format!("[{run}][{last}]{run}").as_bytes());
                visit(format!("[{run}{last}").as_bytes());
            }
        }
    }
}
