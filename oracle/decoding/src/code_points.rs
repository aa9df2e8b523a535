//! `\u{}` at every boundary, with zeros in front, and spread over all values.

use texts::random::Random;

/// Where a rule changes: the first and last code points of one to six bytes, the surrogates, the last character, and the
/// widths of a machine's word.
const LIMITS: [u64; 28] = [
    0,
    0x41,
    0x7F,
    0x80,
    0x7FF,
    0x800,
    0xFFF,
    0x1000,
    0xD7FF,
    0xD800,
    0xDBFF,
    0xDC00,
    0xDFFF,
    0xE000,
    0xFFFF,
    0x1_0000,
    0xF_FFFF,
    0x10_FFFF,
    0x11_0000,
    0x1F_FFFF,
    0x20_0000,
    0x3FF_FFFF,
    0x400_0000,
    0x7FFF_FFFF,
    0x8000_0000,
    0xFFFF_FFFF,
    0x1_0000_0000,
    0x1_7FFF_FFFF,
];

/// What a word of 32, 64 or 128 bits would take for a small number, or for the largest one.
const WRAPPED: [&str; 9] = [
    "100000041",
    "10000D800",
    "8000000000000000",
    "FFFFFFFFFFFFFFFF",
    "10000000000000000",
    "10000000000000041",
    "1000000007FFFFFFF",
    "100000000000000000000000000000041",
    "FFFFFFFFFFFFFFFFFFFFFFFFFFFFFFFFFFFFFFFF",
];

/// Zeros in front: Luau takes 16 digits, the others any number.
const FEW_ZEROS: std::ops::RangeInclusive<usize> = 0..=20;
const MANY_ZEROS: [usize; 12] = [24, 31, 32, 33, 63, 64, 65, 100, 255, 256, 1000, 5000];

/// What stands before and behind an escape: other escapes, what looks like a part of one, faults, and what makes the escape none.
const AROUND: [(&str, &str); 24] = [
    ("a", "b"),
    ("é", "€"),
    ("\\65", "66"),
    ("\\x41", "41}"),
    ("\\n", "}"),
    ("\\z \t\n", " \\z "),
    ("\\\\", "u{41}"),
    ("\\\n", "\\\r\n"),
    ("\"", "'"),
    ("]]", "[["),
    ("\\255", "\\xFF"),
    ("\\u{41}", "\\u{20AC}"),
    ("\\u{7FFFFFFF}", "\\u{D800}"),
    ("\\u{DFFF}", "\\u{110000}"),
    ("\\u{80000000}", ""),
    ("", "\\u{80000000}"),
    ("\\q", ""),
    ("", "\\q"),
    ("", "\\256"),
    ("", "\\u{"),
    ("", "\\u{}"),
    ("", "\\"),
    ("\\", ""),
    ("\0", "\0"),
];

/// Each limit with its neighbours, and what a word may wrap to.
fn numbers() -> Vec<String> {
    let near = LIMITS.iter().flat_map(|limit| limit.saturating_sub(2)..=limit + 2);
    let mut numbers: Vec<u64> = near.collect();
    numbers.sort_unstable();
    numbers.dedup();
    numbers.iter().map(|number| format!("{number:X}")).chain(WRAPPED.map(str::to_owned)).collect()
}

/// In capitals, in small letters, and every other digit in small letters.
fn in_each_case(digits: &str) -> [String; 3] {
    let mixed = digits.char_indices().map(|(place, digit)| if place % 2 == 0 { digit } else { digit.to_ascii_lowercase() });
    [digits.to_owned(), digits.to_ascii_lowercase(), mixed.collect()]
}

/// `\u{}` of every boundary value, in each case, with few and with many zeros in front.
pub fn escapes(visit: &mut dyn FnMut(&str)) {
    for digits in numbers().iter().flat_map(|digits| in_each_case(digits)) {
        for zeros in FEW_ZEROS.chain(MANY_ZEROS) {
            visit(&format!("\\u{{{}{digits}}}", "0".repeat(zeros)));
        }
    }
}

/// Every boundary value, alone, twice, in long brackets, and where it is not very long, between other pieces.
pub fn boundaries(visit: &mut dyn FnMut(&[u8])) {
    const LONGEST_BETWEEN: usize = 32;
    escapes(&mut |escape| {
        visit(format!("\"{escape}\"").as_bytes());
        visit(format!("'{escape}{escape}'").as_bytes());
        visit(format!("[[{escape}]]").as_bytes());
        if escape.len() <= LONGEST_BETWEEN {
            AROUND.iter().for_each(|(before, behind)| visit(format!("\"{before}{escape}{behind}\"").as_bytes()));
        }
    });
}

/// Every boundary value before every other one.
pub fn pairs(visit: &mut dyn FnMut(&[u8])) {
    let numbers = numbers();
    for first in &numbers {
        for second in &numbers {
            visit(format!("'\\u{{{first}}}\\u{{{second}}}'").as_bytes());
        }
    }
}

/// Every value from 0 to some above 80000000, or one in `step`.
pub fn stepped(step: usize, visit: &mut dyn FnMut(&[u8])) {
    for number in (0..=0x8000_1000u64).step_by(step) {
        visit(format!("\"\\u{{{number:X}}}\"").as_bytes());
    }
}

/// A number of up to 34 bits, small ones as often as large ones: any number of bits is as frequent as the others.
pub fn any_width(random: &mut Random) -> u64 {
    let width = random.below(35);
    random.next() >> 1 >> (63 - width)
}

/// The digits of an escape: any value or one near a limit, now and then with zeros in front.
pub fn any_digits(random: &mut Random) -> String {
    let number = match random.below(8) {
        0..=4 => any_width(random),
        5 => 0xD700 + random.below(0xA00) as u64,
        6 => LIMITS[random.below(LIMITS.len())] + random.below(3) as u64,
        _ => return random.pick(&WRAPPED).to_owned(),
    };
    let most = if random.one_in(4) { 40 } else { 9 };
    let digits = random.below(most);
    if random.one_in(2) { format!("{number:0digits$X}") } else { format!("{number:0digits$x}") }
}
