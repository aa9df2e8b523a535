//! Random lines for the program `bodies`: good ones, damaged ones, and such about the limit and far over it.

use crate::kind::Kind;
use crate::lines::{LONGEST, MOST_CAPTURES};
use crate::store::picked;
use crate::texts::grammar::{self, push};
use crate::texts::random::Random;
use crate::texts::{bodies, body_edges, symbols};

/// Bytes of a head.
pub const HEAD: usize = 5;

/// What heads are damaged with.
const HEAD_SYMBOLS: [&[u8]; 16] =
    [b" ", b"  ", b"0", b"00", b"1", b"9", b"33", b"7", b"F", b"G", b"f", b"x", b"\t", b"\0", b"\r", b"\xFF"];

pub struct Lines {
    random: Random,
    picked: Vec<Vec<u8>>,
}

impl Lines {
    pub fn new(seed: u64) -> Self {
        Self { random: Random::new(seed), picked: body_edges::texts() }
    }

    /// So many random lines, each with its newline. Runs of empty lines and a newline in a body make it more.
    pub fn input(&mut self, count: usize) -> Vec<u8> {
        let mut input = Vec::new();
        for _ in 0..count {
            self.push_line(&mut input);
            input.push(b'\n');
        }
        input
    }

    fn push_line(&mut self, input: &mut Vec<u8>) {
        let random = &mut self.random;
        match random.below(20_000) {
            0 => input.extend(std::iter::repeat_n(b'\n', 1000 + random.below(5000))),
            1..=4 => far_too_long(random, input),
            5..=104 => near_the_limit(random, input),
            105..=604 => short(random, input),
            _ => self.usual(input),
        }
    }

    /// A head, one in eight damaged, and a body, every other one damaged.
    fn usual(&mut self, input: &mut Vec<u8>) {
        let kind = any_kind(&mut self.random);
        let mut head = head(&mut self.random, kind);
        if self.random.one_in(8) {
            grammar::damage_with(&mut self.random, &HEAD_SYMBOLS, &mut head);
        }
        input.extend(head);
        input.extend(self.body(kind));
    }

    fn body(&mut self, kind: Kind) -> Vec<u8> {
        let random = &mut self.random;
        let mut body = match random.below(8) {
            0 => self.picked[random.below(self.picked.len())].clone(),
            1 | 2 => picked::hostile(random, kind),
            3 | 4 if kind == Kind::Pattern => ranges::grammar::pattern(&mut Random::new(random.next())),
            _ => {
                let mut body = Vec::new();
                bodies::body(random, kind, &mut body);
                body
            }
        };
        if random.one_in(2) {
            grammar::damage_with(random, symbols::all_of(kind), &mut body);
        }
        stray_byte(random, &mut body);
        // A newline ends the line, so most become the other byte that ends lines elsewhere.
        if !random.one_in(16) {
            newlines_to_returns(&mut body);
        }
        body
    }
}

/// A carriage return at the end, or a zero byte or one that is not UTF-8 somewhere, each in one body of 24.
fn stray_byte(random: &mut Random, body: &mut Vec<u8>) {
    const ILL_FORMED: [u8; 6] = [0xFF, 0x80, 0xC3, 0xED, 0xF4, 0xC0];
    let place = random.below(body.len() + 1);
    match random.below(24) {
        0 => body.push(b'\r'),
        1 => body.insert(place, 0),
        2 => body.insert(place, ILL_FORMED[random.below(ILL_FORMED.len())]),
        _ => {}
    }
}

pub fn newlines_to_returns(body: &mut [u8]) {
    body.iter_mut().filter(|byte| **byte == b'\n').for_each(|byte| *byte = b'\r');
}

fn any_kind(random: &mut Random) -> Kind {
    Kind::ALL[random.below(Kind::ALL.len())]
}

/// A head that fits, one in twelve with a digit that is no version.
fn head(random: &mut Random, kind: Kind) -> Vec<u8> {
    let digit = if random.one_in(12) { *random.pick(&[&b'0', &b'7', &b'8', &b'9']) } else { b'1' + random.below(6) as u8 };
    let mut head = vec![kind.letter(), digit];
    push(&mut head, &columns(random, kind));
    head.push(b' ');
    head
}

/// Counts up to 9 are as frequent as the others, since a body can tell them apart.
fn columns(random: &mut Random, kind: Kind) -> String {
    if kind != Kind::Replacement {
        return "  ".to_owned();
    }
    match random.below(4) {
        0 => "  ".to_owned(),
        1 => format!("{:>2}", random.below(MOST_CAPTURES + 1)),
        2 => format!("{:>2}", random.below(10)),
        _ => format!("{:>2}", random.below(3)),
    }
}

/// Up to six symbols: nearly a head, and nothing at all.
fn short(random: &mut Random, input: &mut Vec<u8>) {
    for _ in 0..random.below(HEAD + 2) {
        input.extend_from_slice(random.pick(&HEAD_SYMBOLS));
    }
}

/// A line of up to three bytes less or more than the longest, most of them with a head that fits.
fn near_the_limit(random: &mut Random, input: &mut Vec<u8>) {
    let kind = any_kind(random);
    let mut line = head(random, kind);
    if random.one_in(6) {
        line[random.below(HEAD)] = random.byte() | 0x80;
    }
    let end = random.pick(&["", "", "%", "(", "é", "\u{10FFFF}", "\r", "\0", "y"]);
    let length = LONGEST - 3 + random.below(7);
    fill(random, kind, length - end.len(), &mut line);
    push(&mut line, end);
    if random.one_in(8) {
        line.pop();
    }
    input.extend(line);
}

/// A line that does not fit any buffer of a reader that keeps only what it needs.
fn far_too_long(random: &mut Random, input: &mut Vec<u8>) {
    let kind = any_kind(random);
    let mut line = head(random, kind);
    let length = *random.pick(&[&5000, &8192, &16_384, &65_531, &65_536, &70_000, &131_072, &200_000]) + random.below(8);
    fill(random, kind, length, &mut line);
    input.extend(line);
}

/// Lengthens a line with what the kind accepts, and one in four times with a body of the grammar first.
fn fill(random: &mut Random, kind: Kind, length: usize, line: &mut Vec<u8>) {
    let start = line.len();
    if random.one_in(4) {
        bodies::body(random, kind, line);
        newlines_to_returns(&mut line[start..]);
    }
    let piece = random.pick(fillers(kind)).as_bytes();
    line.extend(piece.iter().cycle().take(length.saturating_sub(line.len())));
    line.truncate(length);
}

const fn fillers(kind: Kind) -> &'static [&'static str] {
    match kind {
        Kind::Format => &["a", "%d", "%%", "€"],
        Kind::Pattern => &["a", "%a", "[]]", "é"],
        Kind::Pack | Kind::Packsize => &["b", "i4", "d ", "!8"],
        Kind::Replacement => &["a", "%1", "%%", "😀"],
        Kind::Date => &["a", "%d", "%%", "é"],
    }
}
