//! Real Lua 5.1 to 5.4: which bytes a set with reversed ranges matches. A reversed range matches none, and the elements are those
//! that the plain program reads.

use std::fmt;
use std::io;
use std::process::ExitCode;

use library::c;
use ranges::grammar::{self, Direction};
use ranges::plain::{Element, REVERSED, Set};
use texts::random::Random;
use texts::real_lua;

const SCRIPT: &str = include_str!("sets.lua");
/// What the script writes for a set that Lua refuses.
const REFUSED: [u8; 2] = [0xFF, 0xFF];
/// Differences that are printed.
const SHOWN: u64 = 20;
/// Differs from no version of Lua: the test of ranges is that of all.
const VERSION: u32 = 4;

struct Lua {
    program: &'static str,
    name: &'static str,
    /// 5.1 ends a pattern at a zero byte, and has no `%g`.
    is_5_1: bool,
}

const LUAS: [Lua; 4] = [
    Lua { program: "lua5.1", name: "Lua 5.1", is_5_1: true },
    Lua { program: "lua5.2", name: "Lua 5.2", is_5_1: false },
    Lua { program: "lua5.3", name: "Lua 5.3", is_5_1: false },
    Lua { program: "lua5.4", name: "Lua 5.4", is_5_1: false },
];

/// A pattern that is one set and nothing else.
struct Question {
    set: Vec<u8>,
    is_complement: bool,
    elements: Vec<Element>,
}

impl Question {
    /// None where the plain program reads anything else.
    fn new(set: Vec<u8>) -> Option<Self> {
        let read = Set::read(&set, 0).ok().filter(|read| read.end() == set.len())?;
        let (is_complement, elements) = (read.is_complement, read.elements().map(|(_, element)| element).collect());
        Some(Self { set, is_complement, elements })
    }

    fn has_reversed(&self) -> bool {
        self.elements.iter().any(|element| element.is_reversed())
    }

    /// The same set without its reversed ranges: none where nothing is left, or where what is left is read otherwise.
    fn without_reversed(&self) -> Option<Self> {
        let left: Vec<Element> = self.elements.iter().copied().filter(|element| !element.is_reversed()).collect();
        let open: &[u8] = if self.is_complement { b"[^" } else { b"[" };
        let members = left.iter().flat_map(|element| written(*element));
        let set = open.iter().copied().chain(members).chain(*b"]").collect();
        Self::new(set)
            .filter(|without| !left.is_empty() && without.is_complement == self.is_complement && without.elements == left)
    }

    /// The bytes that it does not match, by document 01.
    fn left(&self) -> Vec<u8> {
        (0..=u8::MAX).filter(|byte| self.elements.iter().any(|element| matches(*element, *byte)) == self.is_complement).collect()
    }

    fn is_for(&self, lua: &Lua) -> bool {
        let is_g = |element: &Element| matches!(element, Element::Escaped(b'g' | b'G'));
        !(lua.is_5_1 && (self.set.contains(&0) || self.elements.iter().any(is_g)))
    }
}

fn written(element: Element) -> Vec<u8> {
    match element {
        Element::Byte(byte) => vec![byte],
        Element::Escaped(byte) => vec![b'%', byte],
        Element::Range(left, right) => vec![left, b'-', right],
    }
}

/// A range whose left byte is the greater has no byte between its ends.
fn matches(element: Element, byte: u8) -> bool {
    match element {
        Element::Byte(single) => byte == single,
        Element::Escaped(escaped) => is_of_class(escaped, byte),
        Element::Range(left, right) => left <= byte && byte <= right,
    }
}

/// A capital is the complement, and what is no class is itself.
fn is_of_class(class: u8, byte: u8) -> bool {
    let is_in = match class.to_ascii_lowercase() {
        b'a' => byte.is_ascii_alphabetic(),
        b'c' => byte.is_ascii_control(),
        b'd' => byte.is_ascii_digit(),
        b'g' => byte.is_ascii_graphic(),
        b'l' => byte.is_ascii_lowercase(),
        b'p' => byte.is_ascii_punctuation(),
        b's' => matches!(byte, b' ' | b'\t'..=b'\r'),
        b'u' => byte.is_ascii_uppercase(),
        b'w' => byte.is_ascii_alphanumeric(),
        b'x' => byte.is_ascii_hexdigit(),
        b'z' => byte == 0,
        _ => return byte == class,
    };
    is_in != class.is_ascii_uppercase()
}

/// `[x-y]` and `[^x-y]` for every x greater than y, where that is one range and nothing else.
fn pairs() -> Vec<Question> {
    let mut questions = Vec::new();
    for left in 0..=u8::MAX {
        for right in 0..left {
            let sets = [vec![b'[', left, b'-', right, b']'], vec![b'[', b'^', left, b'-', right, b']']];
            let is_range = |question: &Question| question.elements == [Element::Range(left, right)];
            questions.extend(sets.into_iter().filter_map(Question::new).filter(is_range));
        }
    }
    questions
}

/// Random sets, of which many have reversed ranges.
fn random_sets(seed: u64, count: u64) -> Vec<Question> {
    let mut random = Random::new(seed);
    let sets = (0..count).map(|_| {
        let mut set = Vec::new();
        grammar::set(&mut random, Direction::Any, &mut set);
        set
    });
    sets.filter_map(Question::new).collect()
}

impl Lua {
    /// What it leaves for each set, or none where it refuses one.
    fn left(&self, questions: &[&Question]) -> io::Result<Vec<Option<Vec<u8>>>> {
        let asked: Vec<u8> = questions.iter().flat_map(|question| with_length(&question.set)).collect();
        let written = real_lua::answer(self.program, self.name, SCRIPT, &asked)?;
        let answers = written.as_deref().and_then(answers).filter(|answers| answers.len() == questions.len());
        answers.ok_or_else(|| io::Error::other("not an answer to each set"))
    }
}

fn with_length(set: &[u8]) -> Vec<u8> {
    let length = u8::try_from(set.len()).expect("sets are short");
    [&[length], set].concat()
}

/// The script's answers.
fn answers(mut rest: &[u8]) -> Option<Vec<Option<Vec<u8>>>> {
    let mut answers = Vec::new();
    while let Some((&length, behind)) = rest.split_first_chunk() {
        if length == REFUSED {
            answers.push(None);
            rest = behind;
            continue;
        }
        let (left, behind) = behind.split_at_checked(u16::from_be_bytes(length).into())?;
        answers.push(Some(left.to_vec()));
        rest = behind;
    }
    rest.is_empty().then_some(answers)
}

/// What one Lua answered.
struct Tally {
    lua: &'static Lua,
    /// Sets of one reversed range, and complements of such.
    pairs: u64,
    /// Random sets without a reversed range, and with one.
    forward: u64,
    reversed: u64,
    /// Sets with reversed ranges that were asked without them too.
    without: u64,
    differing: u64,
}

/// Asks each Lua and reports. An error says which.
pub fn run(seed: u64, count: u64) -> ExitCode {
    let (pairs, random) = (pairs(), random_sets(seed, count));
    let ask = |lua: &'static Lua| Tally::of(lua, &pairs, &random);
    let tallies = LUAS.iter().map(|lua| ask(lua).map_err(|error| format!("{}: {error}", lua.program))).collect();
    real_lua::report(tallies, Tally::has_failed)
}

impl Tally {
    fn of(lua: &'static Lua, pairs: &[Question], random: &[Question]) -> io::Result<Self> {
        let mut tally = Self { lua, pairs: 0, forward: 0, reversed: 0, without: 0, differing: 0 };
        let pairs: Vec<&Question> = pairs.iter().filter(|question| question.is_for(lua)).collect();
        let random: Vec<&Question> = random.iter().filter(|question| question.is_for(lua)).collect();
        for (question, left) in pairs.iter().zip(lua.left(&pairs)?) {
            tally.pair(question, left.as_deref());
        }
        let found = lua.left(&random)?;
        for (question, left) in random.iter().zip(&found) {
            tally.random(question, left.as_deref());
        }
        tally.twins(&random, &found)?;
        Ok(tally)
    }

    /// A reversed range matches no byte, and its complement each.
    fn pair(&mut self, question: &Question, left: Option<&[u8]>) {
        let is_right = left.map(<[u8]>::len) == Some(if question.is_complement { 0 } else { 256 });
        self.pairs += 1;
        self.count(question, is_right && self.is_refused_rightly(question), || format!("{} leaves {left:?}", self.lua.name));
    }

    fn random(&mut self, question: &Question, left: Option<&[u8]>) {
        let expected = question.left();
        *if question.has_reversed() { &mut self.reversed } else { &mut self.forward } += 1;
        let is_right = left == Some(&expected) && self.is_refused_rightly(question);
        self.count(question, is_right, || format!("{} leaves {left:?}, plain {expected:?}", self.lua.name));
    }

    /// Without its reversed ranges a set matches the same bytes.
    fn twins(&mut self, random: &[&Question], found: &[Option<Vec<u8>>]) -> io::Result<()> {
        let twins = random.iter().zip(found).filter(|(question, _)| question.has_reversed());
        let twins: Vec<_> = twins.filter_map(|(question, left)| Some((question.without_reversed()?, left))).collect();
        let twins: Vec<_> = twins.iter().filter(|(question, _)| question.is_for(self.lua)).collect();
        let questions: Vec<&Question> = twins.iter().map(|(question, _)| question).collect();
        for ((question, with), without) in twins.iter().zip(self.lua.left(&questions)?) {
            self.without += 1;
            self.count(question, without.is_some() && without == **with, || {
                format!("{} leaves {without:?}, and with reversed ranges {with:?}", self.lua.name)
            });
        }
        Ok(())
    }

    /// The library refuses with 39 just the sets that have a reversed range, if they are UTF-8.
    fn is_refused_rightly(&self, question: &Question) -> bool {
        let number = library::check(c::luck_check_pattern, VERSION, &question.set).number;
        str::from_utf8(&question.set).is_err() || (number == REVERSED) == question.has_reversed()
    }

    fn count(&mut self, question: &Question, is_right: bool, details: impl Fn() -> String) {
        if is_right {
            return;
        }
        let details = details();
        self.differing += 1;
        if self.differing <= SHOWN {
            println!("`{}`: {details}", question.set.escape_ascii());
        }
    }

    /// Whether anything differs, or a run that asked for nothing would look like this.
    const fn has_failed(&self) -> bool {
        self.differing > 0 || self.pairs == 0 || self.forward == 0 || self.reversed == 0 || self.without == 0
    }
}

impl fmt::Display for Tally {
    fn fmt(&self, f: &mut fmt::Formatter<'_>) -> fmt::Result {
        let Self { lua, pairs, forward, reversed, without, differing } = self;
        let answers = pairs + forward + reversed + without;
        write!(
            f,
            "{}: {answers} answers, {pairs} to one reversed range, {forward} to sets without one, {reversed} to sets with some, \
             {without} to these without them; {differing} differ",
            lua.name
        )
    }
}
