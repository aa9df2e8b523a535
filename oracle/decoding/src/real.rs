//! Real Lua 5.4 and 5.3 beside the library: what they make of literals, of most of which one `\u{}` is all.

use std::fmt;
use std::io;
use std::process::ExitCode;

use decoding::plain;
use texts::random::Random;
use texts::real_lua;

use crate::code_points;
use crate::grammar;

const SCRIPT: &str = include_str!("literals.lua");
const UNDECODABLE: u32 = 24;
/// Differences that are printed.
const SHOWN: u64 = 20;
/// For so many random values there is one literal of several pieces.
const LONGER: u64 = 8;

/// A real Lua, and the versions that must answer as it does.
struct Lua {
    program: &'static str,
    name: &'static str,
    versions: &'static [u32],
    /// It is asked for one random value in so many.
    one_in: u64,
    /// 5.3 decodes surrogates, and version 3 refuses them, as luck does.
    has_known_surrogates: bool,
}

const LUAS: [Lua; 2] = [
    Lua { program: "lua5.4", name: "Lua 5.4", versions: &[4, 5], one_in: 1, has_known_surrogates: false },
    Lua { program: "lua5.3", name: "Lua 5.3", versions: &[3], one_in: 4, has_known_surrogates: true },
];

/// A literal's value, or none where it is refused.
type Value = Option<Vec<u8>>;

impl Lua {
    /// What it makes of each literal.
    fn values(&self, literals: &[Vec<u8>]) -> io::Result<Vec<Value>> {
        let asked: Vec<u8> = literals.iter().flat_map(|literal| with_length(literal)).collect();
        let written = real_lua::answer(self.program, self.name, SCRIPT, &asked)?;
        let values = written.as_deref().and_then(values).filter(|values| values.len() == literals.len());
        values.ok_or_else(|| io::Error::other("not an answer to each literal"))
    }
}

fn with_length(literal: &[u8]) -> Vec<u8> {
    let length = u32::try_from(literal.len()).expect("literals are short");
    [&length.to_le_bytes(), literal].concat()
}

/// The script's answers.
fn values(mut answers: &[u8]) -> Option<Vec<Value>> {
    let mut values = Vec::new();
    while let Some((&is_value, rest)) = answers.split_first() {
        if is_value == 0 {
            values.push(None);
            answers = rest;
            continue;
        }
        let (length, rest) = rest.split_first_chunk()?;
        let (value, rest) = rest.split_at_checked(u32::from_le_bytes(*length) as usize)?;
        values.push(Some(value.to_vec()));
        answers = rest;
    }
    Some(values)
}

/// Every boundary value alone and twice, `count` random values, and random literals of several pieces.
fn literals(random: &mut Random, count: u64) -> Vec<Vec<u8>> {
    let mut literals = Vec::new();
    code_points::escapes(&mut |escape| {
        literals.push(format!("\"{escape}\"").into_bytes());
        literals.push(format!("\"{escape}{escape}\"").into_bytes());
    });
    literals.extend((0..count).map(|_| format!("\"\\u{{{:X}}}\"", code_points::any_width(random)).into_bytes()));
    literals.extend((0..count / LONGER).map(|_| grammar::lexed_literal(random)));
    literals
}

/// A value, or the number of the refusal.
type Found = Result<Vec<u8>, u32>;

fn by_library(version: u32, literal: &[u8]) -> Found {
    let mut output = vec![0; literal.len()];
    let decoded = library::decode_string(version, literal, &mut output);
    output.truncate(decoded.written);
    if decoded.number == 0 { Ok(output) } else { Err(decoded.number) }
}

fn by_plain_program(version: u32, literal: &[u8]) -> Found {
    plain::value(version, literal).map_err(|refusal| refusal.number)
}

/// What one Lua, the library and the plain program answered.
struct Tally {
    lua: &'static Lua,
    decoded: u64,
    refused: u64,
    differing: u64,
    /// Literals with a surrogate that this Lua decodes and the library refuses.
    known: u64,
}

/// Asks each Lua and reports. An error says which.
pub fn run(seed: u64, count: u64) -> ExitCode {
    let ask = |lua: &'static Lua| Tally::of(lua, &literals(&mut Random::new(seed), count / lua.one_in));
    let tallies = LUAS.iter().map(|lua| ask(lua).map_err(|error| format!("{}: {error}", lua.program))).collect();
    real_lua::report(tallies, Tally::has_failed)
}

impl Tally {
    fn of(lua: &'static Lua, literals: &[Vec<u8>]) -> io::Result<Self> {
        let mut tally = Self { lua, decoded: 0, refused: 0, differing: 0, known: 0 };
        for (literal, value) in literals.iter().zip(lua.values(literals)?) {
            lua.versions.iter().for_each(|version| tally.answer(*version, literal, &value));
        }
        Ok(tally)
    }

    fn answer(&mut self, version: u32, literal: &[u8], value: &Value) {
        let [found, plain] = [by_library(version, literal), by_plain_program(version, literal)];
        match (value, &found) {
            _ if found != plain => self.differs(version, literal, &format!("library {found:?}, plain {plain:?}")),
            (Some(value), Ok(bytes)) if value == bytes => self.decoded += 1,
            (None, Err(UNDECODABLE)) => self.refused += 1,
            (Some(value), Err(UNDECODABLE)) if self.is_known(literal, value) => self.known += 1,
            _ => self.differs(version, literal, &format!("library {found:?}, {} {value:?}", self.lua.name)),
        }
    }

    /// Of a literal that the library refuses and this Lua decodes: whether surrogates are why. 5.3 has no code point above
    /// 10FFFF, so there is nothing else that version 4 takes and version 3 refuses. The value must be that of version 4.
    fn is_known(&self, literal: &[u8], value: &[u8]) -> bool {
        self.lua.has_known_surrogates && by_plain_program(4, literal).as_deref() == Ok(value)
    }

    fn differs(&mut self, version: u32, literal: &[u8], details: &str) {
        self.differing += 1;
        if self.differing <= SHOWN {
            println!("version {version}, `{}`: {details}", literal.escape_ascii());
        }
    }

    /// Whether a Lua that refuses or decodes all, or a run that asked for nothing, would look like this.
    const fn has_failed(&self) -> bool {
        self.differing > 0 || self.decoded == 0 || self.refused == 0
    }
}

impl fmt::Display for Tally {
    fn fmt(&self, f: &mut fmt::Formatter<'_>) -> fmt::Result {
        let Self { lua, decoded, refused, differing, known } = self;
        let answers = decoded + refused + differing + known;
        write!(f, "{}: {answers} answers, {decoded} decoded, {refused} refused, {differing} differ", lua.name)?;
        if lua.has_known_surrogates {
            write!(f, "; {known} with surrogates, which it decodes and version 3 refuses")?;
        }
        Ok(())
    }
}
