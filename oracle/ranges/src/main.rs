//! Compares the proved library's check of patterns, and of literals with patterns, with a plain program of the same rules, in one
//! process: every field of each answer. `real` asks real Lua 5.1 to 5.4 what sets with reversed ranges match.

mod comparison;
mod exhaustive;
mod real;

use std::process::ExitCode;

use comparison::Comparison;
use exhaustive::{
    BACKSLASHED_SETS, FEW_MEMBERS, HOSTILE, MEMBERS, NEIGHBOURS, QUOTED, QUOTED_SET, RAW, SET, SETS, SOME, captures,
    character_pairs, pairs, runs, triples,
};
use ranges::grammar;
use texts::exhaustive::{Form, texts};
use texts::random::{self, Grammar, Random};
use texts::section;
use texts::words::{self, DEFAULT_SEED, numbers};

const USAGE: &str = "usage: ranges short | ranges long [SEED] [COUNT] | ranges real [SEED] [COUNT]";

/// How far a run goes: the most symbols of each alphabet.
struct Extent {
    hostile: usize,
    some: usize,
    members: usize,
    neighbours: usize,
    few_members: usize,
    /// Of the alphabets in quotes.
    quoted: usize,
    quoted_members: usize,
    /// The greatest byte of the triples.
    last: u8,
    seed: u64,
    /// Patterns, and as many literals.
    random: u64,
}

fn short_extent() -> Extent {
    Extent {
        hostile: 5,
        some: 6,
        members: 6,
        neighbours: 4,
        few_members: 8,
        quoted: 4,
        quoted_members: 6,
        last: 0x7F,
        seed: DEFAULT_SEED,
        random: 1_000_000,
    }
}

fn long_extent(seed: u64, random: u64) -> Extent {
    Extent {
        hostile: 6,
        some: 8,
        members: 7,
        neighbours: 5,
        few_members: 10,
        quoted: 5,
        quoted_members: 7,
        last: 0xFF,
        seed,
        random,
    }
}

/// What is done with each text.
type Ask = fn(&mut Comparison, &[u8]);

/// Runs a part of the comparison and says how many texts it had, how many of them are answered 39, and how long it took.
fn section(comparison: &mut Comparison, name: &str, ask: Ask, part: impl FnOnce(&mut dyn FnMut(&[u8]))) {
    section::run(name, || {
        let reversed_before = comparison.reversed();
        let count = section::ask_all(part, |text| ask(comparison, text));
        format!("{count} texts, {} answered 39", comparison.reversed() - reversed_before)
    });
}

fn all_texts(comparison: &mut Comparison, name: &str, ask: Ask, symbols: &[&[u8]], most: usize, form: &Form) {
    let name = format!("{name}, {}, up to {most}", form.name);
    section(comparison, &name, ask, |visit| texts(symbols, most, form, visit));
}

fn patterns(comparison: &mut Comparison, extent: &Extent) {
    let ask: Ask = Comparison::pattern;
    section(comparison, "any two bytes about a hyphen", ask, pairs);
    section(comparison, "two characters", ask, character_pairs);
    section(comparison, &format!("three bytes up to {:#X} in a set", extent.last), ask, |visit| triples(extent.last, visit));
    section(comparison, "captures about their limit", ask, captures);
    section(comparison, "runs of each length", ask, runs);
    for form in [&RAW, &SET] {
        all_texts(comparison, "hostile symbols", ask, &HOSTILE, extent.hostile, form);
    }
    all_texts(comparison, "some symbols", ask, &SOME, extent.some, &RAW);
    all_texts(comparison, "members", ask, &MEMBERS, extent.members + 1, &SET);
    for form in &SETS {
        all_texts(comparison, "members", ask, &MEMBERS, extent.members, form);
    }
    all_texts(comparison, "neighbours", ask, &NEIGHBOURS, extent.neighbours, &SET);
    all_texts(comparison, "few members", ask, &FEW_MEMBERS, extent.few_members, &SET);
    let name = format!("random patterns, seed {}", extent.seed);
    section(comparison, &name, ask, |visit| random_texts(extent, grammar::pattern, visit));
}

fn literals(comparison: &mut Comparison, extent: &Extent) {
    let ask: Ask = Comparison::literal;
    for (open, close) in [("\"", "\""), ("'", "\\n'"), ("'\\\\", "'")] {
        let name = format!("two characters in {open} {close}");
        section(comparison, &name, ask, |visit| {
            character_pairs(&mut |text| visit(&[open.as_bytes(), text, close.as_bytes()].concat()));
        });
    }
    section(comparison, "runs of each length in quotes", ask, |visit| {
        runs(&mut |text| {
            visit(&[b"'", text, b"'"].concat());
            visit(&[b"'", text, b"\\\\'"].concat());
        });
    });
    for form in [&QUOTED, &RAW, &QUOTED_SET] {
        all_texts(comparison, "hostile symbols", ask, &HOSTILE, extent.quoted, form);
    }
    for form in [QUOTED_SET].iter().chain(&BACKSLASHED_SETS) {
        all_texts(comparison, "members", ask, &MEMBERS, extent.quoted_members, form);
    }
    let name = format!("random literals, seed {}", extent.seed);
    section(comparison, &name, ask, |visit| random_texts(extent, grammar::literal, visit));
}

fn random_texts(extent: &Extent, make: fn(&mut Random) -> Vec<u8>, visit: &mut dyn FnMut(&[u8])) {
    let grammar = Grammar { make, damage: grammar::damage };
    random::texts(&mut Random::new(extent.seed), extent.random, grammar, visit);
}

fn compare(extent: &Extent) -> ExitCode {
    let mut comparison = Comparison::default();
    patterns(&mut comparison, extent);
    literals(&mut comparison, extent);
    println!("{comparison}");
    ExitCode::from(u8::from(comparison.has_failed()))
}

fn run(words: &[&str]) -> Option<ExitCode> {
    match *words {
        ["short"] => Some(compare(&short_extent())),
        ["long", ref words @ ..] => numbers(words, 5_000_000).map(|(seed, count)| compare(&long_extent(seed, count))),
        ["real", ref words @ ..] => numbers(words, 50_000).map(|(seed, count)| real::run(seed, count)),
        _ => None,
    }
}

fn main() -> ExitCode {
    words::run(USAGE, run)
}
