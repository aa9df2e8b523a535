//! A run: its parts, and how far they go.

mod checks;

use texts::section;
use texts::words::DEFAULT_SEED;

use crate::comparison::Comparison;
use crate::comparison::report::Report;
use crate::texts::exhaustive::{self, Form, LONG, LONG_LEVEL_1, QUOTED, RAW};
use crate::texts::random::Random;
use crate::texts::{edges, grammar};

/// How far a run goes.
pub struct Extent {
    /// Which length of each kind's alphabets.
    is_long: bool,
    /// Symbols of the hostile alphabet, by form.
    hostile: [(Form, usize); 4],
    brackets: usize,
    code_point_symbols: usize,
    /// One code point in so many.
    code_point_step: usize,
    utf8_edges: usize,
    has_all_three_bytes: bool,
    spans: usize,
    padded_code_points: usize,
    seed: u64,
    random_texts: u64,
    /// For each kind, and for literals.
    random_bodies: u64,
}

pub const fn short_extent() -> Extent {
    Extent {
        is_long: false,
        hostile: [(RAW, 4), (QUOTED, 4), (LONG, 4), (LONG_LEVEL_1, 3)],
        brackets: 7,
        code_point_symbols: 5,
        code_point_step: 11,
        utf8_edges: 4,
        has_all_three_bytes: false,
        spans: 100_000,
        padded_code_points: 200_000,
        seed: DEFAULT_SEED,
        random_texts: 2_500_000,
        random_bodies: 200_000,
    }
}

pub const fn long_extent(seed: u64, random_texts: u64) -> Extent {
    Extent {
        is_long: true,
        hostile: [(RAW, 5), (QUOTED, 5), (LONG, 5), (LONG_LEVEL_1, 5)],
        brackets: 9,
        code_point_symbols: 7,
        code_point_step: 1,
        utf8_edges: 5,
        has_all_three_bytes: true,
        spans: 10_000_000,
        padded_code_points: 5_000_000,
        seed,
        random_texts,
        random_bodies: random_texts,
    }
}

pub struct Run {
    comparison: Comparison,
    random: Random,
}

impl Run {
    pub fn new(extent: &Extent) -> Self {
        Self { comparison: Comparison::new(), random: Random::new(extent.seed) }
    }

    pub const fn report(&self) -> &Report {
        self.comparison.report()
    }

    pub fn all(&mut self, extent: &Extent) {
        self.literals(extent);
        self.checks(extent);
    }

    pub fn literals(&mut self, extent: &Extent) {
        self.fixed(extent);
        self.hostile(extent);
        self.escapes(extent);
        self.utf8(extent);
        self.random_literals(extent);
    }

    fn fixed(&mut self, extent: &Extent) {
        self.comparison.rules();
        self.comparison.whitespace();
        self.comparison.spans(&mut self.random, extent.spans);
        self.section("edges picked by hand", |comparison, _, count| {
            edges::texts().iter().for_each(|text| count_text(comparison, count, text));
        });
    }

    fn hostile(&mut self, extent: &Extent) {
        for (form, most) in &extent.hostile {
            self.all_texts("hostile symbols", &exhaustive::HOSTILE, *most, form);
        }
        self.all_texts("bracket symbols", &exhaustive::BRACKETS, extent.brackets, &RAW);
        self.all_texts("bracket symbols", &exhaustive::BRACKETS, extent.brackets - 1, &LONG_LEVEL_1);
    }

    fn escapes(&mut self, extent: &Extent) {
        self.all_texts("code point symbols", &exhaustive::CODE_POINTS, extent.code_point_symbols, &QUOTED);
        self.section("escapes of one and two bytes", |comparison, _, count| {
            exhaustive::two_bytes_escaped(&mut |text| count_text(comparison, count, text));
            exhaustive::decimal_escapes(&mut |text| count_text(comparison, count, text));
        });
        let name = format!("escapes of one code point in {}", extent.code_point_step);
        self.section(&name, |comparison, _, count| {
            exhaustive::code_point_escapes(extent.code_point_step, &mut |text| count_text(comparison, count, text));
        });
        self.section("code points with zeros in front", |comparison, random, count| {
            exhaustive::padded_code_points(random, extent.padded_code_points, &mut |text| count_text(comparison, count, text));
        });
    }

    fn utf8(&mut self, extent: &Extent) {
        self.all_texts("UTF-8 edges", &exhaustive::UTF8_EDGES, extent.utf8_edges - 1, &QUOTED);
        self.section("UTF-8 edges, by the UTF-8 test alone", |comparison, _, count| {
            exhaustive::texts(&exhaustive::UTF8_EDGES, extent.utf8_edges, &RAW, &mut |text| {
                comparison.utf8_text(text);
                *count += 1;
            });
        });
        if extent.has_all_three_bytes {
            self.section("all texts of three bytes, by the UTF-8 test alone", |comparison, _, count| {
                exhaustive::three_bytes(&mut |text| {
                    comparison.utf8_text(text);
                    *count += 1;
                });
            });
        }
    }

    /// Literals by the grammar, every other one damaged.
    fn random_literals(&mut self, extent: &Extent) {
        let name = format!("random literals, seed {}", extent.seed);
        self.section(&name, |comparison, random, count| {
            let mut text = Vec::new();
            while *count < extent.random_texts {
                text.clear();
                grammar::literal(random, &mut text);
                if *count % 2 == 1 {
                    grammar::damage(random, &mut text);
                }
                count_text(comparison, count, &text);
            }
        });
    }

    fn all_texts(&mut self, name: &str, symbols: &[&[u8]], most: usize, form: &Form) {
        let name = format!("{name}, {}, up to {most}", form.name);
        self.section(&name, |comparison, _, count| {
            exhaustive::texts(symbols, most, form, &mut |text| count_text(comparison, count, text));
        });
    }

    /// Runs a part of the comparison and says how many texts it had and how long it took.
    fn section(&mut self, name: &str, part: impl FnOnce(&mut Comparison, &mut Random, &mut u64)) {
        section::run(name, || {
            let mut count = 0;
            part(&mut self.comparison, &mut self.random, &mut count);
            format!("{count} texts")
        });
    }
}

fn count_text(comparison: &mut Comparison, count: &mut u64, text: &[u8]) {
    comparison.text(text);
    *count += 1;
}
