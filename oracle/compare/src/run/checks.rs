//! The runs of the checks: bodies of every kind, and literals.

use super::{Extent, Run};
use crate::kind::Kind;
use crate::texts::exhaustive::{self, QUOTED, QUOTED_SET, RAW};
use crate::texts::random::{self, Grammar, Random};
use crate::texts::symbols::{self, ALPHABETS};
use crate::texts::{bodies, body_edges, grammar};

/// With ranges in both directions.
const PATTERNS: Grammar = Grammar { make: ranges::grammar::pattern, damage: ranges::grammar::damage };
const LITERALS: Grammar = Grammar { make: ranges::grammar::literal, damage: ranges::grammar::damage };

impl Run {
    pub fn checks(&mut self, extent: &Extent) {
        self.body_edges();
        self.bodies(extent);
        self.random_bodies(extent);
        self.checked_literals(extent);
        self.ranges(extent);
    }

    fn body_edges(&mut self) {
        self.section("bodies picked by hand, of every kind and as literals", |comparison, _, count| {
            for (index, text) in body_edges::texts().iter().enumerate() {
                Kind::ALL.iter().for_each(|&kind| comparison.body(kind, text));
                body_edges::literals(text).iter().for_each(|literal| comparison.literal(literal));
                // Each start and each count of captures with each kind: a few texts are enough.
                if index % 16 == 0 {
                    body_edges::literals(text).iter().take(2).for_each(|literal| comparison.literal_in_all_ways(literal));
                }
                *count += 1;
            }
        });
    }

    fn bodies(&mut self, extent: &Extent) {
        for alphabet in &ALPHABETS {
            let most = if extent.is_long { alphabet.long } else { alphabet.short };
            let name = format!("{:?}, {}, {}, up to {most}", alphabet.kind, alphabet.name, alphabet.form.name);
            self.section(&name, |comparison, _, count| {
                exhaustive::texts(alphabet.symbols, most, &alphabet.form, &mut |text| {
                    comparison.body(alphabet.kind, text);
                    *count += 1;
                });
            });
        }
        for kind in Kind::ALL {
            self.section(&format!("{kind:?}, any two bytes"), |comparison, _, count| {
                body_edges::two_bytes(kind, &mut |text| {
                    comparison.body(kind, text);
                    *count += 1;
                });
            });
        }
    }

    /// Bodies by the grammar of each kind, every other one damaged.
    fn random_bodies(&mut self, extent: &Extent) {
        for kind in Kind::ALL {
            let name = format!("{kind:?}, random, seed {}", extent.seed);
            self.section(&name, |comparison, random, count| {
                let mut text = Vec::new();
                while *count < extent.random_bodies {
                    text.clear();
                    bodies::body(random, kind, &mut text);
                    if *count % 2 == 1 {
                        grammar::damage_with(random, symbols::all_of(kind), &mut text);
                    }
                    comparison.body(kind, &text);
                    *count += 1;
                }
            });
        }
    }

    fn checked_literals(&mut self, extent: &Extent) {
        let most = if extent.is_long { 5 } else { 4 };
        for form in [QUOTED, RAW] {
            let name = format!("literals checked, {}, up to {most}", form.name);
            self.section(&name, |comparison, _, count| {
                exhaustive::texts(&symbols::LITERAL, most, &form, &mut |text| {
                    comparison.literal(text);
                    *count += 1;
                });
            });
        }
        let name = format!("literals checked, random, seed {}", extent.seed);
        self.section(&name, |comparison, random, count| {
            let mut text = Vec::new();
            while *count < extent.random_bodies {
                text.clear();
                bodies::literal(random, &mut text);
                if *count % 2 == 1 {
                    grammar::damage_with(random, &symbols::LITERAL, &mut text);
                }
                comparison.literal(&text);
                *count += 1;
            }
        });
    }

    /// Sets with ranges in both directions: literals of them, and patterns and literals by the grammar of `ranges`, every other one
    /// damaged.
    fn ranges(&mut self, extent: &Extent) {
        let most = if extent.is_long { 5 } else { 4 };
        self.section(&format!("literals checked, {}, up to {most}", QUOTED_SET.name), |comparison, _, count| {
            exhaustive::texts(&symbols::LITERAL_RANGES, most, &QUOTED_SET, &mut |text| {
                comparison.literal(text);
                *count += 1;
            });
        });
        let mut random = Random::new(extent.seed);
        self.section(&format!("Pattern, ranges, random, seed {}", extent.seed), |comparison, _, count| {
            random::texts(&mut random, extent.random_bodies, PATTERNS, &mut |text| {
                comparison.body(Kind::Pattern, text);
                *count += 1;
            });
        });
        self.section(&format!("literals checked, ranges, random, seed {}", extent.seed), |comparison, _, count| {
            random::texts(&mut random, extent.random_bodies / 4, LITERALS, &mut |text| {
                comparison.literal(text);
                *count += 1;
            });
        });
    }
}
