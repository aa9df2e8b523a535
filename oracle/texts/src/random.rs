//! splitmix64: small, and the same everywhere, so that a run can be repeated from its seed.

pub struct Random {
    state: u64,
}

impl Random {
    #[inline]
    pub const fn new(seed: u64) -> Self {
        Self { state: seed }
    }

    #[inline]
    pub const fn next(&mut self) -> u64 {
        self.state = self.state.wrapping_add(0x9E37_79B9_7F4A_7C15);
        let mut z = self.state;
        z = (z ^ (z >> 30)).wrapping_mul(0xBF58_476D_1CE4_E5B9);
        z = (z ^ (z >> 27)).wrapping_mul(0x94D0_49BB_1331_11EB);
        z ^ (z >> 31)
    }

    /// A number under `bound`, which is not 0. Small bounds only, so the remainder's unevenness is too small to matter.
    #[inline]
    pub const fn below(&mut self, bound: usize) -> usize {
        (self.next() % bound as u64) as usize
    }

    #[inline]
    pub const fn byte(&mut self) -> u8 {
        (self.next() >> 56) as u8
    }

    /// True once in `times`.
    #[inline]
    pub const fn one_in(&mut self, times: usize) -> bool {
        self.below(times) == 0
    }

    #[inline]
    pub fn pick<'items, T: ?Sized>(&mut self, items: &[&'items T]) -> &'items T {
        items[self.below(items.len())]
    }
}

/// How texts are made, and how one is damaged.
#[derive(Clone, Copy)]
pub struct Grammar {
    pub make: fn(&mut Random) -> Vec<u8>,
    pub damage: fn(&mut Random, &mut Vec<u8>),
}

/// So many texts by the grammar, every other one damaged.
pub fn texts(random: &mut Random, count: u64, grammar: Grammar, visit: &mut dyn FnMut(&[u8])) {
    for turn in 0..count {
        let mut text = (grammar.make)(random);
        if turn % 2 == 1 {
            (grammar.damage)(random, &mut text);
        }
        visit(&text);
    }
}
