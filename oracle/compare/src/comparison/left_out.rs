//! What is left out of the comparison with luck's answers, and what shows that it is nothing but the patterns with 39.

use std::fmt;

#[derive(Debug, Default)]
pub struct LeftOut {
    /// Calls that the plain program of `ranges` answers with 39.
    calls: u64,
    /// Calls, of all, in which the answer is not luck's: the library's, or that of the program `bodies`.
    unlike_luck: u64,
    /// Calls that are left out, and in which the answer is luck's all the same.
    like_luck: u64,
    /// The texts that these calls are about.
    texts: u64,
    /// Those of them in which luck finds no fault before the end of the set.
    first_faults: u64,
}

impl LeftOut {
    pub const fn call(&mut self, is_left_out: bool, is_like_luck: bool) {
        self.calls += is_left_out as u64;
        self.unlike_luck += !is_like_luck as u64;
        self.like_luck += (is_left_out && is_like_luck) as u64;
    }

    /// A text that is left out, and whether luck finds no fault in it before the end of the set.
    pub const fn text(&mut self, is_first_fault: bool) {
        self.texts += 1;
        self.first_faults += is_first_fault as u64;
    }

    /// How many calls are left out.
    pub const fn calls(&self) -> u64 {
        self.calls
    }

    /// Whether another call than those left out differs from luck, or one of them does not, or could for another reason.
    pub const fn has_failed(&self) -> bool {
        self.calls != self.unlike_luck
            || self.like_luck > 0
            || self.texts != self.first_faults
            || (self.calls > 0) != (self.texts > 0)
    }
}

impl fmt::Display for LeftOut {
    fn fmt(&self, f: &mut fmt::Formatter<'_>) -> fmt::Result {
        let Self { calls, unlike_luck, like_luck, texts, first_faults } = self;
        write!(
            f,
            "{calls} calls, and {unlike_luck} in all in which the answer is not luck's; of those left out {like_luck} in which it is; \
             {texts} texts, in {first_faults} of which luck finds no fault up to the set's end"
        )
    }
}
