/// Calls answered, calls refused, and rewrites made in the answered calls, also those of `cleanup_seq_graph`, whose
/// answer does not tell them. Each stops at 2^32 - 1. A call refused with `Refusal::Caller` is not counted.
#[derive(Debug, Clone, Copy, Default, PartialEq, Eq)]
#[repr(C)]
pub struct Tally {
    pub answered: u32,
    pub refused: u32,
    pub rewrites: u32,
}

/// The table of sixteen tallies, that of caller i at i; a new one is all zeros. A call raises counts of its own caller
/// and leaves every field of the other fifteen tallies as it was, so that on a table that nothing else writes each is
/// what its own caller's calls alone make of it.
#[derive(Debug, Clone, Default, PartialEq, Eq)]
#[repr(C)]
pub struct Tallies {
    pub callers: [Tally; 16],
}

impl Tallies {
    /// The caller's tally; none for a number above 15.
    pub fn of(&self, caller: Caller) -> Option<Tally> {
        self.callers.get(caller.0 as usize).copied()
    }
}

/// Who makes a call: the number, 0 to 15, under which it is counted.
#[derive(Debug, Clone, Copy, PartialEq, Eq, PartialOrd, Ord, Hash)]
pub struct Caller(u32);

impl Caller {
    /// None above 15, so that no call of such a caller is refused with `Refusal::Caller`.
    pub const fn new(number: u32) -> Option<Caller> {
        if number < 16 {
            Some(Caller(number))
        } else {
            None
        }
    }

    /// The number unchecked. Above 15 every call gives `Refusal::Caller` and leaves its output and the whole table as
    /// they were.
    pub const fn raw(number: u32) -> Caller {
        Caller(number)
    }

    pub const fn number(self) -> u32 {
        self.0
    }
}
