//! Four numbers of the rules that random runs make smaller, so that short runs reach what they bound.

/// The numbers that the rules fix, and that random runs may lower.
#[derive(Clone, Copy, PartialEq, Eq, Debug)]
pub struct Dials {
    /// Old log entries and accepted slots are dropped in steps of so many slots.
    pub unit: u32,
    /// The ticks after which a coordinator gives its transaction up.
    pub patience: u32,
    /// The policy splits a group of more members.
    pub crowd: usize,
    /// The policy moves a boundary of a group of more keys.
    pub heap: usize,
}

impl Dials {
    /// The numbers of the rules.
    pub const RULES: Dials = Dials { unit: 64, patience: 8, crowd: 7, heap: 128 };
}
