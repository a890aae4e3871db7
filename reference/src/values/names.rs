//! The names of ballots, groups and transactions.

use std::fmt;

/// A ballot, ordered by round and then by node.
#[derive(Clone, Copy, PartialEq, Eq, PartialOrd, Ord, Debug)]
pub struct Ballot {
    pub round: u32,
    pub node: u16,
}

/// The name of a group or of a transaction: the node that drew it and its count.
#[derive(Clone, Copy, PartialEq, Eq, PartialOrd, Ord, Debug)]
pub struct Draw {
    pub node: u16,
    pub count: u32,
}

impl fmt::Display for Draw {
    fn fmt(&self, f: &mut fmt::Formatter) -> fmt::Result {
        write!(f, "{}.{}", self.node, self.count)
    }
}

/// The draws of one node. `next` is the count of the next draw.
#[derive(Clone, PartialEq, Eq, Debug)]
pub struct Draws {
    pub node: u16,
    pub next: u32,
}

impl Draws {
    /// Returns the draws of a node at its birth.
    pub fn start(node: u16) -> Draws {
        Draws { node, next: 1 }
    }
    /// Returns whether the node has no name left.
    pub fn spent(&self) -> bool {
        self.next == u32::MAX
    }
    /// Draws the next name.
    pub fn draw(&mut self) -> Draw {
        let d = Draw { node: self.node, count: self.next };
        self.next += 1;
        d
    }
}
