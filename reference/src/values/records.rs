//! The record of a group.

use super::{
    least, Ballot, Body, Draw, Heard, Link, Members, Offer, Outcome, Pairs, Past, RingArc, Route, SeenList,
    Watch,
};

/// Whether a group is in a transaction, and as what.
#[derive(Clone, PartialEq, Eq, Debug)]
pub enum Lock {
    Free,
    Coordinating { tx: Draw, body: Body, order: u32, heard: Option<Heard> },
    Promised { tx: Draw, offer: Offer },
    Watching { tx: Draw, watch: Watch },
}

impl Lock {
    /// Returns the transaction that locks the group.
    pub fn tx(&self) -> Option<Draw> {
        match self {
            Lock::Free => None,
            Lock::Coordinating { tx, .. } | Lock::Promised { tx, .. } | Lock::Watching { tx, .. } => {
                Some(*tx)
            }
        }
    }
    /// Returns whether a group with this lock executes calls.
    pub fn open(&self) -> bool {
        matches!(self, Lock::Free | Lock::Watching { .. })
    }
}

/// A group's record without its pairs and its client table.
#[derive(Clone, PartialEq, Eq, Debug)]
pub struct Core {
    pub id: Draw,
    pub first: u16,
    pub arc: RingArc,
    pub members: Members,
    pub succ: Link,
    pub pred: Link,
    pub lock: Lock,
    pub begun: u32,
    pub decided: Vec<(Draw, Outcome)>,
    pub voted: Vec<(Draw, Past)>,
    pub born: Vec<Draw>,
    pub gone: Option<Route>,
}

impl Core {
    /// Returns the record of a group at its birth; its least member is the first to lead.
    pub fn new(id: Draw, arc: RingArc, members: Members, succ: Link, pred: Link) -> Core {
        Core {
            id,
            first: least(&members),
            arc,
            members,
            succ,
            pred,
            lock: Lock::Free,
            begun: 0,
            decided: Vec::new(),
            voted: Vec::new(),
            born: Vec::new(),
            gone: None,
        }
    }
    /// Returns the outcome that the group has decided for a transaction.
    pub fn outcome_of(&self, tx: Draw) -> Option<&Outcome> {
        self.decided.iter().find(|(t, _)| *t == tx).map(|(_, o)| o)
    }
    /// Returns what the group has voted on a transaction.
    pub fn past_of(&self, tx: Draw) -> Option<&Past> {
        self.voted.iter().find(|(t, _)| *t == tx).map(|(_, p)| p)
    }
    /// Returns the first ballot of the group.
    pub fn first_ballot(&self) -> Ballot {
        Ballot { round: 1, node: self.first }
    }
}

/// A group's whole record.
#[derive(Clone, PartialEq, Eq, Debug)]
pub struct Base {
    pub core: Core,
    pub pairs: Pairs,
    pub clients: SeenList,
}
