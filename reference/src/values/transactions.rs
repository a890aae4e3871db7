//! What a transaction carries from group to group: offers, watches, votes and outcomes.

use super::{Draw, Members, Pairs, RingArc, SeenList};

/// A neighbour: its name and its members.
#[derive(Clone, PartialEq, Eq, Debug)]
pub struct Link {
    pub group: Draw,
    pub members: Members,
}

/// The way to a group: its name, where its arc starts, and its members.
#[derive(Clone, PartialEq, Eq, Debug)]
pub struct Route {
    pub group: Draw,
    pub lo: u32,
    pub members: Members,
}

/// What a transaction is to do.
#[derive(Clone, PartialEq, Eq, Debug)]
pub enum Body {
    Merge,
    Repart { at: u32 },
    Migrate { node: u16 },
    Split { at: u32, child: Draw },
}

/// What a participant is asked.
#[derive(Clone, PartialEq, Eq, Debug)]
pub struct Offer {
    pub coord: Draw,
    pub part: Draw,
    pub arc: RingArc,
    pub members: Members,
    pub body: Body,
    pub by: u16,
}

/// The record of a participant that has voted Yes.
#[derive(Clone, PartialEq, Eq, Debug)]
pub struct Frozen {
    pub arc: RingArc,
    pub members: Members,
    pub succ: Link,
    pub pairs: Pairs,
    pub clients: SeenList,
}

/// The participant's record that a merge's coordinator heard, and who sent it.
#[derive(Clone, PartialEq, Eq, Debug)]
pub struct Heard {
    pub frozen: Frozen,
    pub by: u16,
}

/// What a watcher is asked: which predecessor it has now and which it shall get.
#[derive(Clone, PartialEq, Eq, Debug)]
pub struct Watch {
    pub coord: Draw,
    pub members: Members,
    pub part: Draw,
    pub old: Draw,
    pub next: Link,
    pub by: u16,
}

/// Why a group votes No.
#[derive(Clone, PartialEq, Eq, Debug)]
pub enum No {
    Busy { tx: Draw },
    Gone,
    Apart,
    TooMany { n: u8 },
}

/// A vote as mail carries it.
#[derive(Clone, PartialEq, Eq, Debug)]
pub enum Vote {
    Yes(Frozen),
    No(No),
}

/// A vote as a record keeps it.
#[derive(Clone, PartialEq, Eq, Debug)]
pub enum Past {
    Yes,
    No(No),
    Ended,
}

/// What a moved boundary brings to the participant.
#[derive(Clone, PartialEq, Eq, Debug)]
pub struct Gift {
    pub pairs: Pairs,
    pub clients: SeenList,
}

/// The outcome of a transaction.
#[derive(Clone, PartialEq, Eq, Debug)]
pub enum Outcome {
    Abort,
    Merged { into: Route },
    Moved { at: u32, gift: Option<Gift> },
    Migrated { node: u16 },
    Divided,
}
