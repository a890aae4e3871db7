//! The commands of a group's log.

use super::{Body, Draw, Offer, Op, Outcome, Past, Vote, Watch};

/// A command of a group's log.
#[derive(Clone, PartialEq, Eq, Debug)]
pub enum Command {
    Noop,
    Call { client: u16, seq: u32, op: Op },
    Join { node: u16, order: u32 },
    Leave { node: u16, order: u32 },
    Split { at: u32, child: Draw, order: u32 },
    Begin { tx: Draw, body: Body, order: u32 },
    Prepared { tx: Draw, offer: Offer },
    RecordVote { tx: Draw, vote: Vote, by: u16 },
    GiveUp { tx: Draw },
    Finish { tx: Draw, outcome: Outcome },
    Watched { tx: Draw, watch: Watch },
    RecordWatch { tx: Draw, vote: Past, by: u16 },
}

impl Command {
    /// Returns the number of an order command, or none for a command of another kind.
    pub fn order(&self) -> Option<u32> {
        match self {
            Command::Join { order, .. }
            | Command::Leave { order, .. }
            | Command::Split { order, .. }
            | Command::Begin { order, .. } => Some(*order),
            _ => None,
        }
    }
}
