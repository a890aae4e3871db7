//! The group machine: one command on the record of one group.

mod calls;
mod checks;
mod plans;
mod records;

pub use checks::*;

use crate::values::*;

/// The effect of a command on a record.
#[derive(Clone, PartialEq, Eq, Debug)]
pub enum Effect {
    Done(Reply),
    Again(Reply),
    Stale { last: u32 },
    NotMine { arc: RingArc, succ: Link },
    Gone { into: Route },
    NoEffect { tx: Draw },
    Idle,
    Changed,
    Voted(Past),
    Decided(Outcome),
    Refused(OrderRefusal),
}

/// The effect of a command, and whether it has none because its plan cannot be made.
#[derive(Clone, PartialEq, Eq, Debug)]
pub struct Applied {
    pub effect: Effect,
    pub unmade: bool,
}

impl Base {
    /// Returns what a participant freezes of its record.
    pub fn frozen(&self) -> Frozen {
        Frozen {
            arc: self.core.arc,
            members: self.core.members.clone(),
            succ: self.core.succ.clone(),
            pairs: self.pairs.clone(),
            clients: self.clients.clone(),
        }
    }

    /// Applies one command to the record, and returns its effect.
    pub fn apply(&mut self, command: &Command) -> Applied {
        match self.try_apply(command) {
            Ok(effect) => Applied { effect, unmade: false },
            Err(tx) => Applied { effect: Effect::NoEffect { tx }, unmade: true },
        }
    }

    /// Applies one command. `Err` names the transaction of a plan that cannot be made: nothing has changed.
    fn try_apply(&mut self, command: &Command) -> Result<Effect, Draw> {
        match command {
            Command::Noop => Ok(Effect::Idle),
            Command::Call { client, seq, op } => Ok(self.call(*client, *seq, op)),
            Command::Join { .. } | Command::Leave { .. } | Command::Split { .. } | Command::Begin { .. } => {
                Ok(self.order(command))
            }
            Command::Prepared { tx, offer } => {
                let lock = Lock::Promised { tx: *tx, offer: offer.clone() };
                Ok(self.voted(*tx, vote(&self.core, offer), lock))
            }
            Command::Watched { tx, watch } => {
                let lock = Lock::Watching { tx: *tx, watch: watch.clone() };
                Ok(self.voted(*tx, watch_vote(&self.core, watch), lock))
            }
            Command::RecordVote { tx, vote, by } => self.record_vote(*tx, vote, *by),
            Command::RecordWatch { tx, vote, .. } => self.record_watch(*tx, vote),
            Command::GiveUp { tx } => Ok(self.give_up(*tx)),
            Command::Finish { tx, outcome } => self.finish(*tx, outcome),
        }
    }

    /// Returns the record of the child that this command splits off, before it is applied.
    pub fn child_of(&self, command: &Command) -> Option<Base> {
        if !matches!(command, Command::Split { .. } | Command::RecordWatch { .. }) {
            return None;
        }
        let mut after = self.clone();
        let effect = after.apply(command).effect;
        let (at, child) = match (command, &effect) {
            (Command::Split { at, child, .. }, Effect::Changed) => (*at, *child),
            (Command::RecordWatch { .. }, Effect::Decided(Outcome::Divided)) => match &self.core.lock {
                Lock::Coordinating { body: Body::Split { at, child }, .. } => (*at, *child),
                _ => return None,
            },
            _ => return None,
        };
        if !after.core.born.contains(&child) {
            return None;
        }
        self.divide(at, child).map(|(_, theirs)| theirs)
    }
}
