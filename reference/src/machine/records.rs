//! Votes, decisions and ends of transactions on a record.

use super::Effect;
use crate::values::*;

impl Base {
    /// Notes a decision: the lock becomes free and the outcome is kept.
    fn note_decision(&mut self, tx: Draw, outcome: &Outcome) {
        self.core.lock = Lock::Free;
        self.core.decided.push((tx, outcome.clone()));
    }

    /// Notes that a transaction has ended here.
    fn note_end(&mut self, tx: Draw) {
        self.core.lock = Lock::Free;
        match self.core.voted.iter_mut().find(|(t, _)| *t == tx) {
            Some(entry) => entry.1 = Past::Ended,
            None => self.core.voted.push((tx, Past::Ended)),
        }
    }

    /// Notes a vote, and takes the lock where it is Yes.
    pub(super) fn voted(&mut self, tx: Draw, vote: Result<(), No>, lock: Lock) -> Effect {
        if self.core.past_of(tx).is_some() {
            return Effect::NoEffect { tx };
        }
        let past = match vote {
            Ok(()) => {
                self.core.lock = lock;
                Past::Yes
            }
            Err(no) => Past::No(no),
        };
        self.core.voted.push((tx, past.clone()));
        Effect::Voted(past)
    }

    /// Aborts the transaction that this record coordinates.
    fn abort(&mut self, tx: Draw) -> Effect {
        self.note_decision(tx, &Outcome::Abort);
        Effect::Decided(Outcome::Abort)
    }

    /// Gives up the transaction that this record coordinates.
    pub(super) fn give_up(&mut self, tx: Draw) -> Effect {
        match &self.core.lock {
            Lock::Coordinating { tx: t, .. } if *t == tx => self.abort(tx),
            _ => Effect::NoEffect { tx },
        }
    }

    /// Becomes the record after a commit.
    fn decide(&mut self, tx: Draw, mut after: Base, outcome: Outcome) -> Effect {
        after.note_decision(tx, &outcome);
        *self = after;
        Effect::Decided(outcome)
    }

    /// Records the vote of the participant.
    pub(super) fn record_vote(&mut self, tx: Draw, vote: &Vote, by: u16) -> Result<Effect, Draw> {
        let (body, order, heard) = match &self.core.lock {
            Lock::Coordinating { tx: t, body, order, heard } if *t == tx => (body.clone(), *order, heard),
            _ => return Ok(Effect::NoEffect { tx }),
        };
        if matches!(body, Body::Split { .. }) || heard.is_some() {
            return Ok(Effect::NoEffect { tx });
        }
        let frozen = match vote {
            Vote::No(_) => return Ok(self.abort(tx)),
            Vote::Yes(frozen) => frozen,
        };
        if body == Body::Merge && frozen.succ.group != self.core.id {
            let heard = Some(Heard { frozen: frozen.clone(), by });
            self.core.lock = Lock::Coordinating { tx, body, order, heard };
            return Ok(Effect::Changed);
        }
        let (mut after, outcome) = self.commit(&body, frozen).ok_or(tx)?;
        if body == Body::Merge {
            after.core.pred = Link { group: after.core.id, members: after.core.members.clone() };
        }
        Ok(self.decide(tx, after, outcome))
    }

    /// Records the vote of the watcher.
    pub(super) fn record_watch(&mut self, tx: Draw, vote: &Past) -> Result<Effect, Draw> {
        let (body, heard) = match &self.core.lock {
            Lock::Coordinating { tx: t, body, heard, .. } if *t == tx => (body.clone(), heard.clone()),
            _ => return Ok(Effect::NoEffect { tx }),
        };
        if !matches!(body, Body::Split { .. }) && heard.is_none() {
            return Ok(Effect::NoEffect { tx });
        }
        if *vote != Past::Yes {
            return Ok(self.abort(tx));
        }
        let (after, outcome) = match (&body, &heard) {
            (Body::Merge, Some(heard)) => self.commit(&body, &heard.frozen).ok_or(tx)?,
            (Body::Split { at, child }, _) => {
                let (mine, _) = self.divide(*at, *child).ok_or(tx)?;
                (mine, Outcome::Divided)
            }
            _ => return Ok(Effect::NoEffect { tx }),
        };
        Ok(self.decide(tx, after, outcome))
    }

    /// Carries out the outcome of a transaction that this record waits for.
    pub(super) fn finish(&mut self, tx: Draw, outcome: &Outcome) -> Result<Effect, Draw> {
        match self.core.lock.clone() {
            Lock::Promised { tx: t, offer } if t == tx => {
                if *outcome == Outcome::Divided {
                    return Ok(Effect::NoEffect { tx });
                }
                let mut after = self.take_outcome(&offer, outcome).ok_or(tx)?;
                after.note_end(tx);
                *self = after;
            }
            Lock::Watching { tx: t, watch } if t == tx => {
                if *outcome != Outcome::Abort {
                    self.core.pred = watch.next;
                }
                self.note_end(tx);
            }
            _ => return Ok(Effect::NoEffect { tx }),
        }
        Ok(Effect::Decided(outcome.clone()))
    }
}
