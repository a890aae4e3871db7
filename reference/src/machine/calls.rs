//! Calls and orders on a record.

use super::{check, Effect};
use crate::values::*;

impl Base {
    /// Executes a client's call.
    pub(super) fn call(&mut self, client: u16, seq: u32, op: &Op) -> Effect {
        if let Some(into) = &self.core.gone {
            return Effect::Gone { into: into.clone() };
        }
        if !self.core.lock.open() {
            let tx = self.core.lock.tx().expect("a lock that is not free has a transaction");
            return Effect::NoEffect { tx };
        }
        if !self.core.arc.holds(op.key().pos()) {
            return Effect::NotMine { arc: self.core.arc, succ: self.core.succ.clone() };
        }
        if let Some((last, reply)) = self.clients.get(&client) {
            if *last == seq {
                return Effect::Again(reply.clone());
            }
            if *last > seq {
                return Effect::Stale { last: *last };
            }
        }
        let reply = apply_op(&mut self.pairs, op);
        self.clients.insert(client, (seq, reply.clone()));
        Effect::Done(reply)
    }

    /// Returns the draw of an order that was used already.
    fn used_draw(&self, command: &Command) -> Option<Draw> {
        let used = |tx: Draw| self.core.outcome_of(tx).is_some() || self.core.lock.tx() == Some(tx);
        match command {
            Command::Split { child, .. } if self.core.born.contains(child) || used(*child) => Some(*child),
            Command::Begin { tx, .. } if used(*tx) => Some(*tx),
            _ => None,
        }
    }

    /// Executes an order, or refuses it.
    pub(super) fn order(&mut self, command: &Command) -> Effect {
        if let Some(tx) = self.used_draw(command) {
            return Effect::NoEffect { tx };
        }
        if self.core.gone.is_some() {
            return Effect::Refused(OrderRefusal::NotLeader { hint: None });
        }
        if let Err(refusal) = check(&self.core, command) {
            return Effect::Refused(refusal);
        }
        match command {
            Command::Join { node, .. } => {
                self.core.members.insert(*node);
            }
            Command::Leave { node, .. } => {
                self.core.members.remove(node);
            }
            Command::Begin { tx, body, order } => self.begin(*tx, body.clone(), *order),
            Command::Split { at, child, order } => {
                if self.core.succ.group != self.core.id {
                    // a transaction with the successor as watcher: nothing moves yet
                    self.begin(*child, Body::Split { at: *at, child: *child }, *order);
                } else {
                    let (mine, _) = self.divide(*at, *child).expect("check has tested the split");
                    *self = mine;
                }
            }
            _ => unreachable!("no order"),
        }
        Effect::Changed
    }

    /// Locks the record as coordinator of a transaction.
    fn begin(&mut self, tx: Draw, body: Body, order: u32) {
        self.core.lock = Lock::Coordinating { tx, body, order, heard: None };
        self.core.begun += 1;
    }
}
