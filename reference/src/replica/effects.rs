//! The mail by the effect of an executed command.

use super::*;
use crate::machine::Effect;

impl Replica {
    /// Sends what the effect asks for; `core` is the record before the command.
    pub(super) fn effect_mails(
        &mut self,
        command: &Command,
        effect: &Effect,
        counted: bool,
        core: &Core,
        out: &mut Out,
    ) {
        if counted {
            self.answer_call(command, effect, out);
        }
        self.tell_results(command, effect, core, out);
        if counted {
            self.transaction_mails(command, effect, core, out);
        }
    }

    /// Answers a counted call. One that a lock kept from being executed goes back to the queue.
    fn answer_call(&mut self, command: &Command, effect: &Effect, out: &mut Out) {
        let Command::Call { client, seq, op } = command else { return };
        let answer = match effect {
            Effect::Done(r) | Effect::Again(r) => AnswerBody::Value(r.clone()),
            Effect::NotMine { arc, succ } => AnswerBody::NotMine { arc: *arc, succ: succ.clone() },
            Effect::Gone { into } => AnswerBody::Gone { into: into.clone() },
            Effect::Stale { last } => AnswerBody::Stale { last: *last },
            Effect::NoEffect { .. } => return self.call_back(*client, *seq, op.clone()),
            _ => unreachable!("a call has no other effect"),
        };
        self.answer(client_actor(*client), *seq, answer, out);
    }

    /// Tells the desk the results of orders, at every replica.
    fn tell_results(&self, command: &Command, effect: &Effect, core: &Core, out: &mut Out) {
        if let Some(order) = command.order().filter(|n| *n > 0) {
            // one that only locks has its result later
            let locks = matches!(command, Command::Begin { .. }) || self.base.core.lock != Lock::Free;
            match effect {
                Effect::Changed if !locks => self.tell(order, ToldResult::Done, out),
                Effect::Refused(r) => self.tell(order, ToldResult::Refused(r.clone()), out),
                _ => {}
            }
        }
        if let (Lock::Coordinating { order, .. }, Effect::Decided(outcome)) = (&core.lock, effect) {
            if *order > 0 {
                let aborted = *outcome == Outcome::Abort;
                let result = if aborted { ToldResult::Aborted } else { ToldResult::Committed };
                self.tell(*order, result, out);
            }
        }
    }

    /// Sends the mail of transactions.
    fn transaction_mails(&self, command: &Command, effect: &Effect, core: &Core, out: &mut Out) {
        match (command, effect) {
            (Command::Begin { tx, body, .. }, Effect::Changed) => {
                self.send_prepare(*tx, body, least(&core.succ.members), out);
            }
            // one that only locks
            (Command::Split { child, .. }, Effect::Changed) if self.base.core.lock != Lock::Free => {
                self.send_watch(*child, least(&core.succ.members), out);
            }
            (Command::Prepared { tx, offer }, Effect::Voted(past)) => {
                self.send_vote(*tx, offer, offer.by, self.vote_of(past), out);
            }
            (Command::Watched { tx, watch }, Effect::Voted(past)) => {
                self.send_watched(*tx, watch, watch.by, past.clone(), out);
            }
            (Command::RecordVote { tx, vote: Vote::Yes(frozen), .. }, Effect::Changed) => {
                self.send_watch(*tx, least(&frozen.succ.members), out);
            }
            (Command::RecordVote { tx, vote: Vote::Yes(_), by }, Effect::Decided(outcome)) => {
                self.send_outcome(*tx, core.succ.group, *by, outcome, out);
            }
            (Command::RecordWatch { tx, vote: Past::Yes, by }, Effect::Decided(outcome)) => {
                self.send_outcomes(*tx, *by, outcome, core, out);
            }
            (Command::RecordWatch { tx, vote: Past::No(_), .. }, Effect::Decided(_)) => {
                if matches!(&core.lock, Lock::Coordinating { body: Body::Merge, .. }) {
                    self.send_abort(*tx, &core.succ, out);
                }
            }
            (Command::GiveUp { tx }, Effect::Decided(_)) => {
                self.send_abort(*tx, &core.succ, out);
                if let Lock::Coordinating { heard: Some(h), .. } = &core.lock {
                    self.send_abort(*tx, &h.frozen.succ, out);
                }
            }
            _ => {}
        }
    }

    /// Sends the outcome to the participant, where there is one, and to the watcher, which has voted by `by`.
    fn send_outcomes(&self, tx: Draw, by: u16, outcome: &Outcome, core: &Core, out: &mut Out) {
        let watcher = match &core.lock {
            Lock::Coordinating { heard: Some(h), .. } => {
                self.send_outcome(tx, core.succ.group, h.by, outcome, out);
                h.frozen.succ.group
            }
            _ => core.succ.group,
        };
        self.send_outcome(tx, watcher, by, outcome, out);
    }

    /// Sends a group the outcome of a transaction.
    pub(super) fn send_outcome(&self, tx: Draw, part: Draw, to: u16, outcome: &Outcome, out: &mut Out) {
        self.send(u32::from(to), MailBody::TxOutcome { tx, part, outcome: outcome.clone() }, out);
    }

    /// Sends all members of a group that the transaction was aborted.
    fn send_abort(&self, tx: Draw, link: &Link, out: &mut Out) {
        for m in &link.members {
            self.send_outcome(tx, link.group, *m, &Outcome::Abort, out);
        }
    }
}
