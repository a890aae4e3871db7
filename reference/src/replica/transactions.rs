//! The mail of transactions: offers, watches, votes and outcomes.

use super::*;

impl Replica {
    /// Returns the link of the watcher that a coordinator asks, where it asks one.
    pub(super) fn watcher_link(&self) -> Option<Link> {
        match &self.base.core.lock {
            Lock::Coordinating { body: Body::Split { .. }, .. } => Some(self.base.core.succ.clone()),
            Lock::Coordinating { heard: Some(h), .. } => Some(h.frozen.succ.clone()),
            _ => None,
        }
    }

    /// Returns what the watcher is asked.
    fn watch(&self) -> Watch {
        let core = &self.base.core;
        let link = self.watcher_link().expect("only one that asks a watcher makes a watch");
        let (old, next) = match &core.lock {
            Lock::Coordinating { body: Body::Split { child, .. }, .. } => {
                (core.id, Link { group: *child, members: halves(&core.members).1 })
            }
            Lock::Coordinating { heard: Some(h), .. } => (
                core.succ.group,
                Link { group: core.id, members: core.members.union(&h.frozen.members).copied().collect() },
            ),
            _ => unreachable!("no watcher is asked"),
        };
        Watch { coord: core.id, members: core.members.clone(), part: link.group, old, next, by: self.me }
    }

    pub(super) fn send_watch(&self, tx: Draw, to: u16, out: &mut Out) {
        self.send(u32::from(to), MailBody::TxWatch { tx, watch: self.watch() }, out);
    }

    pub(super) fn send_prepare(&self, tx: Draw, body: &Body, to: u16, out: &mut Out) {
        let core = &self.base.core;
        let offer = Offer {
            coord: core.id,
            part: core.succ.group,
            arc: core.arc,
            members: core.members.clone(),
            body: body.clone(),
            by: self.me,
        };
        self.send(u32::from(to), MailBody::TxPrepare { tx, offer }, out);
    }

    /// Returns a vote as mail carries it.
    pub(super) fn vote_of(&self, past: &Past) -> Vote {
        match past {
            Past::Yes => Vote::Yes(self.base.frozen()),
            Past::No(no) => Vote::No(no.clone()),
            Past::Ended => unreachable!("an ended transaction is not voted on"),
        }
    }

    pub(super) fn send_vote(&self, tx: Draw, offer: &Offer, to: u16, vote: Vote, out: &mut Out) {
        self.send(u32::from(to), MailBody::TxVote { tx, coord: offer.coord, part: offer.part, vote }, out);
    }

    pub(super) fn send_watched(&self, tx: Draw, watch: &Watch, to: u16, vote: Past, out: &mut Out) {
        self.send(u32::from(to), MailBody::TxWatched { tx, coord: watch.coord, part: watch.part, vote }, out);
    }

    /// Returns what this replica answers an offer or a watch from what it has voted, if it answers from that:
    /// the vote, or nothing where the transaction has ended.
    fn voted_before(&self, tx: Draw) -> Option<Option<Past>> {
        match self.base.core.past_of(tx) {
            Some(Past::No(no)) => return Some(Some(Past::No(no.clone()))),
            Some(Past::Yes) if self.base.core.lock.tx() == Some(tx) => return Some(Some(Past::Yes)),
            Some(Past::Ended) => return Some(None),
            _ => {}
        }
        self.gone().then_some(Some(Past::No(No::Gone)))
    }

    /// Takes an offer: votes again, or queues the vote, or names the leader.
    pub fn tx_prepare(&mut self, from: u16, tx: Draw, offer: Offer, out: &mut Out) {
        match self.voted_before(tx) {
            Some(Some(past)) => self.send_vote(tx, &offer, from, self.vote_of(&past), out),
            Some(None) => {}
            None if self.running() => {
                let is = |c: &Command| matches!(c, Command::Prepared { tx: t, .. } if *t == tx);
                self.queue_act(Command::Prepared { tx, offer }, is, out);
            }
            None => self.send_elsewhere(tx, offer.coord, from, out),
        }
    }

    /// Takes a watch: votes again, or queues the vote, or names the leader.
    pub fn tx_watch(&mut self, from: u16, tx: Draw, watch: Watch, out: &mut Out) {
        match self.voted_before(tx) {
            Some(Some(past)) => self.send_watched(tx, &watch, from, past, out),
            Some(None) => {}
            None if self.running() => {
                let is = |c: &Command| matches!(c, Command::Watched { tx: t, .. } if *t == tx);
                self.queue_act(Command::Watched { tx, watch }, is, out);
            }
            None => self.send_elsewhere(tx, watch.coord, from, out),
        }
    }

    fn send_elsewhere(&self, tx: Draw, coord: Draw, to: u16, out: &mut Out) {
        self.send(u32::from(to), MailBody::TxElsewhere { tx, coord, hint: self.hint }, out);
    }

    /// Returns whether this group coordinates the transaction.
    fn coordinating(&self, tx: Draw) -> bool {
        matches!(&self.base.core.lock, Lock::Coordinating { tx: t, .. } if *t == tx)
    }

    /// Takes the vote of a participant: answers with the outcome, or queues it to be recorded.
    pub fn tx_vote(&mut self, from: u16, tx: Draw, part: Draw, vote: Vote, out: &mut Out) {
        if let (Some(outcome), Vote::Yes(_)) = (self.base.core.outcome_of(tx), &vote) {
            return self.send_outcome(tx, part, from, outcome, out);
        }
        if self.running() && self.coordinating(tx) && self.watcher_link().is_none() {
            let is = |c: &Command| matches!(c, Command::RecordVote { tx: t, .. } if *t == tx);
            self.queue_act(Command::RecordVote { tx, vote, by: from }, is, out);
        }
    }

    /// Takes the vote of a watcher: answers with the outcome, or queues it to be recorded.
    pub fn tx_watched(&mut self, from: u16, tx: Draw, part: Draw, vote: Past, out: &mut Out) {
        if let (Some(outcome), Past::Yes) = (self.base.core.outcome_of(tx), &vote) {
            return self.send_outcome(tx, part, from, outcome, out);
        }
        if self.running() && self.coordinating(tx) && self.watcher_link().is_some() {
            let is = |c: &Command| matches!(c, Command::RecordWatch { tx: t, .. } if *t == tx);
            self.queue_act(Command::RecordWatch { tx, vote, by: from }, is, out);
        }
    }

    /// Takes the outcome of a transaction that it waits for.
    pub fn tx_outcome(&mut self, tx: Draw, outcome: Outcome, out: &mut Out) {
        let waits = match &self.base.core.lock {
            Lock::Promised { tx: t, .. } | Lock::Watching { tx: t, .. } => *t == tx,
            _ => false,
        };
        if self.running() && waits {
            let is = |c: &Command| matches!(c, Command::Finish { tx: t, .. } if *t == tx);
            self.queue_act(Command::Finish { tx, outcome }, is, out);
        }
    }

    /// Asks elsewhere: at the node that the hint names, or at the next member.
    pub fn tx_elsewhere(&mut self, from: u16, tx: Draw, hint: Option<u16>, out: &mut Out) {
        if !self.settled() || !self.coordinating(tx) {
            return;
        }
        if let Some(link) = self.watcher_link() {
            let to = hint.unwrap_or(member_after(&link.members, from));
            self.send_watch(tx, to, out);
        } else if let Lock::Coordinating { body, .. } = &self.base.core.lock {
            let to = hint.unwrap_or(member_after(&self.base.core.succ.members, from));
            self.send_prepare(tx, body, to, out);
        }
    }
}
