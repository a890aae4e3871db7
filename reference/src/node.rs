//! A node: its draws and its replicas by group.

use crate::mail::*;
use crate::replica::*;
use crate::values::*;
use std::collections::BTreeMap;

/// A node.
#[derive(Clone, PartialEq, Eq, Debug)]
pub struct Node {
    pub dials: Dials,
    pub me: u16,
    pub policy: bool,
    pub draws: Draws,
    pub replicas: BTreeMap<Draw, Replica>,
}

impl Node {
    /// Makes a node at its birth, with a replica of each group of which it is a member.
    pub fn born(dials: &Dials, me: u16, groups: &[Base], policy: bool) -> Node {
        let mut replicas = BTreeMap::new();
        for g in groups.iter().filter(|g| g.core.members.contains(&me)) {
            replicas.insert(g.core.id, Replica::born(dials, me, g.clone()));
        }
        Node { dials: *dials, me, policy, draws: Draws::start(me), replicas }
    }

    /// Takes an input, and returns what the node sends.
    pub fn step(&mut self, input: &Input) -> Vec<Mail> {
        let mut out = Out::default();
        match input {
            Input::Go => {}
            Input::Tick => {
                for replica in self.replicas.values_mut() {
                    replica.tick(self.policy, &mut self.draws, &mut out);
                }
            }
            Input::Told(line) => match self.replicas.get_mut(&line.order.group()) {
                None => {
                    let result = ToldResult::Refused(OrderRefusal::NotLeader { hint: None });
                    self.send(DESK, MailBody::Told { order: line.number, result }, &mut out);
                }
                Some(r) => r.told(line, &mut self.draws, &mut out),
            },
            Input::Got(mail) => self.got(mail, &mut out),
        }
        assert!(out.children.len() <= 1, "two children in one step");
        for child in out.children {
            let (dials, me) = (self.dials, self.me);
            self.replicas.entry(child.core.id).or_insert_with(|| Replica::born(&dials, me, child));
        }
        out.mails
    }

    fn send(&self, to: u32, body: MailBody, out: &mut Out) {
        out.mails.push(Mail { from: u32::from(self.me), to, body });
    }

    /// Takes mail: requests from anybody, and the rest from nodes.
    fn got(&mut self, mail: &Mail, out: &mut Out) {
        let from = mail.from;
        if let MailBody::Request { group, client, seq, op } = &mail.body {
            return match self.replicas.get_mut(group) {
                None => {
                    let answer = AnswerBody::NotLeader { hint: None };
                    self.send(from, MailBody::Answer { group: *group, seq: *seq, answer }, out)
                }
                Some(r) => r.request(from, *client, *seq, op.clone(), out),
            };
        }
        if !(1..=32).contains(&from) {
            return;
        }
        match mail.body.clone() {
            MailBody::Install { group, slot, base, sets } => {
                self.install(from as u16, group, Installed { slot, base, sets }, out)
            }
            body => match group_of(&body).and_then(|g| self.replicas.get_mut(&g)) {
                None => self.without_replica(from, &body, out),
                Some(r) => hand(r, from as u16, body, out),
            },
        }
    }

    /// Answers mail for a group of which there is no replica: it asks for the state, or says so.
    fn without_replica(&self, from: u32, body: &MailBody, out: &mut Out) {
        match body {
            MailBody::Prepare { group, .. }
            | MailBody::Accept { group, .. }
            | MailBody::Learn { group, .. } => {
                self.send(from, MailBody::Ask { group: *group, from_slot: 0 }, out)
            }
            MailBody::TxPrepare { tx, offer: Offer { coord, .. } }
            | MailBody::TxWatch { tx, watch: Watch { coord, .. } } => {
                self.send(from, MailBody::TxElsewhere { tx: *tx, coord: *coord, hint: None }, out)
            }
            _ => {}
        }
    }

    /// Takes the state of a group: in its replica, or as a new one.
    fn install(&mut self, from: u16, group: Draw, state: Installed, out: &mut Out) {
        if state.slot > LAST_SLOT || state.sets.len() != AHEAD as usize {
            return;
        }
        match self.replicas.get_mut(&group) {
            Some(r) => r.install(from, state, out),
            None => {
                let r = Replica::installed(&self.dials, self.me, from, state, out);
                self.replicas.insert(group, r);
            }
        }
    }
}

/// Returns the group whose replica takes this mail.
fn group_of(body: &MailBody) -> Option<Draw> {
    match body {
        MailBody::Prepare { group, .. }
        | MailBody::Promise { group, .. }
        | MailBody::Accept { group, .. }
        | MailBody::Accepted { group, .. }
        | MailBody::Nack { group, .. }
        | MailBody::Learn { group, .. }
        | MailBody::Ask { group, .. } => Some(*group),
        MailBody::TxPrepare { offer, .. } => Some(offer.part),
        MailBody::TxWatch { watch, .. } => Some(watch.part),
        MailBody::TxVote { coord, .. }
        | MailBody::TxWatched { coord, .. }
        | MailBody::TxElsewhere { coord, .. } => Some(*coord),
        MailBody::TxOutcome { part, .. } => Some(*part),
        _ => None,
    }
}

/// Hands mail of a node to the replica of its group.
fn hand(r: &mut Replica, from: u16, body: MailBody, out: &mut Out) {
    let actor = u32::from(from);
    match body {
        MailBody::Prepare { ballot, from_slot, .. } => r.prepare(actor, ballot, from_slot, out),
        MailBody::Accept { ballot, slot, command, .. } => r.accept(actor, ballot, slot, command, out),
        MailBody::Learn { slot, command, .. } => r.learn(actor, slot, command, out),
        MailBody::Promise { ballot, reports, .. } => r.promise(from, ballot, reports, out),
        MailBody::Accepted { ballot, slot, .. } => r.accepted(from, ballot, slot, out),
        MailBody::Nack { promised, .. } => r.nack(promised, out),
        MailBody::Ask { from_slot, .. } => r.ask(actor, from_slot, out),
        MailBody::TxPrepare { tx, offer } => r.tx_prepare(from, tx, offer, out),
        MailBody::TxWatch { tx, watch } => r.tx_watch(from, tx, watch, out),
        MailBody::TxVote { tx, part, vote, .. } => r.tx_vote(from, tx, part, vote, out),
        MailBody::TxWatched { tx, part, vote, .. } => r.tx_watched(from, tx, part, vote, out),
        MailBody::TxOutcome { tx, outcome, .. } => r.tx_outcome(tx, outcome, out),
        MailBody::TxElsewhere { tx, hint, .. } => r.tx_elsewhere(from, tx, hint, out),
        _ => {}
    }
}
