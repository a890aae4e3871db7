//! Elections, the end of a leader, and the search for one.

use super::*;

/// Why the queued commands of a leader are turned away.
pub(super) enum Farewell {
    /// Another node leads.
    NotLeader { hint: Option<u16> },
    /// The group was taken over.
    Gone { into: Route },
}

impl Replica {
    /// Runs with a greater ballot, and asks all members of the open slots for their promise.
    pub(super) fn election(&mut self, out: &mut Out) {
        if self.top.round == u32::MAX {
            return;
        }
        assert!(self.leader.as_ref().is_none_or(|l| l.idle()), "an election with commands in flight");
        let ballot = Ballot { round: self.top.round + 1, node: self.me };
        self.top = ballot;
        self.hint = Some(self.me);
        self.waits = 0;
        self.leader = Some(Leader::new(ballot));
        let to: Members = self.sets.iter().flatten().copied().collect();
        for m in &to {
            self.send_poll(*m, ballot, out);
        }
    }

    /// Asks one member for its promise.
    pub(super) fn send_poll(&self, to: u16, ballot: Ballot, out: &mut Out) {
        let body = MailBody::Prepare { group: self.group(), ballot, from_slot: self.next };
        self.send(u32::from(to), body, out);
    }

    /// Ends the leader, and turns its calls and orders away.
    pub(super) fn dismiss(&mut self, why: Farewell, out: &mut Out) {
        let leader = self.leader.take().expect("only a running replica stops");
        let (answer, hint) = match why {
            Farewell::NotLeader { hint } => (AnswerBody::NotLeader { hint }, hint),
            Farewell::Gone { into } => (AnswerBody::Gone { into }, None),
        };
        for c in leader.under_way() {
            if let Command::Call { client, seq, .. } = c {
                self.answer(client_actor(client), seq, answer.clone(), out);
            }
        }
        for c in &std::mem::take(&mut self.calls) {
            match c {
                Command::Call { client, seq, .. } => {
                    self.answer(client_actor(*client), *seq, answer.clone(), out)
                }
                _ => {
                    let number = c.order().expect("calls has calls and order commands");
                    if number > 0 {
                        self.tell_not_leader(number, hint, out);
                    }
                }
            }
        }
        self.acts.clear();
        self.hint = hint;
    }

    /// Stops running, since another node leads.
    pub(super) fn stop(&mut self, hint: Option<u16>, out: &mut Out) {
        self.dismiss(Farewell::NotLeader { hint }, out);
    }

    /// Notes a ballot of a Prepare, Accept or Nack, and stops where it runs with a lower one.
    pub(super) fn saw_ballot(&mut self, b: Ballot, out: &mut Out) {
        self.top = self.top.max(b);
        if self.leader.as_ref().is_some_and(|l| l.ballot < b) {
            self.stop(Some(b.node), out);
        }
    }

    /// Looks for a leader where the replica does not run, is not gone and its hint is no member: the least member
    /// elects itself.
    pub(super) fn look_for_leader(&mut self, out: &mut Out) {
        if self.running() || self.gone() {
            return;
        }
        if self.hint.is_some_and(|h| self.members().contains(&h)) {
            return;
        }
        let l = least(self.members());
        self.hint = Some(l);
        if l == self.me {
            self.election(out);
        }
    }

    /// Takes the sender of an Install for the leader, or looks for one.
    pub(super) fn hint_after_install(&mut self, from: u16, out: &mut Out) {
        if self.members().contains(&from) {
            self.hint = Some(from);
        } else {
            self.look_for_leader(out);
        }
    }
}
