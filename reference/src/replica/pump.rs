//! What a leader proposes: the rules of `pump` in `crates/sc_node_table/specs/Pump.antt`, in their
//! order. The numbers below count them; the first that holds counts.

use super::*;

impl Replica {
    /// Proposes at open slots as long as there is something to propose.
    pub(super) fn pump(&mut self, out: &mut Out) {
        while self.settled() && self.propose(out) {}
    }

    /// Proposes at the first open slot. Returns whether it did.
    fn propose(&mut self, out: &mut Out) -> bool {
        if self.next > LAST_SLOT {
            return false;
        }
        let l = self.leader.as_ref().expect("settled");
        let Some(slot) = (0..AHEAD).map(|k| self.next + k).find(|s| !l.taken(*s)) else { return false };
        let set = self.sets[(slot - self.next) as usize].clone();
        if l.ballot != self.base.core.first_ballot() && !is_majority(&set, &l.promised) {
            return false;
        }
        let found = match l.must(slot) {
            // 1. a value that a promise reported is proposed again
            Must::Value(v) => Some(v),
            // 2. a gap below such a value is closed by a Noop
            Must::Gap => Some(Command::Noop),
            Must::Free => self.pick_from_queues(out),
        };
        let Some(command) = found else { return false };
        let l = self.leader.as_mut().expect("settled");
        let ballot = l.ballot;
        l.flights.insert(slot, Flight { command: command.clone(), voters: Members::new() });
        for m in &set {
            self.send_accept(*m, ballot, slot, &command, out);
        }
        true
    }

    /// Asks a member to accept a command.
    pub(super) fn send_accept(&self, to: u16, ballot: Ballot, slot: u32, command: &Command, out: &mut Out) {
        let body = MailBody::Accept { group: self.group(), ballot, slot, command: command.clone() };
        self.send(u32::from(to), body, out);
    }

    /// Takes the next command off the queues, if one may be proposed.
    fn pick_from_queues(&mut self, out: &mut Out) -> Option<Command> {
        let l = self.leader.as_ref().expect("settled");
        let idle = l.idle();
        // 3. nothing new, while another command than Call and Noop is in flight or ready
        if l.commands().any(|c| !matches!(c, Command::Call { .. } | Command::Noop)) {
            return None;
        }
        // 4. commands of transactions come before all that is queued, each while nothing is under way
        if !self.acts.is_empty() {
            return if idle { self.acts.pop_front() } else { None };
        }
        loop {
            if !self.base.core.lock.open() {
                return None;
            }
            match self.calls.front().cloned()? {
                // 5. a request, unless the group does not serve its key: then it is answered without a slot
                Command::Call { client, seq, op } => {
                    self.calls.pop_front();
                    match self.turned_away(&op) {
                        Some(answer) => self.answer(client_actor(client), seq, answer, out),
                        None => return Some(Command::Call { client, seq, op }),
                    }
                }
                // 6. an order, but only while nothing is under way
                _ => return if idle { self.calls.pop_front() } else { None },
            }
        }
    }

    /// Returns the answer to a call that this group does not serve.
    fn turned_away(&self, op: &Op) -> Option<AnswerBody> {
        if let Some(into) = self.base.core.gone.clone() {
            return Some(AnswerBody::Gone { into });
        }
        self.not_mine(op)
    }

    /// Returns the answer to a call whose key the arc does not hold.
    pub(super) fn not_mine(&self, op: &Op) -> Option<AnswerBody> {
        let core = &self.base.core;
        if core.arc.holds(op.key().pos()) {
            return None;
        }
        Some(AnswerBody::NotMine { arc: core.arc, succ: core.succ.clone() })
    }
}
