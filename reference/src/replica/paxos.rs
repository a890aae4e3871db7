//! Requests, and the mail of Paxos.

use super::*;

/// The state that an Install mail carries.
pub struct Installed {
    pub slot: u32,
    pub base: Base,
    pub sets: Vec<Members>,
}

impl Replica {
    /// Takes a request: it is queued, or answered where this replica does not serve it.
    pub fn request(&mut self, from: u32, client: u16, seq: u32, op: Op, out: &mut Out) {
        if let Some(into) = self.base.core.gone.clone() {
            return self.answer(from, seq, AnswerBody::Gone { into }, out);
        }
        if !self.running() {
            return self.answer(from, seq, AnswerBody::NotLeader { hint: self.hint }, out);
        }
        if self.base.core.lock.open() {
            if let Some(answer) = self.not_mine(&op) {
                return self.answer(from, seq, answer, out);
            }
        }
        match self.queued_call(client) {
            Some((_, other)) if other >= seq => return,
            Some((at, _)) => {
                self.calls.remove(at);
            }
            None => {}
        }
        self.calls.push_back(Command::Call { client, seq, op });
        self.pump(out);
    }

    /// Promises a ballot, or says which greater one was promised.
    pub fn prepare(&mut self, from: u32, ballot: Ballot, from_slot: u32, out: &mut Out) {
        self.saw_ballot(ballot, out);
        if from_slot <= self.acceptor.floor {
            return self.send_install(from, out);
        }
        if ballot <= self.acceptor.promised {
            return self.send_nack(from, out);
        }
        self.acceptor.promised = ballot;
        let report =
            |(slot, (b, c)): (&u32, &(Ballot, Command))| Report { slot: *slot, ballot: *b, value: c.clone() };
        let reports = self.acceptor.accepted.range(from_slot..).map(report).collect();
        if !self.running() {
            self.hint = Some(ballot.node);
        }
        self.send(from, MailBody::Promise { group: self.group(), ballot, reports }, out);
    }

    /// Accepts a command at a slot, or says which greater ballot was promised.
    pub fn accept(&mut self, from: u32, ballot: Ballot, slot: u32, command: Command, out: &mut Out) {
        self.saw_ballot(ballot, out);
        if slot <= self.acceptor.floor {
            return self.send_install(from, out);
        }
        if ballot < self.acceptor.promised {
            return self.send_nack(from, out);
        }
        self.acceptor.promised = ballot;
        self.acceptor.accepted.insert(slot, (ballot, command));
        if !self.running() {
            self.hint = Some(ballot.node);
        }
        self.send(from, MailBody::Accepted { group: self.group(), ballot, slot }, out);
    }

    fn send_nack(&self, to: u32, out: &mut Out) {
        let promised = self.acceptor.promised;
        self.send(to, MailBody::Nack { group: self.group(), promised }, out);
    }

    /// Counts a promise of its ballot.
    pub fn promise(&mut self, from: u16, ballot: Ballot, reports: Vec<Report>, out: &mut Out) {
        match &mut self.leader {
            Some(l) if l.ballot == ballot => {
                if l.promised.insert(from) {
                    l.reports.extend(reports);
                }
                self.pump(out);
            }
            _ => {}
        }
    }

    /// Counts a vote; with a majority the command is ready, and executed where its slot is the next one.
    pub fn accepted(&mut self, from: u16, ballot: Ballot, slot: u32, out: &mut Out) {
        let next = self.next;
        if slot < next || slot >= next + AHEAD {
            return;
        }
        let set = &self.sets[(slot - next) as usize];
        let l = match &mut self.leader {
            Some(l) if l.ballot == ballot => l,
            _ => return,
        };
        let flight = match l.flights.get_mut(&slot) {
            Some(f) if set.contains(&from) => f,
            _ => return,
        };
        flight.voters.insert(from);
        if !is_majority(set, &flight.voters) {
            return;
        }
        let command = l.flights.remove(&slot).expect("it is in flight").command;
        l.ready.insert(slot, command.clone());
        if slot == next {
            self.execute(command, true, out);
        }
    }

    /// Hears of a greater ballot.
    pub fn nack(&mut self, promised: Ballot, out: &mut Out) {
        self.saw_ballot(promised, out);
    }

    /// Learns what was chosen at a slot: executes the next one, and asks for what is missing before a later one.
    pub fn learn(&mut self, from: u32, slot: u32, command: Command, out: &mut Out) {
        if slot > LAST_SLOT {
            return;
        }
        if slot == self.next {
            self.execute(command, false, out);
        } else if slot > self.next {
            self.send(from, MailBody::Ask { group: self.group(), from_slot: self.next }, out);
        }
    }

    /// Sends up to 32 executed entries, or the state where they were dropped.
    pub fn ask(&mut self, from: u32, from_slot: u32, out: &mut Out) {
        let last = self.next - 1;
        if from_slot == 0 || (from_slot <= last && !self.log.contains_key(&from_slot)) {
            return self.send_install(from, out);
        }
        if from_slot > last {
            return;
        }
        for (slot, command) in self.log.range(from_slot..).take(32) {
            self.send_learn(from, *slot, command, out);
        }
    }

    pub(super) fn send_learn(&self, to: u32, slot: u32, command: &Command, out: &mut Out) {
        self.send(to, MailBody::Learn { group: self.group(), slot, command: command.clone() }, out);
    }

    /// Takes a later state than its own.
    pub fn install(&mut self, from: u16, state: Installed, out: &mut Out) {
        if state.slot < self.next {
            return;
        }
        self.base = state.base;
        self.next = state.slot + 1;
        self.log.clear();
        self.sets = state.sets.into();
        if self.base.core.lock == Lock::Free {
            self.waits = 0;
        }
        self.cut();
        if self.running() {
            self.stop(Some(from), out);
        }
        self.hint_after_install(from, out);
    }
}
