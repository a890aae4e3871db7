//! A tick: a leader sends again what it waits for, and another member elects itself.

use super::*;

impl Replica {
    /// Takes a tick.
    pub fn tick(&mut self, policy: bool, draws: &mut Draws, out: &mut Out) {
        if self.gone() || !self.members().contains(&self.me) {
            return;
        }
        if !self.settled() {
            return self.election(out);
        }
        // 1.
        self.send_slots_again(out);
        // 2. and 3.
        self.send_transaction_again(out);
        // 4.
        let l = self.leader.as_ref().expect("settled");
        let quiet = l.idle() && self.acts.is_empty() && self.calls.is_empty();
        if policy && quiet && self.base.core.lock == Lock::Free {
            self.take_wish(draws);
        }
        // 5.
        self.pump(out);
    }

    /// Asks again for the votes of what is in flight, or else tells the last entry again.
    fn send_slots_again(&self, out: &mut Out) {
        let l = self.leader.as_ref().expect("settled");
        for (slot, flight) in &l.flights {
            let set = &self.sets[(slot - self.next) as usize];
            for m in set.iter().filter(|m| !flight.voters.contains(m)) {
                self.send_accept(*m, l.ballot, *slot, &flight.command, out);
            }
        }
        let last = self.next - 1;
        if let (true, Some(command)) = (l.flights.is_empty(), self.log.get(&last)) {
            for m in self.members().iter().filter(|m| **m != self.me) {
                self.send_learn(u32::from(*m), last, command, out);
            }
        }
    }

    /// Sends again the mail of the transaction that the group is in.
    fn send_transaction_again(&mut self, out: &mut Out) {
        match self.base.core.lock.clone() {
            Lock::Free => {}
            Lock::Coordinating { tx, body, .. } => self.send_asking_again(tx, &body, out),
            Lock::Promised { tx, offer } => {
                for m in &offer.members {
                    self.send_vote(tx, &offer, *m, Vote::Yes(self.base.frozen()), out);
                }
            }
            Lock::Watching { tx, watch } => {
                for m in &watch.members {
                    self.send_watched(tx, &watch, *m, Past::Yes, out);
                }
            }
        }
    }

    /// Asks the other group again, and gives up after too many ticks.
    fn send_asking_again(&mut self, tx: Draw, body: &Body, out: &mut Out) {
        self.waits = self.waits.saturating_add(1);
        if let Some(link) = self.watcher_link() {
            for m in &link.members {
                self.send_watch(tx, *m, out);
            }
        } else {
            for m in &self.base.core.succ.members {
                self.send_prepare(tx, body, *m, out);
            }
        }
        let gives_up = |c: &Command| matches!(c, Command::GiveUp { tx: t } if *t == tx);
        if self.waits >= self.dials.patience && !self.has_act(gives_up) {
            self.acts.push_back(Command::GiveUp { tx });
        }
    }
}
