//! The queues of commands that wait for a slot.

use super::*;

impl Replica {
    /// Returns whether such a command waits among the acts, or is in flight or ready.
    pub(super) fn has_act(&self, is: impl Fn(&Command) -> bool) -> bool {
        let flying = self.leader.as_ref().is_some_and(|l| l.commands().any(&is));
        flying || self.acts.iter().any(&is)
    }

    /// Queues an act, unless such a one is under way, and proposes what can be.
    pub(super) fn queue_act(&mut self, act: Command, is: impl Fn(&Command) -> bool, out: &mut Out) {
        if !self.has_act(is) {
            self.acts.push_back(act);
        }
        self.pump(out);
    }

    /// Returns the place and the number of the queued call of a client.
    pub(super) fn queued_call(&self, client: u16) -> Option<(usize, u32)> {
        self.calls.iter().enumerate().find_map(|(at, c)| match c {
            Command::Call { client: k, seq, .. } if *k == client => Some((at, *seq)),
            _ => None,
        })
    }

    /// Puts a call back to the front of the queue, which keeps one call of each client: the later one.
    pub(super) fn call_back(&mut self, client: u16, seq: u32, op: Op) {
        match self.queued_call(client) {
            Some((_, other)) if other >= seq => return,
            Some((at, _)) => {
                self.calls.remove(at);
            }
            None => {}
        }
        self.calls.push_front(Command::Call { client, seq, op });
    }

    /// Puts a command whose slot went to another one to the front of its queue.
    pub(super) fn back_to_queue(&mut self, command: Command) {
        match command {
            Command::Noop => {}
            Command::Call { client, seq, op } => self.call_back(client, seq, op),
            Command::Join { .. } | Command::Leave { .. } | Command::Split { .. } | Command::Begin { .. } => {
                self.calls.push_front(command)
            }
            _ => self.acts.push_front(command),
        }
    }
}
