//! The execution of a chosen command.

use super::election::Farewell;
use super::*;

impl Replica {
    /// Executes the command of the slot `next`, which this replica has counted or learnt.
    pub(super) fn execute(&mut self, command: Command, counted: bool, out: &mut Out) {
        let slot = self.next;
        let child = self.base.child_of(&command);
        let before = self.base.core.clone();

        // 1. apply it, and the mail by the effect
        let effect = self.base.apply(&command).effect;
        self.advance(&command);
        self.effect_mails(&command, &effect, counted, &before, out);

        // 2. counted: Learn and Install
        if counted {
            self.spread(slot, &command, &before.members, out);
        }

        // 3. the child's replica
        out.children.extend(child.filter(|c| c.core.members.contains(&self.me)));

        // 4. what is in flight or ready at this slot is over
        self.clear_slot(slot, &command, counted);

        // 5. the group is gone, or this node is no member
        self.leave(out);

        // 6.
        self.look_for_leader(out);

        // 7. the new next slot may be ready
        let ready = self.leader.as_ref().and_then(|l| l.ready.get(&self.next).cloned());
        if let Some(c) = ready {
            self.execute(c, true, out);
        }

        // 8.
        self.pump(out);
    }

    /// Takes the executed command into the log, and opens one more slot.
    fn advance(&mut self, command: &Command) {
        self.log.insert(self.next, command.clone());
        self.next += 1;
        self.sets.pop_front();
        self.sets.push_back(self.base.core.members.clone());
        if self.base.core.lock == Lock::Free {
            self.waits = 0;
        }
        self.cut();
    }

    /// Ends the leader where the group is gone, or this node is no member.
    fn leave(&mut self, out: &mut Out) {
        if !self.running() {
            return;
        }
        if let Some(into) = self.base.core.gone.clone() {
            self.dismiss(Farewell::Gone { into }, out);
        } else if !self.members().contains(&self.me) {
            self.stop(Some(least(self.members())), out);
        }
    }

    /// Tells the members what was chosen, and sends new members the state.
    fn spread(&self, slot: u32, command: &Command, members: &Members, out: &mut Out) {
        for m in members.iter().filter(|m| **m != self.me) {
            self.send_learn(u32::from(*m), slot, command, out);
        }
        for m in self.members().iter().filter(|m| !members.contains(m)) {
            let ballot = self.leader.as_ref().expect("who counts runs").ballot;
            self.send_install(u32::from(*m), out);
            if ballot != self.base.core.first_ballot() {
                self.send_poll(*m, ballot, out);
            }
        }
    }

    /// Ends what is in flight or ready at an executed slot; another command goes back to its queue.
    fn clear_slot(&mut self, slot: u32, command: &Command, counted: bool) {
        let Some(l) = &mut self.leader else { return };
        l.ready.remove(&slot);
        if let Some(flight) = l.flights.remove(&slot) {
            if !counted && flight.command != *command {
                self.back_to_queue(flight.command);
            }
        }
    }
}
