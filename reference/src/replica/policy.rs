//! Orders: those that are told, and those that the policy wishes for.

use super::*;
use crate::machine::check;

const NO_DRAW: Draw = Draw { node: 0, count: 0 };

impl Replica {
    /// Takes an order, or refuses it.
    pub fn told(&mut self, line: &OrderLine, draws: &mut Draws, out: &mut Out) {
        if self.gone() || !self.settled() {
            return self.tell_not_leader(line.number, self.hint, out);
        }
        let trial = line.order.command(line.number, NO_DRAW);
        if let Err(refusal) = check(&self.base.core, &trial) {
            return self.tell(line.number, ToldResult::Refused(refusal), out);
        }
        if line.order.needs_draw() && draws.spent() {
            return self.tell_not_leader(line.number, self.hint, out);
        }
        self.take_order(&line.order, line.number, draws);
        self.pump(out);
    }

    /// Queues the command of an order, with a draw where its kind needs one.
    fn take_order(&mut self, order: &Order, number: u32, draws: &mut Draws) {
        let draw = if order.needs_draw() { draws.draw() } else { NO_DRAW };
        self.calls.push_back(order.command(number, draw));
    }

    /// Queues what the policy wishes for, where that can be done.
    pub(super) fn take_wish(&mut self, draws: &mut Draws) {
        let Some(order) = wish(&self.base, &self.dials) else { return };
        let trial = order.command(0, NO_DRAW);
        if check(&self.base.core, &trial).is_ok() && !draws.spent() {
            self.take_order(&order, 0, draws);
        }
    }
}

/// Returns the order that the policy names for the record of a group.
pub fn wish(base: &Base, dials: &Dials) -> Option<Order> {
    let core = &base.core;
    let group = core.id;
    let neighbour = core.succ.group != core.id;
    if core.members.len() > dials.crowd && core.arc.len > 1 {
        let at = ((u64::from(core.arc.lo) + core.arc.len / 2) % SPACE) as u32;
        return Some(Order::Split { group, at });
    }
    if core.members.len() < 3 && neighbour {
        return Some(Order::Merge { group });
    }
    let n = base.pairs.len();
    if n > dials.heap && neighbour {
        let mut keys: Vec<&Key> = base.pairs.keys().collect();
        keys.sort_by_key(|k| (k.pos().wrapping_sub(core.arc.lo), (*k).clone()));
        let at = keys[n / 2].pos();
        if at != core.arc.lo {
            return Some(Order::Repart { group, at });
        }
    }
    None
}
