//! Random orders, mostly to leaders that are there.

use super::{places, Dice};
use crate::scenario::*;
use crate::values::*;
use crate::world::*;

/// Returns the nodes and groups that have a settled leader there now.
pub fn leaders(w: &World) -> Vec<(u16, Draw)> {
    let mut all = Vec::new();
    for n in w.nodes().filter(|n| !w.crashed.contains(&u32::from(n.me))) {
        for (id, r) in &n.replicas {
            if r.settled() && !r.gone() {
                all.push((n.me, *id));
            }
        }
    }
    all
}

/// Returns the record of a group at a node.
pub fn record_at(w: &World, node: u16, group: Draw) -> Option<Base> {
    w.node(u32::from(node))?.replicas.get(&group).map(|r| r.base.clone())
}

/// Draws a place of a boundary: mostly inside the arc of the group.
fn some_place(d: &mut Dice, base: &Option<Base>) -> u32 {
    let at = d.pick(&places());
    let Some(b) = base else { return at };
    let inside: Vec<u32> = places().into_iter().filter(|p| b.core.arc.holds(*p)).collect();
    if d.chance(60) && !inside.is_empty() {
        d.pick(&inside)
    } else if d.chance(50) {
        (u64::from(b.core.arc.lo) + 1 + d.below(b.core.arc.len)) as u32
    } else {
        at
    }
}

/// Draws an order.
pub fn some_order(d: &mut Dice, w: &World, s: &Scenario, number: u32) -> SchedLine {
    let there = leaders(w);
    let (node, group) = if !there.is_empty() && d.chance(90) {
        d.pick(&there)
    } else {
        let mut names: Vec<Draw> = s.groups.iter().map(|g| g.core.id).collect();
        names.push(Draw { node: d.from_to(1, u64::from(s.nodes)) as u16, count: d.from_to(1, 2) as u32 });
        (d.from_to(1, u64::from(s.nodes)) as u16, d.pick(&names))
    };
    let base = record_at(w, node, group);
    let other = d.from_to(1, u64::from(s.nodes)) as u16;
    let member = match &base {
        Some(b) if d.chance(80) => d.pick(&b.core.members.iter().copied().collect::<Vec<u16>>()),
        _ => other,
    };
    let at = some_place(d, &base);
    let order = match d.below(10) {
        0 | 1 => Order::Join { group, node: other },
        2 => Order::Leave { group, node: member },
        3 | 4 => Order::Split { group, at },
        5 | 6 => Order::Merge { group },
        7 | 8 => Order::Repart { group, at },
        _ => Order::Migrate { group, node: member },
    };
    SchedLine::Told { node, line: OrderLine { number, order } }
}
