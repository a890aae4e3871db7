//! Random orders of calm runs.

use crate::random::*;
use crate::scenario::*;
use crate::values::*;
use crate::world::*;

/// What kinds of orders come, and how.
#[derive(Clone)]
pub struct Mood {
    weights: [u64; 7],
    /// How often an order goes to a leader, and how often the leader is the one that leaves: percents.
    right: u64,
    leader_leaves: u64,
    places: Vec<u32>,
}

/// Draws the mood of a scenario.
pub fn some_mood(d: &mut Dice, head: &Scenario) -> Mood {
    let w = |d: &mut Dice| d.pick(&[0u64, 1, 1, 3, 8]);
    let mut weights = [w(d), w(d), w(d), w(d), w(d), w(d), 0];
    match d.below(6) {
        0 => weights = [8, 10, 0, 0, 0, 2, 0],
        1 => weights = [1, 1, 8, 8, 1, 1, 0],
        2 => weights = [4, 6, 2, 2, 2, 6, 0],
        _ => {}
    }
    if weights.iter().sum::<u64>() == 0 {
        weights = [1; 7];
    }
    let (right, leader_leaves) = (d.pick(&[50, 80, 95, 100]), d.pick(&[10, 50, 90]));
    let mut places: Vec<u32> = vec![0, 1, u32::MAX, 1 << 31];
    for op in head.clients.values().flatten() {
        places.extend([op.key().pos(), op.key().pos().wrapping_add(1)]);
    }
    places.extend(head.groups.iter().map(|g| g.core.arc.lo));
    Mood { weights, right, leader_leaves, places }
}

/// Returns the arc of a group's leader.
fn led_arc(w: &World, group: Draw) -> Option<RingArc> {
    let replica =
        |n: &crate::node::Node| n.replicas.get(&group).filter(|r| r.running()).map(|r| r.base.core.arc);
    w.nodes().find_map(replica)
}

/// Draws a place: mostly inside the group's arc or that of its successor.
fn some_place(d: &mut Dice, w: &World, mood: &Mood, base: &Option<Base>) -> u32 {
    let at = d.pick(&mood.places);
    let Some(b) = base else { return at };
    if d.chance(70) {
        return (u64::from(b.core.arc.lo) + 1 + d.below(b.core.arc.len.max(2) - 1)) as u32;
    }
    if d.chance(40) {
        if let Some(a) = led_arc(w, b.core.succ.group) {
            return (u64::from(a.lo) + d.below(a.len)) as u32;
        }
    }
    at
}

/// Draws a node that is no member, where there is one.
fn some_newcomer(d: &mut Dice, s: &Scenario, base: &Option<Base>, any: u16) -> u16 {
    match base {
        Some(b) if d.chance(60) => {
            let out: Vec<u16> = (1..=s.nodes).filter(|n| !b.core.members.contains(n)).collect();
            if out.is_empty() {
                any
            } else if d.chance(50) {
                out[0]
            } else {
                d.pick(&out)
            }
        }
        _ => any,
    }
}

/// Draws an order.
pub fn calm_order(d: &mut Dice, w: &World, s: &Scenario, mood: &Mood, number: u32) -> SchedLine {
    let there = leaders(w);
    let any = d.from_to(1, u64::from(s.nodes)) as u16;
    let (node, group) = if d.chance(mood.right) {
        d.pick(&there)
    } else if d.chance(70) {
        (any, d.pick(&there).1)
    } else {
        let other = Draw { node: any, count: 1 + d.below(3) as u32 };
        let names: Vec<Draw> = w.replicas().keys().copied().chain([other]).collect();
        (any, d.pick(&names))
    };
    let base = record_at(w, node, group);
    let member = match &base {
        Some(_) if d.chance(mood.leader_leaves) => node,
        Some(b) if d.chance(85) => d.pick(&b.core.members.iter().copied().collect::<Vec<u16>>()),
        _ => any,
    };
    let at = some_place(d, w, mood, &base);
    let newcomer = some_newcomer(d, s, &base, any);
    let order = match weighted(d, &mood.weights) {
        0 => Order::Join { group, node: newcomer },
        1 => Order::Leave { group, node: member },
        2 => Order::Split { group, at },
        3 => Order::Merge { group },
        4 => Order::Repart { group, at },
        _ => Order::Migrate { group, node: member },
    };
    SchedLine::Told { node, line: OrderLine { number, order } }
}
