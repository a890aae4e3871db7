//! Scenarios with large keys and values, and orders that send much of what groups hold.

use crate::random::*;
use crate::scenario::*;
use crate::values::*;
use crate::world::*;

fn some_bytes(d: &mut Dice, length: u64) -> Vec<u8> {
    (0..length).map(|_| d.from_to(33, 126) as u8).collect()
}

/// Draws a scenario without schedule, most of whose requests put large values at keys of their own.
pub fn heavy_head(d: &mut Dice) -> Scenario {
    let nodes = d.from_to(2, 12);
    let mut los: Vec<u32> = vec![d.pick(&[0, 1 << 29]), 0x4141_4141, 0x7e7e_7e7f];
    los.truncate(d.from_to(1, 3) as usize);
    let mut groups = Vec::new();
    for lo in los {
        let n = d.from_to(1, nodes.min(9));
        groups.push((lo, some_set(d, nodes, n)));
    }
    let mut head = Scenario::of_groups(d.pick(&[1, 2]), nodes as u16, &groups);
    let (key, value) = (d.pick(&[1, 5, 64, 64]), d.pick(&[1, 20, 256, 256]));
    let most = d.pick(&[1, 4, 20, 60]);
    for client in 1..=d.pick(&[1, 1, 1, 2, 4, 16]) {
        let one = |d: &mut Dice| {
            let key = Key(some_bytes(d, key));
            let (expect, new) = (Value(some_bytes(d, value)), Value(some_bytes(d, value)));
            match d.below(20) {
                0 => Op::Get { key },
                1 if head.version == 2 => Op::Cas { key, expect, value: new },
                _ => Op::Put { key, value: new },
            }
        };
        let ops = (0..d.from_to(1, most)).map(|_| one(d)).collect();
        head.clients.insert(client, ops);
    }
    head
}

/// Draws how often each kind of order comes.
pub fn heavy_weights(d: &mut Dice) -> [u64; 7] {
    let mut any: [u64; 7] = std::array::from_fn(|_| d.pick(&[0, 1, 4]));
    any[0] += 1;
    d.pick(&[[8, 8, 4, 4, 0, 0, 0], [8, 8, 0, 0, 4, 4, 0], [8, 8, 2, 2, 2, 2, 2], [0, 0, 4, 4, 4, 4, 4], any])
}

/// Returns the arc of a group's leader.
fn arc_of(w: &World, group: Draw) -> Option<RingArc> {
    leaders(w)
        .into_iter()
        .find(|(_, g)| *g == group)
        .and_then(|(n, g)| record_at(w, n, g))
        .map(|b| b.core.arc)
}

/// Draws an order to a leader: mostly to the one of the first group. A boundary moves nearly to the start of the
/// group, or nearly to the end of the next one.
pub fn heavy_order(d: &mut Dice, w: &World, s: &Scenario, weights: &[u64; 7], number: u32) -> SchedLine {
    let there = leaders(w);
    let (node, group) = if d.chance(80) {
        *there.iter().min_by_key(|(_, g)| *g).expect("there is a leader")
    } else {
        d.pick(&there)
    };
    let core = record_at(w, node, group).expect("it leads the group").core;
    let (arc, members) = (core.arc, core.members);
    let next = arc_of(w, core.succ.group).unwrap_or(arc);
    let out: Vec<u16> = (1..=s.nodes).filter(|n| !members.contains(n)).collect();
    let member = d.pick(&members.iter().copied().filter(|m| *m != node).chain([node]).collect::<Vec<u16>>());
    let order = match weighted(d, weights) {
        0 => Order::Repart { group, at: arc.lo.wrapping_add(1) },
        1 => Order::Repart { group, at: next.end().wrapping_sub(1) },
        2 if out.is_empty() => Order::Leave { group, node: member },
        2 => Order::Join { group, node: d.pick(&out) },
        3 => Order::Leave { group, node: member },
        4 => Order::Merge { group },
        5 => Order::Split { group, at: arc.lo.wrapping_add(d.from_to(1, arc.len.max(2) - 1) as u32) },
        _ => Order::Migrate { group, node: member },
    };
    SchedLine::Told { node, line: OrderLine { number, order } }
}
