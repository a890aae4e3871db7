//! Nodes that may crash at the beginning: each group keeps its least member and a majority.

use crate::random::Dice;
use crate::scenario::*;
use crate::values::*;
use std::collections::BTreeSet;

/// Returns whether these nodes may crash: the least member of no group is among them, and a majority of none.
pub fn may_crash(s: &Scenario, crashed: &BTreeSet<u16>) -> bool {
    s.groups.iter().all(|g| {
        let members = &g.core.members;
        let alive: Members = members.difference(crashed).copied().collect();
        !crashed.contains(&least(members)) && is_majority(members, &alive)
    })
}

/// Draws nodes that may crash, in any order: as many as may, or fewer.
pub fn some_crashes(d: &mut Dice, s: &Scenario) -> Vec<u16> {
    let mut nodes: Vec<u16> = (1..=s.nodes).collect();
    let percent = d.pick(&[30, 70, 100, 100]);
    let (mut crashed, mut drawn) = (BTreeSet::new(), Vec::new());
    while !nodes.is_empty() {
        let node = nodes.swap_remove(d.below(nodes.len() as u64) as usize);
        let more: BTreeSet<u16> = crashed.iter().copied().chain([node]).collect();
        if may_crash(s, &more) && d.chance(percent) {
            crashed = more;
            drawn.push(node);
        }
    }
    drawn
}
