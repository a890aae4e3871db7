//! Random scenarios without schedule.

use super::Dice;
use crate::scenario::*;
use crate::values::*;

const KEYS: [&str; 12] = ["!", "0", "@", "@!", "`~~~~", "a", "a!", "l~~~", "m", "m!", "~", "~~~~"];

/// Returns places where arcs may start and be cut: positions of keys, one beside them, and others.
pub fn places() -> Vec<u32> {
    let mut all = vec![0, 1, 1 << 30, 1 << 31, 3 << 30, u32::MAX];
    for k in KEYS {
        let p = Key(k.as_bytes().to_vec()).pos();
        all.extend([p, p, p.wrapping_add(1)]);
    }
    all
}

/// Draws the members of a group: mostly few.
pub fn some_nodes(d: &mut Dice, nodes: u64) -> Members {
    let most = if d.chance(10) { nodes.min(9) } else { nodes.min(4) };
    let n = d.from_to(1, most);
    some_set(d, nodes, n)
}

/// Draws so many of the nodes.
pub fn some_set(d: &mut Dice, nodes: u64, count: u64) -> Members {
    let mut set = Members::new();
    while (set.len() as u64) < count {
        set.insert(d.from_to(1, nodes) as u16);
    }
    set
}

/// Draws an operation on one of a few keys.
pub fn some_op(d: &mut Dice, version: u8) -> Op {
    let key = Key(d.pick(&KEYS).as_bytes().to_vec());
    let mut value = || Value(d.pick(&["x", "y", "z"]).as_bytes().to_vec());
    let (v, e) = (value(), value());
    match d.below(if version == 2 { 6 } else { 4 }) {
        0 => Op::Get { key },
        1 | 2 => Op::Put { key, value: v },
        3 => Op::Del { key },
        4 => Op::Add { key, value: v },
        _ => Op::Cas { key, expect: e, value: v },
    }
}

/// Draws so many starts of arcs; equal ones count once.
fn some_starts(d: &mut Dice, count: u64, one: impl Fn(&mut Dice) -> u32) -> Vec<u32> {
    let mut los: Vec<u32> = (0..count).map(|_| one(d)).collect();
    los.sort();
    los.dedup();
    los
}

/// Draws a scenario without schedule. With `rivals` it has few groups of several nodes, and many clients.
pub fn some_head(d: &mut Dice, rivals: bool) -> Scenario {
    let version = if d.chance(50) { 2 } else { 1 };
    let nodes = if rivals {
        d.from_to(3, 5)
    } else if d.chance(5) {
        d.from_to(10, 12)
    } else {
        d.from_to(1, 9)
    };
    let count = d.from_to(1, if rivals { 2 } else { 4 });
    let los = some_starts(d, count, |d| d.pick(&places()));
    let set = |d: &mut Dice| loop {
        let set = some_nodes(d, nodes);
        if !rivals || set.len() > 2 {
            return set;
        }
    };
    let groups: Vec<(u32, Members)> = los.iter().map(|lo| (*lo, set(d))).collect();
    let mut head = Scenario::of_groups(version, nodes as u16, &groups);
    for c in 1..=d.from_to(if rivals { 3 } else { 0 }, 5) {
        let count = d.from_to(if rivals { 2 } else { 0 }, 6);
        head.clients.insert(c as u16, (0..count).map(|_| some_op(d, version)).collect());
    }
    head.policy = d.chance(15);
    head
}

/// Draws a scenario without schedule, with up to 16 groups and 12 nodes.
pub fn wide_head(d: &mut Dice) -> Scenario {
    let nodes = d.from_to(1, 12);
    let count = d.pick(&[1, 2, 2, 3, 4, 8, 16]);
    let place = |d: &mut Dice| if d.chance(60) { d.pick(&places()) } else { d.below(SPACE) as u32 };
    let los = some_starts(d, count, place);
    let groups: Vec<(u32, Members)> = los.iter().map(|lo| (*lo, some_nodes(d, nodes))).collect();
    let mut head = Scenario::of_groups(2, nodes as u16, &groups);
    for c in 1..=d.from_to(0, 8) {
        let count = d.pick(&[0, 1, 1, 2, 3, 8]);
        head.clients.insert(c as u16, (0..count).map(|_| some_op(d, 2)).collect());
    }
    head.policy = d.chance(15);
    head
}
