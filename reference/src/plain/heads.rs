//! Random scenarios for plain and calm runs.

use crate::random::*;
use crate::scenario::*;
use crate::values::*;
use std::collections::BTreeSet;

fn some_bytes(d: &mut Dice) -> Vec<u8> {
    let n = d.from_to(1, 5);
    (0..n).map(|_| d.from_to(33, 126) as u8).collect()
}

/// Draws a key: mostly one of a few.
fn some_key(d: &mut Dice, few: &[Vec<u8>]) -> Key {
    if d.chance(60) {
        return Key(d.pick(few));
    }
    Key(some_bytes(d))
}

fn some_op_of(d: &mut Dice, few: &[Vec<u8>]) -> Op {
    let key = some_key(d, few);
    let value = Value(d.pick(&["x", "yy"]).as_bytes().to_vec());
    let expect = Value(d.pick(&["x", "yy"]).as_bytes().to_vec());
    match d.below(5) {
        0 => Op::Get { key },
        1 => Op::Put { key, value },
        2 => Op::Del { key },
        3 => Op::Add { key, value },
        _ => Op::Cas { key, expect, value },
    }
}

fn some_groups(d: &mut Dice, nodes: u64, few: &[Vec<u8>]) -> Vec<(u32, Members)> {
    let count = d.pick(&[1, 1, 2, 2, 3, 4, 5, 8, 12, 16, 16]);
    let mut los: BTreeSet<u32> = BTreeSet::new();
    while los.len() < count {
        los.insert(match d.below(5) {
            0 => d.below(SPACE) as u32,
            1 | 2 => Key(d.pick(few)).pos().wrapping_add(d.below(3) as u32).wrapping_sub(1),
            _ => d.from_to(0x2121_2121, 0x7e7e_7e7e) as u32,
        });
    }
    let big = d.chance(40);
    let most = nodes.min(9);
    let mut groups = Vec::new();
    for lo in los {
        let n = if big && d.chance(70) { most } else { d.from_to(1, most) };
        groups.push((lo, some_set(d, nodes, n)));
    }
    groups
}

/// Draws a scenario without schedule: up to 32 nodes, 16 groups and 64 clients.
pub fn plain_head(d: &mut Dice) -> Scenario {
    let nodes = d.pick(&[1, 2, 3, 5, 9, 9, 12, 20, 32]);
    let few: Vec<Vec<u8>> = (0..d.from_to(1, 12)).map(|_| some_bytes(d)).collect();
    let groups = some_groups(d, nodes, &few);
    let mut head = Scenario::of_groups(2, nodes as u16, &groups);
    let many = d.pick(&[0, 1, 1, 2, 3, 4, 5, 6, 8, 12, 20, 40, 64]);
    let most = if many > 12 { 4 } else { d.pick(&[1, 2, 4, 10, 10, 30]) };
    let mut names: BTreeSet<u16> = BTreeSet::new();
    while (names.len() as u64) < many {
        names.insert(d.from_to(1, 64) as u16);
    }
    for c in names {
        let count = d.from_to(0, most);
        head.clients.insert(c, (0..count).map(|_| some_op_of(d, &few)).collect());
    }
    head.policy = d.chance(20);
    head
}
