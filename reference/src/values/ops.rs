//! Operations on a map of pairs, and the table of the last request of each client.

use super::{Key, RingArc, Value};
use std::collections::BTreeMap;

/// An operation on one key.
#[derive(Clone, PartialEq, Eq, Debug)]
pub enum Op {
    Get { key: Key },
    Put { key: Key, value: Value },
    Del { key: Key },
    Add { key: Key, value: Value },
    Cas { key: Key, expect: Value, value: Value },
}

impl Op {
    /// Returns the key of the operation.
    pub fn key(&self) -> &Key {
        match self {
            Op::Get { key }
            | Op::Put { key, .. }
            | Op::Del { key }
            | Op::Add { key, .. }
            | Op::Cas { key, .. } => key,
        }
    }
    /// Returns whether the operation came with the second version of scenarios.
    pub fn is_later(&self) -> bool {
        matches!(self, Op::Add { .. } | Op::Cas { .. })
    }
    /// Returns the word of the operation in a scenario.
    pub fn word(&self) -> &'static str {
        match self {
            Op::Get { .. } => "get",
            Op::Put { .. } => "put",
            Op::Del { .. } => "del",
            Op::Add { .. } => "add",
            Op::Cas { .. } => "cas",
        }
    }
}

/// The old value of the key that was asked for.
#[derive(Clone, PartialEq, Eq, Debug)]
pub struct Reply {
    pub old: Option<Value>,
}

/// Pairs in key order.
pub type Pairs = BTreeMap<Key, Value>;
/// For each client its last number and the reply to it.
pub type SeenList = BTreeMap<u16, (u32, Reply)>;

/// Applies one operation to a map: the map changes and the old value is the reply.
pub fn apply_op(map: &mut Pairs, op: &Op) -> Reply {
    let old = map.get(op.key()).cloned();
    match op {
        Op::Get { .. } => {}
        Op::Put { key, value } => {
            map.insert(key.clone(), value.clone());
        }
        Op::Del { key } => {
            map.remove(key);
        }
        Op::Add { key, value } => {
            if old.is_none() {
                map.insert(key.clone(), value.clone());
            }
        }
        Op::Cas { key, expect, value } => {
            if old.as_ref() == Some(expect) {
                map.insert(key.clone(), value.clone());
            }
        }
    }
    Reply { old }
}

/// Returns the pairs whose positions the arc holds.
pub fn part(pairs: &Pairs, arc: &RingArc) -> Pairs {
    pairs.iter().filter(|(k, _)| arc.holds(k.pos())).map(|(k, v)| (k.clone(), v.clone())).collect()
}

/// Joins two client tables: the greater number per client; with equal numbers the first stays.
pub fn join_seen(mine: &SeenList, other: &SeenList) -> SeenList {
    let mut all = mine.clone();
    for (client, (seq, reply)) in other {
        let take = match all.get(client) {
            None => true,
            Some((have, _)) => seq > have,
        };
        if take {
            all.insert(*client, (*seq, reply.clone()));
        }
    }
    all
}
