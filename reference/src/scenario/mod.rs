//! Scenarios: their grammar, their text, and the made ones.

mod faults;
mod kinds;
mod made;
mod parser;
mod text;
mod words;

pub use faults::*;
pub use made::made_scenario;
pub use parser::{read_scenario, MOST_BYTES};
pub use text::*;

use crate::values::*;
use std::collections::BTreeMap;

/// A line of the schedule. `who` is the number of an actor.
#[derive(Clone, PartialEq, Eq, Debug)]
pub enum SchedLine {
    Go { client: u16 },
    Deliver { who: u32, k: u32 },
    Drop { who: u32, k: u32 },
    Again { mail: u32 },
    Tick { who: u32 },
    Crash { node: u16 },
    Told { node: u16, line: OrderLine },
    Settle { most: u32 },
    Free { most: u32, workers: u32 },
    Storm { number: u64, most: u32 },
}

/// A scenario.
#[derive(Clone, PartialEq, Eq, Debug)]
pub struct Scenario {
    pub version: u8,
    pub nodes: u16,
    pub groups: Vec<Base>,
    pub policy: bool,
    pub clients: BTreeMap<u16, Vec<Op>>,
    pub lines: Vec<SchedLine>,
    /// Whether its report has one line for all replies, as that of a made scenario.
    pub brief: bool,
}

impl Scenario {
    /// Returns a scenario of groups without clients and schedule.
    pub fn of_groups(version: u8, nodes: u16, groups: &[(u32, Members)]) -> Scenario {
        Scenario {
            version,
            nodes,
            groups: group_records(groups),
            policy: false,
            clients: BTreeMap::new(),
            lines: Vec::new(),
            brief: false,
        }
    }
    /// Returns the number of orders.
    pub fn orders(&self) -> usize {
        self.lines.iter().filter(|l| matches!(l, SchedLine::Told { .. })).count()
    }
    /// Returns the number of requests of all clients.
    pub fn requests(&self) -> u64 {
        self.clients.values().map(|ops| ops.len() as u64).sum()
    }
    /// Returns the route that every client knows at first.
    pub fn first_route(&self) -> Route {
        let core = &self.groups[0].core;
        Route { group: core.id, lo: core.arc.lo, members: core.members.clone() }
    }
    /// Returns the record of a group at its birth.
    pub fn group_at(&self, id: Draw) -> Option<&Base> {
        self.groups.iter().find(|g| g.core.id == id)
    }
}

/// Returns the records of groups from their starts and members, in the order of their lines.
pub fn group_records(lines: &[(u32, Members)]) -> Vec<Base> {
    let n = lines.len();
    let name = |k: usize| Draw { node: 0, count: k as u32 + 1 };
    let link = |k: usize| Link { group: name(k), members: lines[k].1.clone() };
    let one = |k: usize| {
        let (lo, hi) = (lines[k].0, lines[(k + 1) % n].0);
        let len = if n == 1 { SPACE } else { u64::from(hi.wrapping_sub(lo)) };
        let core = Core::new(
            name(k),
            RingArc { lo, len },
            lines[k].1.clone(),
            link((k + 1) % n),
            link((k + n - 1) % n),
        );
        Base { core, pairs: Pairs::new(), clients: SeenList::new() }
    };
    (0..n).map(one).collect()
}
