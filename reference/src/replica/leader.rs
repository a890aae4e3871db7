//! What a replica has that runs.

use super::Replica;
use crate::mail::Report;
use crate::values::*;
use std::collections::{BTreeMap, BTreeSet};

/// A command in flight and the nodes that accepted it.
#[derive(Clone, PartialEq, Eq, Debug)]
pub struct Flight {
    pub command: Command,
    pub voters: Members,
}

/// The ballot of a replica that runs, who promised it, their reports, and the open slots in use.
#[derive(Clone, PartialEq, Eq, Debug)]
pub struct Leader {
    pub ballot: Ballot,
    pub promised: Members,
    pub reports: Vec<Report>,
    pub flights: BTreeMap<u32, Flight>,
    /// The commands that a majority has accepted and that are not executed.
    pub ready: BTreeMap<u32, Command>,
}

/// What a new leader has to propose at a slot.
pub enum Must {
    /// This command, which a report names.
    Value(Command),
    /// Nothing of its own, since a report names a later slot.
    Gap,
    /// What it likes.
    Free,
}

impl Leader {
    /// Returns a leader that nobody has promised yet.
    pub fn new(ballot: Ballot) -> Leader {
        Leader {
            ballot,
            promised: Members::new(),
            reports: Vec::new(),
            flights: BTreeMap::new(),
            ready: BTreeMap::new(),
        }
    }

    /// Returns whether a command is in flight or ready at the slot.
    pub fn taken(&self, slot: u32) -> bool {
        self.flights.contains_key(&slot) || self.ready.contains_key(&slot)
    }

    /// Returns whether nothing is in flight or ready.
    pub fn idle(&self) -> bool {
        self.flights.is_empty() && self.ready.is_empty()
    }

    /// Iterates over the commands in flight and then the ready ones.
    pub fn commands(&self) -> impl Iterator<Item = &Command> {
        self.flights.values().map(|f| &f.command).chain(self.ready.values())
    }

    /// Returns the commands in flight or ready, by slot.
    pub fn under_way(&self) -> Vec<Command> {
        let mut all: BTreeMap<u32, Command> = self.ready.clone();
        for (slot, flight) in &self.flights {
            all.insert(*slot, flight.command.clone());
        }
        all.into_values().collect()
    }

    /// Returns what is to be proposed at the slot, by the report of the greatest ballot.
    pub fn must(&self, slot: u32) -> Must {
        let mut best: Option<&Report> = None;
        for r in self.reports.iter().filter(|r| r.slot == slot) {
            if best.is_none_or(|b| r.ballot > b.ballot) {
                best = Some(r);
            }
        }
        if let Some(r) = best {
            return Must::Value(r.value.clone());
        }
        if self.reports.iter().any(|r| r.slot > slot) {
            return Must::Gap;
        }
        Must::Free
    }

    /// Returns the slots that are in flight or ready.
    pub fn taken_slots(&self) -> BTreeSet<u32> {
        self.flights.keys().chain(self.ready.keys()).copied().collect()
    }
}

impl Replica {
    /// Returns whether the taken slots are the first open ones, each in flight or ready, and the next is not ready.
    pub fn has_window(&self, l: &Leader) -> bool {
        let taken = l.taken_slots();
        let want: BTreeSet<u32> = (0..taken.len() as u32).map(|k| self.next + k).collect();
        taken == want && taken.len() == l.flights.len() + l.ready.len() && !l.ready.contains_key(&self.next)
    }
}
