//! What every prefix of a lawful journal keeps, checked row by row.
//!
//! The chosen values, logs, states, ring and history are read from the rows and their mail alone. The actors are
//! replayed only to compare them with that.

mod groups;
mod history;
mod votes;

use crate::decided::*;
use crate::mail::*;
use crate::scenario::Scenario;
use crate::values::*;
use crate::world::*;
use std::collections::BTreeMap;

/// The rows read so far, and what they have to keep.
pub struct Checker<'a> {
    scenario: &'a Scenario,
    pub actors: BTreeMap<u32, Party>,
    pub decided: Decided,
    mails: Vec<Mail>,
    /// The ideal map after the history so far.
    ideal: Pairs,
    /// How many entries of the history were replayed.
    replayed: usize,
    /// The history entry of each request.
    entries: BTreeMap<(u16, u32), usize>,
    /// The first row that sends each request.
    issued: BTreeMap<(u16, u32), u32>,
    /// How many replies each client had kept before its last row.
    kept: BTreeMap<u16, usize>,
    /// The command that was offered with a ballot at a slot.
    offered: BTreeMap<(Draw, Ballot, u32), Command>,
    /// The logs' lengths when the decided parts were last checked.
    checked: BTreeMap<Draw, usize>,
    /// For each group, how many entries were checked for changes under a lock.
    locked_to: BTreeMap<Draw, usize>,
    /// For each node and group, the executed length last compared.
    compared: BTreeMap<(u32, Draw), u32>,
}

impl<'a> Checker<'a> {
    /// Returns the checker before any row.
    pub fn start(scenario: &'a Scenario, dials: &Dials) -> Checker<'a> {
        Checker {
            scenario,
            actors: births(scenario, dials),
            decided: Decided::start(&scenario.groups, true),
            mails: Vec::new(),
            ideal: Pairs::new(),
            replayed: 0,
            entries: BTreeMap::new(),
            issued: BTreeMap::new(),
            kept: BTreeMap::new(),
            offered: BTreeMap::new(),
            checked: BTreeMap::new(),
            locked_to: BTreeMap::new(),
            compared: BTreeMap::new(),
        }
    }

    /// Checks the prefix before any row.
    pub fn first(&mut self) -> Result<(), String> {
        for cut in self.decided.sorted_ring() {
            self.checked.insert(cut.group, 0);
        }
        self.ring()?;
        self.pairs()
    }

    /// Checks the prefix that ends with this row.
    pub fn feed(&mut self, row: &Row) -> Result<(), String> {
        let number = self.decided.rows + 1;
        self.lawful(row)?;
        let delivered = match row.event {
            Event::Deliver(m) => Some(self.mails[m as usize - 1].clone()),
            _ => None,
        };
        self.mails.extend(row.sent.iter().cloned());
        self.decided.feed(row, delivered.as_ref());
        if let Some(fault) = &self.decided.fault {
            return Err(fault.clone());
        }
        self.offers(row)?;
        self.votes_and_outcomes(row)?;
        self.issues(row, number);
        self.replicas(row.who)?;
        let lengths: BTreeMap<Draw, usize> =
            self.decided.groups.iter().map(|(g, l)| (*g, l.log.len())).collect();
        if lengths != self.checked {
            self.checked = lengths;
            self.history()?;
            self.ring()?;
            self.pairs()?;
            self.tables()?;
            self.locked()?;
        }
        self.replies(row.who, number)?;
        self.refusals(row, delivered.as_ref())
    }

    /// Checks that the row sends what the actor's table gives.
    fn lawful(&mut self, row: &Row) -> Result<(), String> {
        let input = match &row.event {
            Event::Deliver(m) => Input::Got(self.mails[*m as usize - 1].clone()),
            Event::Tick => Input::Tick,
            Event::Go => Input::Go,
            Event::Told(o) => Input::Told(o.clone()),
            Event::Crash | Event::Drop(_) | Event::Again(_) => {
                return if row.sent.is_empty() { Ok(()) } else { Err("(law) a silent row sends".to_string()) }
            }
        };
        let actor = self.actors.get_mut(&row.who).ok_or("(law) no such actor")?;
        if actor.step(&input) != row.sent {
            return Err("(law) the sent list is not the replay's".to_string());
        }
        Ok(())
    }

    /// Checks that one command is offered for each ballot and slot, by the ballot's node.
    fn offers(&mut self, row: &Row) -> Result<(), String> {
        for m in &row.sent {
            if let MailBody::Accept { group, ballot, slot, command } = &m.body {
                let old = self.offered.entry((*group, *ballot, *slot)).or_insert(command.clone());
                if old != command {
                    return Err(format!(
                        "(offer) two commands offered at {group} slot {slot} with {ballot:?}"
                    ));
                }
                if u32::from(ballot.node) != m.from {
                    return Err("(offer) a ballot used by another node".to_string());
                }
            }
        }
        Ok(())
    }

    /// Notes the requests that the row issues.
    fn issues(&mut self, row: &Row, number: u32) {
        for m in &row.sent {
            if let MailBody::Request { client, seq, .. } = &m.body {
                if m.from == client_actor(*client) {
                    self.issued.entry((*client, *seq)).or_insert(number);
                }
            }
        }
    }
}

/// Runs a scenario and checks every prefix. `Err` names the row and the part.
pub fn check(scenario: &Scenario, dials: &Dials) -> Result<usize, String> {
    let mut world = World::start(scenario, dials, JOURNAL_LIMIT);
    let _ = world.run();
    let mut checker = Checker::start(scenario, dials);
    checker.first().map_err(|e| format!("before any row: {e}"))?;
    for (i, row) in world.rows.iter().enumerate() {
        checker.feed(row).map_err(|e| format!("row {}: {e}", i + 1))?;
    }
    // what the walk left in the actors is the replay
    if checker.actors != world.actors {
        return Err("(law) an actor is not the replay of its rows".to_string());
    }
    Ok(world.rows.len())
}
