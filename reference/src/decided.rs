//! What a journal has decided, read from its rows and their mail alone: chosen values, logs, states, births,
//! the ring and the history. Grown row by row.

use crate::machine::*;
use crate::mail::*;
use crate::replica::AHEAD;
use crate::values::*;
use std::collections::BTreeMap;

/// A cut of the ring: an arc and the group that has it.
#[derive(Clone, PartialEq, Eq, Debug)]
pub struct Cut {
    pub arc: RingArc,
    pub group: Draw,
}

/// One entry of the history, and the row that decided it.
#[derive(Clone, PartialEq, Eq, Debug)]
pub struct Entry {
    pub client: u16,
    pub seq: u32,
    pub op: Op,
    pub reply: Reply,
    pub row: u32,
}

/// One decided log entry.
#[derive(Clone, PartialEq, Eq, Debug)]
pub struct LogEntry {
    pub command: Command,
    pub effect: Effect,
    pub row: u32,
}

/// Who accepted which command, by slot and ballot.
type Votes = BTreeMap<u32, BTreeMap<Ballot, Vec<(Command, Members)>>>;

/// One group: its log so far and its state.
#[derive(Clone, Debug)]
pub struct GroupLog {
    pub log: Vec<LogEntry>,
    /// The state after the whole log.
    pub state: Base,
    /// The members after 0, 1, 2, .. entries.
    pub members: Vec<Members>,
    /// All states, after 0, 1, 2, .. entries, where they are kept.
    pub states: Vec<Base>,
}

/// What the rows read so far have decided.
pub struct Decided {
    keep_states: bool,
    pub groups: BTreeMap<Draw, GroupLog>,
    /// The names of the groups, in the order of their birth.
    pub born: Vec<Draw>,
    votes: BTreeMap<Draw, Votes>,
    /// The cuts, each before the one behind it on the circle.
    pub ring: Vec<Cut>,
    pub history: Vec<Entry>,
    /// The group of each coordinator, by transaction.
    pub coordinators: BTreeMap<Draw, Draw>,
    /// Rows fed so far.
    pub rows: u32,
    /// The first thing seen that no lawful journal has.
    pub fault: Option<String>,
}

impl Decided {
    /// Returns what is decided before the first row.
    pub fn start(groups: &[Base], keep_states: bool) -> Decided {
        let mut d = Decided {
            keep_states,
            groups: BTreeMap::new(),
            born: Vec::new(),
            votes: BTreeMap::new(),
            ring: Vec::new(),
            history: Vec::new(),
            coordinators: BTreeMap::new(),
            rows: 0,
            fault: None,
        };
        for g in groups {
            d.ring.push(Cut { arc: g.core.arc, group: g.core.id });
            d.birth(g.clone());
        }
        d
    }

    fn birth(&mut self, base: Base) {
        let id = base.core.id;
        let states = if self.keep_states { vec![base.clone()] } else { Vec::new() };
        let members = vec![base.core.members.clone()];
        let old = self.groups.insert(id, GroupLog { log: Vec::new(), state: base, members, states });
        if old.is_some() {
            self.blame(format!("(birth) group {id} is born twice"));
        } else {
            self.born.push(id);
        }
    }

    fn blame(&mut self, what: String) {
        if self.fault.is_none() {
            self.fault = Some(what);
        }
    }

    /// Returns the members of a slot, where the log is long enough to tell.
    pub fn members_of_slot(&self, group: Draw, slot: u32) -> Option<&Members> {
        let n = slot.saturating_sub(AHEAD) as usize;
        self.groups.get(&group)?.members.get(n)
    }

    /// Returns the values chosen at a slot, by ascending ballot.
    fn chosen(&self, group: Draw, slot: u32) -> Vec<Command> {
        let members = match self.members_of_slot(group, slot) {
            None => return Vec::new(),
            Some(m) => m,
        };
        let mut all = Vec::new();
        if let Some(ballots) = self.votes.get(&group).and_then(|v| v.get(&slot)) {
            for values in ballots.values() {
                for (command, nodes) in values {
                    if is_majority(members, nodes) {
                        all.push(command.clone());
                    }
                }
            }
        }
        all
    }

    /// Reads one more row. `delivered` is the mail that the row delivers, where it delivers one.
    pub fn feed(&mut self, row: &Row, delivered: Option<&Mail>) {
        self.rows += 1;
        let Some(MailBody::Accept { group, ballot, slot, command }) = delivered.map(|m| &m.body) else {
            return;
        };
        let answers = |m: &Mail| {
            matches!(&m.body, MailBody::Accepted { group: g, ballot: b, slot: s }
                if (g, b, s) == (group, ballot, slot))
        };
        if row.sent.iter().any(answers) {
            self.note_vote(row.who as u16, *group, *ballot, *slot, command);
            self.one_value(*group, *slot);
            self.grow(*group);
        }
    }

    /// Notes that a node accepted a command.
    fn note_vote(&mut self, node: u16, group: Draw, ballot: Ballot, slot: u32, command: &Command) {
        let values = self.votes.entry(group).or_default().entry(slot).or_default().entry(ballot).or_default();
        match values.iter_mut().find(|(c, _)| c == command) {
            Some((_, nodes)) => {
                nodes.insert(node);
            }
            None => values.push((command.clone(), Members::from([node]))),
        }
        if values.len() > 1 {
            self.blame(format!("(offer) two commands accepted at {group} slot {slot} with one ballot"));
        }
    }

    /// Notes where two values are chosen at one slot.
    fn one_value(&mut self, group: Draw, slot: u32) {
        let chosen = self.chosen(group, slot);
        if chosen.windows(2).any(|w| w[0] != w[1]) {
            self.blame(format!("(value) two values chosen at {group} slot {slot}"));
        }
        if let (Some(first), Some(g)) = (chosen.first(), self.groups.get(&group)) {
            if let Some(entry) = g.log.get(slot as usize - 1) {
                if entry.command != *first {
                    self.blame(format!("(value) the log of {group} changed at slot {slot}"));
                }
            }
        }
    }

    /// Lengthens the log of a group as far as values are chosen.
    fn grow(&mut self, group: Draw) {
        loop {
            let slot = match self.groups.get(&group) {
                None => return,
                Some(g) => g.log.len() as u32 + 1,
            };
            let command = match self.chosen(group, slot).into_iter().next() {
                None => return,
                Some(c) => c,
            };
            self.append(group, command);
            // the members of one more slot are known now
            self.one_value(group, slot + AHEAD);
        }
    }

    /// Appends a chosen command to the log of a group, with all that it decides.
    fn append(&mut self, group: Draw, command: Command) {
        let row = self.rows;
        let g = self.groups.get_mut(&group).expect("the group is there");
        let child = g.state.child_of(&command);
        let before = g.state.core.clone();
        let Applied { effect, unmade } = g.state.apply(&command);
        g.members.push(g.state.core.members.clone());
        if self.keep_states {
            g.states.push(g.state.clone());
        }
        g.log.push(LogEntry { command: command.clone(), effect: effect.clone(), row });
        if unmade {
            self.blame(format!("(plan) a plan that can't be made, in the log of {group}: {command:?}"));
        }
        self.note_coordinator(&before, &command, &effect);
        if let (Command::Call { client, seq, op }, Effect::Done(reply)) = (command, &effect) {
            self.history.push(Entry { client, seq, op, reply: reply.clone(), row });
        }
        self.change_ring(&before, &effect, child);
    }

    /// Notes which group coordinates a transaction that begins.
    fn note_coordinator(&mut self, before: &Core, command: &Command, effect: &Effect) {
        let tx = match (command, effect) {
            (Command::Begin { tx, .. }, Effect::Changed) => *tx,
            (Command::Split { child, .. }, Effect::Changed) if before.succ.group != before.id => *child,
            _ => return,
        };
        if self.coordinators.insert(tx, before.id).is_some() {
            self.blame(format!("(birth) transaction {tx} has two coordinators"));
        }
    }

    /// Changes the ring by a split or by a decision of a coordinator, and makes the child.
    fn change_ring(&mut self, before: &Core, effect: &Effect, child: Option<Base>) {
        let group = before.id;
        if let Some(child) = child {
            self.ring_divide(group, child.core.arc.lo, child.core.id);
            let id = child.core.id;
            self.birth(child);
            self.grow(id);
            return;
        }
        match (&before.lock, effect) {
            (_, Effect::Decided(Outcome::Abort)) => {}
            (Lock::Coordinating { body: Body::Merge, .. }, Effect::Decided(_)) => {
                self.ring_merge(group, before.succ.group)
            }
            (Lock::Coordinating { body: Body::Repart { at }, .. }, Effect::Decided(_)) => {
                self.ring_repart(group, before.succ.group, *at)
            }
            _ => {}
        }
    }

    fn cut_of(&self, group: Draw) -> Option<usize> {
        self.ring.iter().position(|c| c.group == group)
    }

    fn ring_divide(&mut self, group: Draw, at: u32, child: Draw) {
        let parts = self.cut_of(group).and_then(|i| self.ring[i].arc.cut(at).map(|p| (i, p)));
        match parts {
            Some((i, (left, right))) => {
                self.ring[i].arc = left;
                self.ring.insert(i + 1, Cut { arc: right, group: child });
            }
            None => self.blame(format!("(cover) the cut of {group} can't be cut at {at}")),
        }
    }

    fn ring_merge(&mut self, coord: Draw, part: Draw) {
        let joined = match (self.cut_of(coord), self.cut_of(part)) {
            (Some(c), Some(p)) => self.ring[c].arc.join(&self.ring[p].arc),
            _ => None,
        };
        match joined {
            Some(arc) => {
                let c = self.cut_of(coord).expect("found above");
                self.ring[c].arc = arc;
                self.ring.retain(|cut| cut.group != part);
            }
            None => self.blame(format!("(cover) the cuts of {coord} and {part} can't be joined")),
        }
    }

    fn ring_repart(&mut self, coord: Draw, part: Draw, at: u32) {
        let cuts = match (self.cut_of(coord), self.cut_of(part)) {
            (Some(c), Some(p)) => self.ring[c].arc.join(&self.ring[p].arc).and_then(|all| all.cut(at)),
            _ => None,
        };
        match cuts {
            Some((left, right)) => {
                let (c, p) = (self.cut_of(coord).expect("found"), self.cut_of(part).expect("found"));
                self.ring[c].arc = left;
                self.ring[p].arc = right;
            }
            None => self.blame(format!("(cover) {at} is no boundary between {coord} and {part}")),
        }
    }

    /// Returns the cuts by ascending start.
    pub fn sorted_ring(&self) -> Vec<Cut> {
        let mut ring = self.ring.clone();
        ring.sort_by_key(|c| c.arc.lo);
        ring
    }

    /// Returns the effective record: the state, or where it is bound to a committed transaction, the state after it.
    pub fn effective(&self, group: Draw) -> Option<Base> {
        let mut state = self.groups.get(&group)?.state.clone();
        let tx = match &state.core.lock {
            Lock::Promised { tx, .. } | Lock::Watching { tx, .. } => *tx,
            _ => return Some(state),
        };
        let coord = self.coordinators.get(&tx).and_then(|name| self.groups.get(name));
        let outcome = coord.and_then(|g| g.state.core.outcome_of(tx)).cloned();
        match outcome {
            None | Some(Outcome::Abort) => {}
            Some(outcome) => {
                state.apply(&Command::Finish { tx, outcome });
            }
        }
        Some(state)
    }
}
