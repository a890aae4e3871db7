//! When a coordinator gives up: every GiveUp was first put at the tick of a leader that had waited long enough.

use super::marks::Marks;
use super::rows::Step;
use crate::decided::Decided;
use crate::mail::*;
use crate::replica::Replica;
use crate::values::*;
use std::collections::{BTreeMap, BTreeSet};

/// The transaction that a GiveUp names, and the group where it stands.
type Name = (Draw, Draw);

/// A leadership under a lock: the node, the group, the ballot and the transaction.
type Leadership = (u16, Draw, Ballot, Draw);

/// The ticks of each leadership under its lock, and the GiveUps that were put at the last tick of patience.
pub struct Patience {
    most: u32,
    ticks: BTreeMap<Leadership, u32>,
    put: BTreeSet<Name>,
    stood: BTreeSet<Name>,
    /// How far each log was read.
    lengths: BTreeMap<Draw, usize>,
}

/// Returns the leadership of a replica that runs, under its lock as a coordinator.
fn leadership(r: &Replica) -> Option<Leadership> {
    match (&r.base.core.lock, &r.leader) {
        (Lock::Coordinating { tx, .. }, Some(l)) => Some((r.me, r.group(), l.ballot, *tx)),
        _ => None,
    }
}

/// Returns whether a replica has a GiveUp of the transaction queued, in flight or ready.
fn gives_up(r: &Replica, tx: Draw) -> bool {
    let is = |c: &Command| *c == Command::GiveUp { tx };
    r.acts.iter().any(is) || r.leader.as_ref().is_some_and(|l| l.commands().any(is))
}

/// Adds a command to those that stand in a group, where it is a GiveUp.
fn add(all: &mut Vec<(Name, &'static str)>, group: Draw, command: &Command, place: &'static str) {
    if let Command::GiveUp { tx } = command {
        all.push(((group, *tx), place));
    }
}

/// Returns the GiveUps that stand in a replica.
fn standing_in(r: &Replica, all: &mut Vec<(Name, &'static str)>) {
    let id = r.group();
    r.acts.iter().for_each(|c| add(all, id, c, "in acts"));
    r.calls.iter().for_each(|c| add(all, id, c, "in calls"));
    r.log.values().for_each(|c| add(all, id, c, "in a log"));
    r.acceptor.accepted.values().for_each(|(_, c)| add(all, id, c, "in an acceptor"));
    if let Some(l) = &r.leader {
        l.flights.values().for_each(|f| add(all, id, &f.command, "in flight"));
        l.ready.values().for_each(|c| add(all, id, c, "ready"));
        l.reports.iter().for_each(|x| add(all, id, &x.value, "in a leader's reports"));
    }
}

/// Returns the GiveUps that a mail brings.
fn standing_in_mail(body: &MailBody, all: &mut Vec<(Name, &'static str)>) {
    match body {
        MailBody::Accept { group, command, .. } | MailBody::Learn { group, command, .. } => {
            add(all, *group, command, "in mail")
        }
        MailBody::Promise { group, reports, .. } => {
            reports.iter().for_each(|x| add(all, *group, &x.value, "in a promise"))
        }
        _ => {}
    }
}

impl Patience {
    /// Returns what is known before any row. So many ticks are to be waited.
    pub fn start(most: u32) -> Patience {
        Patience {
            most,
            ticks: BTreeMap::new(),
            put: BTreeSet::new(),
            stood: BTreeSet::new(),
            lengths: BTreeMap::new(),
        }
    }

    /// Looks at a row of a node.
    pub(super) fn look(&mut self, step: &Step, decided: &Decided, marks: &mut Marks) {
        let is_tick = step.row.event == Event::Tick;
        for (id, after) in &step.after.replicas {
            let before = step.before.replicas.get(id);
            if let Some(before) = before {
                self.look_at_put(is_tick, before, after, marks);
            }
            self.look_at_count(after, marks);
        }
        self.look_at_standing(step, decided, marks);
    }

    /// Counts a tick, and looks at a GiveUp that a replica has anew.
    fn look_at_put(&mut self, is_tick: bool, before: &Replica, after: &Replica, marks: &mut Marks) {
        let Some(name) = leadership(before) else { return };
        let (_, group, _, tx) = name;
        let mut waited = 0;
        let counts = is_tick && before.settled();
        if counts {
            let ticks = self.ticks.entry(name).or_default();
            *ticks += 1;
            waited = *ticks;
            marks.count("ticks of coordinators", 1);
        }
        if gives_up(before, tx) || !gives_up(after, tx) {
            return;
        }
        let what = || format!("{group} gives {tx} up anew after {waited} ticks");
        let known = self.stood.contains(&(group, tx));
        if is_tick {
            marks.look("put at a tick: at the last tick of patience", waited == self.most, what);
        } else {
            marks.look("put at another row: it stood somewhere before", known, what);
        }
        if counts && waited == self.most {
            marks.count(&format!("GiveUps put at tick {waited}"), 1);
            marks.count("GiveUps put that stood somewhere before", u64::from(known));
            self.put.insert((group, tx));
        }
    }

    /// Looks at the count of a replica that runs.
    fn look_at_count(&self, r: &Replica, marks: &mut Marks) {
        if let Some(name) = leadership(r) {
            let ticks = self.ticks.get(&name).copied().unwrap_or(0);
            marks.look("the count is that of the leadership under its lock", r.waits == ticks, || {
                format!("{name:?} counts {} and had {ticks} ticks", r.waits)
            });
        }
    }

    /// Looks at each GiveUp that stands in what the row has changed.
    fn look_at_standing(&mut self, step: &Step, decided: &Decided, marks: &mut Marks) {
        let mut all = Vec::new();
        step.after.replicas.values().for_each(|r| standing_in(r, &mut all));
        step.row.sent.iter().for_each(|m| standing_in_mail(&m.body, &mut all));
        for (id, g) in &decided.groups {
            let read = self.lengths.entry(*id).or_default();
            g.log[*read..].iter().for_each(|e| add(&mut all, *id, &e.command, "in a decided log"));
            *read = g.log.len();
        }
        for ((group, tx), place) in all {
            let holds = self.put.contains(&(group, tx));
            marks.count(&format!("GiveUps looked at {place}"), 1);
            marks.look("a GiveUp was first put at the last tick of patience", holds, || {
                format!("{group} gives {tx} up {place}")
            });
            if self.stood.insert((group, tx)) {
                marks.count("GiveUps, each once", 1);
            }
        }
    }
}
