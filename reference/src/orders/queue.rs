//! Where a queued order stands beside its queue.

use super::marks::Marks;
use super::results::Results;
use super::rows::Step;
use crate::decided::Decided;
use crate::mail::*;
use crate::values::*;
use crate::world::Party;
use std::collections::{BTreeMap, BTreeSet};

/// An order of a group, by its number.
type Name = (Draw, u32);

/// The queued orders, and the slots at which orders were decided, and were named in mail.
#[derive(Default)]
pub struct Queue {
    queued: BTreeMap<(u16, Draw), Vec<u32>>,
    decided: BTreeMap<Name, BTreeSet<u32>>,
    mailed: BTreeMap<Name, BTreeSet<u32>>,
    /// How far each log was read.
    lengths: BTreeMap<Draw, usize>,
}

/// The slots at which an order stands at nodes, and in how many queues.
#[derive(Default)]
struct Places {
    accepted: BTreeSet<u32>,
    under_way: BTreeSet<u32>,
    reported: BTreeSet<u32>,
    queues: usize,
}

/// Returns the number of an order that is no policy's.
fn number(command: &Command) -> Option<u32> {
    command.order().filter(|n| *n > 0)
}

impl Places {
    /// Finds an order at all nodes.
    fn find(actors: &BTreeMap<u32, Party>, (group, n): Name) -> Places {
        let mut all = Places::default();
        let is = |c: &Command| number(c) == Some(n);
        for party in actors.values() {
            let Party::Node(node) = party else { continue };
            let Some(r) = node.replicas.get(&group) else { continue };
            all.accepted.extend(r.acceptor.accepted.iter().filter(|(_, (_, c))| is(c)).map(|(s, _)| *s));
            all.queues += r.calls.iter().filter(|c| is(c)).count();
            let Some(l) = &r.leader else { continue };
            all.under_way.extend(l.flights.iter().filter(|(_, f)| is(&f.command)).map(|(s, _)| *s));
            all.under_way.extend(l.ready.iter().filter(|(_, c)| is(c)).map(|(s, _)| *s));
            all.reported.extend(l.reports.iter().filter(|x| is(&x.value)).map(|x| x.slot));
        }
        all
    }
}

impl Queue {
    /// Notes what a row of a node queues, sends and decides.
    pub(super) fn note(&mut self, step: &Step, decided: &Decided) {
        let me = step.after.me;
        for (id, r) in &step.after.replicas {
            let orders: Vec<u32> = r.calls.iter().filter_map(number).collect();
            if orders.is_empty() {
                self.queued.remove(&(me, *id));
            } else {
                self.queued.insert((me, *id), orders);
            }
        }
        for m in &step.row.sent {
            self.note_mail(&m.body);
        }
        for (id, g) in &decided.groups {
            let read = self.lengths.entry(*id).or_default();
            for (k, entry) in g.log.iter().enumerate().skip(*read) {
                if let Some(n) = number(&entry.command) {
                    self.decided.entry((*id, n)).or_default().insert(k as u32 + 1);
                }
            }
            *read = g.log.len();
        }
    }

    fn note_mail(&mut self, body: &MailBody) {
        let mut note = |group: &Draw, slot: &u32, command: &Command| {
            if let Some(n) = number(command) {
                self.mailed.entry((*group, n)).or_default().insert(*slot);
            }
        };
        match body {
            MailBody::Accept { group, slot, command, .. } | MailBody::Learn { group, slot, command } => {
                note(group, slot, command)
            }
            MailBody::Promise { group, reports, .. } => {
                reports.iter().for_each(|x| note(group, &x.slot, &x.value))
            }
            _ => {}
        }
    }

    /// Looks at each queued order.
    pub(super) fn look(&self, actors: &BTreeMap<u32, Party>, results: &Results, marks: &mut Marks) {
        for ((me, group), orders) in &self.queued {
            let Some(Party::Node(node)) = actors.get(&u32::from(*me)) else { continue };
            let next = node.replicas[group].next;
            for n in orders {
                self.look_at(actors, (*group, *n), next, results.is_single(*n), marks);
            }
        }
    }

    /// Looks at one queued order of a replica with this next slot.
    fn look_at(&self, actors: &BTreeMap<u32, Party>, name: Name, next: u32, single: bool, marks: &mut Marks) {
        let places = Places::find(actors, name);
        let none = BTreeSet::new();
        let decided = self.decided.get(&name).unwrap_or(&none);
        let mailed = self.mailed.get(&name).unwrap_or(&none);
        let what = || format!("order {} of {}, decided {decided:?}, in mail {mailed:?}", name.1, name.0);
        let all = [&places.accepted, &places.under_way, &places.reported, mailed];
        let behind = all.iter().all(|slots| slots.iter().all(|s| *s < next));
        let (undecided, once) = (decided.is_empty(), places.queues == 1);
        marks.count("queued orders looked at", 1);
        marks.look("perhaps queued: at no decided slot", undecided, what);
        marks.look("perhaps queued: elsewhere only at executed slots", behind, what);
        marks.look("perhaps queued: in one queue, once", once, what);
        marks.look("perhaps queued: in no acceptor", places.accepted.is_empty(), what);
        marks.look("perhaps queued: nowhere under way", places.under_way.is_empty(), what);
        marks.look("perhaps queued: in no leader's reports", places.reported.is_empty(), what);
        marks.look("perhaps queued: in no mail that was sent", mailed.is_empty(), what);
        if single {
            marks.look("queued, put back by at most one node: at no decided slot", undecided, what);
            let name = "queued, put back by at most one node: elsewhere only at executed slots";
            marks.look(name, behind, what);
            marks.look("queued, put back by at most one node: in one queue, once", once, what);
        }
    }
}
