//! One group on one node: acceptor, log, leader and the executed record.

mod effects;
mod election;
mod execute;
mod leader;
mod paxos;
mod policy;
mod pump;
mod queues;
mod tick;
mod transactions;

pub use leader::*;
pub use paxos::Installed;

use crate::mail::*;
use crate::values::*;
use std::collections::{BTreeMap, VecDeque};

/// How many slots of a log may be in flight at once.
pub const AHEAD: u32 = 4;
/// The last slot that is learnt, installed or proposed in.
pub const LAST_SLOT: u32 = u32::MAX - 7;

/// What a node has promised and accepted for a group.
#[derive(Clone, PartialEq, Eq, Debug)]
pub struct Acceptor {
    pub promised: Ballot,
    pub accepted: BTreeMap<u32, (Ballot, Command)>,
    /// The last slot whose acceptance was dropped.
    pub floor: u32,
}

/// One group on one node.
#[derive(Clone, PartialEq, Eq, Debug)]
pub struct Replica {
    pub dials: Dials,
    pub me: u16,
    /// The executed record.
    pub base: Base,
    /// The executed entries that are still held.
    pub log: BTreeMap<u32, Command>,
    /// The slot after the last executed one.
    pub next: u32,
    /// The member sets of the open slots, from `next` on.
    pub sets: VecDeque<Members>,
    pub acceptor: Acceptor,
    /// The node that is taken for the leader.
    pub hint: Option<u16>,
    /// The greatest ballot seen.
    pub top: Ballot,
    /// What a replica has that runs, and no other one.
    pub leader: Option<Leader>,
    /// Commands of transactions that wait for a slot.
    pub acts: VecDeque<Command>,
    /// Calls and orders that wait for a slot.
    pub calls: VecDeque<Command>,
    /// The ticks that a coordinator has waited.
    pub waits: u32,
}

/// What one step gives beside the new value: mail, and child groups to be born on this node.
#[derive(Default)]
pub struct Out {
    pub mails: Vec<Mail>,
    pub children: Vec<Base>,
}

impl Replica {
    fn bare(dials: &Dials, me: u16, base: Base, next: u32, sets: VecDeque<Members>) -> Replica {
        let first = base.core.first_ballot();
        let mut r = Replica {
            dials: *dials,
            me,
            log: BTreeMap::new(),
            next,
            sets,
            acceptor: Acceptor { promised: first, accepted: BTreeMap::new(), floor: 0 },
            hint: Some(base.core.first),
            top: first,
            leader: None,
            acts: VecDeque::new(),
            calls: VecDeque::new(),
            waits: 0,
            base,
        };
        r.cut();
        r
    }

    /// Makes a replica at the birth of its group. The node that is `first` runs with the first ballot.
    pub fn born(dials: &Dials, me: u16, base: Base) -> Replica {
        let sets = (0..AHEAD).map(|_| base.core.members.clone()).collect();
        let mut r = Replica::bare(dials, me, base, 1, sets);
        if r.base.core.first == me {
            r.leader = Some(Leader::new(r.base.core.first_ballot()));
        }
        r
    }

    /// Makes a replica from an Install mail; it does not run.
    pub fn installed(dials: &Dials, me: u16, from: u16, state: Installed, out: &mut Out) -> Replica {
        let mut r = Replica::bare(dials, me, state.base, state.slot + 1, state.sets.into());
        r.hint_after_install(from, out);
        r
    }

    /// Returns the name of the group.
    pub fn group(&self) -> Draw {
        self.base.core.id
    }
    /// Returns the members by the executed record.
    pub fn members(&self) -> &Members {
        &self.base.core.members
    }
    /// Returns whether the replica leads, or wants to.
    pub fn running(&self) -> bool {
        self.leader.is_some()
    }
    /// Returns whether the group was taken over by another one.
    pub fn gone(&self) -> bool {
        self.base.core.gone.is_some()
    }

    /// Returns whether the leader may propose at the next slot.
    pub fn settled(&self) -> bool {
        let first = self.base.core.first_ballot();
        self.leader.as_ref().is_some_and(|l| {
            l.ballot >= self.acceptor.promised
                && (l.ballot == first || is_majority(&self.sets[0], &l.promised))
        })
    }

    fn send(&self, to: u32, body: MailBody, out: &mut Out) {
        out.mails.push(Mail { from: u32::from(self.me), to, body });
    }
    fn answer(&self, to: u32, seq: u32, answer: AnswerBody, out: &mut Out) {
        self.send(to, MailBody::Answer { group: self.group(), seq, answer }, out);
    }
    fn tell(&self, order: u32, result: ToldResult, out: &mut Out) {
        self.send(DESK, MailBody::Told { order, result }, out);
    }
    fn tell_not_leader(&self, order: u32, hint: Option<u16>, out: &mut Out) {
        self.tell(order, ToldResult::Refused(OrderRefusal::NotLeader { hint }), out);
    }

    /// Sends the executed state.
    fn send_install(&self, to: u32, out: &mut Out) {
        let body = MailBody::Install {
            group: self.group(),
            slot: self.next - 1,
            base: self.base.clone(),
            sets: self.sets.iter().cloned().collect(),
        };
        self.send(to, body, out);
    }

    /// Drops old entries and accepted slots: all up to the floor.
    fn cut(&mut self) {
        let n = self.next - 1;
        let unit = self.dials.unit;
        let floor = if n < unit { 0 } else { unit * (n / unit) - unit };
        self.log.retain(|slot, _| *slot > floor);
        self.acceptor.accepted.retain(|slot, _| *slot > floor);
        self.acceptor.floor = self.acceptor.floor.max(floor);
    }
}
