//! One group of a run, as the predicates look at it.

use crate::mail::*;
use crate::replica::*;
use crate::values::*;
use crate::world::*;
use std::collections::BTreeMap;

/// How often each predicate was looked at.
#[derive(Default)]
pub struct Looked(pub BTreeMap<&'static str, u64>);

impl Looked {
    /// Counts something that is no predicate.
    pub fn count(&mut self, name: &'static str) {
        *self.0.entry(name).or_default() += 1;
    }

    /// Looks at a predicate. `Err` says where it does not hold.
    pub fn look(
        &mut self,
        name: &'static str,
        holds: bool,
        place: impl Fn() -> String,
    ) -> Result<(), String> {
        self.count(name);
        if holds {
            Ok(())
        } else {
            Err(format!("{name}: {}", place()))
        }
    }
}

/// A group, and all pending mail.
pub struct GroupView<'a> {
    pub world: &'a World<'a>,
    pub id: Draw,
    pub group: &'a GroupReplicas<'a>,
    pub members: &'a Members,
    pub mails: &'a [&'a Mail],
}

impl<'a> GroupView<'a> {
    /// Returns whether no mail is pending.
    pub fn quiet(&self) -> bool {
        self.mails.is_empty()
    }

    /// Returns whether a node has not crashed.
    pub fn alive(&self, m: u16) -> bool {
        !self.world.crashed.contains(&u32::from(m))
    }

    /// Iterates over the members that have not crashed.
    pub fn living(&self) -> impl Iterator<Item = u16> + '_ {
        self.members.iter().copied().filter(|m| self.alive(*m))
    }

    /// Iterates over the replicas of nodes that have not crashed.
    pub fn replicas(&self) -> impl Iterator<Item = &'a Replica> + '_ {
        self.group.values().copied().filter(|r| self.alive(r.me))
    }

    /// Returns whether such mail of the group is pending to a node.
    pub fn comes(&self, to: u16, is: impl Fn(&MailBody) -> bool) -> bool {
        self.mails.iter().any(|x| x.to == u32::from(to) && self.of_group(x) && is(&x.body))
    }

    /// Returns whether such mail of the group is pending from one node to another.
    pub fn comes_from(&self, from: u16, to: u16, is: impl Fn(&MailBody) -> bool) -> bool {
        let sent = |x: &Mail| x.from == u32::from(from) && x.to == u32::from(to);
        self.mails.iter().any(|x| sent(x) && self.of_group(x) && is(&x.body))
    }

    fn of_group(&self, x: &Mail) -> bool {
        match &x.body {
            MailBody::Prepare { group, .. }
            | MailBody::Promise { group, .. }
            | MailBody::Accept { group, .. }
            | MailBody::Accepted { group, .. }
            | MailBody::Nack { group, .. }
            | MailBody::Install { group, .. } => *group == self.id,
            _ => false,
        }
    }

    /// Returns whether no living node has dropped what this replica has not executed.
    pub fn is_level(&self, r: &Replica) -> bool {
        self.replicas().all(|o| o.acceptor.floor < r.next)
    }
}
