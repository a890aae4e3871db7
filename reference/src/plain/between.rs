//! C1 to C7: what holds between two actors and the mail between them in a plain run.

use super::potential::begun;
use crate::client::Client;
use crate::mail::*;
use crate::node::Node;
use crate::replica::*;
use crate::scenario::Scenario;
use crate::values::*;
use crate::world::*;
use std::collections::BTreeMap;

/// A run, with the mail that each actor has not taken yet, in order.
struct View<'a> {
    scenario: &'a Scenario,
    world: &'a World<'a>,
    rests: BTreeMap<u32, Vec<&'a Mail>>,
}

/// Checks all of it. Returns how far a member is behind its leader at most.
pub fn between(s: &Scenario, w: &World) -> Result<u64, String> {
    let view = View { scenario: s, world: w, rests: w.rests() };
    let mut lag = 0;
    for b in &s.groups {
        let leader = &view.node(b.core.first).replicas[&b.core.id];
        let l = leader.leader.as_ref().ok_or("no leader")?;
        for m in &b.core.members {
            lag = lag.max(view.learns(b, leader, *m)?);
            view.accepts(b, leader, l, *m)?;
            view.votes(b, l, *m)?;
        }
    }
    for (who, c) in w.actors.keys().filter_map(|who| w.client(*who).map(|c| (*who, c))) {
        view.noted(c)?;
        view.request(who, c)?;
    }
    Ok(lag)
}

/// Returns the slot of an Accept or Accepted of a group.
fn voted_slot(m: &Mail, id: Draw) -> Option<u32> {
    match &m.body {
        MailBody::Accept { group, slot, .. } | MailBody::Accepted { group, slot, .. } if *group == id => {
            Some(*slot)
        }
        _ => None,
    }
}

impl View<'_> {
    fn node(&self, n: u16) -> &Node {
        self.world.node(u32::from(n)).expect("a node")
    }
    fn rest(&self, n: u16) -> &[&Mail] {
        &self.rests[&u32::from(n)]
    }

    /// C1: the Learns that a member has not taken are those of the slots that it has not executed.
    fn learns(&self, b: &Base, leader: &Replica, m: u16) -> Result<u64, String> {
        if m == b.core.first {
            return Ok(0);
        }
        let id = b.core.id;
        let next = self.node(m).replicas[&id].next;
        let slot = |x: &&Mail| match &x.body {
            MailBody::Learn { group, slot, .. } if *group == id => Some(*slot),
            _ => None,
        };
        let slots: Vec<u32> = self.rest(m).iter().filter_map(slot).collect();
        let want: Vec<u32> = (next..leader.next).collect();
        if slots != want {
            return Err(format!("C1 group {id} member {m}: learns {slots:?}, wanted {want:?}"));
        }
        Ok(u64::from(leader.next - next))
    }

    /// C2, C3 and C7: the order of a member's mail of the group, and that it is asked for slots above what it did.
    fn accepts(&self, b: &Base, leader: &Replica, l: &Leader, m: u16) -> Result<(), String> {
        let id = b.core.id;
        let bad = |what: String| Err(format!("{what} of group {id} at member {m}"));
        let r = &self.node(m).replicas[&id];
        let done = done_slot(r);
        let offered = leader.next + (l.flights.len() + l.ready.len()) as u32;
        let mut before = 0;
        for x in self.rest(m) {
            if let Some(slot) = voted_slot(x, id).filter(|slot| *slot >= offered) {
                return bad(format!("C7 {slot} was not offered"));
            }
            match &x.body {
                MailBody::Learn { group, slot, .. } | MailBody::Accepted { group, slot, .. }
                    if *group == id =>
                {
                    before = before.max(*slot)
                }
                MailBody::Accept { group, slot, .. } if *group == id => {
                    if *slot <= before {
                        return bad(format!("C2 accept {slot} behind {before}"));
                    }
                    if *slot <= done || !may_accept(r, *slot) || *slot <= r.acceptor.floor {
                        return bad(format!("C3 accept {slot}, done {done}"));
                    }
                }
                _ => {}
            }
        }
        Ok(())
    }

    /// C4: each member's vote of each slot in flight is counted, or on its way, or asked for, and only one of these.
    fn votes(&self, b: &Base, l: &Leader, m: u16) -> Result<(), String> {
        let id = b.core.id;
        for (slot, f) in &l.flights {
            let is = |x: &&&Mail| voted_slot(x, id) == Some(*slot);
            let asks = |x: &&Mail| matches!(x.body, MailBody::Accept { .. });
            let asked = self.rest(m).iter().filter(is).any(asks);
            let mut votes = self.rest(b.core.first).iter().filter(is);
            let voted = votes.any(|x| !asks(x) && x.from == u32::from(m));
            let n = [asked, voted, f.voters.contains(&m)].iter().filter(|x| **x).count();
            if n != 1 {
                return Err(format!("C4 group {id} slot {slot} member {m}: {n} votes"));
            }
        }
        Ok(())
    }

    /// C6: no group has noted a request of the client that it has not begun.
    fn noted(&self, c: &Client) -> Result<(), String> {
        let last = begun(c) as u32;
        for b in &self.scenario.groups {
            for m in &b.core.members {
                let r = &self.node(*m).replicas[&b.core.id];
                if r.base.clients.get(&c.me).is_some_and(|x| x.0 > last) {
                    return Err(format!("C6 client {}: noted above {last}", c.me));
                }
            }
        }
        Ok(())
    }

    /// C5: a request that waits stands at one place: in a mail to or from the leader, or in its queue.
    fn request(&self, who: u32, c: &Client) -> Result<(), String> {
        let Some(seq) = c.waiting else { return Ok(()) };
        let (group, target) = c.asked.ok_or("waits and asked none")?;
        let asks = |x: &&&Mail| {
            matches!(&x.body, MailBody::Request { group: g, client, seq: q, .. }
                if (*g, *client, *q) == (group, c.me, seq))
        };
        let answers = |x: &&&Mail| match &x.body {
            MailBody::Answer { group: g, seq: q, answer: AnswerBody::NotMine { .. } } => {
                (*g, *q, x.from) == (group, seq, u32::from(target))
            }
            MailBody::Answer { seq: q, answer: AnswerBody::Value(_), .. } => *q == seq,
            _ => false,
        };
        let mut tokens = self.rest(target).iter().filter(asks).count();
        tokens += self.rests[&who].iter().filter(answers).count();
        let mine =
            |x: &&Command| matches!(x, Command::Call { client, seq: q, .. } if (*client, *q) == (c.me, seq));
        for b in &self.scenario.groups {
            let r = &self.node(b.core.first).replicas[&b.core.id];
            let l = r.leader.as_ref().ok_or("no leader")?;
            tokens += r.calls.iter().chain(l.commands()).filter(mine).count();
        }
        if tokens != 1 {
            return Err(format!("C5 client {} request {seq}: at {tokens} places", c.me));
        }
        Ok(())
    }
}

/// Returns the last slot that a replica has executed, has ready or has a vote for.
fn done_slot(r: &Replica) -> u32 {
    let leads = r.leader.as_ref().map_or(0, |l| {
        let voted = l.flights.iter().filter(|(_, f)| !f.voters.is_empty()).map(|x| *x.0).max();
        l.ready.keys().copied().max().unwrap_or(0).max(voted.unwrap_or(0))
    });
    (r.next - 1).max(leads)
}

/// Returns whether a slot is one that the replica has not voted on.
fn may_accept(r: &Replica, slot: u32) -> bool {
    match &r.leader {
        Some(l) => l.flights.get(&slot).is_some_and(|f| f.voters.is_empty()),
        None => slot >= r.next,
    }
}
