//! What holds at each row of a calm run.

use super::transactions::transaction_holds;
use crate::checks::all_hold;
use crate::client::Client;
use crate::mail::*;
use crate::replica::*;
use crate::values::*;
use crate::world::*;
use std::collections::{BTreeMap, BTreeSet};

/// A run: its replicas and the pending mail of each actor, in order.
pub struct View<'a> {
    pub all: Replicas<'a>,
    pub rests: BTreeMap<u32, Vec<&'a Mail>>,
}

/// Checks what holds at a row.
pub fn row_holds(w: &World) -> Result<(), String> {
    let view = View { all: w.replicas(), rests: w.rests() };
    for (id, group) in &view.all {
        view.group_holds(*id, group).map_err(|e| format!("row, group {id}: {e}"))?;
    }
    for c in w.clients() {
        view.request_holds(c)?;
    }
    view.rests.values().flatten().try_for_each(|m| view.mail_holds(m))
}

impl View<'_> {
    /// Returns the pending mail of a node.
    pub fn rest(&self, n: u16) -> &[&Mail] {
        self.rests.get(&u32::from(n)).map_or(&[], |r| r)
    }

    fn group_holds(&self, id: Draw, group: &GroupReplicas) -> Result<(), String> {
        let new = newest(group);
        let core = &new.base.core;
        let running: Vec<&Replica> = group.values().copied().filter(|r| r.running()).collect();
        if running.len() > 1 {
            return Err("A1 two run".to_string());
        }
        if let [r] = running[..] {
            let l = r.leader.as_ref().expect("it runs");
            leader_holds(group, new, r, l)?;
            self.votes_hold(id, r, l)?;
            self.promises_hold(id, core, r, l)?;
            self.order_at_leader(id, r, l)?;
        } else if !new.gone() && group.contains_key(&core.first) {
            somebody_will_lead(group, new)?;
        }
        let everyone: BTreeSet<u16> = group.keys().chain(&core.members).copied().collect();
        for m in &everyone {
            self.order_at_member(id, group, *m, new)?;
        }
        running.first().map_or(Ok(()), |r| transaction_holds(self, id, r))
    }

    /// A4: each member's vote of each slot in flight is counted, or on its way, or asked for.
    fn votes_hold(&self, id: Draw, r: &Replica, l: &Leader) -> Result<(), String> {
        let of = |b: &Ballot, g: &Draw, t: &u32, slot: u32| (*b, *g, *t) == (l.ballot, id, slot);
        for (slot, f) in &l.flights {
            let set = &r.sets[(*slot - r.next) as usize];
            let asked = |x: &&Mail| match &x.body {
                MailBody::Accept { group, slot: t, ballot, .. } => of(ballot, group, t, *slot),
                _ => false,
            };
            let voted = |x: &&Mail| match &x.body {
                MailBody::Accepted { group, slot: t, ballot } => of(ballot, group, t, *slot),
                _ => false,
            };
            for m in set {
                let comes = self.rest(r.me).iter().any(|x| x.from == u32::from(*m) && voted(x));
                if !f.voters.contains(m) && !comes && !self.rest(*m).iter().any(asked) {
                    return Err(format!("A4 slot {slot} of {m}: no vote"));
                }
            }
            if is_majority(set, &f.voters) {
                return Err("A4 a majority in flight".to_string());
            }
        }
        Ok(())
    }

    /// A4: each open member's promise of a later ballot is counted, or on its way, or asked for.
    fn promises_hold(&self, id: Draw, core: &Core, r: &Replica, l: &Leader) -> Result<(), String> {
        if l.ballot == core.first_ballot() {
            return Ok(());
        }
        let open: BTreeSet<u16> = core.members.iter().chain(r.sets.iter().flatten()).copied().collect();
        let of = |b: &Ballot, g: &Draw| (*b, *g) == (l.ballot, id);
        let asked =
            |x: &&Mail| matches!(&x.body, MailBody::Prepare { group, ballot, .. } if of(ballot, group));
        let promised =
            |x: &&Mail| matches!(&x.body, MailBody::Promise { group, ballot, .. } if of(ballot, group));
        for m in &open {
            let comes = self.rest(r.me).iter().any(|x| x.from == u32::from(*m) && promised(x));
            if !l.promised.contains(m) && !comes && !self.rest(*m).iter().any(asked) {
                return Err(format!("A4 no promise of {m}"));
            }
        }
        Ok(())
    }

    /// A3: what the leader is asked to accept comes in order, and was not voted on.
    fn order_at_leader(&self, id: Draw, r: &Replica, l: &Leader) -> Result<(), String> {
        let mut before = 0;
        for x in self.rest(r.me) {
            match &x.body {
                MailBody::Accepted { group, slot, ballot } if *group == id && *ballot == l.ballot => {
                    before = before.max(*slot)
                }
                MailBody::Accept { group, slot, ballot, .. } if *group == id => {
                    let new = l.flights.get(slot).is_some_and(|f| f.voters.is_empty());
                    if *ballot != l.ballot || *slot <= before || !new {
                        return Err(format!("A3 at the leader: accept {slot} behind {before}"));
                    }
                }
                _ => {}
            }
        }
        Ok(())
    }

    /// A2 and A3: Learns and Installs come in order and bring a member up to the newest, and Accepts between them.
    fn order_at_member(&self, id: Draw, group: &GroupReplicas, m: u16, new: &Replica) -> Result<(), String> {
        let replica = group.get(&m);
        let mut at = replica.map_or(0, |r| r.next);
        for x in self.rest(m) {
            match &x.body {
                MailBody::Learn { group: g, slot, .. } if *g == id => {
                    if at == 0 || *slot > at {
                        return Err(format!("A2 member {m}: learn {slot} at {at}"));
                    }
                    at = at.max(slot + 1);
                }
                MailBody::Install { group: g, slot, .. } if *g == id => at = at.max(slot + 1),
                MailBody::Prepare { group: g, .. } | MailBody::Accept { group: g, .. }
                    if *g == id && at == 0 =>
                {
                    return Err(format!("A2 member {m}: asked before it is there"));
                }
                MailBody::Accept { group: g, slot, .. }
                    if *g == id && replica.is_some_and(|r| *slot <= r.acceptor.floor || *slot < at) =>
                {
                    return Err(format!("A3 member {m}: accept {slot} at {at}"));
                }
                _ => {}
            }
        }
        // a member of a child may not have learnt the split yet
        let unborn = at == 0 && new.next == 1;
        if new.base.core.members.contains(&m) && !unborn && at != new.next {
            return Err(format!("A2 member {m} comes to {at}, not {}", new.next));
        }
        Ok(())
    }

    /// A7: a request that waits stands at one place.
    fn request_holds(&self, c: &Client) -> Result<(), String> {
        let Some(seq) = c.waiting else { return Ok(()) };
        let (group, target) = c.asked.ok_or("waits and asked none")?;
        let asks = |x: &&&Mail| {
            matches!(&x.body, MailBody::Request { group: g, client, seq: q, .. }
                if (*g, *client, *q) == (group, c.me, seq))
        };
        let answers = |x: &&&Mail| match &x.body {
            MailBody::Answer { seq: q, answer: AnswerBody::Value(_), .. } => *q == seq,
            MailBody::Answer { group: g, seq: q, .. } => (*g, *q, x.from) == (group, seq, u32::from(target)),
            _ => false,
        };
        let mine =
            |x: &&Command| matches!(x, Command::Call { client, seq: q, .. } if (*client, *q) == (c.me, seq));
        let mut n = self.rest(target).iter().filter(asks).count();
        n += self.rests[&client_actor(c.me)].iter().filter(answers).count();
        for r in self.all.values().flat_map(|g| g.values()) {
            n += r.calls.iter().chain(r.leader.iter().flat_map(|l| l.commands())).filter(mine).count();
        }
        if n != 1 {
            return Err(format!("A7 client {} request {seq}: at {n} places", c.me));
        }
        Ok(())
    }

    /// Checks that no mail is there that calm runs do not have.
    fn mail_holds(&self, m: &Mail) -> Result<(), String> {
        let has_group = |g: &Draw| self.all.contains_key(g);
        let bad = match &m.body {
            MailBody::Ask { .. } => "an Ask",
            MailBody::Answer { answer: AnswerBody::Stale { .. }, .. } => "an answer Stale",
            MailBody::TxOutcome { outcome: Outcome::Abort, .. } => "an outcome Abort",
            MailBody::Promise { reports, .. } if !reports.is_empty() => "a promise with reports",
            MailBody::Request { group, .. }
            | MailBody::Prepare { group, .. }
            | MailBody::Promise { group, .. }
            | MailBody::Accept { group, .. }
            | MailBody::Accepted { group, .. }
            | MailBody::Nack { group, .. }
            | MailBody::Learn { group, .. }
            | MailBody::Install { group, .. }
                if !has_group(group) =>
            {
                "mail of no group"
            }
            _ => return Ok(()),
        };
        Err(format!("row: {bad}"))
    }
}

/// A1: the one that runs is the newest member, nobody has promised more, and what waits has a cause.
fn leader_holds(group: &GroupReplicas, new: &Replica, r: &Replica, l: &Leader) -> Result<(), String> {
    let core = &new.base.core;
    let idle_others = group.values().all(|x| x.me == r.me || x.acts.is_empty() && x.calls.is_empty());
    let above = |x: &&&Replica| x.top > l.ballot || x.acceptor.promised > l.ballot;
    let calls = r.calls.is_empty();
    let taken = l.taken_slots().len();
    all_hold(
        "A1",
        &[
            (
                r.next == new.next && core.members.contains(&r.me) && !new.gone(),
                "the leader is not the newest member",
            ),
            (r.top == l.ballot && r.acceptor.promised <= l.ballot, "top"),
            (l.reports.iter().all(|x| x.slot < r.next), "reports"),
            (group.values().filter(above).count() == 0, "a higher promise"),
            (idle_others, "queues of one that does not run"),
            (r.has_window(l), "window"),
            (taken > 0 || r.acts.is_empty(), "an act waits at an idle leader"),
            (r.calls.iter().all(|c| matches!(c, Command::Call { .. })), "an order waits"),
            (calls || taken == 4, "a call waits though a slot is open"),
            (calls || core.lock.open(), "a call waits under a lock"),
        ],
    )
}

/// A5: where nobody leads, the one who is to lead has not learnt it yet.
fn somebody_will_lead(group: &GroupReplicas, new: &Replica) -> Result<(), String> {
    let members = &new.base.core.members;
    let y = least(members);
    let will = |r: &&Replica| r.next < new.next && r.hint.is_some_and(|h| !members.contains(&h));
    match group.get(&y).copied().filter(will) {
        Some(_) => Ok(()),
        None => Err(format!("A5 nobody leads, and {y} will not")),
    }
}
