//! What holds in a quiet journal.

use crate::checks::all_hold;
use crate::replica::*;
use crate::values::*;
use crate::world::*;
use std::collections::BTreeSet;

/// The most that quiet states have shown.
#[derive(Default, Debug, Clone)]
pub struct Most {
    /// The longest way by hints.
    pub chain: u64,
    /// How many quiet states there were.
    pub quiet: u64,
    /// How many groups were led by a later ballot than the first.
    pub later_ballots: u64,
    /// How many replicas had not executed all.
    pub stale_replicas: u64,
    /// How many links had other members than their group.
    pub stale_links: u64,
    /// The most nodes in all sets of a group's open slots.
    pub union: usize,
    pub rounds: u32,
}

/// Returns how far mail to this node's replica goes by hints until it is at one that runs or is gone.
fn chain(group: &GroupReplicas, from: u16) -> Result<u64, String> {
    let mut at = from;
    for n in 0..=100 {
        let r = group.get(&at).ok_or(format!("no replica at {at} after {n} from {from}"))?;
        if r.running() || r.gone() {
            return Ok(n);
        }
        at = r.hint.ok_or(format!("no hint at {at}"))?;
    }
    Err(format!("a ring of hints from {from}"))
}

/// Checks what holds in a quiet journal.
pub fn quiet_holds(w: &World, most: &mut Most) -> Result<(), String> {
    most.quiet += 1;
    let all = w.replicas();
    for (id, group) in &all {
        quiet_group(&all, group, most).map_err(|e| format!("group {id}: {e}"))?;
    }
    for (id, group) in &all {
        most.rounds = most.rounds.max(group.values().map(|r| r.top.round).max().unwrap_or(0));
        hints(group).map_err(|e| format!("group {id}: {e}"))?;
    }
    if !w.answered() {
        return Err("a client waits".to_string());
    }
    clients(w, &all)
}

fn quiet_group(all: &Replicas, group: &GroupReplicas, most: &mut Most) -> Result<(), String> {
    let new = newest(group);
    for (n, r) in group {
        nothing_waits(r, new.next).map_err(|e| format!("{e} at {n}"))?;
        most.stale_replicas += u64::from(r.next < new.next);
    }
    for n in group.keys() {
        most.chain = most.chain.max(chain(group, *n)?);
    }
    if new.gone() {
        gone_group(all, group, new)
    } else {
        led_group(all, group, new, most)
    }
}

fn nothing_waits(r: &Replica, next: u32) -> Result<(), String> {
    all_hold(
        "in quiet",
        &[
            (r.acts.is_empty() && r.calls.is_empty(), "queues"),
            (r.base.core.lock == Lock::Free, "lock"),
            (r.waits == 0, "waits"),
            (r.leader.as_ref().is_none_or(|l| l.idle()), "under way"),
            (r.acceptor.accepted.keys().all(|s| *s < next), "accepted a slot not executed"),
        ],
    )
}

/// Checks that all members of a group that is gone know it.
fn gone_group(all: &Replicas, group: &GroupReplicas, new: &Replica) -> Result<(), String> {
    let knows = |m: &u16| group.get(m).is_some_and(|r| r.next == new.next && r.base == new.base);
    let into = new.base.core.gone.as_ref().expect("it is gone");
    let there = |m: &u16| all.get(&into.group).is_some_and(|g| g.contains_key(m));
    all_hold(
        "gone",
        &[
            (group.values().all(|r| !r.running()), "and runs"),
            (new.base.core.members.iter().all(knows), "and a member is not"),
            (into.members.iter().all(there), "and no replica of the one that took it over"),
        ],
    )
}

/// Checks a group that is led: its leader, its members, its open slots and its neighbours.
fn led_group(all: &Replicas, group: &GroupReplicas, new: &Replica, most: &mut Most) -> Result<(), String> {
    let running: Vec<&Replica> = group.values().copied().filter(|r| r.running()).collect();
    let [lead] = running[..] else { return Err(format!("{} run", running.len())) };
    let l = lead.leader.as_ref().expect("it runs");
    let (core, next) = (&new.base.core, new.next);
    all_hold(
        "leader",
        &[
            (lead.next == next && core.members.contains(&lead.me), "is not the newest member"),
            (lead.settled(), "is not settled"),
            (l.reports.iter().all(|r| r.slot < next), "has a report of an open slot"),
            (lead.top == l.ballot && lead.hint == Some(lead.me), "has another top or hint"),
            (lead.sets.len() == 4 && lead.sets.back() == Some(&core.members), "has other sets"),
        ],
    )?;
    let up_to_date =
        |m: &u16| group.get(m).is_some_and(|r| r.next == next && r.base == new.base && r.sets == lead.sets);
    if !core.members.iter().all(up_to_date) {
        return Err("a member is not up to date".to_string());
    }
    open_slots(group, lead, l, core, most)?;
    if group.values().any(|r| r.acceptor.promised > l.ballot || r.top > l.ballot) {
        return Err("promise or top above the leader's ballot".to_string());
    }
    successor(all, core, most)
}

/// Checks the members of a group's open slots: a later ballot has their promises, and they know the leader.
fn open_slots(
    group: &GroupReplicas,
    lead: &Replica,
    l: &Leader,
    core: &Core,
    most: &mut Most,
) -> Result<(), String> {
    let later = l.ballot != core.first_ballot();
    most.later_ballots += u64::from(later);
    let open: BTreeSet<u16> = core.members.iter().chain(lead.sets.iter().flatten()).copied().collect();
    most.union = most.union.max(open.len());
    for m in &open {
        let r = group.get(m).ok_or(format!("open at {m}: no replica"))?;
        let promised = r.acceptor.promised == l.ballot && l.promised.contains(m);
        all_hold(
            &format!("open at {m}"),
            &[
                (!later || promised, "no promise"),
                (r.acceptor.floor < lead.next, "floor"),
                (*m == lead.me || r.hint == Some(lead.me), "hint"),
            ],
        )?;
    }
    Ok(())
}

/// Checks that the nodes of the link to the successor have its replica, and that it starts where the group ends.
fn successor(all: &Replicas, core: &Core, most: &mut Most) -> Result<(), String> {
    let there = all.get(&core.succ.group).ok_or("the successor is nowhere")?;
    let best = newest(there);
    most.stale_links += u64::from(best.base.core.members != core.succ.members);
    all_hold(
        "successor",
        &[
            (
                core.succ.members.iter().all(|m| there.contains_key(m)),
                "has no replica where it is looked for",
            ),
            (!best.gone(), "is gone"),
            (best.base.core.arc.lo == core.arc.end(), "does not start at the end"),
        ],
    )
}

/// Checks that hints are to nodes of greater ballots.
fn hints(group: &GroupReplicas) -> Result<(), String> {
    for (n, r) in group.iter().filter(|(_, r)| !r.running() && !r.gone()) {
        if r.hint != Some(r.top.node) {
            return Err(format!("at {n}: hint {:?}, top {:?}", r.hint, r.top));
        }
        let to = group.get(&r.top.node).ok_or(format!("no replica at {}", r.top.node))?;
        if !(to.running() || to.gone() || to.top.round > r.top.round) {
            return Err(format!("at {n}: top {:?}, there {:?}", r.top, to.top));
        }
    }
    Ok(())
}

/// Checks that clients know only nodes that have a replica.
fn clients(w: &World, all: &Replicas) -> Result<(), String> {
    for c in w.clients() {
        if !w.has_gone(crate::mail::client_actor(c.me)) && c.routes.len() != 1 {
            return Err("a client that was not told to go".to_string());
        }
        for r in &c.routes {
            let there = all.get(&r.group).ok_or(format!("client {} knows {}", c.me, r.group))?;
            if !r.members.iter().chain(&r.preferred).all(|m| there.contains_key(m)) {
                return Err(format!("client {} knows {} where there is no replica", c.me, r.group));
            }
        }
    }
    Ok(())
}
