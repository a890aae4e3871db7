//! F, S, P and V: the frame, promises, polls and votes.

use super::checks::Turns;
use super::view::{GroupView, Looked};
use crate::mail::*;
use crate::replica::*;
use crate::values::*;

/// F: there are no orders, and a leader has its own ballot.
pub fn frame(v: &GroupView, looked: &mut Looked) -> Result<(), String> {
    let call = |c: &Command| matches!(c, Command::Call { .. } | Command::Noop);
    for (m, r) in v.group {
        let core = &r.base.core;
        let commands = r.calls.iter().chain(r.log.values()).chain(r.acceptor.accepted.values().map(|x| &x.1));
        let plain = core.lock == Lock::Free
            && r.acts.is_empty()
            && r.waits == 0
            && core.gone.is_none()
            && core.members == *v.members
            && r.sets.iter().all(|s| s == v.members)
            && v.members.contains(m);
        let id = v.id;
        looked.look("F1 frame", plain && commands.into_iter().all(call), || format!("{id} at {m}"))?;
        let ballots = match &r.leader {
            Some(l) => l.ballot.node == *m && l.ballot <= r.top && r.hint == Some(*m),
            None => r.calls.is_empty() && r.hint.is_some_and(|h| v.members.contains(&h)),
        };
        looked.look("F2 ballots", ballots && r.acceptor.promised <= r.top, || format!("{id} at {m}"))?;
    }
    Ok(())
}

/// S: nobody has seen less than a member has promised that was elected in its turn, or it comes.
pub fn promises(v: &GroupView, turns: &Turns, looked: &mut Looked) -> Result<(), String> {
    for r in v.replicas().filter(|r| turns.elected.contains(&(v.id, r.me))) {
        let promised = r.acceptor.promised;
        let greater = |body: &MailBody| match body {
            MailBody::Prepare { ballot, .. } | MailBody::Accept { ballot, .. } => *ballot >= promised,
            _ => false,
        };
        for o in v.replicas() {
            let seen = promised <= o.top || v.comes(o.me, greater);
            looked.look("S swept", seen, || {
                format!("{}: {} has promised more than {} saw", v.id, r.me, o.me)
            })?;
        }
    }
    Ok(())
}

/// P: each living member was asked in an election under way, or has answered; and an end of it has a cause.
pub fn poll(v: &GroupView, turns: &Turns, looked: &mut Looked) -> Result<(), String> {
    let (Some(n), Some(b)) = (turns.turn, turns.polls.get(&v.id).copied()) else { return Ok(()) };
    let n = n as u16;
    let r = v.group[&n];
    let runs = r.leader.as_ref().filter(|l| l.ballot == b);
    for m in v.living() {
        let asked = v.comes(m, |x| matches!(x, MailBody::Prepare { ballot, .. } if *ballot == b));
        let answers = |x: &MailBody| match x {
            MailBody::Promise { ballot, .. } => *ballot == b,
            MailBody::Nack { promised, .. } => *promised > b,
            MailBody::Install { slot, .. } => *slot >= r.next,
            _ => false,
        };
        let way = asked || runs.is_none_or(|l| l.promised.contains(&m)) || v.comes_from(m, n, answers);
        looked.look("P poll", way, || format!("{}: {n} polls {m}", v.id))?;
        let seen = asked || v.group[&m].top >= b;
        looked.look("all see the poll", seen, || format!("{}: {m} has not seen the ballot of {n}", v.id))?;
    }
    if runs.is_none() {
        let cause = r.top > b || v.is_level(r) || !v.quiet();
        looked.look("why it stopped", cause, || format!("{}: {n} stopped", v.id))?;
    }
    Ok(())
}

/// V: what holds of leaders that had their turn.
pub fn leaders(v: &GroupView, turns: &Turns, looked: &mut Looked) -> Result<(), String> {
    for r in v.replicas().filter(|r| turns.begun.contains(&u32::from(r.me))) {
        if let Some(l) = &r.leader {
            votes(v, r, l, looked)?;
            slots(v, r, l, looked)?;
        }
    }
    Ok(())
}

/// Each living member's vote of each slot in flight is counted, or on its way, or asked for, or something ends it.
fn votes(v: &GroupView, r: &Replica, l: &Leader, looked: &mut Looked) -> Result<(), String> {
    for (slot, flight) in &l.flights {
        let asked = |x: &MailBody| match x {
            MailBody::Accept { ballot, slot: s, .. } => *ballot == l.ballot && s == slot,
            _ => false,
        };
        let answers = |x: &MailBody| match x {
            MailBody::Accepted { ballot, slot: s, .. } => *ballot == l.ballot && s == slot,
            MailBody::Nack { promised, .. } => *promised > l.ballot,
            MailBody::Install { slot: s, .. } => *s >= r.next,
            _ => false,
        };
        for m in v.living() {
            let way = flight.voters.contains(&m) || v.comes(m, asked) || v.comes_from(m, r.me, answers);
            looked.look("V votes", way, || format!("{}: slot {slot} of {} at {m}", v.id, r.me))?;
        }
    }
    Ok(())
}

/// The taken slots are the first ones, calls wait only with four of them, and in quiet a leader is settled and idle.
fn slots(v: &GroupView, r: &Replica, l: &Leader, looked: &mut Looked) -> Result<(), String> {
    let place = || format!("{} at {}", v.id, r.me);
    if v.quiet() {
        looked.look("in quiet who runs is settled", r.settled(), place)?;
        looked.look("in quiet who runs is idle", r.calls.is_empty() && l.idle(), place)?;
    }
    let mut taken: Vec<u32> = l.flights.keys().chain(l.ready.keys()).copied().collect();
    taken.sort();
    let first = taken.iter().enumerate().all(|(i, x)| *x == r.next + i as u32);
    looked.look("taken slots are the first", first, place)?;
    if r.settled() {
        let q = taken.len() as u32;
        let reported = l.reports.iter().all(|x| x.slot < r.next + q);
        looked.look("calls wait with four", r.calls.is_empty() || q == AHEAD, place)?;
        looked.look("reports are under way", q == AHEAD || reported, place)?;
        looked.look("next is not ready", !l.ready.contains_key(&r.next), place)?;
    }
    Ok(())
}
