//! K, L, Q and T: who leads when members had their turns.

use super::checks::Turns;
use super::view::{GroupView, Looked};
use crate::replica::*;

fn is_idle(r: &Replica) -> bool {
    r.calls.is_empty() && r.leader.as_ref().is_some_and(|l| l.idle())
}

/// K: what holds of a group of which each member had its turn.
pub fn done(v: &GroupView, turns: &Turns, looked: &mut Looked) -> Result<(), String> {
    if !turns.done.contains(&v.id) {
        return Ok(());
    }
    let place = || format!("{}", v.id);
    let running: Vec<&Replica> = v.replicas().filter(|r| r.running()).collect();
    let most = running.iter().filter_map(|r| r.leader.as_ref()).map(|l| l.ballot).max();
    let above = most.is_some_and(|b| v.replicas().all(|r| r.acceptor.promised <= b));
    looked.look("K1 who runs is settled", running.iter().all(|r| r.settled()), place)?;
    looked.look("K2 one runs above all promises", above, place)?;
    if v.quiet() {
        looked.look("K3 in quiet who runs is idle", running.iter().all(|r| is_idle(r)), place)?;
    }
    let one = !v.world.crashed.is_empty() || running.len() == 1;
    looked.look("K4 without crashes one runs", one, place)
}

/// L: what holds of a group whose last member was elected in its turn.
pub fn led(v: &GroupView, turns: &Turns, looked: &mut Looked) -> Result<(), String> {
    if !turns.led.contains(&v.id) {
        return Ok(());
    }
    let place = || format!("{}", v.id);
    let running: Vec<&Replica> = v.replicas().filter(|r| r.running()).collect();
    looked.look("L1 one leads", running.len() == 1 && running[0].settled(), place)?;
    let lead = running[0];
    let l = lead.leader.as_ref().expect("it runs");
    for r in v.replicas() {
        let at_ballot = r.top == l.ballot && r.acceptor.promised == l.ballot && r.hint == Some(lead.me);
        looked.look("L2 all are at its ballot", at_ballot, || format!("{} at {}", v.id, r.me))?;
        let near = r.acceptor.floor < lead.next;
        looked.look("L3 none is far ahead", near, || format!("{} at {}", v.id, r.me))?;
    }
    if v.quiet() {
        let idle = is_idle(lead) && l.reports.iter().all(|x| x.slot < lead.next);
        looked.look("L4 quiet leaders are idle", idle, place)?;
        looked.look("L5 the leader is newest", v.replicas().all(|r| r.next <= lead.next), place)?;
    }
    Ok(())
}

/// Checks what holds of a member whose tick has settled.
pub fn ticked(v: &GroupView, r: &Replica, turns: &Turns, looked: &mut Looked) -> Result<(), String> {
    let place = || format!("{} at {}", v.id, r.me);
    let settled = r.settled();
    looked.look("after its tick it is settled or does not run", settled || !r.running(), place)?;
    looked.look("settled or level", settled || v.is_level(r), place)?;
    if turns.elected.contains(&(v.id, r.me)) {
        for o in v.replicas() {
            let seen = r.acceptor.promised <= o.top;
            looked.look("all have seen its promise", seen, || format!("{}, {}", place(), o.me))?;
        }
    }
    Ok(())
}

/// Where the last member's turn ends without an election, all lead. Notes what the turn has ended.
pub fn turned(v: &GroupView, r: &Replica, turns: &mut Turns, looked: &mut Looked) -> Result<(), String> {
    looked.count(if r.settled() { "(a turn ended settled)" } else { "(a turn did not end settled)" });
    let last = v.living().all(|m| turns.swept.contains(&u32::from(m)));
    if !last || turns.ticks < 2 {
        return Ok(());
    }
    turns.done.insert(v.id);
    if !turns.elected.contains(&(v.id, r.me)) {
        let all = v.replicas().all(|r| r.settled());
        return looked.look("all lead or the last was elected", all, || format!("{} at {}", v.id, r.me));
    }
    if r.settled() {
        turns.led.insert(v.id);
    }
    Ok(())
}
