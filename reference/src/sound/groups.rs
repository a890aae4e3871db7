//! The groups: their records under a lock, their replicas, and the ring.

use super::*;
use crate::machine::Effect;

/// Returns whether the cuts of the ring cover it once, each of another group.
pub fn covers(d: &Decided) -> bool {
    let ring = d.sorted_ring();
    let n = ring.len();
    let mut groups: Vec<Draw> = ring.iter().map(|c| c.group).collect();
    groups.sort();
    groups.dedup();
    let sum: u64 = ring.iter().map(|c| c.arc.len).sum();
    let meet = (0..n).all(|i| ring[i].arc.end() == ring[(i + 1) % n].arc.lo);
    groups.len() == n && sum == SPACE && meet
}

impl Checker<'_> {
    /// A locked coordinator or participant does not change, and a watcher stays one until its Finish.
    pub(super) fn locked(&mut self) -> Result<(), String> {
        for (id, g) in &self.decided.groups {
            let from = self.locked_to.insert(*id, g.log.len()).unwrap_or(0);
            for i in from..g.log.len() {
                let (a, b) = (&g.states[i], &g.states[i + 1]);
                let ended = matches!(g.log[i].effect, Effect::Decided(_));
                if a.core.lock == Lock::Free || ended {
                    continue;
                }
                if a.core.lock.tx() != b.core.lock.tx() {
                    return Err(format!("(lock) {id} loses its lock at entry {}", i + 1));
                }
                if !matches!(a.core.lock, Lock::Watching { .. }) && a.frozen() != b.frozen() {
                    return Err(format!("(lock) {id} changes under its lock at entry {}", i + 1));
                }
            }
        }
        Ok(())
    }

    /// Each replica of the node has executed a prefix of its group's log and has the state after it.
    pub(super) fn replicas(&mut self, who: u32) -> Result<(), String> {
        let node = match self.actors.get(&who) {
            Some(Party::Node(n)) => n,
            _ => return Ok(()),
        };
        for (id, r) in &node.replicas {
            let group = match self.decided.groups.get(id) {
                Some(g) => g,
                None => return Err(format!("(replica) node {who} has a replica of {id}, which is not born")),
            };
            let n = r.next as usize - 1;
            if n > group.log.len() {
                return Err(format!(
                    "(replica) node {who} has executed {n} of {} entries of {id}",
                    group.log.len()
                ));
            }
            if r.base != group.states[n] {
                return Err(format!("(replica) node {who} has another state of {id} after {n} entries"));
            }
            if self.compared.insert((who, *id), r.next) != Some(r.next) {
                for (slot, c) in &r.log {
                    if group.log.get(*slot as usize - 1).map(|e| &e.command) != Some(c) {
                        return Err(format!("(replica) node {who} holds another entry of {id} at {slot}"));
                    }
                }
            }
        }
        Ok(())
    }

    /// Checks that the ring covers, that each cut's group has its arc and its neighbours, and who serves.
    pub(super) fn ring(&self) -> Result<(), String> {
        if !covers(&self.decided) {
            return Err(format!("(cover) the ring does not cover: {:?}", self.decided.sorted_ring()));
        }
        let ring = self.decided.sorted_ring();
        let n = ring.len();
        for (i, cut) in ring.iter().enumerate() {
            let (next, before) = (ring[(i + 1) % n].group, ring[(i + n - 1) % n].group);
            self.cut(cut, next, before).map_err(|e| format!("(ring) {} {e}", cut.group))?;
        }
        self.serves(&ring)
    }

    /// Checks that the effective record of a cut's group has its arc and these neighbours.
    fn cut(&self, cut: &Cut, next: Draw, before: Draw) -> Result<(), String> {
        let core = self.decided.effective(cut.group).ok_or("has a cut and no effective record")?.core;
        if core.gone.is_some() {
            return Err("has a cut and is gone".to_string());
        }
        if core.arc != cut.arc {
            return Err(format!("has {:?}, its cut is {:?}", core.arc, cut.arc));
        }
        if core.succ.group != next {
            return Err(format!("names {} as successor, not {next}", core.succ.group));
        }
        if core.pred.group != before {
            return Err(format!("names {} as predecessor, not {before}", core.pred.group));
        }
        Ok(())
    }

    /// Checks that a group that serves keys has the cut that holds them.
    fn serves(&self, ring: &[Cut]) -> Result<(), String> {
        for (id, g) in &self.decided.groups {
            let core = &g.state.core;
            let inside = ring.iter().any(|c| {
                let from = u64::from(core.arc.lo.wrapping_sub(c.arc.lo));
                c.group == *id && from + core.arc.len <= c.arc.len
            });
            if core.gone.is_none() && core.lock.open() && !inside {
                return Err(format!("(ring) {id} serves {:?} outside its cut", core.arc));
            }
        }
        Ok(())
    }
}
