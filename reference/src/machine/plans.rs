//! The records after a split, after a commit, and after an outcome.

use crate::values::*;

/// Returns whether a group may have these members.
fn good_size(members: &Members) -> bool {
    !members.is_empty() && members.len() <= MOST_MEMBERS
}

/// Brings more pairs into a map. Returns none where a key is there already.
fn bring(into: &Pairs, more: &Pairs) -> Option<Pairs> {
    let mut all = into.clone();
    for (k, v) in more {
        if all.insert(k.clone(), v.clone()).is_some() {
            return None;
        }
    }
    Some(all)
}

impl Base {
    /// Splits at once: returns the record of the left group and that of the child, where they can be made.
    pub fn divide(&self, at: u32, child: Draw) -> Option<(Base, Base)> {
        let core = &self.core;
        let (left_arc, right_arc) = core.arc.cut(at)?;
        let (left, right) = halves(&core.members);
        if left.is_empty() || right.is_empty() {
            return None;
        }
        let alone = core.succ.group == core.id;
        let to_left = Link { group: core.id, members: left.clone() };
        let to_right = Link { group: child, members: right.clone() };

        let mut mine = self.clone();
        mine.core.arc = left_arc;
        mine.core.members = left;
        mine.core.succ = to_right.clone();
        mine.core.born.push(child);
        mine.pairs = part(&self.pairs, &left_arc);
        if alone {
            mine.core.pred = to_right;
        }

        let succ = if alone { to_left.clone() } else { core.succ.clone() };
        let core = Core::new(child, right_arc, right, succ, to_left);
        let theirs = Base { core, pairs: part(&self.pairs, &right_arc), clients: self.clients.clone() };
        Some((mine, theirs))
    }

    /// Returns the record of the coordinator after a committed merge, move of a boundary or migration, and the
    /// outcome. The lock and the list of decisions are left to the caller.
    pub(super) fn commit(&self, body: &Body, frozen: &Frozen) -> Option<(Base, Outcome)> {
        match body {
            Body::Merge => self.merge(frozen),
            Body::Repart { at } if self.core.arc.holds(*at) => self.give_keys(*at, frozen),
            Body::Repart { at } => self.take_keys(*at, frozen),
            Body::Migrate { node } => self.hand_over(*node, frozen),
            Body::Split { .. } => None,
        }
    }

    /// Takes the participant over.
    fn merge(&self, frozen: &Frozen) -> Option<(Base, Outcome)> {
        let mut after = self.clone();
        let core = &self.core;
        after.core.arc = core.arc.join(&frozen.arc)?;
        after.core.members = core.members.union(&frozen.members).copied().collect();
        if !good_size(&after.core.members) {
            return None;
        }
        after.pairs = bring(&self.pairs, &frozen.pairs)?;
        after.clients = join_seen(&self.clients, &frozen.clients);
        after.core.succ = if frozen.succ.group == core.id {
            Link { group: core.id, members: after.core.members.clone() }
        } else {
            frozen.succ.clone()
        };
        let into = Route { group: core.id, lo: after.core.arc.lo, members: after.core.members.clone() };
        Some((after, Outcome::Merged { into }))
    }

    /// Moves the boundary down: the keys from `at` on go to the participant.
    fn give_keys(&self, at: u32, frozen: &Frozen) -> Option<(Base, Outcome)> {
        let mut after = self.clone();
        let (keep, gone) = self.core.arc.cut(at)?;
        after.core.arc = keep;
        after.pairs = part(&self.pairs, &keep);
        after.core.succ.members = frozen.members.clone();
        let gift = Gift { pairs: part(&self.pairs, &gone), clients: self.clients.clone() };
        Some((after, Outcome::Moved { at, gift: Some(gift) }))
    }

    /// Moves the boundary up: the keys of the participant below `at` come here.
    fn take_keys(&self, at: u32, frozen: &Frozen) -> Option<(Base, Outcome)> {
        let mut after = self.clone();
        let (more, _) = frozen.arc.cut(at)?;
        after.core.arc = self.core.arc.join(&more)?;
        after.pairs = bring(&self.pairs, &part(&frozen.pairs, &more))?;
        after.clients = join_seen(&self.clients, &frozen.clients);
        after.core.succ.members = frozen.members.clone();
        Some((after, Outcome::Moved { at, gift: None }))
    }

    /// Hands a member over to the participant.
    fn hand_over(&self, node: u16, frozen: &Frozen) -> Option<(Base, Outcome)> {
        let mut after = self.clone();
        if !after.core.members.remove(&node) {
            return None;
        }
        let mut theirs = frozen.members.clone();
        theirs.insert(node);
        if !good_size(&after.core.members) || !good_size(&theirs) {
            return None;
        }
        after.core.succ.members = theirs;
        Some((after, Outcome::Migrated { node }))
    }

    /// Returns the record of the participant after an outcome. The lock and the votes are left to the caller.
    pub(super) fn take_outcome(&self, offer: &Offer, outcome: &Outcome) -> Option<Base> {
        let mut after = self.clone();
        match outcome {
            Outcome::Abort => {}
            Outcome::Merged { into } => {
                after.core.gone = Some(into.clone());
                after.pairs.clear();
                after.clients.clear();
            }
            Outcome::Moved { at, gift: Some(gift) } => {
                let (_, moved) = offer.arc.cut(*at)?;
                after.core.arc = moved.join(&self.core.arc)?;
                after.pairs = bring(&self.pairs, &gift.pairs)?;
                after.clients = join_seen(&self.clients, &gift.clients);
            }
            Outcome::Moved { at, gift: None } => {
                let (_, keep) = self.core.arc.cut(*at)?;
                after.core.arc = keep;
                after.pairs = part(&self.pairs, &keep);
            }
            Outcome::Migrated { node } => {
                after.core.members.insert(*node);
                if !good_size(&after.core.members) {
                    return None;
                }
            }
            Outcome::Divided => return None,
        }
        Some(after)
    }
}
