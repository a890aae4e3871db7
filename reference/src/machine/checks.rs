//! The refusals of orders, and the votes on offers and watches.

use crate::values::*;

/// Refuses an order by the first cause that there is, in the order of the numbers of the causes from 2 on.
pub fn check(core: &Core, command: &Command) -> Result<(), OrderRefusal> {
    // 2, all
    if let Some(tx) = core.lock.tx() {
        return Err(OrderRefusal::InTransaction { tx });
    }
    check_place(core, command)?;
    check_members(core, command)?;
    // 8, a transaction: Begin, and a Split with a watcher
    let begins = match command {
        Command::Begin { .. } => true,
        Command::Split { .. } => core.succ.group != core.id,
        _ => false,
    };
    if begins && core.begun >= 256 {
        return Err(OrderRefusal::TxLimit);
    }
    // 9, Join
    if matches!(command, Command::Join { node, .. } if core.members.contains(node)) {
        return Err(OrderRefusal::IsMember);
    }
    Ok(())
}

/// The causes 3 and 4: there is no neighbour, or no boundary at that place.
fn check_place(core: &Core, command: &Command) -> Result<(), OrderRefusal> {
    if matches!(command, Command::Begin { .. }) && core.succ.group == core.id {
        return Err(OrderRefusal::NoNeighbour);
    }
    let bad = match command {
        Command::Split { at, .. } => *at == core.arc.lo || !core.arc.holds(*at),
        Command::Begin { body: Body::Repart { at }, .. } => *at == core.arc.lo || *at == core.arc.end(),
        _ => false,
    };
    if bad {
        Err(OrderRefusal::BadBoundary)
    } else {
        Ok(())
    }
}

/// The causes 5, 6 and 7: too many members, no such member, or no other member.
fn check_members(core: &Core, command: &Command) -> Result<(), OrderRefusal> {
    if let Command::Join { node, .. } = command {
        if core.members.len() == MOST_MEMBERS && !core.members.contains(node) {
            return Err(OrderRefusal::TooManyMembers { n: 10 });
        }
    }
    let leaving = match command {
        Command::Leave { node, .. } => Some(*node),
        Command::Begin { body: Body::Migrate { node }, .. } => Some(*node),
        _ => None,
    };
    if leaving.is_some_and(|node| !core.members.contains(&node)) {
        return Err(OrderRefusal::NotMember);
    }
    if (leaving.is_some() || matches!(command, Command::Split { .. })) && core.members.len() == 1 {
        return Err(OrderRefusal::LastMember);
    }
    Ok(())
}

/// Refuses every offer and watch of a group that is gone or locked.
fn is_free(core: &Core) -> Result<(), No> {
    if core.gone.is_some() {
        return Err(No::Gone);
    }
    match core.lock.tx() {
        Some(tx) => Err(No::Busy { tx }),
        None => Ok(()),
    }
}

/// Votes on an offer: Yes is `Ok`.
pub fn vote(core: &Core, offer: &Offer) -> Result<(), No> {
    is_free(core)?;
    if core.arc.lo != offer.arc.end() {
        return Err(No::Apart);
    }
    let members = match offer.body {
        Body::Repart { at } if !offer.arc.holds(at) && (at == core.arc.lo || !core.arc.holds(at)) => {
            return Err(No::Apart);
        }
        Body::Merge => core.members.union(&offer.members).count(),
        Body::Migrate { node } => core.members.len() + usize::from(!core.members.contains(&node)),
        _ => 0,
    };
    if members > MOST_MEMBERS {
        return Err(No::TooMany { n: members as u8 });
    }
    Ok(())
}

/// Votes on a watch: Yes is `Ok`.
pub fn watch_vote(core: &Core, watch: &Watch) -> Result<(), No> {
    is_free(core)?;
    if core.pred.group != watch.old {
        return Err(No::Apart);
    }
    Ok(())
}
