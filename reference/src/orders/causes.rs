//! Why an order is refused, and which entry ends one: written from the rules again, and not from the machine.

use crate::decided::LogEntry;
use crate::machine::Effect;
use crate::node::Node;
use crate::values::*;

/// Returns whether a group is its own successor.
pub fn is_alone(core: &Core) -> bool {
    core.succ.group == core.id
}

/// Returns every cause, of those from 2 on, for which a group that is there refuses the command of an order.
fn causes(core: &Core, command: &Command) -> Vec<OrderRefusal> {
    use OrderRefusal::*;
    let has = |node: &u16| core.members.contains(node);
    let single = core.members.len() == 1;
    let spent = core.begun >= 256;
    let mut all: Vec<(bool, OrderRefusal)> = Vec::new();
    if let Some(tx) = core.lock.tx() {
        all.push((true, InTransaction { tx }));
    }
    match command {
        Command::Join { node, .. } => {
            all.push((core.members.len() == 9 && !has(node), TooManyMembers { n: 10 }));
            all.push((has(node), IsMember));
        }
        Command::Leave { node, .. } => {
            all.push((!has(node), NotMember));
            all.push((single, LastMember));
        }
        Command::Split { at, .. } => {
            all.push((*at == core.arc.lo || !core.arc.holds(*at), BadBoundary));
            all.push((single, LastMember));
            all.push((!is_alone(core) && spent, TxLimit));
        }
        Command::Begin { body, .. } => {
            all.push((is_alone(core), NoNeighbour));
            all.push((spent, TxLimit));
            match body {
                Body::Repart { at } => {
                    all.push((*at == core.arc.lo || *at == core.arc.end(), BadBoundary));
                }
                Body::Migrate { node } => {
                    all.push((!has(node), NotMember));
                    all.push((single, LastMember));
                }
                Body::Merge | Body::Split { .. } => {}
            }
        }
        _ => {}
    }
    all.into_iter().filter(|(holds, _)| *holds).map(|(_, why)| why).collect()
}

/// Returns the first cause, of those from 2 on, for which a group that is there refuses the command of an order.
pub fn first_cause(core: &Core, command: &Command) -> Option<OrderRefusal> {
    causes(core, command).into_iter().min_by_key(|why| why.code_and_name().0)
}

/// Returns why a node does not take an order that it is told, if so.
pub fn untaken(node: &Node, line: &OrderLine) -> Option<OrderRefusal> {
    let Some(r) = node.replicas.get(&line.order.group()) else {
        return Some(OrderRefusal::NotLeader { hint: None });
    };
    if r.gone() || !r.settled() {
        return Some(OrderRefusal::NotLeader { hint: r.hint });
    }
    let nothing = Draw { node: 0, count: 0 };
    if let Some(why) = first_cause(&r.base.core, &line.order.command(line.number, nothing)) {
        return Some(why);
    }
    if line.order.needs_draw() && node.draws.spent() {
        return Some(OrderRefusal::NotLeader { hint: r.hint });
    }
    None
}

/// Returns why the entry of an order is refused by the group before it, if so.
pub fn refused_at_entry(before: &Core, command: &Command) -> Option<OrderRefusal> {
    if before.gone.is_some() {
        return Some(OrderRefusal::NotLeader { hint: None });
    }
    first_cause(before, command)
}

/// Returns the result of an order by the outcome of its transaction.
pub fn result_by(outcome: &Outcome) -> ToldResult {
    if *outcome == Outcome::Abort {
        ToldResult::Aborted
    } else {
        ToldResult::Committed
    }
}

/// Returns the order that an entry ends, by the group before it, with its result. Orders of a policy have none.
pub fn ended_by(before: &Core, entry: &LogEntry) -> Option<(u32, ToldResult)> {
    let at_once = match &entry.command {
        Command::Join { .. } | Command::Leave { .. } => true,
        Command::Split { .. } => is_alone(before),
        _ => false,
    };
    let ended = match (entry.command.order(), &entry.effect) {
        (Some(n), Effect::Changed) if at_once => (n, ToldResult::Done),
        (Some(n), Effect::Refused(why)) => (n, ToldResult::Refused(why.clone())),
        (None, Effect::Decided(outcome)) => match &before.lock {
            Lock::Coordinating { order, .. } => (*order, result_by(outcome)),
            _ => return None,
        },
        _ => return None,
    };
    Some(ended).filter(|(n, _)| *n > 0)
}

/// Returns the words of a result, as a report has them.
pub fn words(result: &ToldResult) -> String {
    match result {
        ToldResult::Done => "done".to_string(),
        ToldResult::Committed => "committed".to_string(),
        ToldResult::Aborted => "aborted".to_string(),
        ToldResult::Refused(why) => {
            let (code, name) = why.code_and_name();
            format!("refused {code} {name}")
        }
    }
}
