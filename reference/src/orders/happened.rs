//! What a row reports to the desk, and the cause of each result.

use super::causes::*;
use super::marks::Marks;
use super::rows::Step;
use crate::decided::{Decided, GroupLog};
use crate::machine::Effect;
use crate::mail::*;
use crate::replica::Replica;
use crate::values::*;
use std::collections::BTreeMap;
use std::ops::Range;

/// Returns the results that a row reports, in the order of its mails.
pub(super) fn reported(row: &Row) -> Vec<(u32, ToldResult)> {
    let one = |m: &Mail| match &m.body {
        MailBody::Told { order, result } => Some((*order, result.clone())),
        _ => None,
    };
    row.sent.iter().filter_map(one).collect()
}

/// Returns the command that a replica puts back in a row: it was in flight at the slot at which another one is learnt.
pub(super) fn put_back(step: &Step, group: Draw) -> Option<Command> {
    let before = step.before.replicas.get(&group)?;
    match step.delivered.map(|m| &m.body) {
        Some(MailBody::Learn { group: g, slot, command }) if *g == group && *slot == before.next => {
            let flight = before.leader.as_ref()?.flights.get(slot)?;
            Some(flight.command.clone()).filter(|c| c != command)
        }
        _ => None,
    }
}

/// Returns whether the row brings a replica a state that it takes over.
fn takes_over(step: &Step, before: &Replica, after: &Replica) -> bool {
    matches!(step.delivered.map(|m| &m.body), Some(MailBody::Install { .. })) && after.next > before.next
}

/// Returns the slots that a node executes of a group in a row.
fn executed(step: &Step, group: Draw) -> Range<u32> {
    match (step.before.replicas.get(&group), step.after.replicas.get(&group)) {
        (Some(before), Some(after)) if !takes_over(step, before, after) => before.next..after.next,
        _ => 0..0,
    }
}

/// Returns whether a replica that ran is stopped in a row.
fn is_stopped(step: &Step, before: &Replica, after: &Replica) -> bool {
    before.running() && (!after.running() || takes_over(step, before, after))
}

/// Returns the node that a replica takes for the leader when it is stopped in a row.
fn hint_of_stop(step: &Step, after: &Replica) -> Option<u16> {
    match step.delivered.map(|m| (&m.body, m.from)) {
        Some((MailBody::Prepare { ballot, .. }, _)) | Some((MailBody::Accept { ballot, .. }, _)) => {
            Some(ballot.node)
        }
        Some((MailBody::Nack { promised, .. }, _)) => Some(promised.node),
        Some((MailBody::Install { .. }, from)) => Some(from as u16),
        _ if after.gone() => None,
        _ => Some(least(after.members())),
    }
}

/// Returns the numbers of the orders whose queue is emptied in a row, where one is.
fn dismissed(step: &Step, before: &Replica, after: &Replica) -> Vec<u32> {
    if !is_stopped(step, before, after) {
        return Vec::new();
    }
    let back = put_back(step, before.group());
    let queue = back.iter().chain(&before.calls);
    queue.filter_map(|c| c.order()).filter(|n| *n > 0).collect()
}

/// Returns what a row of a node has to report.
fn to_report(step: &Step, decided: &Decided) -> Vec<(u32, ToldResult)> {
    if let Event::Told(line) = &step.row.event {
        let refused = untaken(step.before, line);
        return refused.map(|why| (line.number, ToldResult::Refused(why))).into_iter().collect();
    }
    let mut all = Vec::new();
    for (id, before) in &step.before.replicas {
        let (Some(after), Some(log)) = (step.after.replicas.get(id), decided.groups.get(id)) else {
            continue;
        };
        for slot in executed(step, *id) {
            let at = slot as usize - 1;
            all.extend(ended_by(&log.states[at].core, &log.log[at]));
        }
        let hint = hint_of_stop(step, after);
        let away = ToldResult::Refused(OrderRefusal::NotLeader { hint });
        all.extend(dismissed(step, before, after).into_iter().map(|n| (n, away.clone())));
    }
    all
}

/// Returns whether an entry executed in the row is that of the order and carries it out.
fn is_done(step: &Step, log: &GroupLog, group: Draw, n: u32) -> bool {
    executed(step, group).any(|slot| {
        let (entry, before) = (&log.log[slot as usize - 1], &log.states[slot as usize - 1].core);
        let at_once = match &entry.command {
            Command::Join { order, .. } | Command::Leave { order, .. } => *order == n,
            Command::Split { order, .. } => *order == n && is_alone(before),
            _ => false,
        };
        at_once && entry.effect == Effect::Changed
    })
}

/// Returns the transaction that the entry of an order has begun, if it has.
fn begun(log: &GroupLog, n: u32, at: usize) -> Option<Draw> {
    let (entry, before) = (&log.log[at], &log.states[at].core);
    match &entry.command {
        Command::Begin { tx, order, .. } if *order == n && entry.effect == Effect::Changed => Some(*tx),
        Command::Split { child, order, .. } if *order == n && entry.effect == Effect::Changed => {
            Some(*child).filter(|_| !is_alone(before))
        }
        _ => None,
    }
}

/// Returns whether an entry executed in the row decides so the transaction that an earlier entry, that of the order,
/// has begun.
fn is_decided(step: &Step, log: &GroupLog, group: Draw, n: u32, result: &ToldResult) -> bool {
    executed(step, group).any(|slot| {
        let at = slot as usize - 1;
        let Lock::Coordinating { tx, order, .. } = &log.states[at].core.lock else { return false };
        let Effect::Decided(outcome) = &log.log[at].effect else { return false };
        let kept = log.state.core.outcome_of(*tx) == Some(outcome);
        let begins = (0..at).any(|k| begun(log, n, k) == Some(*tx));
        *order == n && kept && begins && result_by(outcome) == *result
    })
}

/// Returns whether an entry executed in the row is that of the order and is refused for this first cause.
fn is_refused_at_entry(step: &Step, log: &GroupLog, group: Draw, n: u32, why: &OrderRefusal) -> bool {
    executed(step, group).any(|slot| {
        let (entry, before) = (&log.log[slot as usize - 1], &log.states[slot as usize - 1].core);
        entry.command.order() == Some(n)
            && entry.effect == Effect::Refused(why.clone())
            && refused_at_entry(before, &entry.command).as_ref() == Some(why)
    })
}

/// Where the cause of a refusal is found.
fn refusal_place(
    step: &Step,
    decided: &Decided,
    line: &OrderLine,
    why: &OrderRefusal,
) -> Option<&'static str> {
    let (group, n) = (line.order.group(), line.number);
    if matches!(&step.row.event, Event::Told(told) if told.number == n) {
        return (untaken(step.before, line).as_ref() == Some(why)).then_some("when it is told");
    }
    if decided.groups.get(&group).is_some_and(|log| is_refused_at_entry(step, log, group, n, why)) {
        return Some("at its entry");
    }
    let (before, after) = (step.before.replicas.get(&group)?, step.after.replicas.get(&group)?);
    let away = OrderRefusal::NotLeader { hint: hint_of_stop(step, after) };
    (dismissed(step, before, after).contains(&n) && *why == away).then_some("from the queue")
}

/// Looks at the cause of one result.
fn look_at(step: &Step, decided: &Decided, line: &OrderLine, result: &ToldResult, marks: &mut Marks) {
    let (group, n) = (line.order.group(), line.number);
    let what = || format!("order {n}: {result:?}");
    let log = decided.groups.get(&group);
    match result {
        ToldResult::Done => marks.look("done", log.is_some_and(|log| is_done(step, log, group, n)), what),
        ToldResult::Committed | ToldResult::Aborted => {
            let name = if *result == ToldResult::Aborted { "aborted" } else { "committed" };
            marks.look(name, log.is_some_and(|log| is_decided(step, log, group, n, result)), what)
        }
        ToldResult::Refused(why) => {
            let place = refusal_place(step, decided, line, why);
            marks.look("refused", place.is_some(), what);
            let (code, name) = why.code_and_name();
            marks.count(&format!("refused {code} {name} {}", place.unwrap_or("without cause")), 1);
        }
    }
}

/// Looks at all that a row of a node reports.
pub(super) fn look(step: &Step, asked: &BTreeMap<u32, OrderLine>, decided: &Decided, marks: &mut Marks) {
    let all = reported(step.row);
    let want = to_report(step, decided);
    if !all.is_empty() || !want.is_empty() {
        marks.look("reports", all == want, || format!("reports {all:?}, has to report {want:?}"));
    }
    for (n, result) in &all {
        let line = asked.get(n);
        marks.look("asked", line.is_some(), || format!("order {n} was not told"));
        if let Some(line) = line {
            look_at(step, decided, line, result, marks);
        }
    }
}
