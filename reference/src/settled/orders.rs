//! How orders end.

use crate::decided::*;
use crate::machine::Effect;
use crate::mail::*;
use crate::scenario::*;
use crate::values::*;
use crate::world::*;
use std::collections::BTreeMap;

/// Returns the transaction that an order began, and the log of the group that it was given to.
fn begun(decided: &Decided, order: u32) -> Option<(Draw, &GroupLog)> {
    decided.groups.values().find_map(|g| {
        let tx = |e: &LogEntry| match (&e.command, &e.effect) {
            (Command::Begin { tx, order: n, .. }, Effect::Changed) if *n == order => Some(*tx),
            (Command::Split { child, order: n, .. }, Effect::Changed) if *n == order => Some(*child),
            _ => None,
        };
        g.log.iter().find_map(tx).map(|tx| (tx, g))
    })
}

/// Returns whether a log records a No of a transaction.
fn records_no(log: &[LogEntry], of: Draw) -> bool {
    log.iter().any(|e| match &e.command {
        Command::RecordVote { tx, vote: Vote::No(_), .. } => *tx == of,
        Command::RecordWatch { tx, vote: Past::No(_), .. } => *tx == of,
        _ => false,
    })
}

/// Checks that an order that was aborted was so by a No, and only by one.
fn was_voted_down(decided: &Decided, order: u32) -> Result<(), String> {
    let (tx, g) = begun(decided, order).ok_or(format!("order {order} was aborted and began nothing"))?;
    let aborts = |e: &&LogEntry| e.effect == Effect::Decided(Outcome::Abort);
    let of_it = |e: &&LogEntry| match &e.command {
        Command::RecordVote { tx: t, .. } | Command::RecordWatch { tx: t, .. } => *t == tx,
        Command::GiveUp { tx: t } => *t == tx,
        _ => false,
    };
    if !records_no(&g.log, tx) {
        return Err(format!("order {order} was aborted without a No"));
    }
    match g.log.iter().filter(aborts).find(of_it).map(|e| &e.command) {
        Some(Command::RecordVote { vote: Vote::No(_), .. }) => Ok(()),
        Some(Command::RecordWatch { vote: Past::No(_), .. }) => Ok(()),
        other => Err(format!("order {order} was aborted by {other:?}")),
    }
}

/// Returns the first result that was told of each order.
fn results(rows: &[Row]) -> BTreeMap<u32, &ToldResult> {
    let mut all = BTreeMap::new();
    for m in rows.iter().flat_map(|r| &r.sent) {
        if let MailBody::Told { order, result } = &m.body {
            all.entry(*order).or_insert(result);
        }
    }
    all
}

/// Checks that no log has a GiveUp, nor any mail offers one.
fn nobody_gives_up(decided: &Decided, w: &World) -> Result<(), String> {
    let is = |c: &Command| matches!(c, Command::GiveUp { .. });
    if decided.groups.values().flat_map(|g| &g.log).any(|e| is(&e.command)) {
        return Err("a GiveUp stands in a log".to_string());
    }
    let offers = |m: &Mail| matches!(&m.body, MailBody::Accept { command, .. } if is(command));
    if w.rows.iter().flat_map(|r| &r.sent).any(offers) {
        return Err("a GiveUp was offered".to_string());
    }
    Ok(())
}

/// Checks that each order of a schedule has a result, that one was aborted only by a recorded No, and that nobody
/// gave up. Returns the results by the order's number.
pub fn orders_end<'a>(
    lines: &[SchedLine],
    w: &'a World<'_>,
) -> Result<BTreeMap<u32, &'a ToldResult>, String> {
    let decided = w.decided();
    if let Some(fault) = &decided.fault {
        return Err(fault.clone());
    }
    nobody_gives_up(&decided, w)?;
    let told = results(&w.rows);
    for line in lines {
        let SchedLine::Told { line, .. } = line else { continue };
        match told.get(&line.number) {
            None => return Err(format!("order {} is open", line.number)),
            Some(ToldResult::Aborted) => was_voted_down(&decided, line.number)?,
            Some(_) => {}
        }
    }
    Ok(told)
}
