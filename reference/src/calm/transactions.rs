//! A6: a transaction under way stands at one place: in a mail, in a queue, or with its coordinator.

use super::rows::View;
use crate::mail::*;
use crate::replica::*;
use crate::values::*;
use crate::world::newest;

/// Returns the transaction of a command that votes on it, records a vote or finishes it.
fn command_tx(c: &Command) -> Option<Draw> {
    match c {
        Command::Prepared { tx, .. }
        | Command::Watched { tx, .. }
        | Command::RecordVote { tx, .. }
        | Command::RecordWatch { tx, .. }
        | Command::Finish { tx, .. } => Some(*tx),
        _ => None,
    }
}

impl View<'_> {
    fn pending(&self, is: impl Fn(&Mail) -> bool) -> usize {
        self.rests.values().flatten().filter(|m| is(m)).count()
    }

    /// Counts such commands of a transaction in the queues and slots of a group.
    fn queued(&self, id: Draw, tx: Draw, is: impl Fn(&Command) -> bool) -> usize {
        let commands = |r: &&Replica| {
            let slots = r.leader.iter().flat_map(|l| l.commands());
            r.acts.iter().chain(slots).filter(|c| command_tx(c) == Some(tx) && is(c)).count()
        };
        self.all.get(&id).map_or(0, |g| g.values().map(commands).sum())
    }

    /// Counts the places where a coordinator's question to a watcher stands.
    fn watch_places(&self, id: Draw, to: Draw, tx: Draw) -> usize {
        self.pending(|m| match &m.body {
            MailBody::TxWatch { tx: t, .. }
            | MailBody::TxElsewhere { tx: t, .. }
            | MailBody::TxWatched { tx: t, .. } => *t == tx,
            _ => false,
        }) + self.queued(to, tx, |c| matches!(c, Command::Watched { .. }))
            + self.queued(id, tx, |c| matches!(c, Command::RecordWatch { .. }))
    }

    /// Counts the places where a coordinator's offer to a participant stands.
    fn offer_places(&self, id: Draw, to: Draw, tx: Draw) -> usize {
        self.pending(|m| match &m.body {
            MailBody::TxPrepare { tx: t, .. }
            | MailBody::TxElsewhere { tx: t, .. }
            | MailBody::TxVote { tx: t, .. } => *t == tx,
            _ => false,
        }) + self.queued(to, tx, |c| matches!(c, Command::Prepared { .. }))
            + self.queued(id, tx, |c| matches!(c, Command::RecordVote { .. }))
    }

    /// Counts the places where an outcome for a group stands: its coordinator that has not decided is one.
    fn outcome_places(&self, id: Draw, me: u16, tx: Draw) -> usize {
        let coordinates = |g: &Draw| match &newest(&self.all[g]).base.core.lock {
            Lock::Coordinating { tx: t, .. } => *t == tx,
            _ => false,
        };
        let outcome =
            |m: &Mail| matches!(&m.body, MailBody::TxOutcome { tx: t, part, .. } if (*t, *part) == (tx, id));
        usize::from(self.all.keys().any(coordinates))
            + self.pending(|m| m.to == u32::from(me) && outcome(m))
            + self.queued(id, tx, |c| matches!(c, Command::Finish { .. }))
    }
}

/// Checks the transaction that a leader's group is in.
pub fn transaction_holds(view: &View, id: Draw, r: &Replica) -> Result<(), String> {
    let succ = r.base.core.succ.group;
    let (tx, places) = match &r.base.core.lock {
        Lock::Free => return Ok(()),
        Lock::Coordinating { tx, heard: Some(h), .. } => {
            (tx, view.watch_places(id, h.frozen.succ.group, *tx))
        }
        Lock::Coordinating { tx, body: Body::Split { .. }, .. } => (tx, view.watch_places(id, succ, *tx)),
        Lock::Coordinating { tx, .. } => (tx, view.offer_places(id, succ, *tx)),
        Lock::Promised { tx, .. } | Lock::Watching { tx, .. } => (tx, view.outcome_places(id, r.me, *tx)),
    };
    if places != 1 {
        return Err(format!("A6 transaction {tx} stands at {places} places"));
    }
    Ok(())
}
